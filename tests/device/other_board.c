/* A port of the device for a board with another memory map: QEMU's netduinoplus2, whose flash begins at 0x08000000. The
   start code and the eight functions are here, and the linker script is in test_page.py. There is no card: one ARP
   request arrives, and the hardware addresses and the type of each frame that is sent are printed. */
#include "device.h"

#include <string.h>

#define SIZE BSDUDP_ETHER_MEMORY(64, 10)

void start(void);
int main(void);

extern uint32_t values_start, values_end, variables_start, variables_end, memory_end;
extern const uint32_t values;

__attribute__((section(".vectors"), used)) static void *const vectors[] = {&memory_end, (void *)start};
/* It isn't set to 0. */
__attribute__((section(".second"), aligned(BSDUDP_ALIGNMENT))) static unsigned char memory[SIZE];
static const uint8_t flash[] = "flash";
/* RFC 826: who has 10.1.2.3? Tell 10.1.2.9. */
static const uint8_t request[42] = {255, 255, 255, 255, 255, 255, 2, 0, 0, 0, 0, 9, 8, 6, /* the frame's header */
                                    0, 1, 8, 0, 6, 4, 0, 1, /* Ethernet, IPv4, request */
                                    2, 0, 0, 0, 0, 9, 10, 1, 2, 9, 0, 0, 0, 0, 0, 0, 10, 1, 2, 3};
static uint8_t ram[16];
static int rounds, ticks;

static void semihosting(uint32_t what, const void *argument)
{
    register uint32_t r0 __asm__("r0") = what;
    register const void *r1 __asm__("r1") = argument;
    __asm__ volatile("bkpt 0xab" : "+r"(r0) : "r"(r1) : "memory");
}

int port_start(const uint8_t mac[6]) { return mac[5] == 1 ? 0 : -1; }

size_t port_receive(uint8_t *frame)
{
    if (rounds != 1)
        return 0;
    memcpy(frame, request, sizeof request);
    rounds++;
    return sizeof request;
}

void port_send(const uint8_t *frame, size_t len)
{
    char text[30];
    for (size_t i = 0; i < 28; i++)
        text[i] = "0123456789abcdef"[frame[i / 2] >> (i % 2 == 0 ? 4 : 0) & 15];
    text[28] = len == 42 ? '\n' : '?';
    text[29] = 0;
    port_say(text);
}

int port_ticked(void) { return rounds / 10 > ticks ? ++ticks > 0 : 0; }
int port_wait(void) { return ++rounds < 100; }
void port_say(const char *text) { semihosting(4, text); } /* SYS_WRITE0 */
uint32_t port_random(void) { return 7; }
uint32_t port_stack(void) { return 0; }

int main(void)
{
    const struct device device = {{BSDUDP_IP(10, 1, 2, 3), 0, 64, 10, 1500, 1},
                                  {{2, 0, 0, 0, 0, 1}, 0xffffff00, 0, 0},
                                  memory, sizeof memory, flash, 5, ram, sizeof ram};
    return device_run(&device);
}

void start(void)
{
    uint32_t *at;
    const uint32_t *from = &values;
    for (at = &values_start; at < &values_end; at++)
        *at = *from++;
    for (at = &variables_start; at < &variables_end; at++)
        *at = 0;
    memset(memory, 0xaa, sizeof memory);
    port_say(main() == 0 ? "ended\n" : "failed\n");
    semihosting(0x18, (const void *)0x20026); /* SYS_EXIT: ADP_Stopped_ApplicationExit */
}
