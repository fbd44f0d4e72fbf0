/* The functions of the board for capi/examples/device.c: the card by lan9118.c, and the clock and the serial port by
   machine.c. portable/board/build puts the file "flash" after the program. */
#include "../../capi/examples/device.h"

#include "lan9118.h"
#include "machine.h"

/* With the servers these take less than 56 KB, which leaves 8 KB of 64 for the call stack. A datagram of 8,196 bytes
   takes 6 clusters and 13 mbufs when it arrives, and 5 and 20 when it's sent. */
enum { MBUFS = 40, CLUSTERS = 7, RAM = 6144 };

/* The address comes by DHCP, or with -DFIXED it's 10.0.0.1. */
#ifdef FIXED
#define ADDR BSDUDP_IP(10, 0, 0, 1)
#define MASK 0xffffff00
#define GATEWAY BSDUDP_IP(10, 0, 0, 2)
#else
#define ADDR 0
#define MASK 0
#define GATEWAY 0
#endif

static unsigned char memory[BSDUDP_ETHER_MEMORY(MBUFS, CLUSTERS)] __attribute__((aligned(BSDUDP_ALIGNMENT)));
static uint8_t ram[RAM];

/* From the linker: the begin and the end of the file. */
extern const uint8_t flash_start[], flash_end[];

int port_start(const uint8_t mac[6])
{
    const int status = lan9118_start(mac);
    lan9118_listen();
    return status;
}

size_t port_receive(uint8_t *frame) { return lan9118_receive(frame); }

void port_send(const uint8_t *frame, size_t len) { (void)lan9118_send(frame, len); }

int port_ticked(void) { return machine_ticked(); }

int port_wait(void)
{
    machine_sleep(LAN9118_INTERRUPT, lan9118_heard);
    return 1;
}

void port_say(const char *text)
{
    while (*text != 0)
        machine_put((uint8_t)*text++);
}

uint32_t port_random(void) { return machine_random(); }
uint32_t port_stack(void) { return machine_stack(); }

int main(void)
{
    const struct device device = {{ADDR, 0, MBUFS, CLUSTERS, 1500, 1},
                                  {{2, 0, 0, 0, 0, 1}, MASK, GATEWAY, 0},
                                  memory, sizeof memory, flash_start, (uint32_t)(flash_end - flash_start), ram, RAM};
    device_run(&device); /* it says why it doesn't start */
    return 1;
}
