/* The Cortex-M3 of QEMU's machine mps2-an385: the startup code, the serial port, the clock, and the end. */
#include "machine.h"

#include <string.h>

/* From ARM's descriptions: the CMSDK's serial port, and the processor's own clock. */
#define REGISTER(address) (*(volatile uint32_t *)(address))
#define UART_DATA REGISTER(0x40004000)
#define UART_STATE REGISTER(0x40004004)
#define UART_CONTROL REGISTER(0x40004008)
#define UART_DIVIDER REGISTER(0x40004010)
#define CLOCK_CONTROL REGISTER(0xe000e010)
#define CLOCK_RELOAD REGISTER(0xe000e014)
#define CLOCK_NOW REGISTER(0xe000e018)
#define INTERRUPTS_ON(word) REGISTER(0xe000e100 + 4 * (word))
#define INTERRUPTS_BACK(word) REGISTER(0xe000e280 + 4 * (word))
#define EXCEPTIONS REGISTER(0xe000ed04)
#ifndef HALF_A_SECOND
#define HALF_A_SECOND 12500000 /* of the clock, whose frequency is 25 MHz; tests have a faster one */
#endif
enum { UART_FULL = 1, UART_CAME = 2, UART_ON = 3, CLOCK_ON = 5, CLOCK_PASSED = 1 << 16 };
enum { LONGEST = 0xffffff, CLOCK_INTERRUPTS = 2, CLOCK_BACK = 1 << 25 };

/* From the linker: the start and end of variables with values, and the place of their values; the start and end of the
   others; and the end of the memory. */
extern uint32_t values_start, values_end, variables_start, variables_end, memory_end;
extern const uint32_t values;
enum { PAINT = 0x5aa5c33c };

int main(void);
void start(void);

/* A semihosting call to the debugger, which is QEMU. Returns its result. */
static uint32_t ask(uint32_t what, const void *argument)
{
    register uint32_t r0 __asm__("r0") = what;
    register const void *r1 __asm__("r1") = argument;
    __asm__ volatile("bkpt 0xab" : "+r"(r0) : "r"(r1) : "memory");
    return r0;
}

static void leave(uint32_t why)
{
    ask(0x18, (const void *)(uintptr_t)why); /* SYS_EXIT */
    for (;;) {
    }
}

void machine_end(void) { leave(0x20026); /* ADP_Stopped_ApplicationExit: status 0 */ }

void machine_say(const char *text) { ask(4, text); /* SYS_WRITE0 */ }

uint32_t machine_open(const char *path, uint32_t mode)
{
    const uint32_t words[] = {(uintptr_t)path, mode, strlen(path)};
    return ask(1, words); /* SYS_OPEN */
}

uint32_t machine_read(uint32_t file, void *bytes, uint32_t len)
{
    const uint32_t words[] = {file, (uintptr_t)bytes, len};
    return len - ask(6, words); /* SYS_READ: how many weren't read */
}

void machine_write(uint32_t file, const void *bytes, uint32_t len)
{
    const uint32_t words[] = {file, (uintptr_t)bytes, len};
    ask(5, words); /* SYS_WRITE */
}

/* A fault of the processor. */
static void fault(void)
{
    machine_say("fault\n");
    leave(0x20023); /* ADP_Stopped_RunTimeErrorUnknown: status 1 */
}

/* The first instruction of the processor. */
void start(void)
{
    uint32_t *at, *here = (uint32_t *)__builtin_frame_address(0) - 16;
    const uint32_t *from = &values;
    for (at = &values_start; at < &values_end; at++)
        *at = *from++;
    for (at = &variables_start; at < &variables_end; at++)
        *at = 0;
    for (; at < here; at++)
        *at = PAINT;
    UART_DIVIDER = 16;
    UART_CONTROL = UART_ON;
    CLOCK_RELOAD = HALF_A_SECOND - 1;
    CLOCK_CONTROL = CLOCK_ON;
    main();
    machine_end();
}

/* The top of the stack, the first instruction, and the handler of faults. */
__attribute__((section(".vectors"), used)) static void *const vectors[] = {
    &memory_end, (void *)start, (void *)fault, (void *)fault, (void *)fault, (void *)fault, (void *)fault,
};

uint32_t machine_stack(void)
{
    const uint32_t *at = &variables_end;
    while (at < &memory_end && *at == PAINT)
        at++;
    return (uint32_t)((const uint8_t *)&memory_end - (const uint8_t *)at);
}

int machine_came(void) { return (UART_STATE & UART_CAME) != 0; }
uint8_t machine_get(void) { return (uint8_t)UART_DATA; }

void machine_put(uint8_t byte)
{
    while ((UART_STATE & UART_FULL) != 0)
        continue;
    UART_DATA = byte;
}

int machine_ticked(void) { return (CLOCK_CONTROL & CLOCK_PASSED) != 0; }

/* The machine has no random generator: the cycles at which this is called make the numbers, and somebody who measures
   them may guess some. A board with a generator reads that. */
uint32_t machine_random(void)
{
    static uint32_t all;
    all = (all ^ CLOCK_NOW) * 1664525 + 1013904223;
    return all ^ all >> 16;
}

void machine_sleep(uint32_t interrupt, void (*heard)(void))
{
    const uint32_t bit = UINT32_C(1) << (interrupt & 31);
    __asm__ volatile("cpsid i" ::: "memory");
    CLOCK_CONTROL = CLOCK_ON | CLOCK_INTERRUPTS;
    INTERRUPTS_ON(interrupt >> 5) = bit;
    __asm__ volatile("dsb\n\twfi" ::: "memory");
    heard();
    INTERRUPTS_BACK(interrupt >> 5) = bit;
    EXCEPTIONS = CLOCK_BACK;
}

void machine_watch(void)
{
    CLOCK_RELOAD = LONGEST;
    CLOCK_NOW = 0; /* any value restarts it */
    while (CLOCK_NOW == 0)
        continue;
}

uint32_t machine_watched(void) { return LONGEST - CLOCK_NOW; }
