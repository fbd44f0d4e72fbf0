/* A stack without a C library: its memory is static. The program passes a packet to the stack, echoes the datagram,
   prints sizes by write(2) of Linux, and exits. On a board, drop the first part and call `run`. There is no
   thread-local storage here, so memory.c comes before the library on the command line.
       cc -std=c99 -Os -nostdlib -static -ffreestanding -fno-stack-protector -Wl,--gc-sections -DBSDUDP_THREADS=0 \
           bare.c ../src/memory.c -I PREFIX/include PREFIX/lib/libbsdudp.a && ./a.out */
#include "bsdudp.h"

/* ---- what a program must provide: start, exit, output, and the four functions that compilers call */
static long system_call(long number, long a, long b, long c)
{
    long answer;
    __asm__ volatile("syscall" : "=a"(answer) : "a"(number), "D"(a), "S"(b), "d"(c) : "rcx", "r11", "memory");
    return answer;
}

void *memcpy(void *to, const void *from, size_t n)
{
    for (size_t i = 0; i < n; i++)
        ((volatile unsigned char *)to)[i] = ((const unsigned char *)from)[i];
    return to;
}

void *memset(void *to, int byte, size_t n)
{
    for (size_t i = 0; i < n; i++)
        ((volatile unsigned char *)to)[i] = (unsigned char)byte;
    return to;
}

void *memmove(void *to, const void *from, size_t n)
{
    if ((const unsigned char *)to < (const unsigned char *)from)
        return memcpy(to, from, n);
    while (n-- > 0)
        ((volatile unsigned char *)to)[n] = ((const unsigned char *)from)[n];
    return to;
}

int memcmp(const void *a, const void *b, size_t n)
{
    for (size_t i = 0; i < n; i++)
        if (((const volatile unsigned char *)a)[i] != ((const unsigned char *)b)[i])
            return ((const unsigned char *)a)[i] < ((const unsigned char *)b)[i] ? -1 : 1;
    return 0;
}

static void print(const char *text, unsigned long number)
{
    char line[80], digits[24];
    size_t at = 0, n = 0;
    while (text[at] != 0) {
        line[at] = text[at];
        at++;
    }
    do
        digits[n++] = (char)('0' + number % 10);
    while ((number /= 10) > 0);
    while (n > 0)
        line[at++] = digits[--n];
    line[at++] = '\n';
    system_call(1, 1, (long)line, (long)at);
}

/* ---- the program */
enum { MTU = 1500 };

static unsigned char memory[BSDUDP_MEMORY(16, 4)] __attribute__((aligned(BSDUDP_ALIGNMENT)));
static struct bsdudp stack = BSDUDP_NONE;
static uint8_t buffer[MTU];

/* "hi" from 10.0.0.2 port 5000 to 10.0.0.1 port 7 */
static const uint8_t packet[30] = {
    0x45, 0x00, 0x00, 0x1e, 0x00, 0x01, 0x00, 0x00, 0x40, 0x11, 0x66, 0xcc, 0x0a, 0x00, 0x00, 0x02,
    0x0a, 0x00, 0x00, 0x01, 0x13, 0x88, 0x00, 0x07, 0x00, 0x0a, 0x6f, 0xdf, 0x68, 0x69,
};

static int run(void)
{
    struct bsdudp_config config = {0x0a000001, 0x0a0000ff, 16, 4, MTU, 1};
    struct bsdudp_addr any = {0, 7}, from;
    uint8_t bytes[16];
    int fd, n;
    if (bsdudp_boot_in(&stack, &config, memory, sizeof memory) < 0)
        return 1;
    fd = bsdudp_socket(&stack);
    if (fd < 0 || bsdudp_bind(&stack, (uint32_t)fd, &any) < 0 || bsdudp_rx(&stack, packet, sizeof packet) < 0)
        return 2;
    n = bsdudp_recvfrom(&stack, (uint32_t)fd, bytes, sizeof bytes, &from);
    if (n != 2 || bsdudp_sendto(&stack, (uint32_t)fd, &from, bytes, (size_t)n) != n)
        return 3;
    n = bsdudp_tx(&stack, buffer, sizeof buffer);
    print("bytes of the answer: ", (unsigned long)n);
    print("bytes of memory: ", sizeof memory);
    return n == 30 && bsdudp_end(&stack) == 0 ? 0 : 4;
}

void _start(void);
void _start(void)
{
    __asm__ volatile("andq $-16, %rsp");
    system_call(60, run(), 0, 0);
    for (;;)
        ;
}
