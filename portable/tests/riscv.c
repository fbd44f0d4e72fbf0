/* run.c as a Linux program on 32-bit RISC-V, for qemu-riscv32. It contains the functions of a C library and of a
   compiler's library, so that only the toolchain's clang and linker are needed. */
#include "run.h"

#include "bsdudp.h"

enum { READ = 63, WRITE = 64, EXIT = 93, PIECE = 65536 };

static unsigned char memory[BSDUDP_MEMORY(1024, 64)] __attribute__((aligned(BSDUDP_ALIGNMENT)));
static char replies[PIECE];
static size_t waiting;

static long ask(long what, long first, const void *second, size_t third)
{
    register long a0 __asm__("a0") = first;
    register long a1 __asm__("a1") = (long)second;
    register long a2 __asm__("a2") = (long)third;
    register long a7 __asm__("a7") = what;
    __asm__ volatile("ecall" : "+r"(a0) : "r"(a1), "r"(a2), "r"(a7) : "memory");
    return a0;
}

int run_get(void)
{
    static unsigned char piece[PIECE];
    static long at, len;
    if (at == len) {
        len = ask(READ, 0, piece, sizeof piece);
        at = 0;
    }
    return len <= 0 ? -1 : piece[at++];
}

void run_flush(void)
{
    size_t at = 0;
    while (at < waiting)
        at += (size_t)ask(WRITE, 1, replies + at, waiting - at);
    waiting = 0;
}

void run_put(const char *bytes, size_t len)
{
    size_t i;
    for (i = 0; i < len; i++) {
        if (waiting == sizeof replies)
            run_flush();
        replies[waiting++] = bytes[i];
    }
}

static void *memory_of(size_t len) { return len <= sizeof memory ? memory : 0; }

void *memmove(void *to, const void *from, size_t len)
{
    unsigned char *into = to;
    const unsigned char *out = from;
    size_t i;
    if (into <= out)
        for (i = 0; i < len; i++)
            into[i] = out[i];
    else
        for (i = len; i > 0; i--)
            into[i - 1] = out[i - 1];
    return to;
}

void *memcpy(void *to, const void *from, size_t len) { return memmove(to, from, len); }

void *memset(void *to, int byte, size_t len)
{
    unsigned char *into = to;
    while (len-- > 0)
        *into++ = (unsigned char)byte;
    return to;
}

int memcmp(const void *one, const void *other, size_t len)
{
    const unsigned char *a = one, *b = other;
    size_t i;
    for (i = 0; i < len && a[i] == b[i]; i++)
        continue;
    return i == len ? 0 : a[i] - b[i];
}

void *memchr(const void *in, int byte, size_t len)
{
    const unsigned char *at = in;
    for (; len > 0; at++, len--)
        if (*at == (unsigned char)byte)
            return (void *)at;
    return 0;
}

size_t strlen(const char *text)
{
    size_t len = 0;
    while (text[len] != 0)
        len++;
    return len;
}

static uint64_t divide(uint64_t n, uint64_t by, uint64_t *rest)
{
    uint64_t quotient = 0;
    int bit;
    *rest = 0;
    for (bit = 63; bit >= 0; bit--) {
        *rest = *rest << 1 | (n >> bit & 1);
        quotient <<= 1;
        if (*rest >= by) {
            *rest -= by;
            quotient |= 1;
        }
    }
    return quotient;
}

uint64_t __udivdi3(uint64_t n, uint64_t by) { return divide(n, by, &n); }

uint64_t __umoddi3(uint64_t n, uint64_t by)
{
    divide(n, by, &n);
    return n;
}

void _start(void)
{
    run_scripts(memory_of);
    ask(EXIT, 0, 0, 0);
    for (;;) {
    }
}
