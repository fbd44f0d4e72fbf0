/* Replacements for four functions of the core, and for memmove, on a processor without vectors and with registers of
   32 bits: they return the same by plain loops, in fewer instructions. Lengths are below 2 ^ 32 there. */
#include <stddef.h>
#include <stdint.h>
#include <string.h>

void *bsdmove(void *to, const void *from, size_t len);
uint64_t bsdudp_plain_sum(const uint8_t *bytes, uint64_t len);
uint16_t bsdudp_plain_fold(uint64_t sum);
uint64_t bsdudp_plain_before(const uint16_t *ports, uint64_t len, uint64_t at, uint16_t port);

/* memmove, which calls memcpy if the ranges don't overlap: most C libraries for boards have a fast version only of
   memcpy. */
void *bsdmove(void *to, const void *from, size_t len)
{
    const uintptr_t above = (uintptr_t)to - (uintptr_t)from, below = (uintptr_t)from - (uintptr_t)to;
    return above >= len && below >= len ? memcpy(to, from, len) : memmove(to, from, len);
}

typedef uint32_t __attribute__((may_alias)) word;

static uint32_t word_at(const uint8_t *at)
{
    return *(const word *)(const void *)at;
}

static uint32_t half_at(const uint8_t *at)
{
    return at[0] + 256u * at[1];
}

#ifdef __riscv /* has no carry flag */
static uint64_t four_words(const uint8_t *bytes)
{
    return (uint64_t)word_at(bytes) + word_at(bytes + 4) + word_at(bytes + 8) + word_at(bytes + 12);
}

/* The sum of the words up to the last 16 bytes of which some are missing. Moves to these. */
static uint64_t sum_words(const uint8_t **bytes, uint32_t *n)
{
    uint64_t sum = 0;
    /*@ loop invariant *n <= \at(*n, Pre) && *bytes == \at(*bytes, Pre) + (\at(*n, Pre) - *n);
        loop invariant sum <= 4294967296 * (\at(*n, Pre) - *n);
        loop invariant counts_as(sum, total(\at(*bytes, Pre), 0, \at(*n, Pre)) -
            total(\at(*bytes, Pre), \at(*n, Pre) - *n, \at(*n, Pre)));
        loop assigns sum, *n, *bytes;
        loop variant *n; */
    for (; *n >= 16; *n -= 16, *bytes += 16)
        sum += four_words(*bytes);
    return sum;
}
#else
/* A sum with a carry in and out: one instruction, if the processor has a carry flag. */
static uint32_t add_carrying(uint32_t a, uint32_t b, uint32_t *carry)
{
    uint32_t sum;
    const uint32_t first = __builtin_add_overflow(a, b, &sum), second = __builtin_add_overflow(sum, *carry, &sum);
    //@ assert first == 0 || second == 0;
    *carry = first | second;
    return sum;
}

/* Adds four words and a carry to a sum. Returns the carry out of it. */
static uint32_t add_words(uint32_t *sum, const uint8_t *bytes, uint32_t carry)
{
    *sum = add_carrying(*sum, word_at(bytes), &carry);
    *sum = add_carrying(*sum, word_at(bytes + 4), &carry);
    *sum = add_carrying(*sum, word_at(bytes + 8), &carry);
    *sum = add_carrying(*sum, word_at(bytes + 12), &carry);
    return carry;
}

static uint64_t joined(uint32_t low, uint32_t high)
{
    const uint64_t sum = (uint64_t)high * 4294967296 + low;
    //@ assert sum == low + 4294967296 * high;
    //@ assert \forall integer b; counts_as(low + high, b) ==> counts_as(low + 4294967296 * high, b);
    return sum;
}

/* The sum of the words up to the last 16 bytes of which some are missing. Moves to these. */
static uint64_t sum_words(const uint8_t **bytes, uint32_t *n)
{
    uint32_t low = 0, high = 0;
    /*@ loop invariant *n <= \at(*n, Pre) && *bytes == \at(*bytes, Pre) + (\at(*n, Pre) - *n);
        loop invariant high <= \at(*n, Pre) - *n;
        loop invariant counts_as(low + high, total(\at(*bytes, Pre), 0, \at(*n, Pre)) -
            total(\at(*bytes, Pre), \at(*n, Pre) - *n, \at(*n, Pre)));
        loop assigns low, high, *n, *bytes;
        loop variant *n; */
    for (; *n >= 32; *n -= 32, *bytes += 32) {
        /*@ assert total(\at(*bytes, Pre), \at(*n, Pre) - *n, \at(*n, Pre)) ==
            four(*bytes) + total(\at(*bytes, Pre), \at(*n, Pre) - *n + 16, \at(*n, Pre)); */
        high += add_words(&low, *bytes + 16, add_words(&low, *bytes, 0));
    }
    if (*n >= 16) {
        high += add_words(&low, *bytes, 0);
        *n -= 16;
        *bytes += 16;
    }
    /*@ assert counts_as(low + high, total(\at(*bytes, Pre), 0, \at(*n, Pre)) -
        total(\at(*bytes, Pre), \at(*n, Pre) - *n, \at(*n, Pre))); */
    return joined(low, high);
}
#endif

/* The sum of the 16-bit words in memory order, with an odd last byte as the low half of a word. The high half of each
   32 bits counts 65,536 times, which a fold reduces to 1. So does a carry out of 32 bits: the next word takes it. */
uint64_t bsdudp_plain_sum(const uint8_t *bytes, uint64_t len)
{
    uint32_t n = (uint32_t)len;
    uint64_t sum = 0;
    if ((uintptr_t)bytes % 4 == 0) {
        sum = sum_words(&bytes, &n);
        /*@ loop invariant n <= len && bytes == \at(bytes, Pre) + (len - n);
            loop invariant sum <= 4294967296 * (len + len - n) + 4294967295;
            loop invariant counts_as(sum, total(\at(bytes, Pre), 0, len) - total(\at(bytes, Pre), len - n, len));
            loop assigns n, bytes, sum;
            loop variant n; */
        for (; n >= 4; n -= 4, bytes += 4)
            sum += word_at(bytes);
    }
    /*@ loop invariant n <= len && bytes == \at(bytes, Pre) + (len - n);
        loop invariant sum <= 4294967296 * (len + len - n) + 4294967295;
        loop invariant counts_as(sum, total(\at(bytes, Pre), 0, len) - total(\at(bytes, Pre), len - n, len));
        loop assigns n, bytes, sum;
        loop variant n; */
    for (; n >= 2; n -= 2, bytes += 2)
        sum += half_at(bytes);
    return n == 0 ? sum : sum + bytes[0];
}

/* A sum folded to 16 bits: it's 0 only for 0. */
uint16_t bsdudp_plain_fold(uint64_t sum)
{
    const uint32_t low = (uint32_t)(sum % 4294967296), high = (uint32_t)(sum / 4294967296);
    const uint32_t first = low % 65536 + low / 65536 + high % 65536 + high / 65536;
    const uint32_t second = first % 65536 + first / 65536, third = second % 65536 + second / 65536;
    //@ assert sum == low + 4294967296 * high;
    //@ assert sum == first + 65535 * (low / 65536 + 65537 * (high % 65536) + 4295032833 * (high / 65536));
    //@ assert first == second + 65535 * (first / 65536) && second == third + 65535 * (second / 65536);
    //@ assert third <= 65535 && (third == 0 ==> sum == 0);
    return (uint16_t)third;
}

/* The index of the first of sixteen ports that equals this one: 16 if none does. */
uint64_t bsdudp_plain_before(const uint16_t *ports, uint64_t len, uint64_t at, uint16_t port)
{
    const uint16_t *from = ports + (uint32_t)at;
    uint32_t k;
    (void)len;
    //@ assert from == ports + at;
    /*@ loop invariant k <= 16 && \forall integer i; at <= i < at + k ==> ports[i] != port;
        loop assigns k;
        loop variant 16 - k; */
    for (k = 0; k < 16 && from[k] != port; k++)
        continue;
    return k;
}
