/*
 * A sum for lwIP's LWIP_CHKSUM by SSE2, in the way of in_cksum: lanes of 32 bits are added whole and may wrap, and
 * their high halves are added apart, from which the sum of the low ones follows.
 */
#include <emmintrin.h>
#include <stddef.h>
#include <stdint.h>
#include <string.h>

unsigned short peers_sum(const void *bytes, int len);

/* The sum of a lane's two halves. */
static __m128i halves(__m128i whole, __m128i high)
{
    return _mm_add_epi32(_mm_sub_epi32(whole, _mm_slli_epi32(high, 16)), high);
}

/* What is left after the last whole 16 bytes. */
static uint64_t rest(const uint8_t *p, int len)
{
    uint64_t sum = 0, eight = 0;
    uint32_t four = 0;
    if (len & 8) {
        memcpy(&eight, p, 8);
        sum = (eight >> 32) + (uint32_t)eight;
        p += 8;
    }
    if (len & 4) {
        memcpy(&four, p, 4);
        sum += four;
        p += 4;
    }
    if (len & 2) {
        uint16_t two;
        memcpy(&two, p, 2);
        sum += two;
        p += 2;
    }
    return len & 1 ? sum + *p : sum;
}

/* What was added so far: lanes whole, and their high halves apart. */
typedef struct {
    __m128i whole, high;
} Lanes;

/* Adds 16 bytes. It's spelled, since gcc copies `words` before it shifts them, or loads them twice. */
static inline void add(Lanes *sum, const uint8_t *p)
{
    __m128i words = _mm_loadu_si128((const __m128i *)p);
    __asm__("paddd %[words], %[whole]\n\tpsrld $16, %[words]\n\tpaddd %[words], %[high]"
            : [words] "+x"(words), [whole] "+x"(sum->whole), [high] "+x"(sum->high));
}

/* The sum of all whole 16 bytes. Most are added by 256 in a turn: 8 instructions for 32 bytes, as in_cksum takes. */
static uint64_t blocks(const uint8_t *p, int len)
{
    Lanes sum = {_mm_setzero_si128(), _mm_setzero_si128()};
    uint32_t lanes[4];
    for (; len > 255; len -= 256, p += 256)
#pragma GCC unroll 16
        for (int at = 0; at < 256; at += 16)
            add(&sum, p + at);
    for (; len > 15; len -= 16, p += 16)
        add(&sum, p);
    _mm_storeu_si128((__m128i *)lanes, halves(sum.whole, sum.high));
    return (uint64_t)lanes[0] + lanes[1] + lanes[2] + lanes[3];
}

unsigned short peers_sum(const void *bytes, int len)
{
    const uint8_t *p = bytes;
    uint64_t sum = rest(p + (len & ~15), len & 15);
    if (len > 15)
        sum += blocks(p, len);
    sum = (sum & 0xffffffff) + (sum >> 32);
    sum = (sum & 0xffff) + (sum >> 16);
    sum = (sum & 0xffff) + (sum >> 16);
    return (unsigned short)((sum & 0xffff) + (sum >> 16));
}
