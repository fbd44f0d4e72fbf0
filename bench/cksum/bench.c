/*
 * The Internet checksum of in_cksum compared with C loops and memcpy.
 */
#include "timer.h"

#include <immintrin.h>

enum { MOST = 65535 };

static const size_t LENGTHS[] = {20, 1500, 9216, MOST};
static const char *const COLUMNS[] = {"20 bytes", "1,500", "9,216", "65,535"};

/* crates/bench_packets/src/cksum.rt */
uint16_t bsdudp_sum_slice(const uint8_t *bytes, size_t len);
uint16_t bsdudp_checksum(const uint8_t *bytes, size_t len);
uint16_t bsdudp_checksum_of_two(const uint8_t *front, size_t front_len, const uint8_t *back,
                                size_t back_len);

static uint16_t fold(uint64_t sum)
{
    while (sum >> 16)
        sum = (sum & 0xffff) + (sum >> 16);
    return (uint16_t)sum;
}

static uint16_t swapped(uint16_t sum)
{
    return (uint16_t)(sum << 8 | sum >> 8);
}

/* RFC 1071 as it is written: big-endian words, one at a time. */
static uint64_t plain_words(const uint8_t *p, size_t len)
{
    uint64_t sum = 0;
    for (; len > 1; len -= 2, p += 2)
        sum += (uint32_t)p[0] << 8 | p[1];
    if (len)
        sum += (uint32_t)p[0] << 8;
    return sum;
}

static uint16_t c_plain(const uint8_t *p, size_t len)
{
    return fold(plain_words(p, len));
}

/* The rest after the last whole 32 bytes, in memory order. */
static inline uint64_t rest_words(const uint8_t *p, size_t len)
{
    uint64_t sum = 0;
    uint32_t word;
    for (; len > 3; len -= 4, p += 4) {
        memcpy(&word, p, 4);
        sum += word;
    }
    word = 0;
    memcpy(&word, p, len);
    return sum + word;
}

/* 32 bytes at a time, vectorized by the compiler. Up to MOST bytes no lane overflows. */
typedef uint32_t lanes32 __attribute__((vector_size(32)));

static uint16_t c_lanes(const uint8_t *p, size_t len)
{
    lanes32 all = {0}, words;
    for (; len > 31; len -= 32, p += 32) {
        memcpy(&words, p, 32);
        all += (words & 0xffff) + (words >> 16);
    }
    uint64_t sum = rest_words(p, len);
    for (int lane = 0; lane < 8; lane++)
        sum += all[lane];
    return swapped(fold(sum));
}

/* The same by hand, on vectors of AVX2. */
__attribute__((target("avx2"))) static uint16_t c_avx2(const uint8_t *p, size_t len)
{
    const __m256i low = _mm256_set1_epi32(0xffff);
    __m256i all = _mm256_setzero_si256();
    uint32_t lanes[8];
    for (; len > 31; len -= 32, p += 32) {
        __m256i a = _mm256_loadu_si256((const __m256i *)p);
        all = _mm256_add_epi32(all, _mm256_add_epi32(_mm256_and_si256(a, low),
                                                     _mm256_srli_epi32(a, 16)));
    }
    _mm256_storeu_si256((__m256i *)lanes, all);
    uint64_t sum = rest_words(p, len);
    for (int lane = 0; lane < 8; lane++)
        sum += lanes[lane];
    return swapped(fold(sum));
}

static uint16_t by_sum_slice(const uint8_t *p, size_t len)
{
    return bsdudp_sum_slice(p, len);
}

static uint16_t by_sum(const uint8_t *p, size_t len)
{
    return (uint16_t)~bsdudp_checksum(p, len);
}

/* As a short first buffer and the rest, with an odd border. */
static uint16_t by_sum_in_two(const uint8_t *p, size_t len)
{
    size_t front = len < 7 ? len : 7;
    return (uint16_t)~bsdudp_checksum_of_two(p, front, p + front, len - front);
}

static uint8_t bytes[MOST], copied[MOST];

static uint16_t by_memcpy(const uint8_t *p, size_t len)
{
    memcpy(copied, p, len);
    seen(copied);
    return 0;
}

typedef uint16_t Body(const uint8_t *p, size_t len);

static volatile uint16_t sink;

/* The compiler mustn't know which body it is, otherwise it sums only once for all turns. */
static bool sum(const void *body, int column, uint64_t turns)
{
    Body *volatile hidden = *(Body *const *)body;
    for (uint64_t k = 0; k < turns; k++)
        sink = hidden(bytes, LENGTHS[column]);
    return true;
}

/* The last only if the processor has AVX2. */
static Body *const BODIES[] = {by_sum_slice, by_sum, by_sum_in_two, by_memcpy, c_plain, c_lanes, c_avx2};
static const Row ROWS[] = {
    {"sum_slice", sum, &BODIES[0]}, {"Sum", sum, &BODIES[1]},     {"Sum-in-two", sum, &BODIES[2]},
    {"memcpy", sum, &BODIES[3]},    {"c-plain", sum, &BODIES[4]}, {"c-lanes", sum, &BODIES[5]},
    {"c-avx2", sum, &BODIES[6]},
};

static bool agree(const Table *table, size_t len)
{
    for (int k = 0; k < table->row_count; k++)
        if (BODIES[k] != by_memcpy && BODIES[k](bytes, len) != c_plain(bytes, len)) {
            fprintf(stderr, "%s differs at %zu bytes\n", ROWS[k].name, len);
            return false;
        }
    return true;
}

int main(int argc, char **argv)
{
    const int rows = COUNT_OF(ROWS) - !__builtin_cpu_supports("avx2");
    const Table table = {"a sum of bytes, ns", COLUMNS, COUNT_OF(COLUMNS), ROWS, rows};
    fill_bytes(bytes, MOST);
    for (size_t len = 0; argc == 1 && len <= 3000; len++)
        if (!agree(&table, len))
            return 1;
    if (argc == 1 && !agree(&table, MOST))
        return 1;
    return bench_main(argc, argv, &table);
}
