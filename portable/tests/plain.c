/* portable/c/plain.c compared with plain definitions: sums of every length up to 200 at each alignment, folds at their
   limits and at random, ports in each place, and moves in each relation of two pieces. It prints the first
   difference. */
#include <stdint.h>
#include <stdio.h>
#include <stdlib.h>
#include <string.h>

void *bsdmove(void *to, const void *from, size_t len);
uint64_t bsdudp_plain_sum(const uint8_t *bytes, uint64_t len);
uint16_t bsdudp_plain_fold(uint64_t sum);
uint64_t bsdudp_plain_before(const uint16_t *ports, uint64_t len, uint64_t at, uint16_t port);

static uint64_t state = 1;

static uint64_t random_bits(void)
{
    state = state * 6364136223846793005u + 1442695040888963407u;
    return state >> 32 ^ state << 31;
}

static void fault(const char *what, unsigned long at)
{
    fprintf(stderr, "plain.c: %s differs at %lu\n", what, at);
    exit(1);
}

static uint16_t folded(uint64_t sum)
{
    return (uint16_t)(sum == 0 ? 0 : (sum - 1) % 65535 + 1);
}

static void sums(void)
{
    static uint8_t bytes[66000];
    size_t len, from, i;
    for (i = 0; i < sizeof bytes; i++)
        bytes[i] = (uint8_t)(random_bits() % 3 == 0 ? 255 : random_bits());
    for (len = 0; len <= 65536; len += len < 200 ? 1 : 1 + random_bits() % 3000)
        for (from = 0; from < 8; from++) {
            uint64_t sum = 0;
            for (i = 0; i < len; i++)
                sum += (uint64_t)bytes[from + i] << 8 * (i % 2);
            if (folded(bsdudp_plain_sum(bytes + from, len)) != folded(sum))
                fault("a sum", (unsigned long)len);
        }
}

static void folds(void)
{
    static const uint64_t borders[] = {0, 1, 65534, 65535, 65536, 131070, 0xfffeffff, 0xffffffff, 0x100000000,
        0x1ffff0000, 0xffffffff00000000, 0xffffffffffffffff};
    unsigned long i;
    for (i = 0; i < sizeof borders / sizeof borders[0]; i++)
        if (bsdudp_plain_fold(borders[i]) != folded(borders[i]))
            fault("a fold", i);
    for (i = 0; i < 1000000; i++) {
        uint64_t sum = (random_bits() << 32 | (random_bits() & 0xffffffff)) >> random_bits() % 64;
        if (bsdudp_plain_fold(sum) != folded(sum))
            fault("a fold", i);
    }
}

static void ports(void)
{
    uint16_t all[40];
    unsigned long place, at, k;
    for (place = 0; place < 40; place++)
        for (at = 0; at <= 24; at++) {
            for (k = 0; k < 40; k++)
                all[k] = k == place || k == place + 3 ? 7 : 0x107;
            for (k = 0; k < 16 && all[at + k] != 7; k++)
                continue;
            if (bsdudp_plain_before(all, 40, at, 7) != k)
                fault("a port", place);
        }
}

static void moves(void)
{
    unsigned long from, to, len, i;
    uint8_t one[64], other[64];
    for (from = 0; from < 24; from++)
        for (to = 0; to < 24; to++)
            for (len = 0; len <= 40; len++) {
                for (i = 0; i < 64; i++)
                    one[i] = other[i] = (uint8_t)i;
                memmove(one + to, one + from, len);
                if (bsdmove(other + to, other + from, len) != other + to || memcmp(one, other, 64) != 0)
                    fault("a move", from);
            }
}

int main(void)
{
    sums();
    folds();
    ports();
    moves();
    return 0;
}
