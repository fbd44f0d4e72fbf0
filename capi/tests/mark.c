/* bsdudp_mark: each time to live and type of service, over random headers. The packet is the old one with both fields,
   and with the checksum that RFC 1624 computes from the old one. A header that a stack does not accept is refused. It
   compiles as C99 and as C++, prints the line of the first wrong result, and then exits with 1. */
#include "bsdudp.h"

#include <stdio.h>
#include <string.h>

#define WANT(call, answer) \
    do { \
        long got_ = (long)(call); \
        if (got_ != (long)(answer)) { \
            fprintf(stderr, "capi/tests/mark.c:%d: %s: %ld, not %ld\n", __LINE__, #call, got_, (long)(answer)); \
            return 1; \
        } \
    } while (0)

enum { HEADER = 20, LEN = 70 };

static uint8_t packet[BSDUDP_PACKET + 1], old[BSDUDP_PACKET + 1];
static uint32_t state = 1;

static uint8_t next(void)
{
    state = state * 1664525 + 1013904223;
    return (uint8_t)(state >> 24);
}

static uint32_t word(const uint8_t *bytes, uint32_t at) { return (uint32_t)bytes[at] << 8 | bytes[at + 1]; }

static uint32_t folded(uint32_t sum)
{
    while (sum > 0xffff)
        sum = (sum >> 16) + (sum & 0xffff);
    return sum;
}

/* Writes the checksum of the header (RFC 1071). If the sum of its words is 65,535, it may be 0 or 65,535. */
static void put_sum(uint8_t *bytes, int is_zero)
{
    uint32_t sum = 0, k;
    for (k = 0; k < HEADER; k += 2)
        sum += k == 10 ? 0 : word(bytes, k);
    sum = ~folded(sum) & 0xffff;
    if (sum == 0 && !is_zero)
        sum = 0xffff;
    bytes[10] = (uint8_t)(sum >> 8);
    bytes[11] = (uint8_t)sum;
}

/* A packet with a right header. `is_full`: the words of its header sum up to 65,535 without the checksum. */
static void make(int is_sparse, int is_full)
{
    uint32_t k, rest = 0;
    for (k = 0; k < LEN; k++)
        old[k] = is_sparse ? 0 : next();
    old[0] = 0x45;
    old[2] = 0;
    old[3] = (uint8_t)(HEADER + next() % (LEN - HEADER + 1));
    if (is_full) {
        old[18] = old[19] = 0;
        for (k = 0; k < HEADER; k += 2)
            rest += k == 10 ? 0 : word(old, k);
        rest = 0xffff - folded(rest);
        old[18] = (uint8_t)(rest >> 8);
        old[19] = (uint8_t)rest;
    }
    put_sum(old, next() % 2);
}

/* RFC 1624, equation 3, for both words. */
static uint32_t sum_after(uint8_t ttl, uint8_t tos)
{
    const uint32_t first = (uint32_t)old[0] << 8 | tos, fifth = (uint32_t)ttl << 8 | old[9];
    uint32_t sum = (~word(old, 10) & 0xffff) + (~word(old, 0) & 0xffff) + first + (~word(old, 8) & 0xffff) + fifth;
    return ~folded(sum) & 0xffff;
}

static int is_marked(uint8_t ttl, uint8_t tos)
{
    uint32_t k;
    memcpy(packet, old, LEN);
    WANT(bsdudp_mark(packet, LEN, ttl, tos), 0);
    for (k = 0; k < LEN; k++)
        WANT(packet[k], k == 1 ? tos : k == 8 ? ttl : k == 10 || k == 11 ? packet[k] : old[k]);
    WANT(word(packet, 10), sum_after(ttl, tos));
    return 0;
}

/* The old packet is refused, and unchanged. */
static int is_refused(size_t len)
{
    memcpy(packet, old, sizeof packet);
    WANT(bsdudp_mark(packet, len, 1, 2), -BSDUDP_EINVAL);
    WANT(memcmp(packet, old, sizeof packet), 0);
    return 0;
}

static int refusals(void)
{
    uint32_t first, bit, total;
    size_t len;
    for (first = 0; first < 256; first++) {
        make(0, 0);
        old[0] = (uint8_t)first;
        put_sum(old, 1);
        if (first == 0x45 ? is_marked(1, 2) : is_refused(LEN))
            return 1;
    }
    for (bit = 0; bit < 8 * HEADER; bit++) {
        make(0, 0);
        old[bit / 8] ^= (uint8_t)(1u << bit % 8);
        if (is_refused(LEN))
            return 1;
    }
    for (total = 0; total < 2 * LEN; total++) {
        make(0, 0);
        old[3] = (uint8_t)total;
        put_sum(old, 1);
        if (total >= HEADER && total <= LEN ? is_marked(1, 2) : is_refused(LEN))
            return 1;
    }
    make(0, 0);
    old[3] = HEADER;
    put_sum(old, 1);
    for (len = 0; len < HEADER; len++)
        if (is_refused(len))
            return 1;
    memcpy(packet, old, LEN);
    WANT(bsdudp_mark(packet, HEADER, 1, 2), 0);
    memcpy(packet, old, LEN);
    WANT(bsdudp_mark(packet, BSDUDP_PACKET, 1, 2), 0);
    return is_refused(BSDUDP_PACKET + 1);
}

int main(void)
{
    uint32_t round, ttl, tos;
    for (round = 0; round < 40; round++)
        for (ttl = 0; ttl < 256; ttl++) {
            make(round % 4 == 1, round % 4 == 2);
            for (tos = ttl % 5; tos < 256; tos += 5)
                if (is_marked((uint8_t)ttl, (uint8_t)tos))
                    return 1;
        }
    return refusals();
}
