/* Numbers that need 64 bits, on a processor whose lengths have 32: counters above 2 ^ 32, the set of readable sockets,
   and the longest lengths. No test counts that far, so this one writes counters in the stack's memory. It prints the
   line of the first wrong result, and then exits with 1. */
#include "bsdudp.h"

#include <stdio.h>
#include <string.h>

#define WANT(call, answer) \
    do { \
        unsigned long long got_ = (unsigned long long)(call), want_ = (unsigned long long)(answer); \
        if (got_ != want_) { \
            fprintf(stderr, "portable/tests/wide.c:%d: %s: %llx, not %llx\n", __LINE__, #call, got_, want_); \
            return 1; \
        } \
    } while (0)

enum { LAST = 66, HALF_MINUTE = 60 };

static unsigned char memory[BSDUDP_ETHER_MEMORY(64, 16)] __attribute__((aligned(BSDUDP_ALIGNMENT)));
static struct bsdudp host = BSDUDP_NONE;
static uint8_t bytes[64];
static const struct bsdudp_addr any = {0, 7}, self = {BSDUDP_IP(10, 0, 0, 1), 7}, peer = {BSDUDP_IP(10, 0, 0, 2), 7};

static struct bsdudp_config config(void)
{
    struct bsdudp_config it = {BSDUDP_IP(10, 0, 0, 1), BSDUDP_IP(10, 0, 0, 255), 64, 16, 1500, 1};
    return it;
}

/* ---- counters */

static uint64_t counter(const char *name)
{
    uint64_t value = 0;
    uint32_t which = 0;
    while (strcmp(bsdudp_counter_name(which), name) != 0)
        which++;
    bsdudp_counter(&host, which, &value);
    return value;
}

static void drop(void) { bsdudp_rx(&host, bytes, 3); }
static uint64_t dropped(void) { return counter("ip.toosmall"); }

/* A first fragment waits until it's too old. */
static void expire(void)
{
    uint8_t fragment[28] = {0x45, 0, 0, 28, 0, 1, 0x20, 0, 64, 17, 0, 0, 10, 0, 0, 2, 10, 0, 0, 1};
    uint32_t sum = 0;
    int k;
    for (k = 0; k < 20; k += 2)
        sum += (uint32_t)fragment[k] << 8 | fragment[k + 1];
    sum = ~((sum & 0xffff) + (sum >> 16));
    fragment[10] = (uint8_t)(sum >> 8);
    fragment[11] = (uint8_t)sum;
    bsdudp_rx(&host, fragment, sizeof fragment);
    for (k = 0; k < HALF_MINUTE; k++)
        bsdudp_tick(&host);
}

static uint64_t expired(void) { return counter("ip.fragtimeout"); }

/* A frame of a type that no host reads. */
static void ignore(void)
{
    uint8_t frame[60] = {2, 0, 0, 0, 0, 1, 2, 0, 0, 0, 0, 2, 0x12, 0x34};
    bsdudp_ether_receive(&host, frame, sizeof frame);
}

static uint64_t ignored(void)
{
    struct bsdudp_tallies tallies;
    memset(&tallies, 0, sizeof tallies);
    bsdudp_ether_tallies(&host, &tallies);
    return tallies.ignored;
}

/* The place of a counter in the memory; NULL if there is none. A counter of this value, and no other, is changed there
   for a moment. */
static unsigned char *place_of(uint64_t (*value)(void))
{
    const uint64_t now = value();
    size_t at;
    for (at = 0; at + 8 <= sizeof memory; at += 8) {
        const uint64_t other = now + 1;
        uint64_t is;
        memcpy(&is, memory + at, 8);
        if (is != now)
            continue;
        memcpy(memory + at, &other, 8);
        is = value();
        memcpy(memory + at, &now, 8);
        if (is == other)
            return memory + at;
    }
    return NULL;
}

/* A counter counts beyond 32 bits, and stays at the greatest number of 64. */
static int counts(void (*count)(void), uint64_t (*value)(void))
{
    static const uint64_t most[] = {0xffffffff, 0x1ffffffff, 0x7fffffffffffffff};
    const uint64_t end = ~(uint64_t)0;
    unsigned char *place;
    size_t k;
    for (k = 0; k < 5; k++) /* few other places hold 5 */
        count();
    WANT(value(), 5);
    place = place_of(value);
    WANT(place != NULL, 1);
    for (k = 0; k < sizeof most / sizeof most[0]; k++) {
        memcpy(place, &most[k], 8);
        WANT(value(), most[k]);
        count();
        WANT(value(), most[k] + 1);
    }
    memcpy(place, &end, 8);
    count();
    WANT(value(), end);
    return 0;
}

/* ---- lengths */

/* Lengths above the longest packet, up to that of the longest object in C, or with 32 bits to the longest number. */
static int lengths(void)
{
    const size_t lens[] = {65536, PTRDIFF_MAX, sizeof(size_t) == 4 ? (size_t)PTRDIFF_MAX + 1 : 1 << 20,
        sizeof(size_t) == 4 ? SIZE_MAX - 7 : 1 << 21, sizeof(size_t) == 4 ? SIZE_MAX : 1 << 22};
    struct bsdudp_addr from;
    size_t k;
    WANT(bsdudp_socket(&host), 3);
    WANT(bsdudp_bind(&host, 3, &any), 0);
    for (k = 0; k < sizeof lens / sizeof lens[0]; k++) {
        static uint8_t room[1 << 16];
        WANT(bsdudp_rx(&host, bytes, lens[k]), -BSDUDP_EMSGSIZE);
        WANT(bsdudp_sendto(&host, 3, &self, bytes, lens[k]), -BSDUDP_EMSGSIZE);
        WANT(bsdudp_mark(bytes, lens[k], 64, 0), -BSDUDP_EINVAL);
        WANT(bsdudp_sendto(&host, 3, &self, bytes, 5), 5);
        WANT(bsdudp_peek(&host, 3, room, lens[k], &from), 5);
        WANT(bsdudp_recvfrom(&host, 3, room, lens[k], &from), 5);
        WANT(bsdudp_sendto(&host, 3, &peer, bytes, 5), 5);
        WANT(bsdudp_tx(&host, room, lens[k]), 33);
    }
    return 0;
}

/* ---- the set of readable sockets */

static int readable(void)
{
    uint64_t set;
    int fd;
    for (fd = 4; fd <= LAST; fd++)
        WANT(bsdudp_socket(&host), fd);
    for (fd = LAST; fd > LAST - 2; fd--) {
        struct bsdudp_addr to = self;
        to.port = (uint16_t)(100 + fd);
        WANT(bsdudp_bind(&host, (uint32_t)fd, &to), 0);
        WANT(bsdudp_sendto(&host, 3, &to, bytes, 5), 5);
    }
    WANT(bsdudp_readable(&host, &set), 0);
    WANT(set, (uint64_t)3 << 62);
    return 0;
}

static int on_ethernet(void)
{
    const struct bsdudp_config it = config();
    const struct bsdudp_link link = {{2, 0, 0, 0, 0, 1}, 0xffffff00, 0, 0};
    static uint8_t room[2048];
    WANT(bsdudp_ether_boot_in(&host, &it, &link, memory, sizeof memory), 0);
    WANT(bsdudp_ether_receive(&host, bytes, PTRDIFF_MAX), -BSDUDP_EMSGSIZE);
    WANT(bsdudp_ether_transmit(&host, room, PTRDIFF_MAX), 42);
    return counts(ignore, ignored);
}

int main(void)
{
    const struct bsdudp_config it = config();
    WANT(bsdudp_boot_in(&host, &it, memory, sizeof memory), 0);
    if (lengths() || readable() || counts(drop, dropped) || counts(expire, expired))
        return 1;
    WANT(bsdudp_end(&host), 0);
    return on_ethernet();
}
