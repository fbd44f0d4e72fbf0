/* bsdudp_tick_until after a sleep of any length: it makes at most 60 ticks of a bare stack and 2,400 of a host, and
   leaves each as all missed ticks would. The linker redirects the library's calls of bsdudp_tick to this file (--wrap),
   which counts them. It compiles as C99 and as C++, prints the line of the first wrong result, and then exits with 1. */
#include "bsdudp.h"
#include "packets.h"

#include <stdio.h>

#define WANT(call, answer) \
    do { \
        unsigned long long got_ = (unsigned long long)(call), want_ = (unsigned long long)(answer); \
        if (got_ != want_) { \
            fprintf(stderr, "capi/tests/ticks.c:%d: %s: %llu, not %llu\n", __LINE__, #call, got_, want_); \
            return 1; \
        } \
    } while (0)

#ifdef __cplusplus
extern "C" {
#endif
int __real_bsdudp_tick(struct bsdudp *stack);
int __wrap_bsdudp_tick(struct bsdudp *stack);
#ifdef __cplusplus
}
#endif

static const uint64_t DAYS = 10000 * UINT64_C(86400000), LAST = UINT64_MAX - BSDUDP_TICK;
static unsigned made;

int __wrap_bsdudp_tick(struct bsdudp *stack)
{
    made++;
    return __real_bsdudp_tick(stack);
}

static struct bsdudp_config config(void)
{
    struct bsdudp_config it = {HOST, BROADCAST, 64, 16, 1500, 1};
    return it;
}

/* How many ticks a call makes at this time. */
static unsigned ticks_at(struct bsdudp *stack, uint64_t now, uint64_t *due)
{
    made = 0;
    if (bsdudp_tick_until(stack, now, due) != (int)(*due - now))
        return ~0u;
    return made;
}

/* The first fragment of a datagram that never becomes whole. */
static size_t first_fragment(uint8_t *packet, unsigned ident)
{
    static const uint8_t data[16] = {0};
    size_t len = make_packet(packet, 5000, HOST, 7, ident, data, sizeof data);
    put16(packet + 6, 0x2000);
    put_header_sum(packet);
    return len;
}

/* A fragment that came just before a sleep expires after 60 ticks, however long the sleep was. */
static int sleeps_of_a_stack(void)
{
    static const struct bsdudp none = BSDUDP_NONE;
    static const uint64_t sleeps[] = {0, 1, 59, 60, 61, 1000, 2 * 86400 * UINT64_C(365)};
    const struct bsdudp_config it = config();
    uint8_t packet[64];
    uint64_t due = 0, dead = 1;
    struct bsdudp stack = none, ended = none;
    size_t k;
    WANT(bsdudp_boot(&stack, &it), 0);
    WANT(ticks_at(&stack, 1000, &due), 0);
    for (k = 0; k < sizeof sleeps / sizeof sleeps[0]; k++) {
        const uint64_t missed = sleeps[k], old = due;
        WANT(bsdudp_rx(&stack, packet, first_fragment(packet, (unsigned)k)), 0);
        WANT(ticks_at(&stack, old - 1 + missed * BSDUDP_TICK, &due), missed < 60 ? missed : 60);
        WANT(due, old + missed * BSDUDP_TICK);
        WANT(bsdudp_unfinished_len(&stack), missed < 60);
        if (missed < 60)
            WANT(ticks_at(&stack, due + 59 * BSDUDP_TICK, &due), 60);
        WANT(bsdudp_unfinished_len(&stack), 0);
    }
    WANT(ticks_at(&stack, due + DAYS, &due), 60);
    WANT(ticks_at(&stack, due - 1, &due), 0);
    WANT(ticks_at(&stack, due, &due), 1);
    WANT(bsdudp_end(&stack), 0);
    WANT(-bsdudp_tick_until(&ended, DAYS, &dead), BSDUDP_ENXIO);
    WANT(dead, 1);
    return 0;
}

/* Times at which a sum would wrap are no times: a tick is due at the same time as before. */
static int clock_that_fails(void)
{
    static const struct bsdudp none = BSDUDP_NONE;
    const struct bsdudp_config it = config();
    const uint64_t first = LAST + 1;
    struct bsdudp stack = none;
    uint64_t due = 0, k;
    WANT(bsdudp_boot(&stack, &it), 0);
    made = 0;
    for (k = 0; k < BSDUDP_TICK; k++)
        WANT(bsdudp_tick_until(&stack, first + k, &due), BSDUDP_TICK);
    WANT(due, 0);
    WANT(bsdudp_tick_until(&stack, 1000, &due), BSDUDP_TICK);
    WANT(bsdudp_tick_until(&stack, UINT64_MAX, &due), BSDUDP_TICK);
    WANT(due == 1500 && made == 0, 1);
    WANT(ticks_at(&stack, 1500, &due), 1);
    WANT(ticks_at(&stack, LAST, &due), 60);
    WANT(due > LAST, 1);
    WANT(bsdudp_tick_until(&stack, first, &due), BSDUDP_TICK);
    WANT(ticks_at(&stack, 3, &due), 0);
    WANT(due, 503);
    WANT(ticks_at(&stack, LAST, &due), 60);
    WANT(ticks_at(&stack, LAST, &due), 0);
    due = UINT64_MAX;
    WANT(ticks_at(&stack, LAST, &due), 0);
    WANT(due, UINT64_MAX);
    return bsdudp_end(&stack);
}

/* ---- a host */

static const uint8_t own[6] = {2, 0, 0, 0, 0, 1}, peer[6] = {2, 0, 0, 0, 0, 2};

static void put_head(uint8_t *frame, const uint8_t *to, unsigned type)
{
    memcpy(frame, to, 6);
    memcpy(frame + 6, peer, 6);
    put16(frame + 12, type);
}

/* A host that has just learned a neighbour and looks for another one, for which a packet waits; that has an
   identification's first fragment, an ICMP reply and a conflict. */
static int busy_host(struct bsdudp *host)
{
    static const uint8_t arp[8] = {0, 1, 8, 0, 6, 4, 0, 1}, echo[8] = {8, 0, 0xf7, 0xff, 0, 0, 0, 0};
    static const struct bsdudp none = BSDUDP_NONE;
    const struct bsdudp_config it = config();
    const struct bsdudp_link link = {{2, 0, 0, 0, 0, 1}, 0xffffff00, 0, 0};
    const struct bsdudp_addr to = {BSDUDP_IP(10, 0, 0, 9), 7};
    uint8_t frame[BSDUDP_ETHER_ROOM];
    *host = none;
    memset(frame, 0, 42);
    put_head(frame, own, 0x806);
    memcpy(frame + 14, arp, sizeof arp);
    memcpy(frame + 22, peer, sizeof peer);
    put32(frame + 28, PEER);
    put32(frame + 38, HOST);
    WANT(bsdudp_ether_boot(host, &it, &link), 0);
    WANT(bsdudp_ether_receive(host, frame, 42), 0);
    put32(frame + 28, HOST);
    WANT(bsdudp_ether_receive(host, frame, 42), 0);
    WANT(bsdudp_socket(host), 3);
    WANT(bsdudp_sendto(host, 3, &to, "x", 1), 1);
    while (bsdudp_ether_transmit(host, frame, sizeof frame) > 0)
        continue;
    put_head(frame, own, 0x800);
    WANT(bsdudp_ether_receive(host, frame, 14 + first_fragment(frame + 14, 7)), 0);
    make_packet(frame + 14, 0, HOST, 0, 9, echo, 0);
    memcpy(frame + 34, echo, sizeof echo);
    frame[23] = 1;
    put_header_sum(frame + 14);
    WANT(bsdudp_ether_receive(host, frame, 42), 0);
    return 0;
}

/* All that a host can be asked for. */
struct view {
    uint64_t counters[BSDUDP_COUNTERS];
    struct bsdudp_tallies tallies;
    struct bsdudp_neighbour neighbours[BSDUDP_NEIGHBOURS];
    struct bsdudp_mbstat usage;
    int neighbour_count, unfinished, address;
};

static struct view view_of(struct bsdudp *host)
{
    struct view it;
    uint32_t k;
    memset(&it, 0, sizeof it);
    for (k = 0; k < BSDUDP_COUNTERS; k++)
        bsdudp_counter(host, k, &it.counters[k]);
    bsdudp_ether_tallies(host, &it.tallies);
    bsdudp_mbstat(host, &it.usage);
    while (bsdudp_ether_neighbour(host, (uint32_t)it.neighbour_count, &it.neighbours[it.neighbour_count]) == 0)
        it.neighbour_count++;
    it.unfinished = bsdudp_unfinished_len(host);
    it.address = bsdudp_ether_address(host);
    return it;
}

static int is_same(struct bsdudp *one, struct bsdudp *other)
{
    const struct view a = view_of(one), b = view_of(other);
    return memcmp(&a, &b, sizeof a) == 0;
}

/* One host gets each missed tick, and its twin one call. The frames that they send then are the same, too. */
static int sleeps_of_a_host(void)
{
    static const unsigned sleeps[] = {1, 2, 3, 59, 60, 61, 2399, 2400, 2401, 9999};
    struct bsdudp one, other;
    uint8_t frame[2][BSDUDP_ETHER_ROOM];
    size_t k;
    unsigned i;
    for (k = 0; k < sizeof sleeps / sizeof sleeps[0]; k++) {
        uint64_t due = 1000;
        int len;
        WANT(busy_host(&one) || busy_host(&other), 0);
        WANT(is_same(&one, &other), 1);
        WANT(view_of(&one).neighbour_count == 2 && view_of(&one).unfinished == 1, 1);
        WANT(ticks_at(&one, 500 * (sleeps[k] + 1) + 499, &due), sleeps[k] < 2400 ? sleeps[k] : 2400);
        for (i = 0; i < sleeps[k]; i++)
            WANT(bsdudp_tick(&other), 0);
        WANT(is_same(&one, &other), 1);
        WANT(view_of(&one).neighbour_count, sleeps[k] < 2400 ? 2 : 1);
        do {
            memset(frame, 0, sizeof frame);
            len = bsdudp_ether_transmit(&one, frame[0], sizeof frame[0]);
            WANT(bsdudp_ether_transmit(&other, frame[1], sizeof frame[1]), len);
            WANT(memcmp(frame[0], frame[1], (size_t)len), 0);
        } while (len > 0);
        WANT(is_same(&one, &other), 1);
        WANT(bsdudp_end(&one) || bsdudp_end(&other), 0);
    }
    return 0;
}

int main(void)
{
    return sleeps_of_a_stack() || clock_that_fails() || sleeps_of_a_host();
}
