/*
 * Our stack compared with lwIP, which does the same work. Both sums are made and checked, and both sides have an output
 * queue and a receive queue; the link takes 1,500 bytes.
 *
 *   2, 1,472, 9,000 bytes   sendto, tx of each packet, rx into the other stack, recvfrom: the bytes are copied four times.
 *                           The 9,000 go in seven fragments
 *   seven fragments         those of a datagram with 9,216 bytes after the UDP header are stored, their headers are
 *                           read and checked, and they complete the datagram, which is freed. No UDP sum, no copy to
 *                           the user
 */
#include "packets.h"
#include "timer.h"

enum { MOST = 9000, PROTOCOL = 99, LEN = 9216 + 8, EACH = 1480, PACKETS = 7, MBUFS = 512 };

/* crates/bench_stack, crates/bench_packets */
uint32_t bsdudp_send_and_receive(const uint8_t *bytes, size_t len, uint32_t mbufs, uint8_t sockets, uint8_t at,
                                 uint32_t times);
uint32_t bsdudp_reassemble(const uint8_t *packets, size_t len, uint32_t mbufs, uint32_t times);

static const char *const COLUMNS[] = {"2 bytes", "1,472", "9,000", "7 fragments"};
static const size_t LENS[] = {2, 1472, MOST};

static uint8_t bytes[MOST], packets[PACKETS * PACKETS_APART];

static bool ours(const void *what, int column, uint64_t turns)
{
    (void)what;
    if (column < COUNT_OF(LENS))
        return bsdudp_send_and_receive(bytes, LENS[column], MBUFS, 1, 0, (uint32_t)turns) == turns;
    return bsdudp_reassemble(packets, sizeof packets, MBUFS, (uint32_t)turns) == turns;
}

/* A build of lwIP: what lwip.c exports under its prefix. */
#define LWIP(name)                                                                             \
    uint32_t name##_send_and_receive(const uint8_t *bytes, size_t len, uint32_t times);        \
    uint32_t name##_reassemble(const uint8_t *packets, size_t len, uint32_t times);            \
    static bool name(const void *what, int column, uint64_t turns)                             \
    {                                                                                          \
        (void)what;                                                                            \
        if (column < COUNT_OF(LENS))                                                           \
            return name##_send_and_receive(bytes, LENS[column], (uint32_t)turns) == turns;     \
        return name##_reassemble(packets, sizeof packets, (uint32_t)turns) == turns;           \
    }

LWIP(lwip_O2)
LWIP(lwip_O2_sum3)
LWIP(lwip_O3)
LWIP(lwip_O3_sse2)
LWIP(lwip_O3_pools)

/* measure.sh has the flags of each. */
static const Row ROWS[] = {
    {"ours", ours, NULL},
    {"lwIP -O2", lwip_O2, NULL},
    {"lwIP -O2, its third sum", lwip_O2_sum3, NULL},
    {"lwIP -O3 -flto, no asserts", lwip_O3, NULL},
    {"the same, a sum by SSE2", lwip_O3_sse2, NULL},
    {"the same, pools for its heap", lwip_O3_pools, NULL},
};

static const Table TABLE = {"a datagram, ns", COLUMNS, COUNT_OF(COLUMNS), ROWS, COUNT_OF(ROWS)};

/* The port's sum for lwIP (sum.c), which lwIP doesn't check. */
unsigned short peers_sum(const void *bytes, int len);

/* Whether it's the sum of RFC 1071 for a length, in lwIP's form: words in the order of the machine, folded. */
static bool sums_well(const uint8_t *from, int len)
{
    uint32_t sum = len % 2 ? from[len - 1] : 0;
    for (int at = 0; at + 1 < len; at += 2)
        sum += from[at] | (uint32_t)from[at + 1] << 8;
    while (sum > 65535)
        sum = (sum & 65535) + (sum >> 16);
    return peers_sum(from, len) == sum;
}

/* At each length around a turn of its loops, at an odd address, and at the greatest length of bytes that are all ones. */
static bool sum_is_right(void)
{
    static uint8_t ones[65535];
    memset(ones, 255, sizeof ones);
    for (int len = 0; len <= 600; len++)
        if (!sums_well(bytes, len) || !sums_well(bytes + 1, len))
            return false;
    return sums_well(bytes, MOST) && sums_well(ones, sizeof ones);
}

int main(int argc, char **argv)
{
    fill_bytes(bytes, MOST);
    if (!sum_is_right()) {
        fprintf(stderr, "peers_sum of bench/peers/sum.c: a sum is wrong\n");
        return 1;
    }
    for (uint32_t at = 0; at < PACKETS; at++)
        put_fragment(packets + at * PACKETS_APART, PROTOCOL, at, EACH, LEN);
    return bench_main(argc, argv, &TABLE);
}
