/* What bsdudp_rx_fate and bsdudp_ether_receive_fate say: for a packet of each kind, with the cause by the counter's
   name; for frames; and for random packets, whose fate must be what the counters and the receive queues show. It
   compiles as C99 and as C++, prints the line of the first wrong result, and then exits with 1. */
#include "bsdudp.h"
#include "packets.h"

#include <stdio.h>

#define WANT(call, answer) \
    do { \
        long got_ = (long)(call); \
        if (got_ != (long)(answer)) { \
            fprintf(stderr, "capi/tests/fates.c:%d: %s: %ld, not %ld\n", __LINE__, #call, got_, (long)(answer)); \
            return 1; \
        } \
    } while (0)

enum { SOCKETS = 5, PORT = 7, TIMES = 20000, MORE = 0x2000 };
enum { NONE = 0, THIRD = 1, FOURTH = 2, BOTH = 3 }; /* sets of sockets: descriptors 3 and 4 */

static unsigned char memory[BSDUDP_ETHER_MEMORY(64, 16)] __attribute__((aligned(BSDUDP_ALIGNMENT)));
static struct bsdudp stack = BSDUDP_NONE;
static struct bsdudp_fate fate;
static uint8_t packet[2000], data[1500];

static int boots(uint32_t mbufs, uint32_t clusters)
{
    const struct bsdudp_config config = {HOST, BROADCAST, mbufs, clusters, 1500, 1};
    return bsdudp_boot_in(&stack, &config, memory, sizeof memory);
}

/* Opens a socket that shares its address and port. */
static int opens(uint32_t fd, uint32_t ip, uint16_t port, int size)
{
    const struct bsdudp_addr local = {ip, port};
    WANT(bsdudp_socket(&stack), fd);
    WANT(bsdudp_setsockopt(&stack, fd, BSDUDP_SO_REUSEPORT, 1), 0);
    WANT(bsdudp_setsockopt(&stack, fd, BSDUDP_SO_RCVBUF, size), 0);
    return bsdudp_bind(&stack, fd, &local);
}

/* ---- a packet of each kind */

static int is(int kind, int completed, uint64_t got, uint64_t lost)
{
    WANT(fate.kind, kind);
    WANT(fate.completed, completed);
    WANT(fate.got == got && fate.lost == lost, 1);
    WANT(fate.cause == 0 || kind == BSDUDP_DROPPED, 1);
    return 0;
}

static int arrives(size_t len)
{
    memset(&fate, 0x77, sizeof fate);
    return bsdudp_rx_fate(&stack, packet, len, &fate);
}

/* The packet of `len` bytes is dropped for the cause that a counter counts. */
static int drops(size_t len, const char *counter)
{
    WANT(arrives(len) || is(BSDUDP_DROPPED, 0, NONE, NONE), 0);
    WANT(strcmp(bsdudp_counter_name(fate.cause), counter), 0);
    return 0;
}

static size_t whole(uint32_t to, unsigned port, size_t len)
{
    const size_t all = make_packet(packet, 5000, to, port, 1, data, len);
    put16(packet + 26, 0); /* no checksum */
    return all;
}

/* A whole packet with another number in its header. */
static size_t with(unsigned at, unsigned value)
{
    const size_t len = whole(HOST, PORT, 20);
    put16(packet + at, value);
    put_header_sum(packet);
    return len;
}

/* A fragment of a datagram of 24 bytes: the first 16, or the last eight. */
static size_t part(unsigned port, int is_first)
{
    whole(HOST, port, 16);
    if (!is_first)
        memmove(packet + 20, packet + 36, 8);
    put16(packet + 2, is_first ? 36 : 28);
    put16(packet + 6, is_first ? MORE : 2);
    put_header_sum(packet);
    return is_first ? 36 : 28;
}

/* The tests of the book's chapters 8, 10 and 23, in their order. */
static int headers(void)
{
    WANT(drops(whole(HOST, PORT, 20) && 1 ? 19 : 0, "ip.toosmall"), 0);
    WANT(drops(with(0, 0x6500), "ip.badvers"), 0);
    WANT(drops(with(0, 0x4400), "ip.badhlen"), 0);
    WANT(drops(with(0, 0x4600), "ip.options"), 0);
    with(0, 0x4500);
    packet[10] ^= 1;
    WANT(drops(48, "ip.badsum"), 0);
    WANT(drops(with(2, 19), "ip.badlen"), 0);
    WANT(drops(with(2, 49), "ip.tooshort"), 0);
    WANT(drops(whole(HOST + 8, PORT, 20), "ip.cantforward"), 0);
    WANT(drops(with(6, MORE | 8000), "ip.badfrag"), 0);
    WANT(drops(with(8, 0x4001), "ip.noproto"), 0);
    with(2, 27);
    WANT(drops(48, "udp.hdrops"), 0);
    whole(HOST, PORT, 20);
    put16(packet + 24, 7);
    WANT(drops(48, "udp.badlen"), 0);
    whole(HOST, PORT, 20);
    put16(packet + 26, 1);
    WANT(drops(48, "udp.badsum"), 0);
    WANT(drops(whole(HOST, 9, 20), "udp.noport"), 0);
    WANT(drops(whole(BROADCAST, 9, 20), "udp.noportbcast"), 0);
    return 0;
}

/* Of two sockets with the port the newer one gets a datagram, and both get a broadcast. A queue of 1,152 bytes has no
   place for 1,200. */
static int deliveries(void)
{
    WANT(arrives(whole(HOST, PORT, 20)) || is(BSDUDP_DELIVERED, 0, FOURTH, NONE), 0);
    WANT(arrives(whole(BROADCAST, PORT, 20)) || is(BSDUDP_DELIVERED, 0, BOTH, NONE), 0);
    WANT(arrives(whole(HOST, PORT, 1200)) || is(BSDUDP_DELIVERED, 0, NONE, FOURTH), 0);
    WANT(arrives(whole(BROADCAST, PORT, 1200)) || is(BSDUDP_DELIVERED, 0, THIRD, FOURTH), 0);
    return 0;
}

/* A fragment is kept, held already, or completes its datagram, whichever one is last. */
static int fragments(void)
{
    int last;
    for (last = 0; last < 2; last++) {
        WANT(arrives(part(PORT, !last)) || is(BSDUDP_KEPT, 0, NONE, NONE), 0);
        WANT(drops(part(PORT, !last), "ip.fragdropped"), 0);
        WANT(arrives(part(PORT, last)) || is(BSDUDP_DELIVERED, 1, FOURTH, NONE), 0);
        WANT(arrives(part(9, !last)) || is(BSDUDP_KEPT, 0, NONE, NONE), 0);
        WANT(arrives(part(9, last)) || is(BSDUDP_DROPPED, 1, NONE, NONE), 0);
        WANT(strcmp(bsdudp_counter_name(fate.cause), "udp.noport"), 0);
    }
    return 0;
}

/* A call that fails leaves the fate as it was. */
static int errors(int by_packets, int by_frames)
{
    static uint8_t longest[BSDUDP_ETHER_FRAME + 1];
    const size_t most = BSDUDP_PACKET + 1;
    struct bsdudp_fate before;
    memset(&fate, 0x77, sizeof fate);
    before = fate;
    WANT(bsdudp_rx_fate(&stack, longest, most, &fate), by_packets);
    WANT(bsdudp_ether_receive_fate(&stack, longest, sizeof longest, &fate), by_frames);
    WANT(memcmp(&fate, &before, sizeof fate), 0);
    return 0;
}

static int kinds(void)
{
    WANT(boots(64, 16), 0);
    WANT(opens(3, 0, PORT, 4 * 1488) || opens(4, 0, PORT, 1152), 0);
    WANT(headers() || deliveries() || fragments(), 0);
    WANT(errors(-BSDUDP_EMSGSIZE, -BSDUDP_EOPNOTSUPP), 0);
    WANT(bsdudp_end(&stack), 0);
    return errors(-BSDUDP_ENXIO, -BSDUDP_ENXIO);
}

/* ---- frames */

static const struct bsdudp_link card = {{2, 0, 0, 0, 0, 1}, 0xffffff00, 0, 0};

/* Passes the packet in a frame of this type. */
static int framed(const uint8_t *to, unsigned type, size_t len)
{
    static uint8_t frame[14 + sizeof packet];
    static const uint8_t from[6] = {2, 0, 0, 0, 0, 2};
    memcpy(frame, to, 6);
    memcpy(frame + 6, from, 6);
    put16(frame + 12, type);
    memcpy(frame + 14, packet, len);
    memset(&fate, 0x77, sizeof fate);
    return bsdudp_ether_receive_fate(&stack, frame, 14 + len, &fate);
}

/* The packet in a frame has its fate. A frame for another host, one that isn't IPv4, and one from a martian have none. */
static int frames(void)
{
    static const uint8_t other[6] = {2, 0, 0, 0, 0, 9}, all[6] = {255, 255, 255, 255, 255, 255};
    const struct bsdudp_config config = {HOST, 0, 64, 16, 1500, 1};
    WANT(bsdudp_ether_boot_in(&stack, &config, &card, memory, sizeof memory), 0);
    WANT(opens(3, 0, PORT, 1488), 0);
    WANT(framed(card.mac, 0x800, whole(HOST, PORT, 20)) || is(BSDUDP_DELIVERED, 0, THIRD, NONE), 0);
    WANT(framed(all, 0x800, whole(BROADCAST, PORT, 1472)) || is(BSDUDP_DELIVERED, 0, NONE, THIRD), 0);
    WANT(framed(card.mac, 0x800, part(9, 1)) || is(BSDUDP_KEPT, 0, NONE, NONE), 0);
    WANT(framed(card.mac, 0x800, part(9, 0)) || is(BSDUDP_DROPPED, 1, NONE, NONE), 0);
    WANT(framed(card.mac, 0x800, whole(HOST, 9, 20)) || is(BSDUDP_DROPPED, 0, NONE, NONE), 0);
    WANT(strcmp(bsdudp_counter_name(fate.cause), "udp.noport"), 0);
    WANT(framed(other, 0x800, whole(HOST, PORT, 20)) || is(BSDUDP_NO_PACKET, 0, NONE, NONE), 0);
    WANT(framed(card.mac, 0x806, whole(HOST, PORT, 20)) || is(BSDUDP_NO_PACKET, 0, NONE, NONE), 0);
    WANT(framed(card.mac, 0x86dd, whole(HOST, PORT, 20)) || is(BSDUDP_NO_PACKET, 0, NONE, NONE), 0);
    put32(packet + 12, 0x7f000001);
    WANT(framed(card.mac, 0x800, 48) || is(BSDUDP_NO_PACKET, 0, NONE, NONE), 0);
    WANT(errors(-BSDUDP_EOPNOTSUPP, -BSDUDP_EMSGSIZE), 0);
    return bsdudp_end(&stack);
}

/* One mbuf is enough for a packet with 20 bytes of data, and not for its sender's address too. */
static int without_buffers(void)
{
    WANT(boots(1, 0), 0);
    WANT(opens(3, 0, PORT, 1488), 0);
    WANT(arrives(whole(HOST, PORT, 20)) || is(BSDUDP_DELIVERED, 0, NONE, THIRD), 0);
    WANT(drops(whole(HOST, PORT, 1200), "nobufs"), 0);
    return bsdudp_end(&stack);
}

/* ---- random packets */

struct seen {
    uint64_t counts[BSDUDP_COUNTERS], waiting[SOCKETS];
};

static void look(struct seen *it)
{
    struct bsdudp_next next;
    uint32_t k;
    for (k = 0; k < BSDUDP_COUNTERS; k++)
        bsdudp_counter(&stack, k, &it->counts[k]);
    for (k = 0; k < SOCKETS; k++)
        it->waiting[k] = bsdudp_next(&stack, BSDUDP_FIRST_FD + k, &next) == 0 ? next.waiting : 0;
}

static uint64_t risen(const struct seen *old, const struct seen *now, const char *counter)
{
    uint32_t k;
    for (k = 0; strcmp(bsdudp_counter_name(k), counter) != 0; k++)
        continue;
    return now->counts[k] - old->counts[k];
}

/* The fate is what changed: exactly the queues of `got`, a drop for each socket in `lost`, and no other one. */
static int agrees(const struct seen *old, const struct seen *now)
{
    const uint64_t reclaimed = risen(old, now, "ip.reclaimed");
    const uint64_t losses = risen(old, now, "udp.fullsock") + risen(old, now, "nobufs");
    uint64_t all = 0, lost = 0;
    uint32_t k;
    for (k = 0; k < BSDUDP_COUNTERS; k++)
        all += bsdudp_counter_cause(k) != NULL ? now->counts[k] - old->counts[k] : 0;
    for (k = 0; k < 64; k++)
        lost += fate.lost >> k & 1;
    for (k = 0; k < SOCKETS; k++)
        WANT(now->waiting[k] - old->waiting[k], fate.got >> k & 1);
    WANT(fate.got >> SOCKETS == 0 && fate.lost >> SOCKETS == 0 && (fate.got & fate.lost) == 0, 1);
    WANT(risen(old, now, "ip.reassembled"), fate.completed);
    WANT(all - reclaimed, lost + (fate.kind == BSDUDP_DROPPED));
    switch (fate.kind) {
    case BSDUDP_DELIVERED:
        WANT((fate.got | fate.lost) != 0 && fate.cause == 0, 1);
        WANT(losses, lost);
        return 0;
    case BSDUDP_KEPT:
        WANT(risen(old, now, "ip.fragments"), 1);
        WANT(fate.got == 0 && fate.lost == 0 && fate.cause == 0 && fate.completed == 0, 1);
        return 0;
    default:
        WANT(fate.kind, BSDUDP_DROPPED);
        WANT(bsdudp_counter_cause(fate.cause) != NULL, 1);
        WANT(now->counts[fate.cause] - old->counts[fate.cause], 1);
        WANT(fate.got == 0 && fate.lost == 0, 1);
        return 0;
    }
}

static uint8_t later[2000];
static size_t left;

/* Halves a packet, and keeps the second fragment for later. */
static size_t halve(size_t len)
{
    const size_t half = (len - 20) / 16 * 8;
    left = len - half;
    memcpy(later, packet, 20);
    memcpy(later + 20, packet + 20 + half, left - 20);
    put16(later + 2, (unsigned)left);
    put16(later + 6, (unsigned)half / 8);
    put_header_sum(later);
    put16(packet + 2, (unsigned)(20 + half));
    put16(packet + 6, MORE);
    put_header_sum(packet);
    return 20 + half;
}

static size_t draw(void)
{
    static const uint32_t to[] = {HOST, HOST, BROADCAST, 0xffffffff, HOST + 9};
    const size_t most = dice(4) == 0 ? sizeof data - 28 : 300;
    size_t len = left;
    if (left != 0 && dice(2) == 0) {
        memcpy(packet, later, len);
        left = 0;
    } else {
        len = make_packet(packet, 5000, to[dice(5)], PORT + dice(3), dice(3), data, dice((unsigned)most));
        if (dice(4) == 0)
            len = keep_fragment(packet, len);
        else if (left == 0 && len >= 36)
            len = halve(len);
    }
    return dice(6) == 0 ? damage(packet, len) : len;
}

/* Sockets with small queues share ports, and nobody reads most of the time. */
static int random_packets(unsigned of)
{
    static struct seen old, now;
    static int fates[4][2];
    long k;
    seed = of;
    WANT(boots(64, 16), 0);
    WANT(opens(3, 0, PORT, 2048) || opens(4, 0, PORT, 5000) || opens(5, HOST, PORT + 1, 1152), 0);
    WANT(opens(6, 0, PORT + 1, 65535) || opens(7, BROADCAST, PORT, 9000), 0);
    for (k = 0; k < TIMES; k++) {
        const size_t len = draw();
        look(&old);
        WANT(arrives(len), 0);
        look(&now);
        WANT(agrees(&old, &now), 0);
        fates[fate.kind][fate.completed] += 1 + (fate.lost != 0);
        if (dice(3) == 0)
            bsdudp_recvfrom(&stack, BSDUDP_FIRST_FD + dice(SOCKETS), packet, sizeof packet, NULL);
        if (dice(40) == 0)
            bsdudp_tick(&stack);
    }
    WANT(fates[BSDUDP_DELIVERED][0] > 1000 && fates[BSDUDP_DELIVERED][1] > 100, 1);
    WANT(fates[BSDUDP_KEPT][0] > 1000 && fates[BSDUDP_DROPPED][0] > 1000 && fates[BSDUDP_DROPPED][1] > 10, 1);
    return bsdudp_end(&stack);
}

int main(void)
{
    return kinds() || frames() || without_buffers() || random_packets(1) || random_packets(2) || random_packets(3);
}
