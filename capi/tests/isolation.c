/* Floods of a socket that nobody reads, while another socket sends and receives. If both have a size of their receive
   queue (BSDUDP_SO_RCVBUF), not one of its sends is refused and not one of its datagrams is lost, whatever arrives: whole
   datagrams, fragments of the least size, fragments in packets that are padded to take a cluster each, datagrams that
   never become whole, and datagrams from the host itself. Without sizes a flood silences the host. It compiles as C99
   and as C++, prints the first wrong result, and then exits with 1. A board without a screen has a SAY of its own. */
#include "bsdudp.h"
#include "floods.h"

#ifndef SAY
#include <stdio.h>
#define SAY(...) fprintf(stderr, __VA_ARGS__)
#endif

#define WANT(call, answer) \
    do { \
        long got_ = (long)(call); \
        if (got_ != (long)(answer)) { \
            SAY("capi/tests/isolation.c:%d: %s: %ld, not %ld\n", __LINE__, #call, got_, (long)(answer)); \
            return 1; \
        } \
    } while (0)

enum { TIMES = 1000 };

static unsigned char memory[BSDUDP_MEMORY(512, 64)] __attribute__((aligned(BSDUDP_ALIGNMENT)));
static uint8_t buffer[1500];

/* ---- the host */

struct pool {
    uint32_t mbufs, clusters;
    int flooded, used, itself; /* the sizes of the sockets' receive queues; 0: none is set */
};

static int is_open(uint32_t *fd, uint16_t port, int size)
{
    const struct bsdudp_addr local = {0, port};
    *fd = (uint32_t)bsdudp_socket(&stack);
    WANT(bsdudp_bind(&stack, *fd, &local), 0);
    if (size != 0)
        WANT(bsdudp_setsockopt(&stack, *fd, BSDUDP_SO_RCVBUF, size), 0);
    WANT(bsdudp_getsockopt(&stack, *fd, BSDUDP_SO_RCVBUF), size);
    return 0;
}

static int boots(const struct pool *it)
{
    const struct bsdudp_config config = {HOST, BROADCAST, it->mbufs, it->clusters, 1500, 1};
    WANT(bsdudp_boot_in(&stack, &config, memory, sizeof memory), 0);
    return is_open(&flooded, FLOODED, it->flooded) || is_open(&used, USED, it->used) ||
           is_open(&itself, 0, it->itself);
}

/* Boots the host, and counts how many of TIMES sends of `len` bytes are refused, and of TIMES datagrams of that length
   are lost. In the end, no buffer is lost. */
static int silenced(int *count, const struct pool *pool, flood *more, size_t len)
{
    const struct bsdudp_addr to = {PEER, 5000};
    struct bsdudp_mbstat usage = {0, 0, 0, 0, 0, 0};
    unsigned i;
    WANT(boots(pool), 0);
    for (*count = 0, i = 0; i < TIMES; i++) {
        more(i);
        *count += bsdudp_sendto(&stack, used, &to, data, len) < 0;
        while (bsdudp_tx(&stack, buffer, sizeof buffer) > 0)
            continue;
        more(i);
        bsdudp_rx(&stack, packet, make_packet(packet, 5000, HOST, USED, i, data, len));
        *count += bsdudp_recvfrom(&stack, used, buffer, sizeof buffer, NULL) != (int)len;
    }
    WANT(bsdudp_close(&stack, flooded), 0);
    for (i = 0; i < 60; i++)
        bsdudp_tick(&stack);
    bsdudp_mbstat(&stack, &usage);
    WANT(usage.free_mbufs == pool->mbufs && usage.free_clusters == pool->clusters, 1);
    WANT(bsdudp_end(&stack), 0);
    return 0;
}

static flood *const floods[] = {whole, long_one, fragments, padded, unfinished, from_itself, mixed};
enum { FLOODS = sizeof floods / sizeof floods[0] };

/* The bounds of the queues fit into the pool, with what a send of the longest datagram needs (2 mbufs and a cluster), or
   its arrival (3 and one). */
static int with_sizes(void)
{
    static const struct pool pools[] = {{40, 7, 512, 1152, 1}, {64, 16, 1488, 1488, 1}, {512, 64, 8192, 16384, 1}};
    static const size_t lens[] = {0, 72, 400, 1100};
    size_t at, k, i;
    int count;
    for (at = 0; at < sizeof pools / sizeof pools[0]; at++) {
        const struct pool *it = &pools[at];
        WANT(BSDUDP_RCVBUF_MBUFS(it->flooded) + BSDUDP_RCVBUF_MBUFS(it->used) + 3 <= it->mbufs, 1);
        WANT(BSDUDP_RCVBUF_CLUSTERS(it->flooded) + BSDUDP_RCVBUF_CLUSTERS(it->used) + 1 <= it->clusters, 1);
        for (k = 0; k < FLOODS; k++)
            for (i = 0; i < sizeof lens / sizeof lens[0]; i++) {
                WANT(silenced(&count, it, floods[k], lens[i]), 0);
                WANT(count, 0);
            }
    }
    return 0;
}

/* Nearly all is lost in the pool of the device, except by two floods: a send drops unfinished datagrams, and fragments of
   the least size leave two mbufs, with which no datagram of three fragments becomes whole. */
static int without_sizes(void)
{
    static const struct pool pool = {40, 7, 0, 0, 0};
    size_t k;
    int count;
    for (k = 0; k < FLOODS; k++) {
        WANT(silenced(&count, &pool, floods[k], 1100), 0);
        WANT(count > 2 * TIMES * 9 / 10, floods[k] != unfinished && floods[k] != fragments);
    }
    return 0;
}

/* What a stranger still can do: drop an unfinished datagram, here one of which one fragment holds one of 64 clusters. 62
   packets of 228 bytes, the shortest that take a cluster, leave one for its second fragment; 63 don't. */
static int strangers(void)
{
    static const struct pool pool = {512, 64, 8192, 8192, 1};
    static uint8_t good[IP_HEAD + 8 + 2000], bytes[2000];
    const size_t len = make_packet(good, 5000, HOST, USED, 0xffff, bytes, sizeof bytes);
    unsigned count, i;
    for (count = 62; count <= 63; count++) {
        WANT(boots(&pool), 0);
        bsdudp_rx(&stack, piece, make_piece(good, len, 0, 1480));
        for (i = 0; i < count; i++)
            first_only(i);
        bsdudp_rx(&stack, piece, make_piece(good, len, 1480, 1480));
        WANT(bsdudp_recvfrom(&stack, used, bytes, sizeof bytes, NULL), count == 62 ? 2000 : -BSDUDP_EWOULDBLOCK);
        WANT(bsdudp_end(&stack), 0);
    }
    return 0;
}

int main(void)
{
    return with_sizes() || without_sizes() || strangers();
}
