/* A host that changes its address: its sockets stay, what waits is lost, and a refusal leaves the old host as it was.
   It compiles as C99 and as C++, prints the line of the first wrong result, and then exits with 1. */
#include "bsdudp.h"

#include <stdio.h>
#include <string.h>

#define WANT(call, answer) \
    do { \
        long got_ = (long)(call); \
        if (got_ != (long)(answer)) { \
            fprintf(stderr, "capi/tests/rehost.c:%d: %s: %ld, not %ld\n", __LINE__, #call, got_, (long)(answer)); \
            return 1; \
        } \
    } while (0)

#define ALIGNED __attribute__((aligned(BSDUDP_ALIGNMENT)))

enum { OWN = 0x0a000001, ALL = 0x0a0000ff, NEW = 0x0a010209, NEW_ALL = 0x0a01ffff, LOOP = 0x7f000001 };
enum { PEER = 0x0a000002, FAR = 0x0b000001, LEN = BSDUDP_ETHER_MEMORY(64, 16) };

static unsigned char memory[2][BSDUDP_ETHER_MEMORY(64, 16)] ALIGNED;
static struct bsdudp host = BSDUDP_NONE;
static uint8_t frame[BSDUDP_ETHER_ROOM];

static const struct bsdudp_config old_config = {OWN, 0, 64, 16, 1500, 1}, new_config = {NEW, 0, 64, 16, 1500, 7};
static const struct bsdudp_link old_link = {{2, 0, 0, 0, 0, 1}, 0xffffff00, 0, 0},
                                new_link = {{2, 0, 0, 0, 0, 1}, 0xffff0000, 0, 0};

static int is_named(uint32_t fd, uint32_t ip, unsigned port, uint32_t peer, unsigned peer_port, int options)
{
    struct bsdudp_name name;
    WANT(bsdudp_getsockname(&host, fd, &name), 0);
    WANT(name.local_ip, ip);
    WANT(name.local_port, port);
    WANT(name.peer_ip, peer);
    WANT(name.peer_port, peer_port);
    WANT(name.broadcast + 2 * name.reuse_port, options);
    return 0;
}

static int opened(uint32_t ip, unsigned port, uint32_t peer, unsigned peer_port, int options)
{
    const struct bsdudp_addr local = {ip, (uint16_t)port}, to = {peer, (uint16_t)peer_port};
    const int fd = bsdudp_socket(&host);
    if (fd < 0 || bsdudp_setsockopt(&host, (uint32_t)fd, BSDUDP_SO_BROADCAST, options & 1) < 0 ||
        bsdudp_setsockopt(&host, (uint32_t)fd, BSDUDP_SO_REUSEPORT, options & 2) < 0 ||
        (port != 0 && bsdudp_bind(&host, (uint32_t)fd, &local) < 0) ||
        (peer_port != 0 && bsdudp_connect(&host, (uint32_t)fd, &to) < 0))
        return -1;
    return fd;
}

static int rehosted(const struct bsdudp_config *config, const struct bsdudp_link *link, int which, size_t len)
{
    return bsdudp_ether_rehost(&host, config, link, memory[which], len);
}

/* Datagrams to the host itself arrive at this socket, and nothing else of it changed. */
static int works(uint32_t ip, unsigned port, int fd)
{
    const struct bsdudp_addr to = {ip, (uint16_t)port};
    char bytes[4];
    const int sender = bsdudp_socket(&host);
    WANT(bsdudp_sendto(&host, (uint32_t)sender, &to, "here", 4), 4);
    WANT(bsdudp_recvfrom(&host, (uint32_t)fd, bytes, sizeof bytes, NULL), 4);
    WANT(bsdudp_close(&host, (uint32_t)sender), 0);
    return 0;
}

static int refusals(void)
{
    struct bsdudp_config c = new_config;
    struct bsdudp_link l = new_link;
    struct bsdudp_mbstat usage;
    int fd;
    WANT(rehosted(&c, &l, 0, LEN), -BSDUDP_ENXIO);
    WANT(bsdudp_boot_in(&host, &c, memory[0], LEN), -BSDUDP_EINVAL);
    c.bcast = NEW_ALL;
    WANT(bsdudp_boot_in(&host, &c, memory[0], LEN), 0);
    WANT(rehosted(&c, &l, 1, LEN), -BSDUDP_EOPNOTSUPP);
    WANT(bsdudp_end(&host), 0);
    WANT(bsdudp_ether_boot_in(&host, &old_config, &old_link, memory[0], LEN), 0);
    fd = opened(OWN, 7, 0, 0, 0);
    WANT(fd, 3);
    c = new_config, c.mbufs = 0;
    WANT(rehosted(&c, &l, 0, LEN), -BSDUDP_EDOM);
    c = new_config, c.addr = 0xe0000001;
    WANT(rehosted(&c, &l, 0, LEN), -BSDUDP_EINVAL);
    c = new_config, c.bcast = ALL;
    WANT(rehosted(&c, &l, 0, LEN), -BSDUDP_EINVAL);
    c = new_config, l.mask = 0xff00ff00;
    WANT(rehosted(&c, &l, 0, LEN), -BSDUDP_EINVAL);
    l = new_link, l.gateway = PEER;
    WANT(rehosted(&c, &l, 0, LEN), -BSDUDP_EINVAL);
    l = new_link;
    WANT(bsdudp_ether_rehost(&host, &c, &l, memory[1] + 1, LEN), -BSDUDP_EINVAL);
    WANT(rehosted(&c, &l, 0, LEN - BSDUDP_ALIGNMENT), -BSDUDP_ENOMEM);
    c.mbufs++;
    WANT(rehosted(&c, &l, 0, LEN), -BSDUDP_ENOMEM);
    WANT(bsdudp_ether_rehost(&host, &new_config, &l, NULL, LEN), -BSDUDP_ENOMEM);
    WANT(works(OWN, 7, fd), 0);
    WANT(is_named(3, OWN, 7, 0, 0, 0), 0);
    WANT(bsdudp_mbstat(&host, &usage), 0);
    WANT(usage.free_mbufs == 64 && usage.free_clusters == 16, 1);
    return bsdudp_end(&host);
}

/* Each kind of local address and of peer, with a gap between the descriptors, and what waits. */
static int moves(void)
{
    const struct bsdudp_addr to = {OWN, 9};
    struct bsdudp_neighbour neighbour;
    struct bsdudp_name name;
    uint64_t value;
    uint32_t loop;
    int sent;
    WANT(bsdudp_ether_boot_in(&host, &old_config, &old_link, memory[0], LEN), 0);
    WANT(opened(0, 0, 0, 0, 0), 3);
    WANT(opened(0, 9, 0, 0, 1), 4);
    WANT(opened(OWN, 10, 0, 0, 2), 5);
    WANT(opened(ALL, 11, 0, 0, 3), 6);
    WANT(opened(0, 1, 0, 0, 0), 7);
    WANT(opened(LOOP, 12, 0, 0, 0), 8);
    WANT(opened(0, 13, FAR, 5000, 0), 9);
    WANT(opened(0, 0, PEER, 6000, 0), 10);
    WANT(opened(ALL, 14, PEER, 6000, 0), 11);
    WANT(opened(0, 15, LOOP, 12, 0), 12);
    WANT(bsdudp_close(&host, 7), 0);
    WANT(is_named(10, OWN, 1024, PEER, 6000, 0), 0);
    WANT(is_named(9, OWN, 13, FAR, 5000, 0), 0);
    WANT(bsdudp_getsockname(&host, 12, &name), 0);
    loop = name.local_ip;
    if (loop == OWN)
        loop = NEW;
    WANT(bsdudp_sendto(&host, 3, &to, "lost", 4), 4); /* gives the socket a port */
    WANT(bsdudp_send(&host, 10, "lost", 4), 4);
    WANT(bsdudp_readable(&host, &value) == 0 && value == 2, 1);
    sent = bsdudp_ether_transmit(&host, frame, sizeof frame); /* the announcement; then a request for the neighbour */
    WANT(sent, 42);
    WANT(bsdudp_ether_transmit(&host, frame, sizeof frame), 42);
    WANT(bsdudp_ether_neighbour(&host, 0, &neighbour), 0);

    WANT(rehosted(&new_config, &new_link, 0, LEN), 0);
    WANT(is_named(3, 0, 1025, 0, 0, 0), 0);
    WANT(is_named(4, 0, 9, 0, 0, 1), 0);
    WANT(is_named(5, NEW, 10, 0, 0, 2), 0);
    WANT(is_named(6, NEW_ALL, 11, 0, 0, 3), 0);
    WANT(is_named(8, LOOP, 12, 0, 0, 0), 0);
    WANT(is_named(9, NEW, 13, FAR, 5000, 0), 0);
    WANT(is_named(10, NEW, 1024, PEER, 6000, 0), 0);
    WANT(is_named(11, NEW_ALL, 14, PEER, 6000, 0), 0);
    WANT(is_named(12, loop, 15, LOOP, 12, 0), 0);
    WANT(bsdudp_getsockname(&host, 7, &name), -BSDUDP_EBADF);
    WANT(bsdudp_getsockname(&host, 13, &name), -BSDUDP_EBADF);
    WANT(bsdudp_readable(&host, &value) == 0 && value == 0, 1);
    WANT(bsdudp_counter(&host, 22, &value) == 0 && value == 0, 1);
    WANT(bsdudp_ether_neighbour(&host, 0, &neighbour), -BSDUDP_EINVAL);
    WANT(works(NEW, 10, 5), 0);
    WANT(works(0, 9, 4), 0);
    WANT(bsdudp_ether_transmit(&host, frame, sizeof frame), 42);
    WANT(frame[28] == 10 && frame[29] == 1 && frame[30] == 2 && frame[31] == 9, 1); /* it announces the new one */
    WANT(bsdudp_ether_transmit(&host, frame, sizeof frame), 0);
    WANT(bsdudp_socket(&host), 7);
    return bsdudp_end(&host);
}

/* Sockets that share a port, one of which later gave up the option; and into other memory. */
static int shares(void)
{
    size_t k;
    WANT(bsdudp_ether_boot_in(&host, &old_config, &old_link, memory[0], LEN), 0);
    WANT(opened(0, 9, 0, 0, 2), 3);
    WANT(opened(0, 9, 0, 0, 2), 4);
    WANT(opened(OWN, 9, 0, 0, 2), 5);
    WANT(opened(OWN, 9, PEER, 1, 2), 6);
    WANT(opened(OWN, 9, PEER, 2, 2), 7);
    WANT(bsdudp_setsockopt(&host, 3, BSDUDP_SO_REUSEPORT, 0), 0);
    WANT(rehosted(&new_config, &new_link, 1, LEN), 0);
    for (k = 0; k < LEN; k++)
        memory[0][k] = 0xee;
    WANT(is_named(3, 0, 9, 0, 0, 0), 0);
    WANT(is_named(4, 0, 9, 0, 0, 2), 0);
    WANT(is_named(5, NEW, 9, 0, 0, 2), 0);
    WANT(is_named(6, NEW, 9, PEER, 1, 2), 0);
    WANT(is_named(7, NEW, 9, PEER, 2, 2), 0);
    WANT(works(NEW, 9, 5), 0);
    WANT(rehosted(&old_config, &old_link, 0, LEN), 0);
    WANT(works(OWN, 9, 5), 0);
    return bsdudp_end(&host);
}

/* All 64 sockets are open, so the call has none to spare. Each has another size of its receive queue, or none. */
static int full(void)
{
    uint32_t k;
    WANT(bsdudp_ether_boot_in(&host, &old_config, &old_link, memory[0], LEN), 0);
    for (k = 0; k < BSDUDP_SOCKETS; k++) {
        WANT(opened(k % 2 ? OWN : ALL, 100 + k, k % 3 ? 0 : PEER, k % 3 ? 0 : 5, (int)k % 4), 3 + k);
        if (k % 5 != 0)
            WANT(bsdudp_setsockopt(&host, 3 + k, BSDUDP_SO_RCVBUF, 65535 - (int)k), 0);
    }
    WANT(rehosted(&new_config, &new_link, 0, LEN), 0);
    for (k = 0; k < BSDUDP_SOCKETS; k++) {
        WANT(is_named(3 + k, k % 2 ? NEW : NEW_ALL, 100 + k, k % 3 ? 0 : PEER, k % 3 ? 0 : 5, (int)k % 4), 0);
        WANT(bsdudp_getsockopt(&host, 3 + k, BSDUDP_SO_RCVBUF), k % 5 != 0 ? 65535 - (long)k : 0);
    }
    WANT(bsdudp_socket(&host), -BSDUDP_EMFILE);
    return bsdudp_end(&host);
}

/* A host in memory from malloc stays in it, or takes other memory. The sanitizer finds what isn't freed. */
static int of_malloc(void)
{
    struct bsdudp_config more = new_config, less = new_config;
    more.clusters++;
    less.mbufs = 32;
    less.clusters = 8;
    WANT(bsdudp_ether_boot(&host, &old_config, &old_link), 0);
    WANT(opened(OWN, 9, 0, 0, 0), 3);
    WANT(bsdudp_ether_rehost(&host, &more, &new_link, NULL, 0), -BSDUDP_ENOMEM);
    WANT(works(OWN, 9, 3), 0);
    WANT(bsdudp_ether_rehost(&host, &new_config, &new_link, NULL, 0), 0);
    WANT(works(NEW, 9, 3), 0);
    WANT(bsdudp_ether_rehost(&host, &old_config, &old_link, NULL, 0), 0);
    WANT(bsdudp_ether_rehost(&host, &less, &new_link, NULL, 0), 0);
    WANT(bsdudp_ether_rehost(&host, &old_config, &old_link, NULL, 0), 0); /* the block is as long as before */
    WANT(works(OWN, 9, 3), 0);
    WANT(rehosted(&new_config, &new_link, 1, LEN), 0);
    WANT(works(NEW, 9, 3), 0);
    WANT(bsdudp_ether_rehost(&host, &old_config, &old_link, NULL, 0), -BSDUDP_ENOMEM);
    WANT(bsdudp_end(&host), 0);
    return -bsdudp_end(&host) - BSDUDP_ENXIO;
}

int main(void)
{
    return refusals() || moves() || shares() || full() || of_malloc();
}
