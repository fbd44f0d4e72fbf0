/* A program compiled with the header of an earlier release, over the library of today: each call that was there, in
   memory of the size that the old macros give, with structs between marked bytes. With an argument it prints the sizes
   of the structs and the constants instead, which both headers must share. It prints the line of the first wrong
   result, and then exits with 1. */
#include "bsdudp.h"

#include <stdio.h>
#include <string.h>

#define WANT(call, answer) \
    do { \
        long got_ = (long)(call); \
        if (got_ != (long)(answer)) { \
            fprintf(stderr, "capi/tests/abi.c:%d: %s: %ld, not %ld\n", __LINE__, #call, got_, (long)(answer)); \
            return 1; \
        } \
    } while (0)

#ifndef CLUSTERS
#define CLUSTERS 16
#endif
enum { MBUFS = 64, MARKED = 32, MARK = 0xa5 };
#define ALIGNED __attribute__((aligned(BSDUDP_ALIGNMENT)))

/* A struct that the library fills, between marked bytes. */
#define BETWEEN(type, name) \
    struct { \
        unsigned char before[MARKED]; \
        struct type it; \
        unsigned char after[MARKED]; \
    } name; \
    memset(&name, MARK, sizeof name)
#define UNTOUCHED(name) (is_marked(name.before) && is_marked(name.after))

static unsigned char memory[MARKED + BSDUDP_ETHER_MEMORY(MBUFS, CLUSTERS) + MARKED] ALIGNED;
static unsigned char packet[BSDUDP_TX_ROOM], frame[BSDUDP_ETHER_ROOM], bytes[100];

static int is_marked(const unsigned char *at)
{
    int i;
    for (i = 0; i < MARKED; i++)
        if (at[i] != MARK)
            return 0;
    return 1;
}

/* Whether the bytes around the memory of a stack are as they were. */
static int is_kept(size_t len) { return is_marked(memory) && is_marked(memory + MARKED + len); }

static int sizes(void)
{
#define SIZE(type) printf(#type " %zu\n", sizeof(struct type))
#define NUMBER(name) printf(#name " %d\n", (int)name)
    SIZE(bsdudp), SIZE(bsdudp_config), SIZE(bsdudp_addr), SIZE(bsdudp_mbstat), SIZE(bsdudp_name), SIZE(bsdudp_next);
    SIZE(bsdudp_unfinished), SIZE(bsdudp_range), SIZE(bsdudp_link), SIZE(bsdudp_tallies), SIZE(bsdudp_neighbour);
    NUMBER(BSDUDP_ENXIO), NUMBER(BSDUDP_EBADF), NUMBER(BSDUDP_ENOMEM), NUMBER(BSDUDP_EACCES), NUMBER(BSDUDP_EINVAL);
    NUMBER(BSDUDP_EMFILE), NUMBER(BSDUDP_EDOM), NUMBER(BSDUDP_EWOULDBLOCK), NUMBER(BSDUDP_EDESTADDRREQ);
    NUMBER(BSDUDP_EMSGSIZE), NUMBER(BSDUDP_ENOPROTOOPT), NUMBER(BSDUDP_EOPNOTSUPP), NUMBER(BSDUDP_EADDRINUSE);
    NUMBER(BSDUDP_EADDRNOTAVAIL), NUMBER(BSDUDP_ENOBUFS), NUMBER(BSDUDP_EISCONN), NUMBER(BSDUDP_ECONNREFUSED);
    NUMBER(BSDUDP_EHOSTUNREACH), NUMBER(BSDUDP_EQUEUE), NUMBER(BSDUDP_SO_BROADCAST), NUMBER(BSDUDP_SO_REUSEPORT);
    NUMBER(BSDUDP_FIRST_FD), NUMBER(BSDUDP_SOCKETS), NUMBER(BSDUDP_TX_ROOM), NUMBER(BSDUDP_DATAGRAM);
    NUMBER(BSDUDP_PACKET), NUMBER(BSDUDP_ALIGNMENT), NUMBER(BSDUDP_ETHER_ROOM), NUMBER(BSDUDP_ETHER_FRAME);
    NUMBER(BSDUDP_TICK);
    return 0;
}

/* The queries of a stack with a socket in which datagrams wait. */
static int queries(struct bsdudp *s, uint32_t fd)
{
    BETWEEN(bsdudp_name, name);
    BETWEEN(bsdudp_next, next);
    BETWEEN(bsdudp_mbstat, usage);
    uint64_t number[3] = {7, 0, 7};
    WANT(bsdudp_getsockname(s, fd, &name.it), 0);
    WANT(bsdudp_next(s, fd, &next.it), 0);
    WANT(bsdudp_mbstat(s, &usage.it), 0);
    WANT(UNTOUCHED(name) && UNTOUCHED(next) && UNTOUCHED(usage), 1);
    WANT(name.it.local_port == 7 && next.it.len == 2 && usage.it.mbufs == MBUFS, 1);
    WANT(bsdudp_readable(s, &number[1]), 0);
    WANT(number[1], 1);
    WANT(bsdudp_counter(s, 0, &number[1]), 0);
    WANT(number[1] >= 1 && number[0] == 7 && number[2] == 7, 1);
    WANT(strcmp(bsdudp_counter_name(0), "ip.total"), 0);
    WANT(bsdudp_counter_cause(0) == NULL, 1);
    WANT(strcmp(bsdudp_error_name(-BSDUDP_EBADF), "EBADF"), 0);
    WANT(strlen(bsdudp_strerror(-BSDUDP_EBADF)) > 0 && strlen(bsdudp_version()) > 0, 1);
    return 0;
}

/* Sockets: a datagram to the stack's own address, and one that leaves. */
static int sockets(struct bsdudp *s)
{
    struct bsdudp_addr any = {0, 7}, own = {BSDUDP_IP(10, 0, 0, 1), 7}, other = {BSDUDP_IP(10, 0, 0, 2), 7};
    BETWEEN(bsdudp_addr, from);
    uint32_t fd;
    WANT(bsdudp_socket(s), BSDUDP_FIRST_FD);
    fd = BSDUDP_FIRST_FD;
    WANT(bsdudp_bind(s, fd, &any), 0);
    WANT(bsdudp_setsockopt(s, fd, BSDUDP_SO_BROADCAST, 1), 0);
    WANT(bsdudp_sendto(s, fd, &own, "hi", 2), 2);
    if (queries(s, fd))
        return 1;
    WANT(bsdudp_peek(s, fd, bytes, sizeof bytes, &from.it), 2);
    WANT(bsdudp_recvfrom(s, fd, bytes, sizeof bytes, &from.it), 2);
    WANT(UNTOUCHED(from) && from.it.port == 7 && memcmp(bytes, "hi", 2) == 0, 1);
    WANT(bsdudp_sendto(s, fd, &own, "long", 4), 4);
    WANT(bsdudp_recvfrom_trunc(s, fd, bytes, 2, &from.it), 4);
    WANT(UNTOUCHED(from) && memcmp(bytes, "lo", 2) == 0 && bytes[2] == 0, 1);
    WANT(bsdudp_connect(s, fd, &other), 0);
    WANT(bsdudp_send(s, fd, "hi", 2), 2);
    WANT(bsdudp_output_len(s), 1);
    WANT(bsdudp_next_packet(s), 30);
    return 0;
}

static int stack(void)
{
    struct bsdudp_config c = {BSDUDP_IP(10, 0, 0, 1), BSDUDP_IP(10, 0, 0, 255), MBUFS, CLUSTERS, 1500, 1};
    const size_t len = BSDUDP_MEMORY(MBUFS, CLUSTERS);
    BETWEEN(bsdudp, s);
    BETWEEN(bsdudp_unfinished, unfinished);
    BETWEEN(bsdudp_range, range);
    const struct bsdudp none = BSDUDP_NONE;
    uint64_t due[3] = {7, 0, 7};
    s.it = none;
    memset(memory, MARK, sizeof memory);
    WANT(strlen(bsdudp_boot_strerror(-BSDUDP_EINVAL, &c, NULL)) > 0, 1);
    WANT(bsdudp_boot_in(&s.it, &c, memory + MARKED, len), 0);
    if (sockets(&s.it))
        return 1;
    WANT(bsdudp_tx(&s.it, packet, sizeof packet), 30);
    WANT(bsdudp_mark(packet, 30, 1, 0), 0);
    WANT(bsdudp_rx(&s.it, packet, 30), 0);
    WANT(bsdudp_tick(&s.it), 0);
    WANT(bsdudp_tick_until(&s.it, 1000, &due[1]), BSDUDP_TICK);
    WANT(due[0] == 7 && due[1] == 1000 + BSDUDP_TICK && due[2] == 7, 1);
    WANT(bsdudp_unfinished_len(&s.it), 0);
    WANT(bsdudp_unfinished(&s.it, 0, &unfinished.it), -BSDUDP_EINVAL);
    WANT(bsdudp_unfinished_range(&s.it, 0, 0, &range.it), -BSDUDP_EINVAL);
    WANT(bsdudp_disconnect(&s.it, BSDUDP_FIRST_FD), 0);
    WANT(bsdudp_close(&s.it, BSDUDP_FIRST_FD), 0);
    WANT(bsdudp_end(&s.it), 0);
    WANT(UNTOUCHED(s) && UNTOUCHED(unfinished) && UNTOUCHED(range) && is_kept(len), 1);
    WANT(bsdudp_memory(&c) < len + BSDUDP_ALIGNMENT, 1);
    WANT(bsdudp_boot(&s.it, &c), 0);
    WANT(bsdudp_end(&s.it), 0);
    return 0;
}

static int host(void)
{
    struct bsdudp_config c = {BSDUDP_IP(10, 0, 0, 1), BSDUDP_IP(10, 0, 0, 255), MBUFS, CLUSTERS, 1500, 1};
    struct bsdudp_link link = {{2, 0, 0, 0, 0, 1}, 0xffffff00, 0, 0};
    const size_t len = BSDUDP_ETHER_MEMORY(MBUFS, CLUSTERS);
    BETWEEN(bsdudp, s);
    BETWEEN(bsdudp_tallies, tallies);
    BETWEEN(bsdudp_neighbour, neighbour);
    const struct bsdudp none = BSDUDP_NONE;
    uint64_t noproto[3] = {7, 0, 7};
    s.it = none;
    memset(memory, MARK, sizeof memory);
    WANT(bsdudp_ether_boot_in(&s.it, &c, &link, memory + MARKED, len), 0);
    if (sockets(&s.it))
        return 1;
    WANT(bsdudp_ether_transmit(&s.it, frame, sizeof frame), 42);
    WANT(bsdudp_ether_transmit(&s.it, frame, sizeof frame), 42);
    WANT(bsdudp_ether_receive(&s.it, frame, 42), 0);
    WANT(bsdudp_ether_last_error(&s.it, BSDUDP_FIRST_FD), 0);
    WANT(bsdudp_ether_address(&s.it), 1);
    WANT(bsdudp_ether_tallies(&s.it, &tallies.it), 0);
    WANT(bsdudp_ether_neighbour(&s.it, 0, &neighbour.it), 0);
    WANT(bsdudp_ether_noproto(&s.it, &noproto[1]), 0);
    WANT(noproto[0] == 7 && noproto[1] == 0 && noproto[2] == 7, 1);
    WANT(bsdudp_tick(&s.it), 0);
    WANT(bsdudp_ether_rehost(&s.it, &c, &link, memory + MARKED, len), 0);
    WANT(bsdudp_end(&s.it), 0);
    WANT(UNTOUCHED(s) && UNTOUCHED(tallies) && UNTOUCHED(neighbour) && is_kept(len), 1);
    WANT(bsdudp_ether_boot(&s.it, &c, &link), 0);
    WANT(bsdudp_end(&s.it), 0);
    return 0;
}

int main(int count, char **words)
{
    (void)words;
    return count > 1 ? sizes() : stack() || host();
}
