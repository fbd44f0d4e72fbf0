/* Every call on its plain path, and every refusal that it can have. It compiles as C99 and as C++, prints the line of
   the first wrong result, and then exits with 1. */
#include "bsdudp.h"

#include <limits.h>
#include <stdio.h>
#include <string.h>

#define WANT(call, answer) \
    do { \
        long got_ = (long)(call); \
        if (got_ != (long)(answer)) { \
            fprintf(stderr, "capi/tests/calls.c:%d: %s: %ld, not %ld\n", __LINE__, #call, got_, (long)(answer)); \
            return 1; \
        } \
    } while (0)

#define ALIGNED __attribute__((aligned(BSDUDP_ALIGNMENT)))

static unsigned char memory[BSDUDP_MEMORY(64, 16)] ALIGNED, other[BSDUDP_MEMORY(64, 16)] ALIGNED;
static uint8_t bytes[BSDUDP_DATAGRAM + 1], buffer[BSDUDP_DATAGRAM], packet[BSDUDP_PACKET + 1];
static struct bsdudp near_ = BSDUDP_NONE, far_ = BSDUDP_NONE;
static const struct bsdudp_addr any = {0, 7}, to_far = {0x0a000002, 7}, to_all = {0x0a0000ff, 7};

static struct bsdudp_config config(void)
{
    struct bsdudp_config c = {BSDUDP_IP(10, 0, 0, 1), 0x0a0000ff, 64, 16, 1500, 1};
    return c;
}

/* Every call returns ENXIO for a handle without a stack. */
static int without_a_stack(struct bsdudp *s)
{
    struct bsdudp_addr from = {1, 2};
    struct bsdudp_name name;
    struct bsdudp_next next;
    struct bsdudp_mbstat usage;
    struct bsdudp_unfinished datagram;
    struct bsdudp_range range;
    uint64_t number = 99;
    WANT(bsdudp_end(s), -BSDUDP_ENXIO);
    WANT(bsdudp_rx(s, packet, 20), -BSDUDP_ENXIO);
    WANT(bsdudp_tx(s, packet, sizeof packet), -BSDUDP_ENXIO);
    WANT(bsdudp_tick(s), -BSDUDP_ENXIO);
    WANT(bsdudp_socket(s), -BSDUDP_ENXIO);
    WANT(bsdudp_bind(s, 3, &any), -BSDUDP_ENXIO);
    WANT(bsdudp_bind_random(s, 3, &any, 9, 1), -BSDUDP_ENXIO);
    WANT(bsdudp_bind_random(s, 3, &any, 6, 1), -BSDUDP_ENXIO);
    WANT(bsdudp_connect(s, 3, &to_far), -BSDUDP_ENXIO);
    WANT(bsdudp_sendto(s, 3, &to_far, bytes, 1), -BSDUDP_ENXIO);
    WANT(bsdudp_send(s, 3, bytes, 1), -BSDUDP_ENXIO);
    WANT(bsdudp_recvfrom(s, 3, buffer, sizeof buffer, &from), -BSDUDP_ENXIO);
    WANT(bsdudp_peek(s, 3, buffer, sizeof buffer, &from), -BSDUDP_ENXIO);
    WANT(bsdudp_close(s, 3), -BSDUDP_ENXIO);
    WANT(bsdudp_setsockopt(s, 3, BSDUDP_SO_BROADCAST, 1), -BSDUDP_ENXIO);
    WANT(bsdudp_setsockopt(s, 3, 1, 1), -BSDUDP_ENXIO);
    WANT(bsdudp_setsockopt(s, 3, BSDUDP_SO_RCVBUF, 1), -BSDUDP_ENXIO);
    WANT(bsdudp_setsockopt(s, 3, BSDUDP_SO_RCVBUF, 0), -BSDUDP_ENXIO);
    WANT(bsdudp_getsockopt(s, 3, BSDUDP_SO_RCVBUF), -BSDUDP_ENXIO);
    WANT(bsdudp_getsockopt(s, 3, 1), -BSDUDP_ENXIO);
    WANT(bsdudp_getsockname(s, 3, &name), -BSDUDP_ENXIO);
    WANT(bsdudp_recvfrom_trunc(s, 3, buffer, sizeof buffer, &from), -BSDUDP_ENXIO);
    WANT(bsdudp_disconnect(s, 3), -BSDUDP_ENXIO);
    WANT(bsdudp_next(s, 3, &next), -BSDUDP_ENXIO);
    WANT(bsdudp_readable(s, &number), -BSDUDP_ENXIO);
    WANT(bsdudp_output_len(s), -BSDUDP_ENXIO);
    WANT(bsdudp_next_packet(s), -BSDUDP_ENXIO);
    WANT(bsdudp_unfinished_len(s), -BSDUDP_ENXIO);
    WANT(bsdudp_unfinished(s, 0, &datagram), -BSDUDP_ENXIO);
    WANT(bsdudp_unfinished_range(s, 0, 0, &range), -BSDUDP_ENXIO);
    WANT(bsdudp_counter(s, 0, &number), -BSDUDP_ENXIO);
    WANT(bsdudp_mbstat(s, &usage), -BSDUDP_ENXIO);
    WANT(from.ip == 1 && from.port == 2 && number == 99, 1);
    return 0;
}

/* Memory that isn't aligned is the last fault of a configuration, and not a byte of it is touched. */
static int misaligned(void)
{
    struct bsdudp_config c = config();
    size_t at, k;
    for (at = 1; at < BSDUDP_ALIGNMENT; at++) {
        WANT(bsdudp_boot_in(&near_, &c, memory + at, sizeof memory - at), -BSDUDP_EINVAL);
        WANT(bsdudp_boot_in(&near_, &c, memory + at, 0), -BSDUDP_EINVAL);
        WANT(bsdudp_socket(&near_), -BSDUDP_ENXIO);
    }
    for (k = 0; k < sizeof memory; k++)
        WANT(memory[k], 0);
    c.clusters = 4097;
    WANT(bsdudp_boot_in(&near_, &c, memory + 1, sizeof memory - 1), -BSDUDP_EDOM);
    return 0;
}

/* What boot says of a wrong setting: the name of the member, and nothing about sockets. */
static int texts(void)
{
    static const struct bsdudp_config wrong[] = {
        {0x0a000001, 0x0a0000ff, 0, 16, 1500, 1},       {0x0a000001, 0x0a0000ff, 65536, 16, 1500, 1},
        {0x0a000001, 0x0a0000ff, 64, 4097, 1500, 1},    {0x0a000001, 0x0a0000ff, 64, 16, 67, 1},
        {0x0a000001, 0x0a0000ff, 64, 16, 4353, 1},      {0, 0x0a0000ff, 64, 16, 1500, 1},
        {0x0a000001, 0, 64, 16, 1500, 1},               {0x0a000001, 0xffffffff, 64, 16, 1500, 1},
        {0xe0000001, 0x0a0000ff, 64, 16, 1500, 1},      {0x7f000001, 0x0a0000ff, 64, 16, 1500, 1},
        {0x0a000001, 0x0a000001, 64, 16, 1500, 1},
    };
    static const char *const names[] = {"mbufs must", "mbufs must", "clusters must", "mtu must", "mtu must",
                                        "addr must", "bcast must", "bcast must", "addr must", "addr must",
                                        "bcast must differ from addr"};
    const struct bsdudp_config right = config();
    size_t i;
    for (i = 0; i < sizeof wrong / sizeof wrong[0]; i++) {
        int answer = bsdudp_boot_in(&near_, &wrong[i], memory, sizeof memory);
        const char *text = bsdudp_boot_strerror(answer, &wrong[i], NULL);
        WANT(answer, i < 3 ? -BSDUDP_EDOM : -BSDUDP_EINVAL);
        WANT(strncmp(text, names[i], strlen(names[i])), 0);
        WANT(strstr(text, "socket") == NULL, 1);
    }
    i = (size_t)-bsdudp_boot_in(&near_, &right, memory + 1, sizeof memory - 1);
    WANT(strncmp(bsdudp_boot_strerror(-(int)i, &right, NULL), "memory must be aligned", 22), 0);
    i = (size_t)-bsdudp_boot_in(&near_, &right, memory, 1000);
    WANT(strncmp(bsdudp_boot_strerror(-(int)i, &right, NULL), "len is too small", 16), 0);
    WANT(strcmp(bsdudp_boot_strerror(0, &right, NULL), "ok"), 0);
    WANT(strstr(bsdudp_boot_strerror(-BSDUDP_ENXIO, &right, NULL), "already") != NULL, 1);
    return 0;
}

/* What boot refuses, and how much memory it takes. */
static int boots(void)
{
    struct bsdudp_config c = config();
    size_t len;
    c.mbufs = 0;
    WANT(bsdudp_boot_in(&near_, &c, memory, sizeof memory), -BSDUDP_EDOM);
    c = config(), c.clusters = 4097;
    WANT(bsdudp_boot_in(&near_, &c, memory, sizeof memory), -BSDUDP_EDOM);
    WANT(bsdudp_boot(&near_, &c), -BSDUDP_EDOM);
    c = config(), c.mtu = 67;
    WANT(bsdudp_boot_in(&near_, &c, memory, sizeof memory), -BSDUDP_EINVAL);
    WANT(bsdudp_boot(&near_, &c), -BSDUDP_EINVAL);
    c = config(), c.mtu = 4353;
    WANT(bsdudp_boot_in(&near_, &c, memory, sizeof memory), -BSDUDP_EINVAL);
    c = config(), c.addr = 0x7f000001;
    WANT(bsdudp_boot_in(&near_, &c, memory, sizeof memory), -BSDUDP_EINVAL);
    c = config(), c.bcast = c.addr;
    WANT(bsdudp_boot_in(&near_, &c, memory, sizeof memory), -BSDUDP_EINVAL);
    c = config();
    WANT(bsdudp_memory(&c), sizeof memory);
    for (len = 0; len < 40000; len += 97) /* each block of boot is refused in turn */
        WANT(bsdudp_boot_in(&near_, &c, memory, len), -BSDUDP_ENOMEM);
    WANT(bsdudp_boot_in(&near_, &c, memory, sizeof memory), 0);
    WANT(bsdudp_boot_in(&near_, &c, other, sizeof other), -BSDUDP_ENXIO);
    WANT(bsdudp_boot_in(&near_, &c, other + 1, sizeof other - 1), -BSDUDP_ENXIO);
    WANT(bsdudp_boot(&near_, &c), -BSDUDP_ENXIO);
    c.addr = 0x0a000002;
    WANT(bsdudp_boot_in(&far_, &c, other, sizeof other), 0);
    return 0;
}

/* Sockets, their names and options. */
static int sockets(void)
{
    struct bsdudp_addr wrong = {0x0b000001, 7}, nowhere = {0xe0000001, 7}, portless = {0x0a000002, 0};
    struct bsdudp_name name;
    int fd;
    WANT(bsdudp_socket(&near_), 3);
    WANT(bsdudp_socket(&far_), 3);
    WANT(bsdudp_getsockname(&near_, 4, &name), -BSDUDP_EBADF);
    WANT(bsdudp_bind(&far_, 4, &any), -BSDUDP_EBADF);
    WANT(bsdudp_bind(&far_, 3, &wrong), -BSDUDP_EADDRNOTAVAIL);
    WANT(bsdudp_bind(&far_, 3, &any), 0);
    WANT(bsdudp_bind(&far_, 3, &any), -BSDUDP_EINVAL);
    WANT(bsdudp_socket(&far_), 4);
    WANT(bsdudp_bind(&far_, 4, &any), -BSDUDP_EADDRINUSE);
    WANT(bsdudp_connect(&near_, 5, &to_far), -BSDUDP_EBADF);
    WANT(bsdudp_connect(&near_, 3, &portless), -BSDUDP_EADDRNOTAVAIL);
    WANT(bsdudp_connect(&near_, 3, &nowhere), -BSDUDP_EHOSTUNREACH);
    WANT(bsdudp_setsockopt(&near_, 5, BSDUDP_SO_BROADCAST, 1), -BSDUDP_EBADF);
    WANT(bsdudp_setsockopt(&near_, 5, 1, 1), -BSDUDP_EBADF);
    WANT(bsdudp_setsockopt(&near_, 3, 1, 1), -BSDUDP_ENOPROTOOPT);
    WANT(bsdudp_getsockopt(&near_, 5, BSDUDP_SO_RCVBUF), -BSDUDP_EBADF);
    WANT(bsdudp_getsockopt(&near_, 3, 1), -BSDUDP_ENOPROTOOPT);
    WANT(bsdudp_setsockopt(&near_, 3, BSDUDP_SO_REUSEPORT, 1), 0);
    WANT(bsdudp_connect(&near_, 3, &to_far), 0);
    WANT(bsdudp_getsockname(&near_, 3, &name), 0);
    WANT(name.local_ip, 0x0a000001);
    WANT(name.local_port, 1024);
    WANT(name.peer_ip, 0x0a000002);
    WANT(name.peer_port, 7);
    WANT(name.broadcast, 0);
    WANT(name.reuse_port, 1);
    for (fd = 4; fd < 67; fd++)
        WANT(bsdudp_socket(&near_), fd);
    WANT(bsdudp_socket(&near_), -BSDUDP_EMFILE);
    for (fd = 66; fd > 3; fd--)
        WANT(bsdudp_close(&near_, (uint32_t)fd), 0);
    WANT(bsdudp_close(&near_, 4), -BSDUDP_EBADF);
    return 0;
}

/* The least size of a receive queue that holds one datagram of this length, by tests at all sizes from 1 on. */
static int least_size(size_t len)
{
    const struct bsdudp_addr to = {0x0a000002, 9};
    int size = 0, came = -1;
    while (came < 0 && ++size < 65535) {
        bsdudp_setsockopt(&far_, 4, BSDUDP_SO_RCVBUF, size);
        bsdudp_sendto(&near_, 4, &to, bytes, len);
        bsdudp_rx(&far_, packet, (size_t)bsdudp_tx(&near_, packet, sizeof packet));
        came = bsdudp_recvfrom(&far_, 4, buffer, sizeof buffer, NULL);
    }
    return size;
}

/* The size of a receive queue: refusals, what a new socket has, and what it holds. The least sizes follow from the mbufs
   of the datagram: up to 72 bytes are in one with the headers, up to 179 in two, more in a cluster; the address has one
   more. They are the bytes with 16 for the address, or half of 128 bytes for each mbuf and 2,048 for the cluster. */
static int sizes(void)
{
    static const int wrong[] = {0, -1, 65536, INT_MIN, INT_MAX};
    const struct bsdudp_addr local = {0, 9};
    size_t i;
    WANT(bsdudp_setsockopt(&far_, 5, BSDUDP_SO_RCVBUF, 1), -BSDUDP_EBADF);
    WANT(bsdudp_setsockopt(&far_, 5, BSDUDP_SO_RCVBUF, 0), -BSDUDP_EBADF);
    for (i = 0; i < sizeof wrong / sizeof wrong[0]; i++)
        WANT(bsdudp_setsockopt(&far_, 4, BSDUDP_SO_RCVBUF, wrong[i]), -BSDUDP_EINVAL);
    WANT(bsdudp_getsockopt(&far_, 4, BSDUDP_SO_RCVBUF), 0);
    WANT(bsdudp_setsockopt(&far_, 4, BSDUDP_SO_RCVBUF, 65535), 0);
    WANT(bsdudp_getsockopt(&far_, 4, BSDUDP_SO_RCVBUF), 65535);
    WANT(bsdudp_setsockopt(&far_, 4, BSDUDP_SO_RCVBUF, 0), -BSDUDP_EINVAL);
    WANT(bsdudp_getsockopt(&far_, 4, BSDUDP_SO_RCVBUF), 65535);
    WANT(bsdudp_getsockopt(&far_, 3, BSDUDP_SO_RCVBUF), 0);
    WANT(bsdudp_getsockopt(&far_, 4, BSDUDP_SO_BROADCAST), 0);
    WANT(bsdudp_getsockopt(&far_, 4, BSDUDP_SO_REUSEPORT), 0);
    WANT(bsdudp_setsockopt(&far_, 4, BSDUDP_SO_BROADCAST, 1), 0);
    WANT(bsdudp_getsockopt(&far_, 4, BSDUDP_SO_BROADCAST), 1);
    WANT(bsdudp_getsockopt(&far_, 4, BSDUDP_SO_REUSEPORT), 0);
    WANT(bsdudp_setsockopt(&far_, 4, BSDUDP_SO_REUSEPORT, -1), 0);
    WANT(bsdudp_getsockopt(&far_, 4, BSDUDP_SO_REUSEPORT), 1);
    WANT(bsdudp_bind(&far_, 4, &local), 0);
    WANT(bsdudp_socket(&near_), 4);
    WANT(least_size(0), 128);
    WANT(least_size(72), 128);
    WANT(least_size(73), 192);
    WANT(least_size(176), 192);
    WANT(least_size(179), 195);
    WANT(least_size(180), 1152);
    WANT(least_size(1136), 1152);
    WANT(least_size(1137), 1153);
    WANT(least_size(1472), 1488);
    WANT(bsdudp_close(&near_, 4), 0);
    WANT(bsdudp_close(&far_, 4), 0);
    WANT(bsdudp_socket(&far_), 4);
    WANT(bsdudp_getsockopt(&far_, 4, BSDUDP_SO_RCVBUF), 0);
    WANT(BSDUDP_RCVBUF_MBUFS(1488), 23);
    WANT(BSDUDP_RCVBUF_CLUSTERS(1488), 1);
    WANT(BSDUDP_RCVBUF_MBUFS(65535), 1023);
    WANT(BSDUDP_RCVBUF_CLUSTERS(65535), 60);
    return 0;
}

/* The port that a number draws from 7 to 10 at a new socket of far, which then closes. */
static int drawn(uint32_t random)
{
    const int fd = bsdudp_socket(&far_), port = bsdudp_bind_random(&far_, (uint32_t)fd, &any, 10, random);
    struct bsdudp_name name = {0, 0, 0, 0, 0, 0};
    bsdudp_getsockname(&far_, (uint32_t)fd, &name);
    bsdudp_close(&far_, (uint32_t)fd);
    return port < 0 || name.local_port == port ? port : 0;
}

/* A port by a random number. Port 7 is in use. */
static int random_ports(void)
{
    const struct bsdudp_addr none = {0, 0}, last = {0, 65535}, wrong = {0x0b000001, 7}, own = {0x0a000002, 65534};
    struct bsdudp_name name;
    int fd;
    WANT(bsdudp_bind_random(&far_, 5, &any, 9, 1), -BSDUDP_EBADF);
    WANT(bsdudp_bind_random(&far_, 5, &any, 6, 1), -BSDUDP_EBADF);
    WANT(bsdudp_bind_random(&far_, 3, &any, 9, 1), -BSDUDP_EINVAL);
    WANT(bsdudp_bind_random(&far_, 4, &any, 6, 1), -BSDUDP_EINVAL);
    WANT(bsdudp_bind_random(&far_, 4, &none, 9, 1), -BSDUDP_EINVAL);
    WANT(bsdudp_bind_random(&far_, 4, &none, 0, 1), -BSDUDP_EINVAL);
    WANT(bsdudp_bind_random(&far_, 4, &wrong, 9, 1), -BSDUDP_EADDRNOTAVAIL);
    WANT(bsdudp_bind_random(&far_, 4, &any, 7, 1), -BSDUDP_EADDRINUSE);
    WANT(bsdudp_getsockname(&far_, 4, &name), 0);
    WANT(name.local_ip == 0 && name.local_port == 0, 1);
    WANT(drawn(1), 8);
    WANT(drawn(3), 10);
    WANT(drawn(4 * 9 + 2), 9);
    WANT(drawn(UINT32_MAX), 10);
    WANT(drawn(0), 8); /* the one after 7 */
    WANT(bsdudp_bind_random(&far_, 4, &any, 10, 3), 10);
    WANT(drawn(3), 8); /* the first one after the last, and 7 is in use */
    WANT(bsdudp_socket(&far_), 5);
    WANT(bsdudp_bind_random(&far_, 5, &any, 10, 1), 8);
    WANT(drawn(UINT32_MAX), 9); /* 10, 7 and 8 are in use */
    WANT(bsdudp_socket(&far_), 6);
    WANT(bsdudp_bind_random(&far_, 6, &any, 9, UINT32_MAX), 9); /* the number draws 7; no sum may wrap */
    WANT(bsdudp_close(&far_, 6) || bsdudp_close(&far_, 5), 0);
    WANT(bsdudp_socket(&far_), 5);
    WANT(bsdudp_bind_random(&far_, 5, &own, 65535, UINT32_MAX), 65535);
    WANT(bsdudp_getsockname(&far_, 5, &name), 0);
    WANT(name.local_ip == own.ip && name.local_port == 65535, 1);
    WANT(bsdudp_socket(&far_), 6);
    WANT(bsdudp_bind_random(&far_, 6, &last, 65535, 7), -BSDUDP_EADDRINUSE);
    WANT(bsdudp_bind_random(&far_, 6, &own, 65535, 1), 65534);
    for (fd = 7; fd < 67; fd++) { /* all others from 11 on, so that the last number finds one free port of 64 */
        WANT(bsdudp_socket(&far_), fd);
        WANT(bsdudp_bind_random(&far_, (uint32_t)fd, &any, 70, 4), fd == 7 ? 11 : fd + 4);
    }
    WANT(bsdudp_close(&far_, 66), 0);
    WANT(bsdudp_socket(&far_), 66);
    WANT(bsdudp_bind_random(&far_, 66, &any, 65535, 3), 70);
    for (fd = 66; fd > 4; fd--)
        WANT(bsdudp_close(&far_, (uint32_t)fd), 0);
    return 0;
}

/* Datagrams from one stack to the other. */
static int traffic(void)
{
    struct bsdudp_addr from = {0, 0};
    struct bsdudp_next next;
    uint64_t set;
    int i, len;
    for (i = 0; i < BSDUDP_DATAGRAM; i++)
        bytes[i] = (uint8_t)(i % 251);
    WANT(bsdudp_send(&near_, 4, bytes, 1), -BSDUDP_EBADF);
    WANT(bsdudp_sendto(&near_, 3, &to_far, bytes, 1), -BSDUDP_EISCONN);
    WANT(bsdudp_send(&near_, 3, bytes, BSDUDP_DATAGRAM + 1), -BSDUDP_EMSGSIZE);
    WANT(bsdudp_send(&far_, 3, bytes, 1), -BSDUDP_EDESTADDRREQ);
    WANT(bsdudp_sendto(&far_, 3, &to_all, bytes, 1), -BSDUDP_EACCES);
    WANT(bsdudp_setsockopt(&far_, 3, BSDUDP_SO_BROADCAST, 1), 0);
    WANT(bsdudp_sendto(&far_, 3, &to_all, bytes, 1473), -BSDUDP_EMSGSIZE);
    WANT(bsdudp_output_len(&near_), 0);
    WANT(bsdudp_next_packet(&near_), 0);
    WANT(bsdudp_send(&near_, 3, bytes, 3000), 3000);
    WANT(bsdudp_output_len(&near_), 3);
    WANT(bsdudp_next_packet(&near_), 1500);
    WANT(bsdudp_tx(&near_, packet, 1500 - 1), -BSDUDP_EMSGSIZE);
    while ((len = bsdudp_tx(&near_, packet, sizeof packet)) > 0)
        WANT(bsdudp_rx(&far_, packet, (size_t)len), 0);
    WANT(len, 0);
    WANT(bsdudp_readable(&far_, &set), 0);
    WANT(set, 1);
    WANT(bsdudp_next(&far_, 3, &next), 0);
    WANT(next.ip, 0x0a000001);
    WANT(next.port, 1024);
    WANT(next.len, 3000);
    WANT(next.waiting, 1);
    WANT(bsdudp_recvfrom(&far_, 5, buffer, sizeof buffer, &from), -BSDUDP_EBADF);
    WANT(bsdudp_peek(&far_, 5, buffer, sizeof buffer, &from), -BSDUDP_EBADF);
    WANT(from.ip == 0 && from.port == 0, 1);
    WANT(bsdudp_peek(&far_, 3, buffer, 1, NULL), 1);
    WANT(bsdudp_peek(&far_, 3, buffer, sizeof buffer, &from), 3000);
    WANT(memcmp(buffer, bytes, 3000), 0);
    WANT(from.ip == 0x0a000001 && from.port == 1024, 1);
    memset(buffer, 0, sizeof buffer);
    from.ip = from.port = 0;
    WANT(bsdudp_recvfrom(&far_, 3, buffer, 2999, &from), 2999);
    WANT(memcmp(buffer, bytes, 2999), 0);
    WANT(from.ip == 0x0a000001 && from.port == 1024, 1);
    WANT(bsdudp_recvfrom(&far_, 3, buffer, sizeof buffer, &from), -BSDUDP_EWOULDBLOCK);
    WANT(bsdudp_peek(&far_, 3, buffer, sizeof buffer, &from), -BSDUDP_EWOULDBLOCK);
    WANT(bsdudp_next(&far_, 3, &next), -BSDUDP_EWOULDBLOCK);
    WANT(bsdudp_next(&far_, 5, &next), -BSDUDP_EBADF);
    WANT(bsdudp_send(&near_, 3, bytes, 0), 0);
    WANT(bsdudp_tx(&near_, packet, sizeof packet), 28);
    WANT(bsdudp_rx(&far_, packet, 28), 0);
    WANT(bsdudp_recvfrom(&far_, 3, buffer, 0, NULL), 0);
    for (i = 0; i < 3; i++) {
        WANT(bsdudp_send(&near_, 3, bytes, 8), 8);
        WANT(bsdudp_rx(&far_, packet, (size_t)bsdudp_tx(&near_, packet, sizeof packet)), 0);
    }
    WANT(bsdudp_recvfrom_trunc(&far_, 5, buffer, 4, &from), -BSDUDP_EBADF);
    WANT(bsdudp_recvfrom_trunc(&far_, 3, buffer, 4, &from), 8);
    WANT(bsdudp_recvfrom_trunc(&far_, 3, buffer, 8, NULL), 8);
    WANT(bsdudp_recvfrom(&far_, 3, buffer, 4, NULL), 4);
    WANT(bsdudp_recvfrom_trunc(&far_, 3, buffer, 4, &from), -BSDUDP_EWOULDBLOCK);
    WANT(bsdudp_rx(&near_, packet, BSDUDP_PACKET + 1), -BSDUDP_EMSGSIZE);
    WANT(bsdudp_rx(&near_, packet, 0), 0);
    WANT(bsdudp_tick(&near_), 0);
    return 0;
}

/* A datagram of 3,008 bytes after its IP header, fragmented by hand: its last packet, then its first, arrive at far. */
static int unfinished(void)
{
    struct bsdudp_unfinished datagram = {0, 0, 0, 0, 0, 0, 0};
    struct bsdudp_range range = {0, 0, 0};
    struct bsdudp_addr from;
    static uint8_t cut[3][1500];
    int i, k;
    WANT(bsdudp_unfinished_len(&far_), 0);
    WANT(bsdudp_unfinished(&far_, 0, &datagram), -BSDUDP_EINVAL);
    WANT(bsdudp_send(&near_, 3, bytes, 3000), 3000);
    for (i = 0; i < 3; i++)
        WANT(bsdudp_tx(&near_, cut[i], sizeof cut[i]), i < 2 ? 1500 : 20 + 3008 - 2 * 1480);
    WANT(bsdudp_rx(&far_, cut[2], sizeof cut[2]), 0);
    for (k = 0; k < 2; k++)
        WANT(bsdudp_tick(&far_), 0);
    WANT(bsdudp_rx(&far_, cut[0], sizeof cut[0]), 0);
    WANT(bsdudp_unfinished_len(&far_), 1);
    WANT(bsdudp_unfinished(&far_, 1, &datagram), -BSDUDP_EINVAL);
    WANT(bsdudp_unfinished(&far_, 0, &datagram), 0);
    WANT(datagram.source, 0x0a000001);
    WANT(datagram.destination, 0x0a000002);
    WANT(datagram.id, cut[0][4] << 8 | cut[0][5]);
    WANT(datagram.protocol, 17);
    WANT(datagram.ticks, 58);
    WANT(datagram.bytes, 1480 + 48);
    WANT(datagram.ranges, 2);
    WANT(bsdudp_unfinished_range(&far_, 0, 0, &range), 0);
    WANT(range.offset == 0 && range.len == 1480 && range.more == 1, 1);
    WANT(bsdudp_unfinished_range(&far_, 0, 1, &range), 0);
    WANT(range.offset == 2960 && range.len == 48 && range.more == 0, 1);
    WANT(bsdudp_unfinished_range(&far_, 0, 2, &range), -BSDUDP_EINVAL);
    WANT(bsdudp_unfinished_range(&far_, 1, 0, &range), -BSDUDP_EINVAL);
    WANT(range.offset == 2960 && range.len == 48 && range.more == 0, 1);
    WANT(bsdudp_rx(&far_, cut[1], sizeof cut[1]), 0);
    WANT(bsdudp_unfinished_len(&far_), 0);
    WANT(bsdudp_recvfrom(&far_, 3, buffer, sizeof buffer, &from), 3000);
    WANT(memcmp(buffer, bytes, 3000), 0);
    return 0;
}

/* A pool and a queue that are full, and what the stack counts. */
static int limits(void)
{
    struct bsdudp_mbstat usage;
    uint64_t value = 0;
    int i;
    for (i = 0; i < BSDUDP_QUEUE; i++)
        WANT(bsdudp_send(&near_, 3, bytes, 10), 10);
    WANT(bsdudp_send(&near_, 3, bytes, 10), -BSDUDP_EQUEUE);
    WANT(bsdudp_send(&near_, 3, bytes, BSDUDP_DATAGRAM), -BSDUDP_ENOBUFS);
    WANT(bsdudp_mbstat(&near_, &usage), 0);
    WANT(usage.mbufs, 64);
    WANT(usage.clusters, 16);
    WANT(usage.free_mbufs, 64 - BSDUDP_QUEUE);
    WANT(usage.free_clusters, 16);
    WANT(usage.refs, 0);
    WANT(usage.most, 0);
    WANT(bsdudp_counter(&near_, 0, &value), 0);
    WANT(value, 1);
    WANT(bsdudp_counter(&near_, BSDUDP_COUNTERS, &value), -BSDUDP_EINVAL);
    WANT(strcmp(bsdudp_counter_name(0), "ip.total"), 0);
    WANT(bsdudp_counter_name(BSDUDP_COUNTERS - 1) != NULL, 1);
    WANT(bsdudp_counter_name(BSDUDP_COUNTERS) == NULL, 1);
    WANT(bsdudp_counter_name(UINT32_MAX) == NULL, 1);
    WANT(bsdudp_counter_cause(0) == NULL, 1);
    WANT(strcmp(bsdudp_counter_cause(1), "packet shorter than a header"), 0);
    WANT(bsdudp_counter_cause(BSDUDP_COUNTERS) == NULL, 1);
    WANT(strcmp(bsdudp_error_name(-BSDUDP_EADDRINUSE), "EADDRINUSE"), 0);
    WANT(strcmp(bsdudp_error_name(-BSDUDP_ENOBUFS), "ENOBUFS"), 0);
    WANT(strcmp(bsdudp_error_name(-BSDUDP_EQUEUE), "ENOBUFS"), 0);
    WANT(bsdudp_error_name(0) == NULL, 1);
    WANT(bsdudp_error_name(BSDUDP_EADDRINUSE) == NULL, 1);
    WANT(bsdudp_error_name(-1) == NULL, 1);
    WANT(bsdudp_error_name(INT_MIN) == NULL, 1);
    WANT(strcmp(bsdudp_strerror(-BSDUDP_EBADF), "the descriptor is not open"), 0);
    WANT(strcmp(bsdudp_strerror(3), "ok"), 0);
    WANT(strcmp(bsdudp_strerror(INT_MAX), "ok"), 0);
    WANT(strcmp(bsdudp_strerror(-1), "unknown"), 0);
    WANT(strcmp(bsdudp_strerror(INT_MIN), "unknown"), 0);
    WANT(strncmp(bsdudp_version(), BSDUDP_VERSION, strlen(BSDUDP_VERSION)), 0); /* or that of an unproved build */
    return 0;
}

/* A socket that is disconnected keeps its port, and can send to any address. */
static int disconnects(void)
{
    struct bsdudp_name name;
    WANT(bsdudp_disconnect(&near_, 9), -BSDUDP_EBADF);
    WANT(bsdudp_disconnect(&near_, 3), 0);
    WANT(bsdudp_getsockname(&near_, 3, &name), 0);
    WANT(name.peer_ip == 0 && name.peer_port == 0 && name.local_ip == 0 && name.local_port == 1024, 1);
    WANT(bsdudp_send(&near_, 3, bytes, 1), -BSDUDP_EDESTADDRREQ);
    WANT(bsdudp_disconnect(&near_, 3), 0);
    WANT(bsdudp_getsockname(&near_, 3, &name), 0);
    WANT(name.local_port, 1024);
    return 0;
}

/* Ticks by a clock: a fragment expires after 60 of them, and a clock that is set back does no harm. */
static int ticks(void)
{
    static const struct bsdudp none = BSDUDP_NONE;
    struct bsdudp dead = none;
    uint64_t due = 0, dead_due = 0;
    int i;
    WANT(bsdudp_unfinished_len(&far_), 0);
    WANT(bsdudp_disconnect(&far_, 3), 0);
    for (i = 0; i < BSDUDP_QUEUE; i++)
        WANT(bsdudp_tx(&near_, packet, sizeof packet), 38);
    WANT(bsdudp_sendto(&near_, 3, &to_far, bytes, 3000), 3000);
    WANT(bsdudp_rx(&far_, packet, (size_t)bsdudp_tx(&near_, packet, sizeof packet)), 0);
    WANT(bsdudp_unfinished_len(&far_), 1);
    WANT(bsdudp_tick_until(&far_, 1000, &due), 500);
    WANT(due, 1500);
    WANT(bsdudp_tick_until(&far_, 1001, &due), 499);
    WANT(bsdudp_tick_until(&far_, 1499, &due), 1);
    WANT(bsdudp_tick_until(&far_, 1500, &due), 500);
    WANT(bsdudp_tick_until(&far_, 1500 + 58 * 500 + 499, &due), 1);
    WANT(bsdudp_unfinished_len(&far_), 1);
    WANT(bsdudp_tick_until(&far_, 1500 + 59 * 500 + 200, &due), 300);
    WANT(bsdudp_unfinished_len(&far_), 0);
    WANT(bsdudp_tick_until(&far_, 7, &due), 500);
    WANT(due, 507);
    WANT(bsdudp_tick_until(&dead, 1000, &dead_due), 500);
    WANT(bsdudp_tick_until(&dead, 1500, &dead_due), -BSDUDP_ENXIO);
    return 0;
}

/* A stack ends once, and another may be booted after it. */
static int ends(void)
{
    struct bsdudp_config c = config();
    WANT(bsdudp_end(&near_), 0);
    if (without_a_stack(&near_))
        return 1;
    WANT(bsdudp_boot(&near_, &c), 0);
    WANT(bsdudp_socket(&near_), 3);
    WANT(bsdudp_end(&near_), 0);
    WANT(bsdudp_end(&far_), 0);
    return without_a_stack(&far_);
}

int main(void)
{
    return without_a_stack(&near_) || misaligned() || texts() || boots() || sockets() || sizes() || random_ports() || traffic() || unfinished() ||
           limits() || disconnects() || ticks() || ends();
}
