/* The header of the last release, 0.4.0, without its comments: capi/tests/abi.c is compiled with it. */
#ifndef BSDUDP_H
#define BSDUDP_H 
#include <stddef.h>
#include <stdint.h>
#ifdef __cplusplus
extern "C" {
#endif
#define BSDUDP_VERSION "0.4.0"
struct bsdudp_core {
    uint32_t live, none;
    uint64_t at;
};
struct bsdudp {
    struct bsdudp_core core;
    void *block;
    void (*give_back)(void *);
    struct bsdudp_core link;
    int (*tick_link)(struct bsdudp *);
    int (*end_link)(struct bsdudp *);
};
#define BSDUDP_NONE {{0, 0, 0}, NULL, NULL, {0, 0, 0}, NULL, NULL}
struct bsdudp_config {
    uint32_t addr;
    uint32_t bcast;
    uint32_t mbufs;
    uint32_t clusters;
    uint16_t mtu;
    uint16_t first_id;
};
#define BSDUDP_IP(a,b,c,d) ((uint32_t)(a) << 24 | (uint32_t)(b) << 16 | (uint32_t)(c) << 8 | (uint32_t)(d))
struct bsdudp_addr {
    uint32_t ip;
    uint16_t port;
};
struct bsdudp_mbstat {
    uint32_t free_mbufs, mbufs;
    uint32_t free_clusters, clusters;
    uint32_t refs;
    uint32_t most;
};
struct bsdudp_name {
    uint32_t local_ip, peer_ip;
    uint16_t local_port, peer_port;
    uint8_t broadcast, reuse_port;
};
struct bsdudp_next {
    uint32_t ip;
    uint16_t port;
    uint32_t len;
    uint32_t waiting;
};
struct bsdudp_unfinished {
    uint32_t source, destination;
    uint32_t bytes;
    uint32_t ranges;
    uint16_t id;
    uint8_t protocol;
    uint8_t ticks;
};
struct bsdudp_range {
    uint32_t offset;
    uint32_t len;
    uint8_t more;
};
struct bsdudp_link {
    uint8_t mac[6];
    uint32_t mask;
    uint32_t gateway;
    uint8_t probe;
};
struct bsdudp_tallies {
    uint64_t ignored;
    uint64_t martians;
    uint64_t bad_arp;
    uint64_t conflicts;
    uint64_t replies_dropped;
    uint64_t no_route;
    uint64_t held_dropped;
    uint64_t unresolved;
    uint64_t too_long;
    uint64_t echoes;
    uint64_t unreachable;
    uint64_t limited;
    uint64_t icmp_dropped;
};
struct bsdudp_neighbour {
    uint32_t ip;
    uint8_t mac[6];
    uint8_t known;
    uint8_t tries;
    uint16_t ticks;
};
enum {
    BSDUDP_ENXIO = 6,
    BSDUDP_EBADF = 9,
    BSDUDP_ENOMEM = 12,
    BSDUDP_EACCES = 13,
    BSDUDP_EINVAL = 22,
    BSDUDP_EMFILE = 24,
    BSDUDP_EDOM = 33,
    BSDUDP_EWOULDBLOCK = 35,
    BSDUDP_EDESTADDRREQ = 39,
    BSDUDP_EMSGSIZE = 40,
    BSDUDP_ENOPROTOOPT = 42,
    BSDUDP_EOPNOTSUPP = 45,
    BSDUDP_EADDRINUSE = 48,
    BSDUDP_EADDRNOTAVAIL = 49,
    BSDUDP_ENOBUFS = 55,
    BSDUDP_EISCONN = 56,
    BSDUDP_ECONNREFUSED = 61,
    BSDUDP_EHOSTUNREACH = 65,
    BSDUDP_EQUEUE = 155
};
enum {
    BSDUDP_SO_BROADCAST = 0x20,
    BSDUDP_SO_REUSEPORT = 0x200
};
enum {
    BSDUDP_FIRST_FD = 3,
    BSDUDP_SOCKETS = 64,
    BSDUDP_QUEUE = 50,
    BSDUDP_TX_ROOM = 4352,
    BSDUDP_DATAGRAM = 9216,
    BSDUDP_PACKET = 65535,
    BSDUDP_ALIGNMENT = 16,
    BSDUDP_TICK = 500,
    BSDUDP_ETHER_ROOM = 1514,
    BSDUDP_ETHER_FRAME = 65549,
    BSDUDP_NEIGHBOURS = 32,
    BSDUDP_COUNTERS = 26
};
#define BSDUDP_MEMORY(mbufs,clusters) (4432 + 150 * (size_t)(mbufs) + 2050 * (size_t)(clusters))
size_t bsdudp_memory(const struct bsdudp_config *config);
int bsdudp_boot_in(struct bsdudp *stack, const struct bsdudp_config *config, void *memory, size_t len);
int bsdudp_boot(struct bsdudp *stack, const struct bsdudp_config *config);
const char *bsdudp_boot_strerror(int result, const struct bsdudp_config *config, const struct bsdudp_link *link);
int bsdudp_end(struct bsdudp *stack);
int bsdudp_rx(struct bsdudp *stack, const void *packet, size_t len);
int bsdudp_tx(struct bsdudp *stack, void *buffer, size_t len);
int bsdudp_mark(void *packet, size_t len, uint8_t ttl, uint8_t tos);
int bsdudp_tick(struct bsdudp *stack);
int bsdudp_tick_until(struct bsdudp *stack, uint64_t now, uint64_t *due);
#define BSDUDP_ETHER_MEMORY(mbufs,clusters) (BSDUDP_MEMORY(mbufs, clusters) + 14784)
int bsdudp_ether_boot_in(struct bsdudp *stack, const struct bsdudp_config *config, const struct bsdudp_link *link,
                         void *memory, size_t len);
int bsdudp_ether_boot(struct bsdudp *stack, const struct bsdudp_config *config, const struct bsdudp_link *link);
int bsdudp_ether_rehost(struct bsdudp *host, const struct bsdudp_config *config, const struct bsdudp_link *link,
                        void *memory, size_t len);
int bsdudp_ether_receive(struct bsdudp *stack, const void *frame, size_t len);
int bsdudp_ether_transmit(struct bsdudp *stack, void *buffer, size_t len);
int bsdudp_ether_last_error(struct bsdudp *stack, uint32_t fd);
int bsdudp_ether_address(struct bsdudp *stack);
int bsdudp_ether_tallies(struct bsdudp *stack, struct bsdudp_tallies *tallies);
int bsdudp_ether_noproto(struct bsdudp *stack, uint64_t *value);
int bsdudp_ether_neighbour(struct bsdudp *stack, uint32_t i, struct bsdudp_neighbour *neighbour);
int bsdudp_socket(struct bsdudp *stack);
int bsdudp_bind(struct bsdudp *stack, uint32_t fd, const struct bsdudp_addr *local);
int bsdudp_connect(struct bsdudp *stack, uint32_t fd, const struct bsdudp_addr *to);
int bsdudp_disconnect(struct bsdudp *stack, uint32_t fd);
int bsdudp_sendto(struct bsdudp *stack, uint32_t fd, const struct bsdudp_addr *to, const void *bytes, size_t len);
int bsdudp_send(struct bsdudp *stack, uint32_t fd, const void *bytes, size_t len);
int bsdudp_recvfrom(struct bsdudp *stack, uint32_t fd, void *buffer, size_t len, struct bsdudp_addr *from);
int bsdudp_peek(struct bsdudp *stack, uint32_t fd, void *buffer, size_t len, struct bsdudp_addr *from);
int bsdudp_recvfrom_trunc(struct bsdudp *stack, uint32_t fd, void *buffer, size_t len, struct bsdudp_addr *from);
int bsdudp_close(struct bsdudp *stack, uint32_t fd);
int bsdudp_setsockopt(struct bsdudp *stack, uint32_t fd, int option, int on);
int bsdudp_getsockname(struct bsdudp *stack, uint32_t fd, struct bsdudp_name *name);
int bsdudp_next(struct bsdudp *stack, uint32_t fd, struct bsdudp_next *next);
int bsdudp_readable(struct bsdudp *stack, uint64_t *set);
int bsdudp_output_len(struct bsdudp *stack);
int bsdudp_next_packet(struct bsdudp *stack);
int bsdudp_unfinished_len(struct bsdudp *stack);
int bsdudp_unfinished(struct bsdudp *stack, uint32_t i, struct bsdudp_unfinished *datagram);
int bsdudp_unfinished_range(struct bsdudp *stack, uint32_t i, uint32_t k, struct bsdudp_range *range);
int bsdudp_counter(struct bsdudp *stack, uint32_t which, uint64_t *value);
int bsdudp_mbstat(struct bsdudp *stack, struct bsdudp_mbstat *usage);
const char *bsdudp_counter_name(uint32_t which);
const char *bsdudp_counter_cause(uint32_t which);
const char *bsdudp_error_name(int result);
const char *bsdudp_strerror(int result);
const char *bsdudp_version(void);
#ifdef __cplusplus
}
#endif
#endif
