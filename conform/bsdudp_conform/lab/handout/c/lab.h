/*
 * lab.h: the types and calls of the course's UDP/IPv4 stack. Each step is a file that uses only this one. The grader
 * compiles its own copies of lab.h and host.c, so changes to them don't count.
 */
#ifndef LAB_H
#define LAB_H

#include <stdbool.h>
#include <stddef.h>
#include <stdint.h>

#define HOST 0x0a000001u      /* the address of this host, 10.0.0.1 */
#define BROADCAST 0x0a0000ffu /* the broadcast address of its network, 10.0.0.255 */
#define ONES 0xffffffffu      /* 255.255.255.255, the other broadcast address */
#define LONGEST 65515         /* the longest data of an IPv4 datagram, in bytes */
#define PROTOCOL_ICMP 1
#define PROTOCOL_UDP 17

/* An IPv4 packet, or a datagram that was put together from fragments. Addresses and numbers are in the byte order of
 * your processor. */
struct header {
    uint32_t source, destination;
    uint16_t identification;
    uint8_t protocol;
    int offset;            /* where its data begins in the whole datagram, in bytes */
    bool more;             /* whether more fragments follow */
    const uint8_t *data;   /* its data, after the header and the options */
    int length;            /* the length of its data, in bytes */
    const uint8_t *packet; /* the packet from its header on; of a datagram in fragments: the first fragment */
};

/* A UDP socket, bound to a port of all addresses. */
struct socket {
    int number;
    uint16_t port;
    bool connected;     /* to peer and peer_port: then it receives only from them */
    uint32_t peer;
    uint16_t peer_port;
};

extern struct socket sockets[]; /* the oldest first */
extern int socket_count;

/* What host.c does for your steps. */

/* A socket receives a datagram of this sender. */
void deliver(const struct socket *to, uint32_t source, uint16_t port, const uint8_t *data, int length);
/* A packet leaves on the wire. */
void transmit(const uint8_t *packet, int length);
/* Sends ICMP Time Exceeded about a packet, of which the header, its options and 8 bytes of data must be there. */
void time_exceeded(const uint8_t *packet);

/* Numbers in network byte order. */
static inline uint16_t get16(const uint8_t *at)
{
    return (uint16_t)(at[0] << 8 | at[1]);
}

static inline uint32_t get32(const uint8_t *at)
{
    return (uint32_t)get16(at) << 16 | get16(at + 2);
}

static inline void put16(uint8_t *at, uint16_t value)
{
    at[0] = (uint8_t)(value >> 8);
    at[1] = (uint8_t)value;
}

static inline void put32(uint8_t *at, uint32_t value)
{
    put16(at, (uint16_t)(value >> 16));
    put16(at + 2, (uint16_t)value);
}

/* The six steps. Each file step1.c to step6.c says what its calls must do. */
bool read_header(const uint8_t *packet, int length, struct header *to);
uint16_t ones_sum(const uint8_t *bytes, int length, uint32_t sum);
uint32_t pseudo_sum(uint32_t source, uint32_t destination, int length);
bool header_sum_holds(const uint8_t *packet);
bool udp_sum_holds(const struct header *it, int length);
bool udp_receive(const struct header *it);
void put_ip(uint8_t *to, const struct header *it);
int put_udp(uint8_t *to, uint16_t source_port, uint32_t destination, uint16_t port, const uint8_t *data, int length);
void ip_output(const struct header *it, int mtu);
bool reassemble(struct header *it, uint64_t now);
void expire(uint64_t now);

#endif
