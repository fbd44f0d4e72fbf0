/* Packets for the subjects that receive some, between hosts 10.0.0.N. */
#ifndef BSDUDP_PACKETS_H
#define BSDUDP_PACKETS_H

#include <stdbool.h>
#include <stdint.h>
#include <string.h>

/* The distance between packets that are passed together. */
enum { PACKETS_APART = 1500, PACKET_HEADER = 20, DATAGRAM_HEADER = 8 };

/* A sender and a receiver: the last numbers of their addresses, and their ports. */
typedef struct {
    uint8_t from, to;
    uint16_t from_port, to_port;
} Ends;

static inline void put_two(uint8_t *to, uint32_t value)
{
    to[0] = (uint8_t)(value >> 8);
    to[1] = (uint8_t)value;
}

/* The checksum of RFC 1071 over these bytes and a sum so far. */
static inline uint32_t checksum_of(const uint8_t *from, size_t len, uint32_t sum)
{
    for (size_t at = 0; at < len; at++)
        sum += at % 2 ? from[at] : (uint32_t)from[at] << 8;
    while (sum > 65535)
        sum = (sum & 65535) + (sum >> 16);
    return 65535 - sum;
}

/* The IP header of a packet (RFC 791) that carries `size` bytes of a datagram from `offset` on. */
static inline void put_header(uint8_t *to, Ends ends, uint8_t protocol, uint32_t offset, uint32_t size, bool more)
{
    static const uint8_t header[PACKET_HEADER] = {0x45, 0, 0, 0, 0, 1, 0, 0, 64, 0, 0, 0, 10, 0, 0, 0, 10, 0, 0, 0};
    memcpy(to, header, PACKET_HEADER);
    to[9] = protocol;
    to[15] = ends.from;
    to[19] = ends.to;
    put_two(to + 2, PACKET_HEADER + size);
    put_two(to + 6, offset / 8 + (more ? 0x2000 : 0));
    put_two(to + 10, checksum_of(to, PACKET_HEADER, 0));
}

/* The packet of a whole UDP datagram (RFC 768). Returns its length. */
static inline size_t put_datagram(uint8_t *to, Ends ends, const uint8_t *bytes, size_t len)
{
    uint32_t size = DATAGRAM_HEADER + (uint32_t)len;
    uint8_t *datagram = to + PACKET_HEADER;
    put_header(to, ends, 17, 0, size, false);
    put_two(datagram, ends.from_port);
    put_two(datagram + 2, ends.to_port);
    put_two(datagram + 4, size);
    put_two(datagram + 6, 0);
    memcpy(datagram + DATAGRAM_HEADER, bytes, len);
    /* the pseudo-header: both addresses, the protocol and the length; their sum isn't complemented yet */
    uint32_t sum = 17 + size + (65535 - checksum_of(to + 12, 8, 0));
    sum = checksum_of(datagram, size, sum);
    put_two(datagram + 6, sum == 0 ? 65535 : sum);
    return PACKET_HEADER + size;
}

/* Fragment `at` of a datagram from 10.0.0.1 to 10.0.0.2 of `len` bytes that is cut into pieces of `each`. */
static inline void put_fragment(uint8_t *to, uint8_t protocol, uint32_t at, uint32_t each, uint32_t len)
{
    uint32_t offset = at * each, left = len - offset, size = left < each ? left : each;
    put_header(to, (Ends){1, 2, 0, 0}, protocol, offset, size, left > each);
    for (uint32_t k = 0; k < size; k++)
        to[PACKET_HEADER + k] = (uint8_t)(offset + k);
}

#endif
