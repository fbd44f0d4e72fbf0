/* Packets for tests, in the formats of RFC 791 and RFC 768: whole, as fragments, and damaged. */
#ifndef PACKETS_H
#define PACKETS_H

#include <stdbool.h>
#include <stddef.h>
#include <stdint.h>
#include <string.h>

enum { HOST = 0x0a000001, PEER = 0x0a000002, BROADCAST = 0x0a0000ff, LOOPBACK = 0x7f000001 };

static unsigned long long seed;

static inline unsigned dice(unsigned n)
{
    seed = seed * 6364136223846793005ULL + 1442695040888963407ULL;
    return (unsigned)(seed >> 33) % n;
}

static inline void put16(uint8_t *at, unsigned value)
{
    at[0] = (uint8_t)(value >> 8);
    at[1] = (uint8_t)value;
}

static inline void put32(uint8_t *at, uint32_t value)
{
    put16(at, value >> 16);
    put16(at + 2, value & 0xffff);
}

static inline unsigned get16(const uint8_t *at)
{
    return (unsigned)at[0] << 8 | at[1];
}

/* The sum of the words, added to another sum (RFC 1071). */
static inline uint32_t sum(const uint8_t *data, size_t len, uint32_t all)
{
    size_t k;
    for (k = 0; k + 1 < len; k += 2)
        all += get16(data + k);
    if (len % 2)
        all += (uint32_t)data[len - 1] << 8;
    while (all >> 16)
        all = (all & 0xffff) + (all >> 16);
    return all;
}

/* The header's checksum, over its 20 bytes. */
static inline void put_header_sum(uint8_t *packet)
{
    put16(packet + 10, 0);
    put16(packet + 10, ~sum(packet, 20, 0) & 0xffff);
}

/* A packet from PEER with a whole datagram, in one of five without a checksum. Returns its length. */
static inline size_t make_packet(uint8_t *packet, unsigned port, uint32_t to, unsigned to_port, unsigned ident,
                          const uint8_t *data, size_t len)
{
    uint8_t pseudo[4] = {0, 17, 0, 0};
    uint32_t all;
    memset(packet, 0, 20);
    packet[0] = 0x45, packet[8] = 64, packet[9] = 17;
    put16(packet + 2, (unsigned)(28 + len));
    put16(packet + 4, ident);
    put32(packet + 12, PEER);
    put32(packet + 16, to);
    put_header_sum(packet);
    put16(packet + 20, port);
    put16(packet + 22, to_port);
    put16(packet + 24, (unsigned)(8 + len));
    put16(packet + 26, 0);
    memcpy(packet + 28, data, len);
    if (dice(5) != 0) {
        put16(pseudo + 2, (unsigned)(8 + len));
        all = ~sum(packet + 20, 8 + len, sum(packet + 12, 8, sum(pseudo, 4, 0))) & 0xffff;
        put16(packet + 26, all == 0 ? 0xffff : all);
    }
    return 28 + len;
}

/* Keeps some units of eight bytes of a packet's data as a fragment, the last of which may be shorter. Some begin at 0,
   and some go to the end. Returns the fragment's length. */
static inline size_t keep_fragment(uint8_t *packet, size_t len)
{
    size_t units = (len - 20 + 7) / 8, first = dice(3) ? dice((unsigned)units) : 0, end = units, last;
    if (dice(3) != 0)
        end = first + 1 + dice((unsigned)(units - first));
    last = end * 8 < len - 20 ? end * 8 : len - 20;
    memmove(packet + 20, packet + 20 + first * 8, last - first * 8);
    put16(packet + 2, (unsigned)(20 + last - first * 8));
    put16(packet + 6, (unsigned)((size_t)(last < len - 20) << 13 | first));
    put_header_sum(packet);
    return 20 + last - first * 8;
}

/* Inverts a bit; or inverts a bit of the header, or changes its total length, and corrects its checksum; or cuts or
   lengthens the packet. Returns its length. */
static inline size_t damage(uint8_t *packet, size_t len)
{
    uint8_t bit = (uint8_t)(1u << dice(8));
    size_t more;
    switch (dice(5)) {
    case 0:
        if (len > 0)
            packet[dice((unsigned)(len < 40 ? len : 40))] ^= bit;
        return len;
    case 1:
        if (len >= 20) {
            packet[dice(20)] ^= bit;
            put_header_sum(packet);
        }
        return len;
    case 2:
        if (len >= 20) {
            put16(packet + 2, dice(2) ? dice((unsigned)len + 1) : dice(29));
            put_header_sum(packet);
        }
        return len;
    case 3:
        return dice((unsigned)len + 1);
    default:
        more = dice(40);
        if (len + more > 65535)
            return len;
        memset(packet + len, 0, more);
        return len + more;
    }
}

/* A packet from PEER to HOST instead of one from HOST to PEER: the sums stay right. */
static inline void turn_round(uint8_t *packet)
{
    uint8_t swapped[4];
    memcpy(swapped, packet + 12, 4);
    memcpy(packet + 12, packet + 16, 4);
    memcpy(packet + 16, swapped, 4);
    if (get16(packet + 6) % 8192 == 0) {
        memcpy(swapped, packet + 20, 2);
        memcpy(packet + 20, packet + 22, 2);
        memcpy(packet + 22, swapped, 2);
    }
}

#endif
