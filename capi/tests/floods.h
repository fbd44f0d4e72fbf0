/* A host whose port FLOODED is flooded, while a socket at port USED sends and receives: for tests. */
#ifndef FLOODS_H
#define FLOODS_H

#include "bsdudp.h"
#include "packets.h"

enum { FLOODED = 7, USED = 9, LONGEST = 1472, PADDED = 300, UNIT = 8, IP_HEAD = 20, MORE = 0x2000 };

static struct bsdudp stack = BSDUDP_NONE;
static uint8_t packet[1500], piece[1500], data[LONGEST];
static uint32_t flooded, used, itself; /* the sockets; the last one sends to the first within the host */

/* A flood is called for each datagram, or for a part of one. */
typedef void flood(unsigned number);

static inline void whole(unsigned number)
{
    bsdudp_rx(&stack, packet, make_packet(packet, 5000, HOST, FLOODED, number, data, 1));
}

static inline void long_one(unsigned number)
{
    bsdudp_rx(&stack, packet, make_packet(packet, 5000, HOST, FLOODED, number, data, LONGEST));
}

/* Makes a fragment of a packet: up to `step` bytes from `at` on, counted from the end of the header. Returns its length. */
static inline size_t make_piece(const uint8_t *of, size_t len, size_t at, size_t step)
{
    const size_t left = len - IP_HEAD - at, taken = left < step ? left : step;
    memset(piece, 0, sizeof piece);
    memcpy(piece, of, IP_HEAD);
    memcpy(piece + IP_HEAD, of + IP_HEAD + at, taken);
    put16(piece + 2, (unsigned)(IP_HEAD + taken));
    put16(piece + 6, (unsigned)((left > taken ? MORE : 0) | at / UNIT));
    put_header_sum(piece);
    return IP_HEAD + taken;
}

/* All fragments of a datagram, `step` bytes in each, in packets of at least `room` bytes; without the last ones. */
static inline void cut(unsigned number, size_t len, size_t step, size_t room, size_t missing)
{
    const size_t all = make_packet(packet, 5000, HOST, FLOODED, number, data, len);
    size_t at;
    for (at = 0; IP_HEAD + at + missing < all; at += step) {
        const size_t taken = make_piece(packet, all, at, step);
        bsdudp_rx(&stack, piece, taken < room ? room : taken);
    }
}

static inline void fragments(unsigned number) { cut(number, 16, UNIT, 0, 0); }
static inline void padded(unsigned number) { cut(number, 160, 3 * UNIT, PADDED, 0); }
static inline void unfinished(unsigned number) { cut(number, 160, 3 * UNIT, PADDED, 3 * UNIT); }


/* The first fragment of a datagram, in a packet of 228 bytes, the shortest that takes a cluster. */
static inline void first_only(unsigned number) { cut(number, 400, 26 * UNIT, 0, 25 * UNIT); }

static inline void from_itself(unsigned number)
{
    const struct bsdudp_addr to = {LOOPBACK, FLOODED};
    bsdudp_sendto(&stack, itself, &to, data, number % 300);
}

/* One after another, by the number. */
static inline void mixed(unsigned number)
{
    static flood *const all[] = {whole, long_one, fragments, padded, unfinished, from_itself};
    all[number % (sizeof all / sizeof all[0])](number);
}

#endif
