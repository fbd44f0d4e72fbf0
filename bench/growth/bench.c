/*
 * How a cost grows with a number of things: bench/lib.sh reads the table's lines, and counts the instructions for each
 * size.
 *
 *   bench lines              what grows, what is counted, how many turns to compare with one, how often a turn does the
 *                            counted work (0: as often as the size), and the sizes: on one line each, separated by tabs
 *   bench turns LINE SIZE N  works N turns
 */
#include "packets.h"
#include "timer.h"

enum { MBUFS = 512, ALL_MBUFS = 65535, MOST_FRAGMENTS = 8000, PIECE = 8, PROTOCOL = 17, MOST = 1472 };

/* crates/bench_stack, crates/bench_packets */
uint32_t bsdudp_send_and_receive(const uint8_t *bytes, size_t len, uint32_t mbufs, uint8_t sockets, uint8_t at,
                                 uint32_t times);
uint32_t bsdudp_reassemble(const uint8_t *packets, size_t len, uint32_t mbufs, uint32_t times);
uint32_t bsdudp_new_keys(const uint8_t *first, size_t first_len, const uint8_t *last, size_t last_len, uint16_t held,
                         uint32_t times);
uint32_t bsdudp_oldest_keys(const uint8_t *first, size_t first_len, const uint8_t *last, size_t last_len,
                            uint16_t held, uint32_t times);

static const uint8_t bytes[MOST];
static uint8_t packets[MOST_FRAGMENTS * PACKETS_APART];

/* To which socket or datagram, and in which order. */
enum { OLDEST, NEWEST, IN_ORDER, REVERSED };

static uint32_t to_socket(uint32_t sockets, uint32_t which, uint32_t turns)
{
    uint32_t at = which == OLDEST ? 0 : sockets - 1;
    return bsdudp_send_and_receive(bytes, 2, MBUFS, (uint8_t)sockets, (uint8_t)at, turns);
}

static uint32_t from_pool(uint32_t mbufs, uint32_t len, uint32_t turns)
{
    return bsdudp_send_and_receive(bytes, len, mbufs, 1, 0, turns);
}

/* Both fragments of a new datagram arrive while `held` others are unfinished, or the oldest is completed and begun. */
static uint32_t two_fragments(uint32_t held, uint32_t which, uint32_t turns)
{
    enum { LEN = PACKET_HEADER + PIECE };
    uint8_t *last = packets + PACKETS_APART;
    put_fragment(packets, PROTOCOL, 0, PIECE, 2 * PIECE);
    put_fragment(last, PROTOCOL, 1, PIECE, 2 * PIECE);
    return (which == OLDEST ? bsdudp_oldest_keys : bsdudp_new_keys)(packets, LEN, last, LEN, (uint16_t)held, turns);
}

static uint32_t fragments(uint32_t count, uint32_t order, uint32_t turns)
{
    for (uint32_t at = 0; at < count; at++) {
        uint32_t piece = order == REVERSED ? count - 1 - at : at;
        put_fragment(packets + at * PACKETS_APART, PROTOCOL, piece, PIECE, count * PIECE);
    }
    return bsdudp_reassemble(packets, (size_t)count * PACKETS_APART, ALL_MBUFS, turns);
}

typedef struct {
    const char *grows, *counted, *sizes;
    uint32_t turns; /* that are compared with one */
    uint32_t each;  /* how often a turn does the counted work; 0 means the size */
    uint32_t (*run)(uint32_t size, uint32_t what, uint32_t turns);
    uint32_t what; /* its second argument */
} Line;

static const Line LINES[] = {
    {"Open sockets of each stack", "2 bytes from one stack to another, to the oldest socket", "1 8 16 32 64", 65, 1,
     to_socket, OLDEST},
    {"Open sockets of each stack", "to the newest", "1 8 16 32 64", 65, 1, to_socket, NEWEST},
    {"Other datagrams that are unfinished", "a fragment of a new one, which has two", "0 10 100 1000 10000", 65, 2,
     two_fragments, NEWEST},
    {"Other datagrams that are unfinished", "a fragment of the oldest, which is completed and begun again",
     "0 10 100 1000 10000", 65, 2, two_fragments, OLDEST},
    {"Fragments of one datagram, of 8 bytes each", "each, in order", "7 45 250 1000 8000", 2, 0, fragments, IN_ORDER},
    {"Fragments of one datagram, of 8 bytes each", "each, reversed", "7 45 250 1000 8000", 2, 0, fragments, REVERSED},
    {"Mbufs of the pool", "2 bytes from one stack to another", "64 512 4096 16384 65535", 65, 1, from_pool, 2},
    {"Mbufs of the pool", "1,472 bytes", "64 512 4096 16384 65535", 65, 1, from_pool, MOST},
};

int main(int argc, char **argv)
{
    if (argc == 2 && !strcmp(argv[1], "lines")) {
        for (const Line *it = LINES; it < LINES + COUNT_OF(LINES); it++)
            printf("%s\t%s\t%u\t%u\t%s\n", it->grows, it->counted, it->turns, it->each, it->sizes);
        return 0;
    }
    if (argc != 5 || strcmp(argv[1], "turns") || atoi(argv[2]) >= COUNT_OF(LINES))
        return 2;
    const Line *line = &LINES[atoi(argv[2])];
    uint32_t turns = (uint32_t)atoi(argv[4]);
    return line->run((uint32_t)atoi(argv[3]), line->what, turns) == turns ? 0 : 1;
}
