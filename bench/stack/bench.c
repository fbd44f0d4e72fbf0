/*
 * A datagram from one stack to another: sendto, tx of each packet, rx into the second stack, recvfrom. And one that
 * comes back to the stack that sent it. Both checksums are made and checked.
 */
#include "timer.h"

enum { MOST = 9000, MBUFS = 512 };

/* crates/bench_stack/src/lib.rt */
uint32_t bsdudp_send_and_receive(const uint8_t *bytes, size_t len, uint32_t mbufs, uint8_t sockets, uint8_t at,
                                 uint32_t times);
uint32_t bsdudp_send_to_itself(const uint8_t *bytes, size_t len, uint32_t times);

static const size_t LENS[] = {2, 1472, MOST};
static const char *const COLUMNS[] = {"2 bytes", "1,472", "9,000"};

static uint8_t bytes[MOST];

static bool to_another(const void *what, int column, uint64_t turns)
{
    (void)what;
    return bsdudp_send_and_receive(bytes, LENS[column], MBUFS, 1, 0, (uint32_t)turns) == turns;
}

static bool to_itself(const void *what, int column, uint64_t turns)
{
    (void)what;
    return bsdudp_send_to_itself(bytes, LENS[column], (uint32_t)turns) == turns;
}

static const Row ROWS[] = {
    {"from one stack to another", to_another, NULL},
    {"by loopback", to_itself, NULL},
};

static const Table TABLE = {"a datagram, ns", COLUMNS, COUNT_OF(COLUMNS), ROWS, COUNT_OF(ROWS)};

int main(int argc, char **argv)
{
    fill_bytes(bytes, MOST);
    return bench_main(argc, argv, &TABLE);
}
