/* Prints the table of docs/security.md: of 1,000 good datagrams, how many a host with 64 mbufs and 16 clusters receives or
   sends under a flood, without sizes of its receive queues and with sizes. Before each good packet there is one datagram
   of the flood, or one part of it. */
#include "bsdudp.h"
#include "floods.h"

#include <stdio.h>

enum { TIMES = 1000, SHORT = 400, LONG = 3000, PIECE = 1480, FIRST_ID = 0x8000, SIZE = LONG + 16, FLOODED_SIZE = 512 };

static unsigned char memory[BSDUDP_MEMORY(64, 16)] __attribute__((aligned(BSDUDP_ALIGNMENT)));
static uint8_t good[IP_HEAD + 8 + LONG], bytes[LONG], buffer[LONG];

struct row {
    const char *name;
    flood *more;
};

static const struct row rows[] = {
    {"1 byte", whole},
    {"1,472 bytes", long_one},
    {"160 bytes in 7 fragments, each padded to 300 bytes", padded},
    {"6 of these 7 fragments", unfinished},
    {"first fragments, in packets of 228 bytes", first_only},
};

static void boot(int has_sizes)
{
    const struct bsdudp_config config = {HOST, BROADCAST, 64, 16, 1500, 1};
    const struct bsdudp_addr to_flooded = {0, FLOODED}, to_used = {0, USED};
    bsdudp_boot_in(&stack, &config, memory, sizeof memory);
    flooded = (uint32_t)bsdudp_socket(&stack);
    used = (uint32_t)bsdudp_socket(&stack);
    bsdudp_bind(&stack, flooded, &to_flooded);
    bsdudp_bind(&stack, used, &to_used);
    if (has_sizes) {
        bsdudp_setsockopt(&stack, flooded, BSDUDP_SO_RCVBUF, FLOODED_SIZE);
        bsdudp_setsockopt(&stack, used, BSDUDP_SO_RCVBUF, SIZE);
    }
}

/* How many of TIMES datagrams of `len` bytes are received. */
static int received(flood *more, int has_sizes, size_t len)
{
    unsigned i, number = 0;
    int count = 0;
    boot(has_sizes);
    for (i = 0; i < TIMES; i++) {
        const size_t all = make_packet(good, 5000, HOST, USED, FIRST_ID + i, bytes, len);
        size_t at;
        for (at = 0; IP_HEAD + at < all; at += PIECE) {
            more(number++);
            bsdudp_rx(&stack, piece, make_piece(good, all, at, PIECE));
        }
        while (bsdudp_recvfrom(&stack, used, buffer, sizeof buffer, NULL) == (int)len)
            count++;
    }
    bsdudp_end(&stack);
    return count;
}

/* How many of TIMES sends of `len` bytes are accepted. */
static int sent(flood *more, int has_sizes, size_t len)
{
    const struct bsdudp_addr to = {PEER, 5000};
    unsigned i;
    int count = 0;
    boot(has_sizes);
    for (i = 0; i < TIMES; i++) {
        more(i);
        count += bsdudp_sendto(&stack, used, &to, bytes, len) == (int)len;
        while (bsdudp_tx(&stack, piece, sizeof piece) > 0)
            continue;
    }
    bsdudp_end(&stack);
    return count;
}

int main(void)
{
    size_t i;
    for (i = 0; i < sizeof rows / sizeof rows[0]; i++) {
        flood *const more = rows[i].more;
        printf("| %s | %d, %d | %d, %d | %d, %d |\n", rows[i].name, received(more, 0, SHORT), received(more, 1, SHORT),
               sent(more, 0, SHORT), sent(more, 1, SHORT), received(more, 0, LONG), received(more, 1, LONG));
    }
    return 0;
}
