/* Any calls of bsdudp.h in any order, with any arguments that follow its rules, on a handle in memory of the caller or
   of malloc. Frama-C's Eva tries all of them at once. */
#include "bsdudp.h"

#include "__fc_builtin.h"

enum { LONGEST = 66000, BLOCK = 1 << 20 };

static unsigned char memory[BLOCK] __attribute__((aligned(BSDUDP_ALIGNMENT)));
static unsigned char block[BLOCK];
static int is_used;
static uint8_t bytes[LONGEST];

#define ANY(object) Frama_C_make_unknown((char *)&(object), sizeof(object))

static int is(void) { return Frama_C_interval(0, 1); }

/* malloc and free of boot.c, for one block: if it's freed twice, or lost, an assertion fails. */
#include <stdlib.h>
static void *get_block(size_t len)
{
    //@ assert is_used == 0;
    if (len > BLOCK || is())
        return NULL;
    is_used = 1;
    return block;
}
static void free_block(void *at)
{
    //@ assert at == (void *)block && is_used == 1;
    is_used = 0;
}
#define malloc get_block
#define free free_block
#include "../src/boot.c"

/* Calls that pass memory. */
static void pass(struct bsdudp *s)
{
    const size_t len = (size_t)Frama_C_interval(0, sizeof memory);
    struct bsdudp_config config;
    struct bsdudp_link link;
    ANY(config);
    ANY(link);
    switch (Frama_C_interval(0, 7)) {
    case 0: bsdudp_boot_in(s, &config, memory, len); break;
    case 1: bsdudp_boot(s, &config); break;
    case 2: bsdudp_ether_boot_in(s, &config, &link, memory, len); break;
    case 3: bsdudp_ether_boot(s, &config, &link); break;
    case 4: bsdudp_ether_rehost(s, &config, &link, memory, len); break;
    case 5: bsdudp_ether_rehost(s, &config, &link, NULL, len); break;
    case 6: bsdudp_boot_strerror(Frama_C_interval(-200, 200), &config, is() ? &link : NULL); break;
    default: bsdudp_memory(&config);
    }
}

/* Calls with packets, frames and datagrams. */
static void move(struct bsdudp *s)
{
    const size_t len = (size_t)Frama_C_interval(0, LONGEST);
    struct bsdudp_addr addr, from, *const to = is() ? &from : NULL;
    struct bsdudp_fate fate;
    uint32_t fd;
    uint8_t ttl, tos;
    ANY(addr);
    ANY(fd);
    ANY(ttl);
    ANY(tos);
    ANY(bytes);
    switch (Frama_C_interval(0, 11)) {
    case 0: bsdudp_rx(s, bytes, len); break;
    case 1: bsdudp_tx(s, bytes, len); break;
    case 2: bsdudp_mark(bytes, len, ttl, tos); break;
    case 3: bsdudp_ether_receive(s, bytes, len); break;
    case 4: bsdudp_ether_transmit(s, bytes, len); break;
    case 5: bsdudp_sendto(s, fd, &addr, bytes, len); break;
    case 6: bsdudp_send(s, fd, bytes, len); break;
    case 7: bsdudp_recvfrom(s, fd, bytes, len, to); break;
    case 8: bsdudp_peek(s, fd, bytes, len, to); break;
    case 9: bsdudp_rx_fate(s, bytes, len, &fate); break;
    case 10: bsdudp_ether_receive_fate(s, bytes, len, &fate); break;
    default: bsdudp_recvfrom_trunc(s, fd, bytes, len, to);
    }
}

/* Queries. What they return is uninitialized before. */
static void ask(struct bsdudp *s)
{
    struct bsdudp_name name;
    struct bsdudp_next next;
    struct bsdudp_unfinished unfinished;
    struct bsdudp_range range;
    struct bsdudp_mbstat usage;
    struct bsdudp_tallies tallies;
    struct bsdudp_neighbour neighbour;
    uint64_t value;
    uint32_t a, b;
    int error;
    ANY(a);
    ANY(b);
    ANY(error);
    switch (Frama_C_interval(0, 20)) {
    case 0: bsdudp_getsockname(s, a, &name); break;
    case 1: bsdudp_next(s, a, &next); break;
    case 2: bsdudp_readable(s, &value); break;
    case 3: bsdudp_output_len(s); break;
    case 4: bsdudp_next_packet(s); break;
    case 5: bsdudp_unfinished_len(s); break;
    case 6: bsdudp_unfinished(s, a, &unfinished); break;
    case 7: bsdudp_unfinished_range(s, a, b, &range); break;
    case 8: bsdudp_counter(s, a, &value); break;
    case 9: bsdudp_mbstat(s, &usage); break;
    case 10: bsdudp_ether_tallies(s, &tallies); break;
    case 11: bsdudp_ether_noproto(s, &value); break;
    case 12: bsdudp_ether_neighbour(s, a, &neighbour); break;
    case 13: bsdudp_ether_address(s); break;
    case 14: bsdudp_counter_name(a); break;
    case 15: bsdudp_counter_cause(a); break;
    case 16: bsdudp_error_name(error); break;
    case 17: bsdudp_getsockopt(s, a, error); break;
    case 18: bsdudp_version(); break;
    case 19: bsdudp_ether_expired(s, &value); break;
    default: bsdudp_strerror(error);
    }
}

/* Other calls for a socket, and the tick. */
static void change(struct bsdudp *s)
{
    struct bsdudp_addr addr;
    uint64_t now, due;
    uint32_t fd, random;
    uint16_t last;
    int option, on;
    ANY(addr);
    ANY(random);
    ANY(last);
    ANY(now);
    ANY(due);
    ANY(fd);
    ANY(option);
    ANY(on);
    switch (Frama_C_interval(0, 10)) {
    case 0: bsdudp_end(s); break;
    case 1: bsdudp_tick(s); break;
    case 2: bsdudp_tick_until(s, now, &due); break;
    case 3: bsdudp_socket(s); break;
    case 4: bsdudp_bind(s, fd, &addr); break;
    case 5: bsdudp_connect(s, fd, &addr); break;
    case 6: bsdudp_disconnect(s, fd); break;
    case 7: bsdudp_close(s, fd); break;
    case 8: bsdudp_ether_last_error(s, fd); break;
    case 9: bsdudp_bind_random(s, fd, &addr, last, random); break;
    default: bsdudp_setsockopt(s, fd, option, on);
    }
}

int main(void)
{
    static struct bsdudp stack;
    static void (*const calls[])(struct bsdudp *) = {pass, move, ask, change};
    //@ dynamic_split stack.core.live;
    //@ dynamic_split stack.link.live;
    //@ dynamic_split stack.give_back != (void *)0;
    //@ dynamic_split is_used;
    while (is())
        calls[Frama_C_interval(0, 3)](&stack);
    return 0;
}
