/* The calls of the header over the proved core: one export for each call. Boot is in memory.c. */
#include "bsdudp.h"

#include <stdbool.h>

/* The core's exports. Lengths have 64 bits on every host. */
int bsdudp_core_end(struct bsdudp_core *);
int bsdudp_core_rx(struct bsdudp_core *, const uint8_t *, uint64_t);
int bsdudp_core_rx_fate(struct bsdudp_core *, const uint8_t *, uint64_t, struct bsdudp_fate *);
int bsdudp_core_tx(struct bsdudp_core *, uint8_t *, uint64_t);
int bsdudp_core_tick(struct bsdudp_core *);
int bsdudp_core_socket(struct bsdudp_core *);
int bsdudp_core_bind(struct bsdudp_core *, uint32_t, const struct bsdudp_addr *);
int bsdudp_core_connect(struct bsdudp_core *, uint32_t, const struct bsdudp_addr *);
int bsdudp_core_sendto(struct bsdudp_core *, uint32_t, const struct bsdudp_addr *, const uint8_t *, uint64_t);
int bsdudp_core_send(struct bsdudp_core *, uint32_t, const uint8_t *, uint64_t);
int bsdudp_core_recvfrom(struct bsdudp_core *, uint32_t, uint8_t *, uint64_t, struct bsdudp_addr *);
int bsdudp_core_peek(struct bsdudp_core *, uint32_t, uint8_t *, uint64_t, struct bsdudp_addr *);
int bsdudp_core_close(struct bsdudp_core *, uint32_t);
int bsdudp_core_set_broadcast(struct bsdudp_core *, uint32_t, bool);
int bsdudp_core_set_reuse_port(struct bsdudp_core *, uint32_t, bool);
int bsdudp_core_set_receive_limit(struct bsdudp_core *, uint32_t, uint16_t);
int bsdudp_core_name(struct bsdudp_core *, uint32_t, struct bsdudp_name *);
int bsdudp_core_receive_limit(struct bsdudp_core *, uint32_t);
int bsdudp_core_next(struct bsdudp_core *, uint32_t, struct bsdudp_next *);
int bsdudp_core_readable(struct bsdudp_core *, uint64_t *);
int bsdudp_core_output_len(struct bsdudp_core *);
int bsdudp_core_next_packet(struct bsdudp_core *);
int bsdudp_core_unfinished_len(struct bsdudp_core *);
int bsdudp_core_unfinished(struct bsdudp_core *, uint32_t, struct bsdudp_unfinished *);
int bsdudp_core_unfinished_range(struct bsdudp_core *, uint32_t, uint32_t, struct bsdudp_range *);
int bsdudp_core_counter(struct bsdudp_core *, uint32_t, uint64_t *);
int bsdudp_core_mbstat(struct bsdudp_core *, struct bsdudp_mbstat *);
int bsdudp_core_mark(uint8_t *, uint64_t, uint8_t, uint8_t);

int bsdudp_end(struct bsdudp *stack)
{
    int answer = bsdudp_core_end(&stack->core);
    if (answer == 0 && stack->end_link != NULL) {
        stack->end_link(stack);
        stack->tick_link = NULL;
        stack->end_link = NULL;
    }
    if (answer == 0 && stack->give_back != NULL) {
        stack->give_back(stack->block);
        stack->block = NULL;
        stack->give_back = NULL;
    }
    return answer;
}

/* A host receives and sends frames instead of packets. Its calls are in ether.c, and its boot sets pointers to them, by
   which this file calls them. So a program that boots no host is linked without them. */
int bsdudp_rx(struct bsdudp *s, const void *packet, size_t len)
{
    return s->tick_link != NULL ? -BSDUDP_EOPNOTSUPP : bsdudp_core_rx(&s->core, packet, len);
}

int bsdudp_rx_fate(struct bsdudp *s, const void *packet, size_t len, struct bsdudp_fate *fate)
{
    return s->tick_link != NULL ? -BSDUDP_EOPNOTSUPP : bsdudp_core_rx_fate(&s->core, packet, len, fate);
}

int bsdudp_tx(struct bsdudp *s, void *buffer, size_t len)
{
    return s->tick_link != NULL ? -BSDUDP_EOPNOTSUPP : bsdudp_core_tx(&s->core, buffer, len);
}

int bsdudp_tick(struct bsdudp *s)
{
    return s->tick_link != NULL ? s->tick_link(s) : bsdudp_core_tick(&s->core);
}

int bsdudp_socket(struct bsdudp *s) { return bsdudp_core_socket(&s->core); }
int bsdudp_close(struct bsdudp *s, uint32_t fd) { return bsdudp_core_close(&s->core, fd); }

int bsdudp_bind(struct bsdudp *s, uint32_t fd, const struct bsdudp_addr *local)
{
    return bsdudp_core_bind(&s->core, fd, local);
}

int bsdudp_connect(struct bsdudp *s, uint32_t fd, const struct bsdudp_addr *to)
{
    return bsdudp_core_connect(&s->core, fd, to);
}

int bsdudp_sendto(struct bsdudp *s, uint32_t fd, const struct bsdudp_addr *to, const void *bytes, size_t len)
{
    return bsdudp_core_sendto(&s->core, fd, to, bytes, len);
}

int bsdudp_send(struct bsdudp *s, uint32_t fd, const void *bytes, size_t len)
{
    return bsdudp_core_send(&s->core, fd, bytes, len);
}

int bsdudp_recvfrom(struct bsdudp *s, uint32_t fd, void *buffer, size_t len, struct bsdudp_addr *from)
{
    struct bsdudp_addr ignored = {0, 0};
    return bsdudp_core_recvfrom(&s->core, fd, buffer, len, from != NULL ? from : &ignored);
}

int bsdudp_peek(struct bsdudp *s, uint32_t fd, void *buffer, size_t len, struct bsdudp_addr *from)
{
    struct bsdudp_addr ignored = {0, 0};
    return bsdudp_core_peek(&s->core, fd, buffer, len, from != NULL ? from : &ignored);
}

int bsdudp_setsockopt(struct bsdudp *s, uint32_t fd, int option, int value)
{
    struct bsdudp_name name;
    int answer;
    switch (option) {
    case BSDUDP_SO_BROADCAST:
        return bsdudp_core_set_broadcast(&s->core, fd, value != 0);
    case BSDUDP_SO_REUSEPORT:
        return bsdudp_core_set_reuse_port(&s->core, fd, value != 0);
    case BSDUDP_SO_RCVBUF:
        if (value > 0 && value <= UINT16_MAX)
            return bsdudp_core_set_receive_limit(&s->core, fd, (uint16_t)value);
        /* fall through */
    default: /* a handle without a stack and a wrong descriptor come first */
        answer = bsdudp_core_name(&s->core, fd, &name);
        return answer < 0 ? answer : option == BSDUDP_SO_RCVBUF ? -BSDUDP_EINVAL : -BSDUDP_ENOPROTOOPT;
    }
}

int bsdudp_getsockopt(struct bsdudp *s, uint32_t fd, int option)
{
    struct bsdudp_name name = {0, 0, 0, 0, 0, 0};
    const int answer = bsdudp_core_name(&s->core, fd, &name);
    if (answer < 0)
        return answer;
    switch (option) {
    case BSDUDP_SO_BROADCAST:
        return name.broadcast;
    case BSDUDP_SO_REUSEPORT:
        return name.reuse_port;
    case BSDUDP_SO_RCVBUF:
        return bsdudp_core_receive_limit(&s->core, fd);
    default:
        return -BSDUDP_ENOPROTOOPT;
    }
}

int bsdudp_getsockname(struct bsdudp *s, uint32_t fd, struct bsdudp_name *name)
{
    return bsdudp_core_name(&s->core, fd, name);
}

int bsdudp_next(struct bsdudp *s, uint32_t fd, struct bsdudp_next *next)
{
    return bsdudp_core_next(&s->core, fd, next);
}

int bsdudp_readable(struct bsdudp *s, uint64_t *set) { return bsdudp_core_readable(&s->core, set); }
int bsdudp_output_len(struct bsdudp *s) { return bsdudp_core_output_len(&s->core); }
int bsdudp_next_packet(struct bsdudp *s) { return bsdudp_core_next_packet(&s->core); }
int bsdudp_unfinished_len(struct bsdudp *s) { return bsdudp_core_unfinished_len(&s->core); }
int bsdudp_mbstat(struct bsdudp *s, struct bsdudp_mbstat *usage) { return bsdudp_core_mbstat(&s->core, usage); }

int bsdudp_unfinished(struct bsdudp *s, uint32_t i, struct bsdudp_unfinished *datagram)
{
    return bsdudp_core_unfinished(&s->core, i, datagram);
}

int bsdudp_unfinished_range(struct bsdudp *s, uint32_t i, uint32_t k, struct bsdudp_range *range)
{
    return bsdudp_core_unfinished_range(&s->core, i, k, range);
}

int bsdudp_counter(struct bsdudp *s, uint32_t which, uint64_t *value)
{
    return bsdudp_core_counter(&s->core, which, value);
}

int bsdudp_mark(void *packet, size_t len, uint8_t ttl, uint8_t tos) { return bsdudp_core_mark(packet, len, ttl, tos); }
