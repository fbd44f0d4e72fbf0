/* Calls that are made of other calls of the header, and what boot says of its settings. */
#include "bsdudp.h"

int bsdudp_recvfrom_trunc(struct bsdudp *stack, uint32_t fd, void *buffer, size_t len, struct bsdudp_addr *from)
{
    struct bsdudp_next next;
    int answer = bsdudp_next(stack, fd, &next);
    if (answer == 0)
        answer = bsdudp_recvfrom(stack, fd, buffer, len, from);
    return answer < 0 ? answer : (int)next.len;
}

/* A connect that fails leaves the socket disconnected. */
int bsdudp_disconnect(struct bsdudp *stack, uint32_t fd)
{
    const struct bsdudp_addr nowhere = {0, 0};
    int answer = bsdudp_connect(stack, fd, &nowhere);
    return answer == -BSDUDP_EADDRNOTAVAIL ? 0 : answer;
}

/* Among 64 ports one is free, because at most 63 other sockets are open. */
int bsdudp_bind_random(struct bsdudp *stack, uint32_t fd, const struct bsdudp_addr *local, uint16_t last,
                       uint32_t random)
{
    const uint32_t first = local->port, count = first <= last ? last - first + 1 : 0;
    struct bsdudp_addr at = {local->ip, 0};
    struct bsdudp_name name;
    uint32_t tried = 0;
    int answer = bsdudp_getsockname(stack, fd, &name);
    if (answer == 0 && (first == 0 || count == 0))
        answer = -BSDUDP_EINVAL;
    if (answer < 0)
        return answer;
    do {
        at.port = (uint16_t)(first + (random % count + tried) % count);
        answer = bsdudp_bind(stack, fd, &at);
    } while (answer == -BSDUDP_EADDRINUSE && ++tried < count);
    return answer < 0 ? answer : at.port;
}

/* After so many ticks in a row further ones change nothing: an unfinished datagram expires after 60 (`ticks_settle` of
   flat_model proves that no more changes), and an entry in a host's table of neighbours after 2,400. */
enum { LAST_TICK_OF_STACK = 60, LAST_TICK_OF_HOST = 2400 };

int bsdudp_tick_until(struct bsdudp *stack, uint64_t now, uint64_t *due)
{
    const uint64_t most = stack->tick_link != NULL ? LAST_TICK_OF_HOST : LAST_TICK_OF_STACK;
    uint64_t missed, made;
    if (now > UINT64_MAX - BSDUDP_TICK) /* no sum below wraps */
        return BSDUDP_TICK;
    if (*due == 0 || *due > now + BSDUDP_TICK) /* the first call, or a clock that was set back */
        *due = now + BSDUDP_TICK;
    missed = *due <= now ? (now - *due) / BSDUDP_TICK + 1 : 0;
    for (made = 0; made < missed && made < most; made++) {
        int answer = bsdudp_tick(stack);
        if (answer < 0)
            return answer;
    }
    *due += missed * BSDUDP_TICK;
    return (int)(*due - now);
}

int bsdudp_ether_noproto(struct bsdudp *stack, uint64_t *value)
{
    enum { IP_NOPROTO = 15 };
    struct bsdudp_tallies tallies;
    uint64_t counted = 0;
    int answer = bsdudp_ether_tallies(stack, &tallies);
    if (answer == 0)
        answer = bsdudp_counter(stack, IP_NOPROTO, &counted);
    if (answer == 0)
        *value = counted - tallies.echoes;
    return answer;
}

/* ---- the settings of boot */

/* Of ether.c: the number of the first wrong setting of a host that bsdudp_ether_boot_in reports before those of its
   stack, or 0. */
int bsdudp_link_fault(const struct bsdudp_config *config, const struct bsdudp_link *link);

static const char *const link_texts[] = {
    NULL,
    "mtu must be 68 to 1500 on an Ethernet",
    "mac must not be a group address: its first byte is odd",
    "mac must not be 0",
    "addr must be 1.0.0.0 to 223.255.255.255, and not in 127/8",
    "mask must be ones followed by zeros, at most 30 ones",
    "mask must have more ones: its network's last address is in 127/8 or above 223/8",
    "addr must not be the first or last address of mask's network",
    "bcast must be the last address of mask's network",
    "gateway must be a neighbour: another host's address on mask's network",
};

static int is_address(uint32_t ip)
{
    return ip >> 24 >= 1 && ip >> 24 <= 223 && ip >> 24 != 127;
}

/* What is wrong with the settings of a stack, or with the memory if they are right. */
static const char *stack_text(const struct bsdudp_config *config, uint32_t bcast)
{
    if (config->mbufs < 1 || config->mbufs > 65535)
        return "mbufs must be 1 to 65535";
    if (config->clusters > 4096)
        return "clusters must be at most 4096";
    if (config->mtu < 68 || config->mtu > BSDUDP_TX_ROOM)
        return "mtu must be 68 to 4352";
    if (!is_address(config->addr))
        return "addr must be 1.0.0.0 to 223.255.255.255, and not in 127/8";
    if (!is_address(bcast))
        return "bcast must be 1.0.0.0 to 223.255.255.255, and not in 127/8";
    if (config->addr == bcast)
        return "bcast must differ from addr";
    return "memory must be aligned to BSDUDP_ALIGNMENT bytes";
}

const char *bsdudp_boot_strerror(int result, const struct bsdudp_config *config, const struct bsdudp_link *link)
{
    int fault;
    if (result == -BSDUDP_ENXIO)
        return "the handle already holds a stack: end it first";
    if (result == -BSDUDP_ENOMEM)
        return "len is too small for mbufs and clusters, or malloc failed";
    if (result != -BSDUDP_EINVAL && result != -BSDUDP_EDOM)
        return bsdudp_strerror(result);
    if (link == NULL)
        return stack_text(config, config->bcast);
    fault = bsdudp_link_fault(config, link);
    return fault != 0 ? link_texts[fault] : stack_text(config, config->addr | ~link->mask);
}
