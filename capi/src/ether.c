/* The calls of the header for a host on an Ethernet, over the proved core: a stack and its link, each with a handle of
   its own. */
#include "bsdudp.h"

/* Of memory.c: the memory that boot may use, and the end of boot. */
void bsdudp_lend(void *memory, size_t len);
int bsdudp_lent(const void *memory, int answer);

/* The core's exports, and its structs: a hardware address is two numbers, of its first two bytes and of its last
   four. */
struct core_link {
    uint16_t mac_high;
    uint32_t mac_low, mask, gateway;
    uint8_t probe;
};
struct core_neighbour {
    uint32_t ip, mac_low;
    uint16_t mac_high, ticks;
    uint8_t tries, known;
};
struct core_tallies {
    struct bsdudp_tallies tallies;
    uint64_t expired;
};
int bsdudp_core_boot(struct bsdudp_core *, const struct bsdudp_config *);
int bsdudp_core_end(struct bsdudp_core *);
int bsdudp_core_output_len(struct bsdudp_core *);
int bsdudp_core_ether_fault(const struct bsdudp_config *, const struct core_link *);
int bsdudp_core_ether_boot(struct bsdudp_core *link, const struct bsdudp_config *, const struct core_link *);
int bsdudp_core_ether_end(struct bsdudp_core *link);
int bsdudp_core_ether_tick(struct bsdudp_core *, struct bsdudp_core *link);
int bsdudp_core_ether_receive(struct bsdudp_core *, struct bsdudp_core *link, const uint8_t *, uint64_t);
int bsdudp_core_ether_receive_fate(struct bsdudp_core *, struct bsdudp_core *link, const uint8_t *, uint64_t,
                                   struct bsdudp_fate *);
int bsdudp_core_ether_transmit(struct bsdudp_core *, struct bsdudp_core *link, uint8_t *, uint64_t);
int bsdudp_core_ether_last_error(struct bsdudp_core *, struct bsdudp_core *link, uint32_t);
int bsdudp_core_ether_address(struct bsdudp_core *link);
int bsdudp_core_ether_tallies(struct bsdudp_core *link, struct core_tallies *);
int bsdudp_core_ether_neighbour(struct bsdudp_core *link, uint32_t, struct core_neighbour *);

static int tick_link(struct bsdudp *stack) { return bsdudp_core_ether_tick(&stack->core, &stack->link); }
static int end_link(struct bsdudp *stack) { return bsdudp_core_ether_end(&stack->link); }

/* The settings as the core has them: as broadcast address, 0 stands for the last address of the network. */
static struct bsdudp_config core_config(const struct bsdudp_config *of, const struct bsdudp_link *link)
{
    struct bsdudp_config config = *of;
    if (config.bcast == 0)
        config.bcast = config.addr | ~link->mask;
    return config;
}

static struct core_link core_link(const struct bsdudp_link *of)
{
    const uint8_t *mac = of->mac;
    const struct core_link link = {(uint16_t)(mac[0] << 8 | mac[1]), BSDUDP_IP(mac[2], mac[3], mac[4], mac[5]),
                                   of->mask, of->gateway, of->probe};
    return link;
}

/* The number of the first wrong setting of a host, or 0. composed.c calls this. */
int bsdudp_link_fault(const struct bsdudp_config *config, const struct bsdudp_link *link);
int bsdudp_link_fault(const struct bsdudp_config *config, const struct bsdudp_link *link)
{
    const struct bsdudp_config told_config = core_config(config, link);
    const struct core_link told = core_link(link);
    return bsdudp_core_ether_fault(&told_config, &told);
}

/* An error in the link comes before the errors of the stack: the first call has no memory, so a valid link gives
   ENOMEM. */
int bsdudp_ether_boot_in(struct bsdudp *stack, const struct bsdudp_config *given, const struct bsdudp_link *link,
                         void *memory, size_t len)
{
    const struct bsdudp_config told_config = core_config(given, link), *config = &told_config;
    const struct core_link told = core_link(link);
    int answer;
    if (bsdudp_core_output_len(&stack->core) >= 0)
        return -BSDUDP_ENXIO;
    answer = bsdudp_core_ether_boot(&stack->link, config, &told);
    if (answer != -BSDUDP_ENOMEM)
        return answer;
    bsdudp_lend(memory, len);
    answer = bsdudp_core_boot(&stack->core, config);
    if (answer == 0) {
        answer = bsdudp_core_ether_boot(&stack->link, config, &told);
        if (answer < 0)
            bsdudp_core_end(&stack->core);
    }
    if (answer == 0) {
        stack->tick_link = tick_link;
        stack->end_link = end_link;
    }
    return bsdudp_lent(memory, answer);
}

int bsdudp_ether_receive(struct bsdudp *s, const void *frame, size_t len)
{
    return bsdudp_core_ether_receive(&s->core, &s->link, frame, len);
}

int bsdudp_ether_receive_fate(struct bsdudp *s, const void *frame, size_t len, struct bsdudp_fate *fate)
{
    return bsdudp_core_ether_receive_fate(&s->core, &s->link, frame, len, fate);
}

int bsdudp_ether_transmit(struct bsdudp *s, void *buffer, size_t len)
{
    return bsdudp_core_ether_transmit(&s->core, &s->link, buffer, len);
}

int bsdudp_ether_last_error(struct bsdudp *s, uint32_t fd)
{
    return bsdudp_core_ether_last_error(&s->core, &s->link, fd);
}

/* The result of a query for the link, or the error of a handle without a stack, which comes first. */
static int answer_of(struct bsdudp *s, int answer)
{
    return answer < 0 && bsdudp_core_output_len(&s->core) < 0 ? -BSDUDP_ENXIO : answer;
}

int bsdudp_ether_address(struct bsdudp *s)
{
    return answer_of(s, bsdudp_core_ether_address(&s->link));
}

int bsdudp_ether_tallies(struct bsdudp *s, struct bsdudp_tallies *tallies)
{
    struct core_tallies told;
    const int answer = bsdudp_core_ether_tallies(&s->link, &told);
    if (answer < 0)
        return answer_of(s, answer);
    *tallies = told.tallies;
    return 0;
}

int bsdudp_ether_expired(struct bsdudp *s, uint64_t *value)
{
    struct core_tallies told;
    const int answer = bsdudp_core_ether_tallies(&s->link, &told);
    if (answer < 0)
        return answer_of(s, answer);
    *value = told.expired;
    return 0;
}

int bsdudp_ether_neighbour(struct bsdudp *s, uint32_t i, struct bsdudp_neighbour *neighbour)
{
    struct core_neighbour told;
    const int answer = bsdudp_core_ether_neighbour(&s->link, i, &told);
    int at;
    if (answer < 0)
        return answer_of(s, answer);
    neighbour->ip = told.ip;
    neighbour->mac[0] = (uint8_t)(told.mac_high >> 8);
    neighbour->mac[1] = (uint8_t)told.mac_high;
    for (at = 0; at < 4; at++)
        neighbour->mac[2 + at] = (uint8_t)(told.mac_low >> (24 - 8 * at));
    neighbour->known = told.known;
    neighbour->tries = told.tries;
    neighbour->ticks = told.ticks;
    return 0;
}
