
/* ---- between bsdudp.h and the compiled code */

/* The end of the frames has a handle without a stack, and room for a struct that the compiled code reads or writes. */
enum { HANDLE = 16, ARGUMENT = 32, LONG_ARGUMENT = 112 };

/* A stack's memory begins with its handle, and the bounds of the free part, which arena.c reads. A host's memory then
   has the handle of its link. */
enum { ARENA_NEXT = HANDLE, ARENA_END = HANDLE + 8, ARENA_HEAD = HANDLE + 16, HOST_HEAD = ARENA_HEAD + HANDLE };

/* A call of the compiled code begins: `it` gets a stack pointer and the windows on constants, on the frames and on the
   stack's memory. */
static void begin(struct core *it, const struct bsdudp *stack, u8 *frames, u32 size, u32 argument)
{
    const struct window none = {NULL, 0, 0};
    size -= HANDLE + argument;
    memset(frames + size, 0, HANDLE);
    it->top = FRAMES + size;
    it->windows[WINDOW(CONSTANTS)].start = (u8 *)constants;
    it->windows[WINDOW(CONSTANTS)].readable = sizeof constants;
    it->windows[WINDOW(CONSTANTS)].writable = 0;
    it->windows[WINDOW(FRAMES)].start = frames;
    it->windows[WINDOW(FRAMES)].readable = size + HANDLE + argument;
    it->windows[WINDOW(FRAMES)].writable = size + HANDLE + argument;
    it->windows[WINDOW(MEMORY)].start = (u8 *)(uintptr_t)stack->core.at;
    it->windows[WINDOW(MEMORY)].readable = stack->core.live;
    it->windows[WINDOW(MEMORY)].writable = stack->core.live;
    it->windows[WINDOW(BYTES)] = none;
}

/* The frames of a call, with its windows, and space for structs of this many bytes. */
#define BEGIN(call, stack) BEGIN_WITH(call, stack, ARGUMENT)
#define BEGIN_WITH(call, stack, bytes) \
    u8 frames[FRAMES_OF_##call + HANDLE + (bytes)]; \
    struct core it; \
    const u32 argument = FRAMES + FRAMES_OF_##call + HANDLE; \
    u8 *const plain = frames + FRAMES_OF_##call + HANDLE; \
    begin(&it, stack, frames, sizeof frames, bytes); \
    (void)argument; \
    (void)plain

/* The handle of a stack: it's in the stack's memory, or is the one without a stack. */
static u32 handle_of(const struct core *it)
{
    return it->windows[WINDOW(MEMORY)].start != NULL ? MEMORY : (u32)it->top;
}

/* The largest length that is passed to the compiled code: no call distinguishes lengths above it. */
static u32 heard(size_t len)
{
    return len <= BSDUDP_ETHER_FRAME ? (u32)len : BSDUDP_ETHER_FRAME + 1;
}

/* A window on bytes that are read. */
static u32 lend(struct core *it, const u8 *bytes, size_t len)
{
    it->windows[WINDOW(BYTES)].start = (u8 *)bytes;
    it->windows[WINDOW(BYTES)].readable = heard(len);
    return BYTES;
}

/* A window on a buffer that is written. */
static u32 give(struct core *it, u8 *buffer, size_t len)
{
    lend(it, buffer, len);
    it->windows[WINDOW(BYTES)].writable = heard(len);
    return BYTES;
}

/* A result, whose bits are those of a signed number. */
static int answer_of(u32 answer)
{
    return answer <= 0x7fffffff ? (int)answer : -(int)(0xffffffff - answer) - 1;
}

static void put_addr(u8 *plain, const struct bsdudp_addr *addr)
{
    put_u32(plain, addr->ip);
    put_u16(plain + 4, addr->port);
    put_u16(plain + 6, 0);
}

size_t bsdudp_memory(const struct bsdudp_config *config)
{
    return BSDUDP_MEMORY(config->mbufs, config->clusters);
}

/* The memory of a stack before boot: no stack, and all of it free after a head of this many bytes. */
static void make_arena(struct bsdudp *fresh, u8 *memory, size_t len, u32 head)
{
    const size_t most = 0x3ffffff0;
    fresh->core.at = (uintptr_t)memory;
    fresh->core.live = (u32)((len < most ? len : most) / 16 * 16);
    memset(memory, 0, head);
    put_u64(memory + ARENA_NEXT, MEMORY + head);
    put_u64(memory + ARENA_END, (u64)MEMORY + fresh->core.live);
}

static void put_config(u8 *plain, const struct bsdudp_config *config)
{
    put_u32(plain, config->addr);
    put_u32(plain + 4, config->bcast);
    put_u32(plain + 8, config->mbufs);
    put_u32(plain + 12, config->clusters);
    put_u16(plain + 16, config->mtu);
    put_u16(plain + 18, config->first_id);
}

/* The same as bsdudp_boot_in, in memory of any alignment: only bytes are read and written here. The memory begins with
   a head of this many bytes, which are set. */
static int boot_at(struct bsdudp *stack, const struct bsdudp_config *config, u8 *memory, size_t len, u32 head)
{
    u8 front[HOST_HEAD];
    struct bsdudp fresh = *stack;
    int answer;
    if (stack->core.at == 0)
        make_arena(&fresh, len < head ? front : memory, len < head ? head : len, head);
    {
        BEGIN(boot, &fresh);
        put_config(plain, config);
        answer = answer_of(core_boot(&it, MEMORY, argument));
    }
    if (answer == 0)
        *stack = fresh;
    return answer;
}

int bsdudp_boot_in(struct bsdudp *stack, const struct bsdudp_config *config, void *memory, size_t len)
{
    const int is_aligned = (uintptr_t)memory % BSDUDP_ALIGNMENT == 0;
    int answer = boot_at(stack, config, memory, is_aligned ? len : 0, ARENA_HEAD);
    return answer == -BSDUDP_ENOMEM && !is_aligned ? -BSDUDP_EINVAL : answer;
}

/* ---- a host: its link has a handle of its own, after the head of the stack's memory */

#define LINK (MEMORY + ARENA_HEAD)

/* The settings of a host as the core has them: as broadcast address, 0 stands for the last address of the network. */
static struct bsdudp_config core_config(const struct bsdudp_config *of, const struct bsdudp_link *link)
{
    struct bsdudp_config config = *of;
    if (config.bcast == 0)
        config.bcast = config.addr | ~link->mask;
    return config;
}

enum { CONFIG = 20 }; /* the bytes of a configuration; the link follows */

static void put_settings(u8 *plain, const struct bsdudp_config *given, const struct bsdudp_link *link)
{
    const struct bsdudp_config config = core_config(given, link);
    put_config(plain, &config);
    put_u16(plain + CONFIG, (u16)(link->mac[0] << 8 | link->mac[1]));
    put_u32(plain + CONFIG + 4, BSDUDP_IP(link->mac[2], link->mac[3], link->mac[4], link->mac[5]));
    put_u32(plain + CONFIG + 8, link->mask);
    put_u32(plain + CONFIG + 12, link->gateway);
    plain[CONFIG + 16] = link->probe;
}

/* The number of the first wrong setting of a host, or 0. composed.c, which follows, calls this. */
static int bsdudp_link_fault(const struct bsdudp_config *config, const struct bsdudp_link *link)
{
    const struct bsdudp none = BSDUDP_NONE;
    BEGIN_WITH(ether_fault, &none, LONG_ARGUMENT);
    put_settings(plain, config, link);
    return answer_of(core_ether_fault(&it, argument, argument + CONFIG));
}

/* Boots the link in the memory of a booted stack, or returns the error. Without a stack nothing is booted. */
static int boot_link(const struct bsdudp *stack, const struct bsdudp_config *config, const struct bsdudp_link *link)
{
    u8 head[HOST_HEAD];
    struct bsdudp none = *stack;
    if (stack->core.at == 0)
        make_arena(&none, head, sizeof head, HOST_HEAD);
    BEGIN_WITH(ether_boot, &none, LONG_ARGUMENT);
    put_settings(plain, config, link);
    return answer_of(core_ether_boot(&it, LINK, argument, argument + CONFIG));
}

static int tick_link(struct bsdudp *stack)
{
    BEGIN(ether_tick, stack);
    return answer_of(core_ether_tick(&it, MEMORY, LINK));
}

static int end_link(struct bsdudp *stack)
{
    BEGIN(ether_end, stack);
    return answer_of(core_ether_end(&it, LINK));
}

static int boot_host_at(struct bsdudp *stack, const struct bsdudp_config *given, const struct bsdudp_link *link,
                        u8 *memory, size_t len)
{
    const struct bsdudp none = BSDUDP_NONE;
    const struct bsdudp_config told = core_config(given, link), *config = &told;
    int answer;
    if (stack->core.at != 0)
        return -BSDUDP_ENXIO;
    answer = boot_link(stack, config, link); /* a valid one fails without memory */
    if (answer != -BSDUDP_ENOMEM)
        return answer;
    answer = boot_at(stack, config, memory, len, HOST_HEAD);
    if (answer == 0)
        answer = boot_link(stack, config, link);
    if (answer < 0)
        *stack = none;
    else {
        stack->tick_link = tick_link;
        stack->end_link = end_link;
    }
    return answer;
}

int bsdudp_ether_boot_in(struct bsdudp *stack, const struct bsdudp_config *config, const struct bsdudp_link *link,
                         void *memory, size_t len)
{
    const int is_aligned = (uintptr_t)memory % BSDUDP_ALIGNMENT == 0;
    int answer = boot_host_at(stack, config, link, memory, is_aligned ? len : 0);
    return answer == -BSDUDP_ENOMEM && !is_aligned ? -BSDUDP_EINVAL : answer;
}

/* The result of a call for a host's link if the handle has none. */
static int without_link(const struct bsdudp *stack)
{
    return stack->core.at == 0 ? -BSDUDP_ENXIO : stack->tick_link == NULL ? -BSDUDP_EOPNOTSUPP : 0;
}

int bsdudp_ether_receive(struct bsdudp *stack, const void *frame, size_t len)
{
    BEGIN(ether_receive, stack);
    if (without_link(stack) < 0)
        return without_link(stack);
    return answer_of(core_ether_receive(&it, MEMORY, LINK, lend(&it, frame, len), heard(len)));
}

static void get_fate(struct bsdudp_fate *fate, const u8 *plain)
{
    fate->got = get_u64(plain);
    fate->lost = get_u64(plain + 8);
    fate->cause = get_u32(plain + 16);
    fate->kind = plain[20];
    fate->completed = plain[21];
}

int bsdudp_ether_receive_fate(struct bsdudp *stack, const void *frame, size_t len, struct bsdudp_fate *fate)
{
    int answer;
    BEGIN(ether_receive_fate, stack);
    if (without_link(stack) < 0)
        return without_link(stack);
    answer = answer_of(core_ether_receive_fate(&it, MEMORY, LINK, lend(&it, frame, len), heard(len), argument));
    if (answer == 0)
        get_fate(fate, plain);
    return answer;
}

int bsdudp_ether_transmit(struct bsdudp *stack, void *buffer, size_t len)
{
    BEGIN(ether_transmit, stack);
    if (without_link(stack) < 0)
        return without_link(stack);
    return answer_of(core_ether_transmit(&it, MEMORY, LINK, give(&it, buffer, len), heard(len)));
}

int bsdudp_ether_last_error(struct bsdudp *stack, uint32_t fd)
{
    BEGIN(ether_last_error, stack);
    if (without_link(stack) < 0)
        return without_link(stack);
    return answer_of(core_ether_last_error(&it, MEMORY, LINK, fd));
}

int bsdudp_ether_address(struct bsdudp *stack)
{
    BEGIN(ether_address, stack);
    if (without_link(stack) < 0)
        return without_link(stack);
    return answer_of(core_ether_address(&it, LINK));
}

int bsdudp_ether_tallies(struct bsdudp *stack, struct bsdudp_tallies *tallies)
{
    uint64_t *const members[] = {&tallies->ignored,         &tallies->martians,     &tallies->bad_arp,
                                 &tallies->conflicts,       &tallies->replies_dropped, &tallies->no_route,
                                 &tallies->held_dropped,    &tallies->unresolved,   &tallies->too_long,
                                 &tallies->echoes,          &tallies->unreachable,  &tallies->limited,
                                 &tallies->icmp_dropped};
    size_t i;
    BEGIN_WITH(ether_tallies, stack, LONG_ARGUMENT);
    if (without_link(stack) < 0)
        return without_link(stack);
    core_ether_tallies(&it, LINK, argument);
    for (i = 0; i < sizeof members / sizeof members[0]; i++)
        *members[i] = get_u64(plain + 8 * i);
    return 0;
}

int bsdudp_ether_expired(struct bsdudp *stack, uint64_t *value)
{
    enum { EXPIRED = 13 };
    BEGIN_WITH(ether_tallies, stack, LONG_ARGUMENT);
    if (without_link(stack) < 0)
        return without_link(stack);
    core_ether_tallies(&it, LINK, argument);
    *value = get_u64(plain + 8 * EXPIRED);
    return 0;
}

int bsdudp_ether_neighbour(struct bsdudp *stack, uint32_t i, struct bsdudp_neighbour *neighbour)
{
    int answer, at;
    BEGIN(ether_neighbour, stack);
    if (without_link(stack) < 0)
        return without_link(stack);
    answer = answer_of(core_ether_neighbour(&it, LINK, i, argument));
    if (answer < 0)
        return answer;
    neighbour->ip = get_u32(plain);
    for (at = 0; at < 4; at++)
        neighbour->mac[2 + at] = plain[7 - at]; /* numbers are little endian */
    neighbour->mac[0] = plain[9];
    neighbour->mac[1] = plain[8];
    neighbour->ticks = get_u16(plain + 10);
    neighbour->tries = plain[12];
    neighbour->known = plain[13];
    return 0;
}

int bsdudp_end(struct bsdudp *stack)
{
    const struct bsdudp none = BSDUDP_NONE;
    int answer;
    BEGIN(end, stack);
    if (stack->end_link != NULL)
        stack->end_link(stack);
    answer = answer_of(core_end(&it, handle_of(&it)));
    if (answer == 0) {
        if (stack->give_back != NULL)
            stack->give_back(stack->block);
        *stack = none;
    }
    return answer;
}

int bsdudp_rx(struct bsdudp *stack, const void *packet, size_t len)
{
    BEGIN(rx, stack);
    if (stack->tick_link != NULL)
        return -BSDUDP_EOPNOTSUPP;
    return answer_of(core_rx(&it, handle_of(&it), lend(&it, packet, len), heard(len)));
}

int bsdudp_rx_fate(struct bsdudp *stack, const void *packet, size_t len, struct bsdudp_fate *fate)
{
    int answer;
    BEGIN(rx_fate, stack);
    if (stack->tick_link != NULL)
        return -BSDUDP_EOPNOTSUPP;
    answer = answer_of(core_rx_fate(&it, handle_of(&it), lend(&it, packet, len), heard(len), argument));
    if (answer == 0)
        get_fate(fate, plain);
    return answer;
}

int bsdudp_tx(struct bsdudp *stack, void *buffer, size_t len)
{
    BEGIN(tx, stack);
    if (stack->tick_link != NULL)
        return -BSDUDP_EOPNOTSUPP;
    return answer_of(core_tx(&it, handle_of(&it), give(&it, buffer, len), heard(len)));
}

/* No stack takes part in it. */
int bsdudp_mark(void *packet, size_t len, uint8_t ttl, uint8_t tos)
{
    const struct bsdudp none = BSDUDP_NONE;
    BEGIN(mark, &none);
    return answer_of(core_mark(&it, give(&it, packet, len), heard(len), ttl, tos));
}

/* The link's calls go through a pointer that its boot sets, so a program that boots no host is linked without them. */
int bsdudp_tick(struct bsdudp *stack)
{
    BEGIN(tick, stack);
    return stack->tick_link != NULL ? stack->tick_link(stack) : answer_of(core_tick(&it, handle_of(&it)));
}

int bsdudp_socket(struct bsdudp *stack)
{
    BEGIN(socket, stack);
    return answer_of(core_socket(&it, handle_of(&it)));
}

int bsdudp_bind(struct bsdudp *stack, uint32_t fd, const struct bsdudp_addr *local)
{
    BEGIN(bind, stack);
    put_addr(plain, local);
    return answer_of(core_bind(&it, handle_of(&it), fd, argument));
}

int bsdudp_connect(struct bsdudp *stack, uint32_t fd, const struct bsdudp_addr *to)
{
    BEGIN(connect, stack);
    put_addr(plain, to);
    return answer_of(core_connect(&it, handle_of(&it), fd, argument));
}

int bsdudp_sendto(struct bsdudp *stack, uint32_t fd, const struct bsdudp_addr *to, const void *bytes, size_t len)
{
    BEGIN(sendto, stack);
    put_addr(plain, to);
    return answer_of(core_sendto(&it, handle_of(&it), fd, argument, lend(&it, bytes, len), heard(len)));
}

int bsdudp_send(struct bsdudp *stack, uint32_t fd, const void *bytes, size_t len)
{
    BEGIN(send, stack);
    return answer_of(core_send(&it, handle_of(&it), fd, lend(&it, bytes, len), heard(len)));
}

/* The result of a call that received or peeked, whose sender is in `plain`. */
static int received(int answer, const u8 *plain, struct bsdudp_addr *from)
{
    if (answer >= 0 && from != NULL) {
        from->ip = get_u32(plain);
        from->port = get_u16(plain + 4);
    }
    return answer;
}

int bsdudp_recvfrom(struct bsdudp *stack, uint32_t fd, void *buffer, size_t len, struct bsdudp_addr *from)
{
    int answer;
    BEGIN(recvfrom, stack);
    put_u32(plain, 0);
    put_u32(plain + 4, 0);
    answer = answer_of(core_recvfrom(&it, handle_of(&it), fd, give(&it, buffer, len), heard(len), argument));
    return received(answer, plain, from);
}

int bsdudp_peek(struct bsdudp *stack, uint32_t fd, void *buffer, size_t len, struct bsdudp_addr *from)
{
    int answer;
    BEGIN(peek, stack);
    put_u32(plain, 0);
    put_u32(plain + 4, 0);
    answer = answer_of(core_peek(&it, handle_of(&it), fd, give(&it, buffer, len), heard(len), argument));
    return received(answer, plain, from);
}

int bsdudp_close(struct bsdudp *stack, uint32_t fd)
{
    BEGIN(close, stack);
    return answer_of(core_close(&it, handle_of(&it), fd));
}

static int set_broadcast(struct bsdudp *stack, uint32_t fd, u32 on)
{
    BEGIN(set_broadcast, stack);
    return answer_of(core_set_broadcast(&it, handle_of(&it), fd, on));
}

static int set_reuse_port(struct bsdudp *stack, uint32_t fd, u32 on)
{
    BEGIN(set_reuse_port, stack);
    return answer_of(core_set_reuse_port(&it, handle_of(&it), fd, on));
}

static int set_receive_limit(struct bsdudp *stack, uint32_t fd, uint16_t limit)
{
    BEGIN(set_receive_limit, stack);
    return answer_of(core_set_receive_limit(&it, handle_of(&it), fd, limit));
}

static int receive_limit(struct bsdudp *stack, uint32_t fd)
{
    BEGIN(receive_limit, stack);
    return answer_of(core_receive_limit(&it, handle_of(&it), fd));
}

int bsdudp_setsockopt(struct bsdudp *stack, uint32_t fd, int option, int value)
{
    struct bsdudp_name name;
    int answer;
    switch (option) {
    case BSDUDP_SO_BROADCAST:
        return set_broadcast(stack, fd, value != 0);
    case BSDUDP_SO_REUSEPORT:
        return set_reuse_port(stack, fd, value != 0);
    case BSDUDP_SO_RCVBUF:
        if (value > 0 && value <= 65535)
            return set_receive_limit(stack, fd, (uint16_t)value);
        /* fall through */
    default: /* a handle without a stack and a wrong descriptor are reported first */
        answer = bsdudp_getsockname(stack, fd, &name);
        return answer < 0 ? answer : option == BSDUDP_SO_RCVBUF ? -BSDUDP_EINVAL : -BSDUDP_ENOPROTOOPT;
    }
}

int bsdudp_getsockopt(struct bsdudp *stack, uint32_t fd, int option)
{
    struct bsdudp_name name;
    const int answer = bsdudp_getsockname(stack, fd, &name);
    if (answer < 0)
        return answer;
    switch (option) {
    case BSDUDP_SO_BROADCAST:
        return name.broadcast;
    case BSDUDP_SO_REUSEPORT:
        return name.reuse_port;
    case BSDUDP_SO_RCVBUF:
        return receive_limit(stack, fd);
    default:
        return -BSDUDP_ENOPROTOOPT;
    }
}

int bsdudp_getsockname(struct bsdudp *stack, uint32_t fd, struct bsdudp_name *name)
{
    int answer;
    BEGIN(name, stack);
    answer = answer_of(core_name(&it, handle_of(&it), fd, argument));
    if (answer == 0) {
        name->local_ip = get_u32(plain);
        name->peer_ip = get_u32(plain + 4);
        name->local_port = get_u16(plain + 8);
        name->peer_port = get_u16(plain + 10);
        name->broadcast = plain[12];
        name->reuse_port = plain[13];
    }
    return answer;
}

int bsdudp_next(struct bsdudp *stack, uint32_t fd, struct bsdudp_next *next)
{
    int answer;
    BEGIN(next, stack);
    answer = answer_of(core_next(&it, handle_of(&it), fd, argument));
    if (answer == 0) {
        next->ip = get_u32(plain);
        next->port = get_u16(plain + 4);
        next->len = get_u32(plain + 8);
        next->waiting = get_u32(plain + 12);
    }
    return answer;
}

int bsdudp_readable(struct bsdudp *stack, uint64_t *set)
{
    int answer;
    BEGIN(readable, stack);
    answer = answer_of(core_readable(&it, handle_of(&it), argument));
    if (answer == 0)
        *set = get_u64(plain);
    return answer;
}

int bsdudp_output_len(struct bsdudp *stack)
{
    BEGIN(output_len, stack);
    return answer_of(core_output_len(&it, handle_of(&it)));
}

int bsdudp_next_packet(struct bsdudp *stack)
{
    BEGIN(next_packet, stack);
    return answer_of(core_next_packet(&it, handle_of(&it)));
}

int bsdudp_unfinished_len(struct bsdudp *stack)
{
    BEGIN(unfinished_len, stack);
    return answer_of(core_unfinished_len(&it, handle_of(&it)));
}

int bsdudp_unfinished(struct bsdudp *stack, uint32_t i, struct bsdudp_unfinished *datagram)
{
    int answer;
    BEGIN(unfinished, stack);
    answer = answer_of(core_unfinished(&it, handle_of(&it), i, argument));
    if (answer == 0) {
        datagram->source = get_u32(plain);
        datagram->destination = get_u32(plain + 4);
        datagram->bytes = get_u32(plain + 8);
        datagram->ranges = get_u32(plain + 12);
        datagram->id = get_u16(plain + 16);
        datagram->protocol = plain[18];
        datagram->ticks = plain[19];
    }
    return answer;
}

int bsdudp_unfinished_range(struct bsdudp *stack, uint32_t i, uint32_t k, struct bsdudp_range *range)
{
    int answer;
    BEGIN(unfinished_range, stack);
    answer = answer_of(core_unfinished_range(&it, handle_of(&it), i, k, argument));
    if (answer == 0) {
        range->offset = get_u32(plain);
        range->len = get_u32(plain + 4);
        range->more = plain[8];
    }
    return answer;
}

int bsdudp_counter(struct bsdudp *stack, uint32_t which, uint64_t *value)
{
    int answer;
    BEGIN(counter, stack);
    answer = answer_of(core_counter(&it, handle_of(&it), which, argument));
    if (answer == 0)
        *value = get_u64(plain);
    return answer;
}

int bsdudp_mbstat(struct bsdudp *stack, struct bsdudp_mbstat *usage)
{
    int answer;
    BEGIN(mbstat, stack);
    answer = answer_of(core_mbstat(&it, handle_of(&it), argument));
    if (answer == 0) {
        usage->free_mbufs = get_u32(plain);
        usage->mbufs = get_u32(plain + 4);
        usage->free_clusters = get_u32(plain + 8);
        usage->clusters = get_u32(plain + 12);
        usage->refs = get_u32(plain + 16);
        usage->most = get_u32(plain + 20);
    }
    return answer;
}
