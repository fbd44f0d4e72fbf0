/* A DHCP client: see dhcp.h. Section numbers are those of RFC 2131. */
#include "dhcp.h"

/* In ticks: the least wait after DECLINE, and the least time before a renewal is repeated; and the link-local addresses
   that are tried at once (RFC 3927, 9: RATE_LIMIT_INTERVAL and MAX_CONFLICTS). */
enum { TEN_SECONDS = 20, MINUTE = 120, MAX_CONFLICTS = 10 };
enum { LOCAL_COUNT = 254 * 256 };
#define LOCAL_FIRST BSDUDP_IP(169, 254, 1, 0)
#define LOCAL_MASK BSDUDP_IP(255, 255, 0, 0)
#define LONGEST UINT32_C(0x3fffffff) /* 34 years, for leases without end */

static uint32_t next_random(struct dhcp *it)
{
    it->seed ^= it->seed << 13;
    it->seed ^= it->seed >> 17;
    return it->seed ^= it->seed << 5;
}

/* The number of a message, by which its reply is known (4.1). */
static uint32_t next_number(struct dhcp *it) { return it->random != NULL ? it->random() : next_random(it); }

static int has_passed(const struct dhcp *it, uint32_t tick) { return (int32_t)(it->now - tick) >= 0; }

/* ---- the host */

/* Writes the settings of a host with this lease. Returns what its boot would: -BSDUDP_ENOMEM if they are right, because
   it has no memory here. */
static int configure(struct dhcp *it, const struct dhcp_lease *of, int has_probe)
{
    struct bsdudp none = BSDUDP_NONE;
    it->config.addr = of->addr;
    it->config.bcast = 0;
    it->link.mask = of->mask;
    it->link.gateway = of->router;
    it->link.probe = (uint8_t)has_probe;
    return bsdudp_ether_boot_in(&none, &it->config, &it->link, it->memory, 0);
}

/* Returns whether a host can have this lease. A router that isn't a neighbour is left out. A mask that is missing is
   that of the address's class. */
static int is_usable(const struct dhcp *it, struct dhcp_lease *lease)
{
    struct dhcp trial = *it;
    if (lease->mask == 0)
        lease->mask = lease->addr >> 31 == 0 ? 0xff000000 : lease->addr >> 30 == 2 ? 0xffff0000 : 0xffffff00;
    if (configure(&trial, lease, 1) != -BSDUDP_ENOMEM)
        lease->router = 0;
    return configure(&trial, lease, 1) == -BSDUDP_ENOMEM && lease->seconds >= DHCP_LEAST;
}

/* Boots the host, or moves it. */
static void boot(struct dhcp *it, const struct dhcp_lease *of, int has_probe)
{
    const struct bsdudp_addr local = {0, DHCP_CLIENT_PORT};
    int result;
    configure(it, of, has_probe);
    if (it->is_booted) {
        result = bsdudp_ether_rehost(it->host, &it->config, &it->link, it->memory, it->memory_len);
    } else {
        result = bsdudp_ether_boot_in(it->host, &it->config, &it->link, it->memory, it->memory_len);
        it->fd = result == 0 ? (uint32_t)bsdudp_socket(it->host) : 0;
        it->is_booted = result == 0 && bsdudp_bind(it->host, it->fd, &local) == 0;
        bsdudp_setsockopt(it->host, it->fd, BSDUDP_SO_RCVBUF, DHCP_QUEUE);
    }
    it->is_up = result == 0;
    it->addr = 0; /* until it has probed for it */
}

/* Takes the link-local address that follows from the hardware address, or after conflicts another (RFC 3927, 2.1). */
static void boot_local(struct dhcp *it)
{
    struct dhcp_lease local = {.addr = LOCAL_FIRST, .mask = LOCAL_MASK};
    uint32_t hash = it->conflicts, i;
    for (i = 0; i < 6; i++)
        hash = (hash ^ it->link.mac[i]) * 16777619;
    local.addr += (hash ^ hash >> 16) % LOCAL_COUNT;
    boot(it, &local, 1);
}

/* ---- the states */

/* Sends a message now, and again after 4, 8, 16, 32 and then each 64 seconds, with a second more or less (4.1). */
static void send_soon(struct dhcp *it, uint8_t type)
{
    it->message = type;
    it->due = it->now + (8u << (it->tries < 4 ? it->tries : 4)) - 2 + next_random(it) % 5;
    it->tries++;
}

/* Begins again after `wait` ticks and 1 to 10 seconds (4.4.1). The address of a lease isn't used any more. */
static void restart(struct dhcp *it, uint32_t wait)
{
    if (it->state >= DHCP_BOUND)
        it->is_up = 0;
    it->state = DHCP_INIT;
    it->addr = it->is_up ? it->addr : 0;
    it->lease.addr = it->tries = it->message = 0;
    it->due = it->now + wait + 2 + next_random(it) % 19;
}

static void begin(struct dhcp *it)
{
    it->state = it->lease.addr != 0 ? DHCP_REBOOTING : DHCP_SELECTING;
    it->xid = next_number(it);
    it->begun = it->asked = it->now;
    send_soon(it, it->state == DHCP_REBOOTING ? DHCP_REQUEST : DHCP_DISCOVER);
}

/* Requests more time from the server, and after T2 from all servers (4.4.5). Each message has its own number, so the
   time counts from the one that was granted. */
static void extend(struct dhcp *it)
{
    const int is_late = has_passed(it, it->rebind);
    const uint32_t until = is_late ? it->end : it->rebind, wait = (until - it->now) / 2;
    if (it->state == DHCP_BOUND)
        it->begun = it->now;
    it->state = is_late ? DHCP_REBINDING : DHCP_RENEWING;
    it->xid = next_number(it);
    it->asked = it->now;
    it->message = DHCP_REQUEST;
    it->due = it->now + (wait > MINUTE ? wait : MINUTE);
    if ((int32_t)(until - it->due) < 0)
        it->due = until;
}

/* A lease was granted. The host stays as it is if nothing changes for it. */
static void accept(struct dhcp *it, const struct dhcp_lease *lease)
{
    const uint32_t seconds = lease->seconds < LONGEST ? lease->seconds : LONGEST;
    const int is_told = lease->t1 > 0 && lease->t1 < lease->t2 && lease->t2 < seconds;
    const int is_same = it->state >= DHCP_RENEWING && lease->addr == it->config.addr;
    it->lease = *lease;
    it->end = it->asked + 2 * seconds;
    it->rebind = it->asked + (is_told ? 2 * lease->t2 : 2 * seconds - seconds / 4);
    it->due = it->asked + (is_told ? 2 * lease->t1 : seconds);
    it->state = DHCP_BOUND;
    it->message = 0; /* a copy of the request, if it was due again */
    if (!is_same || lease->mask != it->link.mask || lease->router != it->link.gateway)
        boot(it, lease, !is_same);
    if (!it->is_up)
        restart(it, 0);
}

/* Whether a message of this state has been sent: there is no reply to one that waits. A message that is sent again
   before a lease has the same number. */
static int has_sent(const struct dhcp *it)
{
    return it->message == 0 || (it->state < DHCP_BOUND && it->tries > 1);
}

static void take(struct dhcp *it, const uint8_t *at, uint32_t len)
{
    struct dhcp_lease lease = {0, 0, 0, 0, 0, 0, 0, 0, 0};
    if (!has_sent(it) || !dhcp_read(&lease, at, len, it->xid, it->link.mac))
        return;
    if (it->state == DHCP_SELECTING && lease.type == DHCP_OFFER && is_usable(it, &lease)) {
        it->lease = lease;
        it->state = DHCP_REQUESTING;
        it->tries = 0;
        it->asked = it->now;
        send_soon(it, DHCP_REQUEST);
    }
    if (it->state == DHCP_INIT || it->state == DHCP_SELECTING || it->state == DHCP_BOUND ||
        (it->state == DHCP_REQUESTING && lease.server != it->lease.server))
        return;
    if (lease.type == DHCP_NAK)
        restart(it, 0);
    else if (lease.type == DHCP_ACK && is_usable(it, &lease))
        accept(it, &lease);
}

/* Another host has the address. The server learns that (4.4.1), and another link-local address is tried. */
static void leave(struct dhcp *it)
{
    if (it->state >= DHCP_BOUND && it->state != DHCP_FIXED) {
        it->xid = next_number(it);
        restart(it, TEN_SECONDS);
        it->message = DHCP_DECLINE;
    } else {
        it->local_due = it->now + (++it->conflicts > MAX_CONFLICTS ? MINUTE : 0);
    }
    it->is_up = 0;
}

/* It's time for the state's next step. */
static void act(struct dhcp *it)
{
    switch (it->state) {
    case DHCP_INIT:
        begin(it);
        break;
    case DHCP_SELECTING:
        send_soon(it, DHCP_DISCOVER);
        break;
    case DHCP_REQUESTING:
    case DHCP_REBOOTING:
        if (it->tries < DHCP_TRIES)
            send_soon(it, DHCP_REQUEST);
        else
            restart(it, 0);
        break;
    case DHCP_FIXED:
        break;
    default:
        if (has_passed(it, it->end))
            restart(it, 0);
        else
            extend(it);
    }
}

/* ---- the calls */

int dhcp_start(struct dhcp *it)
{
    const struct dhcp_lease local = {.addr = LOCAL_FIRST, .mask = LOCAL_MASK};
    const uint32_t remembered = it->config.addr;
    const uint8_t *mac = it->link.mac;
    int result;
    if (it->link.mask != 0) {
        result = bsdudp_ether_boot_in(it->host, &it->config, &it->link, it->memory, it->memory_len);
        it->is_booted = it->is_up = result == 0;
        it->state = DHCP_FIXED;
        return result;
    }
    result = configure(it, &local, 1);
    if (result != -BSDUDP_ENOMEM || it->memory_len < BSDUDP_ETHER_MEMORY(it->config.mbufs, it->config.clusters))
        return result;
    it->seed = (it->seed ^ BSDUDP_IP(mac[2], mac[3], mac[4], mac[5])) * 1664525; /* no two devices wait alike */
    it->seed += it->seed == 0;
    restart(it, 0);
    it->lease.addr = remembered;
    return 0;
}

void dhcp_receive(struct dhcp *it, uint8_t *frame, size_t len)
{
    const uint32_t message_len = it->state < DHCP_BOUND ? dhcp_len(frame, len, it->link.mac) : 0;
    struct bsdudp_addr from = {0, 0};
    int came;
    if (message_len > 0)
        take(it, frame + DHCP_HEAD, message_len);
    else if (it->is_up)
        bsdudp_ether_receive(it->host, frame, len);
    while (it->fd != 0 && (came = bsdudp_recvfrom(it->host, it->fd, frame, BSDUDP_ETHER_ROOM, &from)) >= 0)
        if (it->state >= DHCP_BOUND && from.port == DHCP_SERVER_PORT)
            take(it, frame, (uint32_t)came);
}

/* A renewal is sent to the server by the host's socket. The host would write the broadcast address of its network
   for 255.255.255.255, where servers expect the latter, so a request to all is a frame as well. */
size_t dhcp_transmit(struct dhcp *it, uint8_t *frame)
{
    const int is_new = it->state == DHCP_REQUESTING, is_decline = it->message == DHCP_DECLINE;
    const struct bsdudp_addr server = {it->lease.server, DHCP_SERVER_PORT};
    const uint32_t seconds = (it->now - it->begun) / 2;
    struct dhcp_words words = {it->link.mac, it->xid, 0, 0, 0, it->secs, it->message};
    int len = 0;
    if (it->message != 0) {
        words.own = it->state >= DHCP_BOUND ? it->config.addr : 0;
        words.wanted = is_decline ? it->config.addr : it->state < DHCP_BOUND ? it->lease.addr : 0;
        words.server = is_new || is_decline ? it->lease.server : 0;
        if (!is_new && !is_decline) /* a request has the time of its DISCOVER (4.4.1) */
            it->secs = words.secs = (uint16_t)(seconds < 0xffff ? seconds : 0xffff);
        it->message = 0;
        dhcp_write(frame + DHCP_HEAD, &words);
        if (it->state != DHCP_RENEWING)
            return dhcp_frame(frame, &words);
        bsdudp_sendto(it->host, it->fd, &server, frame + DHCP_HEAD, DHCP_MESSAGE);
    }
    if (it->is_up)
        len = bsdudp_ether_transmit(it->host, frame, BSDUDP_ETHER_ROOM);
    return len > 0 ? (size_t)len : 0;
}

void dhcp_tick(struct dhcp *it)
{
    int in_use = 0;
    it->now++;
    if (it->is_booted)
        bsdudp_tick(it->host);
    if (it->is_up)
        in_use = bsdudp_ether_address(it->host);
    if (in_use < 0)
        leave(it);
    if (it->state == DHCP_SELECTING && it->tries > DHCP_TRIES && !it->is_up && has_passed(it, it->local_due))
        boot_local(it);
    if (has_passed(it, it->due))
        act(it);
    it->addr = in_use == 1 && it->is_up ? it->config.addr : 0;
}
