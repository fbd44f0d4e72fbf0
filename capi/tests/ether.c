/* A host on an Ethernet: every call on its normal path, and every error that it can return; its memory, with each
   allocation failing in turn; each tally with a different value. It compiles as C99 and as C++, prints the line of the
   first wrong result, and then exits with 1. */
#include "bsdudp.h"

#include <stdio.h>
#include <string.h>

#define WANT(call, answer) \
    do { \
        long got_ = (long)(call); \
        if (got_ != (long)(answer)) { \
            fprintf(stderr, "capi/tests/ether.c:%d: %s: %ld, not %ld\n", __LINE__, #call, got_, (long)(answer)); \
            return 1; \
        } \
    } while (0)

#define ALIGNED __attribute__((aligned(BSDUDP_ALIGNMENT)))

enum { GUARD = 64, UNTOUCHED = 0xa5, ARP_FRAME = 42, KEPT = 2400, OWN = 0x0a000001, PEER = 0x0a000002 };

static unsigned char memory[GUARD + BSDUDP_ETHER_MEMORY(64, 16) + GUARD] ALIGNED;
static uint8_t frame[BSDUDP_ETHER_FRAME + 1], buffer[BSDUDP_ETHER_ROOM], bytes[2000];
static struct bsdudp host = BSDUDP_NONE;
static const struct bsdudp_link own_link = {{2, 1, 3, 5, 7, 9}, 0xffffff00, PEER, 0};
static const uint8_t peer_mac[6] = {0x12, 0x34, 0x56, 0x78, 0x9a, 0xbc}, all[6] = {255, 255, 255, 255, 255, 255};

static struct bsdudp_config config(void)
{
    struct bsdudp_config c = {OWN, 0x0a0000ff, 64, 16, 1500, 1};
    return c;
}

static void put32(uint8_t *at, uint32_t value)
{
    at[0] = (uint8_t)(value >> 24);
    at[1] = (uint8_t)(value >> 16);
    at[2] = (uint8_t)(value >> 8);
    at[3] = (uint8_t)value;
}

static void put_head(uint8_t *to, const uint8_t *mac, const uint8_t *from, unsigned type)
{
    memcpy(to, mac, 6);
    memcpy(to + 6, from, 6);
    to[12] = 8;
    to[13] = (uint8_t)type;
}

/* An ARP packet in its frame (RFC 826). */
static void put_arp(uint8_t *to, const uint8_t *mac, int op, const uint8_t *from, uint32_t ip,
                    const uint8_t *target_mac, uint32_t target)
{
    static const uint8_t head[7] = {0, 1, 8, 0, 6, 4, 0};
    put_head(to, mac, from, 6);
    memcpy(to + 14, head, sizeof head);
    to[21] = (uint8_t)op;
    memcpy(to + 22, from, 6);
    put32(to + 28, ip);
    memcpy(to + 32, target_mac, 6);
    put32(to + 38, target);
}

/* An ARP request arrives, for the host or for another one. */
static int asked(uint32_t ip, uint32_t target)
{
    static const uint8_t nobody[6] = {0, 0, 0, 0, 0, 0};
    put_arp(frame, all, 1, peer_mac, ip, nobody, target);
    return bsdudp_ether_receive(&host, frame, ARP_FRAME);
}

/* A packet from the peer arrives: its protocol and its data, which begins with `bytes`. */
static int came(int protocol, size_t len)
{
    static const uint8_t head[20] = {0x45, 0, 0, 0, 0, 9, 0, 0, 64, 0, 0, 0, 10, 0, 0, 2, 10, 0, 0, 1};
    uint32_t sum = 0;
    size_t k;
    put_head(frame, own_link.mac, peer_mac, 0);
    memcpy(frame + 14, head, sizeof head);
    frame[14 + 3] = (uint8_t)(20 + len);
    frame[14 + 9] = (uint8_t)protocol;
    for (k = 14; k < 34; k += 2)
        sum += (uint32_t)frame[k] << 8 | frame[k + 1];
    sum = (sum & 0xffff) + (sum >> 16);
    frame[14 + 10] = (uint8_t)(~sum >> 8);
    frame[14 + 11] = (uint8_t)~sum;
    memcpy(frame + 34, bytes, len);
    return bsdudp_ether_receive(&host, frame, 34 + len);
}

/* A ping without bytes, and a datagram without a checksum to a port that no socket has. */
static int pinged(void)
{
    static const uint8_t echo[8] = {8, 0, 0xf7, 0xff, 0, 0, 0, 0};
    memcpy(bytes, echo, sizeof echo);
    return came(1, sizeof echo);
}

static int sent_to_nobody(void)
{
    static const uint8_t datagram[8] = {0, 5, 0, 9, 0, 8, 0, 0};
    memcpy(bytes, datagram, sizeof datagram);
    return came(17, sizeof datagram);
}

/* The peer reports that a datagram from a port to one of its own didn't arrive (RFC 792): the code of "destination
   unreachable", and both ports. */
static int reported(int code, unsigned from, unsigned to)
{
    static const uint8_t message[36] = {3, 0, 0, 0, 0, 0, 0, 0, 0x45, 0, 0, 28, 0, 1, 0, 0, 64, 17,
                                        0, 0, 10, 0, 0, 1, 10, 0, 0, 2, 0, 0, 0, 0, 0, 8, 0, 0};
    uint32_t sum = 0;
    size_t k;
    memcpy(bytes, message, sizeof message);
    bytes[1] = (uint8_t)code;
    bytes[28] = (uint8_t)(from >> 8);
    bytes[29] = (uint8_t)from;
    bytes[30] = (uint8_t)(to >> 8);
    bytes[31] = (uint8_t)to;
    for (k = 0; k < sizeof message; k += 2)
        sum += (uint32_t)bytes[k] << 8 | bytes[k + 1];
    sum = (sum & 0xffff) + (sum >> 16);
    bytes[2] = (uint8_t)(~sum >> 8);
    bytes[3] = (uint8_t)~sum;
    return came(1, sizeof message);
}

/* Takes all queued frames, and returns their number. */
static int drained(void)
{
    int count = 0;
    while (bsdudp_ether_transmit(&host, buffer, sizeof buffer) > 0)
        count++;
    return count;
}

/* How many frames the host sends for a first fragment whose datagram expires: one with the fragment's first bytes. */
static int never_completed(void)
{
    int k, count;
    WANT(sent_to_nobody(), 0); /* the port unreachable makes way */
    drained();
    frame[14 + 6] |= 0x20;     /* more fragments */
    frame[14 + 10] -= 0x20;    /* the checksum */
    WANT(bsdudp_ether_receive(&host, frame, 14 + 28), 0);
    for (k = 0; k < 60; k++)
        WANT(drained() == 0 && bsdudp_tick(&host) == 0, 1);
    count = bsdudp_ether_transmit(&host, buffer, sizeof buffer) == 14 + 20 + 8 + 28 && drained() == 0;
    WANT(buffer[14 + 20] == 11 && buffer[14 + 21] == 1 && memcmp(buffer + 14 + 28, frame + 14, 28) == 0, 1);
    return count;
}

/* The calls of a host return this for a handle without a stack, or for a bare one. */
static int answers(struct bsdudp *s, int answer)
{
    struct bsdudp_tallies tallies;
    struct bsdudp_neighbour neighbour;
    uint64_t value = 99;
    tallies.ignored = 99;
    neighbour.ip = 99;
    WANT(bsdudp_ether_noproto(s, &value) == answer && value == 99, 1);
    WANT(bsdudp_ether_expired(s, &value) == answer && value == 99, 1);
    WANT(bsdudp_ether_address(s), answer);
    WANT(bsdudp_ether_last_error(s, BSDUDP_FIRST_FD), answer);
    WANT(bsdudp_ether_receive(s, frame, 14), answer);
    WANT(bsdudp_ether_transmit(s, buffer, sizeof buffer), answer);
    WANT(bsdudp_ether_tallies(s, &tallies), answer);
    WANT(bsdudp_ether_neighbour(s, 0, &neighbour), answer);
    WANT(tallies.ignored == 99 && neighbour.ip == 99, 1);
    return 0;
}

static int boot(const struct bsdudp_config *c, const struct bsdudp_link *l, size_t len)
{
    return bsdudp_ether_boot_in(&host, c, l, memory + GUARD, len);
}

/* Links and configurations that no host can have; a wrong link is reported first. */
static int refusals(void)
{
    const size_t len = sizeof memory - 2 * GUARD;
    struct bsdudp_config c = config(), wrong;
    struct bsdudp_link l = own_link;
    l.mac[0] |= 1;
    WANT(boot(&c, &l, len), -BSDUDP_EINVAL);
    l = own_link;
    l.gateway = 0x0a000102;
    WANT(boot(&c, &l, len), -BSDUDP_EINVAL);
    l.gateway = c.addr;
    WANT(boot(&c, &l, len), -BSDUDP_EINVAL);
    l.gateway = c.bcast;
    wrong = c;
    wrong.mbufs = 0;
    WANT(boot(&wrong, &l, len), -BSDUDP_EINVAL);
    WANT(boot(&wrong, &own_link, len), -BSDUDP_EDOM);
    wrong = c;
    wrong.mtu = 1501;
    WANT(boot(&wrong, &own_link, len), -BSDUDP_EINVAL);
    wrong.mtu = 67;
    WANT(boot(&wrong, &own_link, len), -BSDUDP_EINVAL);
    WANT(boot(&c, &own_link, 0), -BSDUDP_ENOMEM);
    WANT(bsdudp_ether_boot_in(&host, &c, &own_link, memory + GUARD + 1, len - 1), -BSDUDP_EINVAL);
    return answers(&host, -BSDUDP_ENXIO);
}

/* A setting of the link that no host can have: boot refuses it, and names the member. */
struct wrong {
    uint8_t first, last; /* bytes of the MAC address */
    uint32_t mask, gateway, bcast;
    uint16_t mtu;
    const char *text;
};

static int texts(void)
{
    static const struct wrong wrong[] = {
        {2, 1, 0xffffff00, 0, 0x0a0000ff, 1501, "mtu must be 68 to 1500 on an Ethernet"},
        {3, 1, 0xffffff00, 0, 0x0a0000ff, 1500, "mac must not be a group"},
        {0, 0, 0xffffff00, 0, 0x0a0000ff, 1500, "mac must not be 0"},
        {2, 1, 0xff00ff00, 0, 0x0a0000ff, 1500, "mask must be ones"},
        {2, 1, 0x00ffffff, 0, 0x0a0000ff, 1500, "mask must be ones"},
        {2, 1, 0xffff0000, 0, 0x0a0000ff, 1500, "bcast must be the last"},
        {2, 1, 0xffffff00, 0, 0x0a00ffff, 1500, "bcast must be the last"},
        {2, 1, 0xffffff00, 0x0a000102, 0x0a0000ff, 1500, "gateway must be a neighbour"},
        {2, 1, 0xffffff00, 0x0a0000ff, 0, 1500, "gateway must be a neighbour"},
        {2, 1, 0xffffff00, 0x0a000000, 0, 1500, "gateway must be a neighbour"},
        {2, 1, 0xffffff00, 0, 0, 67, "mtu must be 68 to 1500 on an Ethernet"},
        {2, 1, 0xffffffff, 0, 0, 1500, "mask must be ones"},
        {2, 1, 0xfffffffe, 0, 0, 1500, "mask must be ones"},
        {2, 1, 0, 0, 0, 1500, "mask must have more ones"},
        {2, 1, 0x80000000, 0, 0, 1500, "mask must have more ones"},
    };
    static const uint32_t masks[] = {0xffff0000, 0xffffff00, 0xfffffffc};
    const size_t len = sizeof memory - 2 * GUARD;
    struct bsdudp_link l;
    struct bsdudp_config c;
    const char *text;
    size_t i;
    for (i = 0; i < sizeof wrong / sizeof wrong[0]; i++) {
        c = config();
        c.bcast = wrong[i].bcast;
        c.mtu = wrong[i].mtu;
        memset(&l, 0, sizeof l);
        l.mac[0] = wrong[i].first;
        l.mac[5] = wrong[i].last;
        l.mask = wrong[i].mask;
        l.gateway = wrong[i].gateway;
        text = bsdudp_boot_strerror(boot(&c, &l, len), &c, &l);
        WANT(boot(&c, &l, len), -BSDUDP_EINVAL);
        WANT(strncmp(text, wrong[i].text, strlen(wrong[i].text)), 0);
    }
    l = own_link;
    l.gateway = 0;
    for (i = 0; i < sizeof masks / sizeof masks[0]; i++) { /* 0 is the last address of the network */
        struct bsdudp_addr any = {0, 7}, last = {0, 8};
        c = config();
        c.bcast = 0;
        l.mask = masks[i];
        last.ip = c.addr | ~l.mask;
        WANT(boot(&c, &l, len), 0);
        WANT(bsdudp_socket(&host), 3);
        WANT(bsdudp_bind(&host, 3, &any), 0);
        WANT(bsdudp_sendto(&host, 3, &last, bytes, 1), -BSDUDP_EACCES);
        last.ip--;
        WANT(bsdudp_sendto(&host, 3, &last, bytes, 1), 1);
        WANT(bsdudp_end(&host), 0);
    }
    return 0;
}

/* Boot with more and more memory: each of its allocations fails in turn, until all fit. No byte outside is changed. */
static int grows(void)
{
    const size_t most = BSDUDP_ETHER_MEMORY(64, 16);
    struct bsdudp_config c = config();
    size_t len, k;
    int answer = -1;
    memset(memory, UNTOUCHED, sizeof memory);
    for (len = 0; len <= most && answer != 0; len += 16) {
        answer = boot(&c, &own_link, len);
        WANT(answer == 0 || answer == -BSDUDP_ENOMEM, 1);
        WANT(bsdudp_output_len(&host), answer == 0 ? 0 : -BSDUDP_ENXIO);
        WANT(bsdudp_tick(&host), answer == 0 ? 0 : -BSDUDP_ENXIO);
        for (k = 0; k < GUARD; k++)
            WANT(memory[k] == UNTOUCHED && memory[GUARD + len + k] == UNTOUCHED, 1);
    }
    WANT(answer, 0);
    WANT(len + most / 50 + 128 >= most, 1);
    WANT(boot(&c, &own_link, most), -BSDUDP_ENXIO);
    WANT(bsdudp_boot_in(&host, &c, memory, sizeof memory), -BSDUDP_ENXIO);
    return 0;
}

/* A stack that isn't a host has no link. A host receives packets only through its link. */
static int one_or_the_other(void)
{
    static unsigned char other[BSDUDP_MEMORY(64, 16)] ALIGNED;
    struct bsdudp bare = BSDUDP_NONE;
    struct bsdudp_config c = config();
    WANT(bsdudp_boot_in(&bare, &c, other, sizeof other), 0);
    WANT(answers(&bare, -BSDUDP_EOPNOTSUPP), 0);
    WANT(bsdudp_ether_boot_in(&bare, &c, &own_link, memory, sizeof memory), -BSDUDP_ENXIO);
    WANT(bsdudp_rx(&bare, bytes, 20), 0);
    WANT(bsdudp_end(&bare), 0);
    WANT(bsdudp_rx(&host, bytes, 20), -BSDUDP_EOPNOTSUPP);
    WANT(bsdudp_tx(&host, buffer, sizeof buffer), -BSDUDP_EOPNOTSUPP);
    return 0;
}

/* Frames arrive and leave, and neighbours are known, requested, and grow older. */
static int frames(void)
{
    struct bsdudp_addr to = {0x0a000003, 99};
    struct bsdudp_neighbour near_;
    uint8_t wanted[ARP_FRAME];
    static const uint8_t nobody[6] = {0, 0, 0, 0, 0, 0};
    near_.ip = 99;
    WANT(bsdudp_ether_address(&host), 1);
    put_arp(wanted, all, 1, own_link.mac, OWN, nobody, OWN);
    WANT(bsdudp_ether_transmit(&host, buffer, sizeof buffer), ARP_FRAME); /* it announces its address */
    WANT(memcmp(buffer, wanted, ARP_FRAME), 0);
    WANT(bsdudp_ether_receive(&host, frame, BSDUDP_ETHER_FRAME + 1), -BSDUDP_EMSGSIZE);
    WANT(bsdudp_ether_transmit(&host, buffer, sizeof buffer - 1), -BSDUDP_EMSGSIZE);
    WANT(bsdudp_ether_transmit(&host, buffer, sizeof buffer), 0);
    WANT(bsdudp_ether_neighbour(&host, 0, &near_), -BSDUDP_EINVAL);
    WANT(near_.ip, 99);
    WANT(asked(PEER, OWN), 0);
    put_arp(wanted, peer_mac, 2, own_link.mac, OWN, peer_mac, PEER);
    WANT(bsdudp_ether_transmit(&host, buffer, sizeof buffer), ARP_FRAME);
    WANT(memcmp(buffer, wanted, ARP_FRAME), 0);
    WANT(bsdudp_ether_neighbour(&host, 0, &near_), 0);
    WANT(near_.ip == PEER && near_.known == 1 && near_.tries == 0 && near_.ticks == KEPT, 1);
    WANT(memcmp(near_.mac, peer_mac, 6), 0);
    WANT(bsdudp_tick(&host), 0);
    WANT(bsdudp_ether_neighbour(&host, 0, &near_) == 0 && near_.ticks == KEPT - 1, 1);
    WANT(bsdudp_socket(&host), 3);
    WANT(bsdudp_sendto(&host, 3, &to, "hi", 2), 2);
    put_arp(wanted, all, 1, own_link.mac, OWN, nobody, to.ip);
    WANT(bsdudp_ether_transmit(&host, buffer, sizeof buffer), ARP_FRAME);
    WANT(memcmp(buffer, wanted, ARP_FRAME), 0);
    WANT(bsdudp_ether_transmit(&host, buffer, sizeof buffer), 0);
    WANT(bsdudp_ether_neighbour(&host, 1, &near_), 0);
    WANT(near_.ip == to.ip && near_.known == 0 && near_.tries == 1 && near_.ticks == 3, 1);
    WANT(memcmp(near_.mac, nobody, 6), 0);
    WANT(bsdudp_ether_neighbour(&host, 2, &near_), -BSDUDP_EINVAL);
    put_arp(frame, own_link.mac, 2, peer_mac, to.ip, own_link.mac, OWN);
    WANT(bsdudp_ether_receive(&host, frame, ARP_FRAME), 0);
    WANT(bsdudp_ether_transmit(&host, buffer, sizeof buffer), 14 + 20 + 8 + 2);
    WANT(memcmp(buffer, peer_mac, 6), 0);
    return 0;
}

/* Each tally gets a different value. */
static int tallied(void)
{
    struct bsdudp_tallies it;
    struct bsdudp_addr near_ = {0x0a000009, 9}, far_ = {BSDUDP_IP(192, 168, 1, 1), 9};
    struct bsdudp_config c = config();
    struct bsdudp_link alone = own_link;
    uint64_t value;
    int k;
    WANT(bsdudp_end(&host), 0);
    alone.gateway = 0;
    WANT(boot(&c, &alone, sizeof memory - 2 * GUARD), 0);
    WANT(bsdudp_socket(&host), 3);
    WANT(asked(PEER, OWN), 0);
    WANT(drained(), 2);
    for (k = 0; k < 1; k++)
        WANT(bsdudp_ether_receive(&host, frame, 13), 0);
    for (k = 0; k < 2; k++)
        WANT(asked(PEER, OWN) == 0 && bsdudp_ether_receive(&host, frame, ARP_FRAME - 1) == 0, 1);
    for (k = 0; k < 3; k++)
        WANT(asked(OWN, OWN), 0);
    drained();
    for (k = 0; k < 12; k++)
        WANT(asked(PEER, OWN), 0);
    drained();
    for (k = 0; k < 5; k++)
        WANT(bsdudp_sendto(&host, 3, &far_, "", 0), 0);
    WANT(drained(), 0);
    for (k = 0; k < 14; k++)
        WANT(bsdudp_sendto(&host, 3, &near_, "", 0) == 0 && drained() <= 1, 1);
    for (k = 0; k < 16; k++)
        WANT(bsdudp_tick(&host) == 0 && drained() <= 2, 1);
    for (k = 0; k < 9; k++)
        WANT(pinged() == 0 && drained() == 1, 1);
    for (k = 0; k < 9; k++)
        WANT(sent_to_nobody() == 0 && drained() == 1, 1);
    WANT(sent_to_nobody(), 0);
    for (k = 0; k < 7; k++)
        WANT(pinged(), 0);
    WANT(drained(), 1);
    for (k = 0; k < 12; k++)
        WANT(sent_to_nobody() == 0 && drained() == 0, 1);
    frame[14 + 12] = 127; /* its source */
    for (k = 0; k < 13; k++)
        WANT(bsdudp_ether_receive(&host, frame, 14 + 28), 0);
    WANT(bsdudp_ether_tallies(&host, &it), 0);
    WANT(it.ignored, 1);
    WANT(it.bad_arp, 2);
    WANT(it.conflicts, 3);
    WANT(it.replies_dropped, 4);
    WANT(it.no_route, 5);
    WANT(it.held_dropped, 6);
    WANT(it.unresolved, 8);
    WANT(it.too_long, 0);
    WANT(it.echoes, 9);
    WANT(bsdudp_counter(&host, 15, &value) == 0 && value == 9 + 7, 1);
    WANT(bsdudp_ether_noproto(&host, &value) == 0 && value == 7, 1); /* their replies were dropped */
    WANT(it.unreachable, 10);
    WANT(it.limited, 12);
    WANT(it.martians, 13);
    WANT(it.icmp_dropped, 7);
    WANT(bsdudp_ether_expired(&host, &value) == 0 && value == 0, 1);
    for (k = 0; k < 14; k++)
        WANT(never_completed(), 1);
    WANT(bsdudp_ether_expired(&host, &value) == 0 && value == 14, 1);
    return 0;
}

/* An error about a connected socket's datagram is returned once, for the socket that sent it. */
static int reports(void)
{
    const struct bsdudp_addr peer = {PEER, 9}, local = {0, 2000};
    unsigned k;
    WANT(bsdudp_ether_last_error(&host, 3), 0); /* it's bound, and not connected */
    WANT(bsdudp_ether_last_error(&host, 4), -BSDUDP_EBADF);
    WANT(bsdudp_ether_last_error(&host, 0xffffffff), -BSDUDP_EBADF);
    WANT(bsdudp_socket(&host), 4);
    WANT(bsdudp_bind(&host, 4, &local), 0);
    WANT(bsdudp_connect(&host, 4, &peer), 0);
    WANT(bsdudp_ether_last_error(&host, 4), 0);
    WANT(reported(3, 2000, 9), 0);
    WANT(bsdudp_ether_last_error(&host, 3), 0);
    WANT(bsdudp_ether_last_error(&host, 4), BSDUDP_ECONNREFUSED);
    WANT(bsdudp_ether_last_error(&host, 4), 0);
    WANT(reported(1, 2000, 9), 0);
    WANT(bsdudp_ether_last_error(&host, 4), BSDUDP_EHOSTUNREACH);
    WANT(reported(3, 2000, 9) == 0 && reported(0, 2000, 9) == 0, 1); /* the newer counts */
    WANT(bsdudp_ether_last_error(&host, 4), BSDUDP_EHOSTUNREACH);
    WANT(bsdudp_ether_last_error(&host, 4), 0);
    WANT(reported(3, 2001, 9) == 0 && reported(3, 2000, 10) == 0 && reported(4, 2000, 9) == 0, 1);
    WANT(bsdudp_ether_last_error(&host, 4), 0);
    WANT(reported(3, 2000, 9), 0);
    for (k = 0; k < 7; k++)
        WANT(reported(3, 3000, 100 + k), 0);
    WANT(bsdudp_ether_last_error(&host, 4), BSDUDP_ECONNREFUSED);
    WANT(reported(3, 2000, 9), 0);
    for (k = 0; k < 8; k++)
        WANT(reported(3, 4000, 100 + k), 0); /* eight are kept */
    WANT(bsdudp_ether_last_error(&host, 4), 0);
    WANT(strcmp(bsdudp_error_name(-BSDUDP_ECONNREFUSED), "ECONNREFUSED"), 0);
    WANT(bsdudp_close(&host, 4), 0);
    WANT(bsdudp_ether_last_error(&host, 4), -BSDUDP_EBADF);
    return 0;
}

/* A host that probes first: it uses its address after some seconds, unless another host has it. */
static int probes(void)
{
    struct bsdudp_config c = config();
    struct bsdudp_link careful = own_link;
    int ticks;
    careful.probe = 1;
    WANT(bsdudp_end(&host), 0);
    WANT(boot(&c, &careful, sizeof memory - 2 * GUARD), 0);
    WANT(bsdudp_ether_address(&host), 0);
    for (ticks = 0; bsdudp_ether_address(&host) == 0 && ticks < 20; ticks++) {
        drained();
        WANT(bsdudp_tick(&host), 0);
    }
    WANT(bsdudp_ether_address(&host), 1);
    WANT(ticks > 6 && ticks < 20, 1);
    WANT(bsdudp_end(&host), 0);
    WANT(boot(&c, &careful, sizeof memory - 2 * GUARD), 0);
    WANT(drained(), 1);
    WANT(asked(OWN, OWN), 0);
    WANT(bsdudp_ether_address(&host), -BSDUDP_EADDRINUSE);
    for (ticks = 0; ticks < 20; ticks++)
        WANT(bsdudp_tick(&host) == 0 && drained() == 0, 1);
    return 0;
}

/* Once it has ended the handle is free, for a bare stack too. */
static int ends(void)
{
    struct bsdudp_config c = config();
    WANT(bsdudp_end(&host), 0);
    WANT(answers(&host, -BSDUDP_ENXIO), 0);
    WANT(bsdudp_tick(&host), -BSDUDP_ENXIO);
    WANT(bsdudp_boot_in(&host, &c, memory, sizeof memory), 0);
    WANT(bsdudp_tick(&host), 0);
    WANT(bsdudp_rx(&host, bytes, 20), 0);
    WANT(answers(&host, -BSDUDP_EOPNOTSUPP), 0);
    WANT(bsdudp_end(&host), 0);
    WANT(bsdudp_ether_boot(&host, &c, &own_link), 0);
    WANT(bsdudp_ether_boot(&host, &c, &own_link), -BSDUDP_ENXIO);
    WANT(asked(PEER, OWN), 0);
    WANT(drained(), 2);
    WANT(bsdudp_end(&host), 0);
    c.mbufs = 0;
    WANT(bsdudp_ether_boot(&host, &c, &own_link), -BSDUDP_EDOM);
    return 0;
}

int main(void)
{
    return answers(&host, -BSDUDP_ENXIO) || refusals() || texts() || grows() || one_or_the_other() || frames() ||
           tallied() || reports() || probes() || ends();
}
