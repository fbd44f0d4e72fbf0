/* The parts of the device that no server is, without a network: options of DHCP messages, the times of a lease, and the
   texts of drops. It prints the line of the first wrong result, and then exits with 1. */
#include "dhcp.h"
#include "drops.h"

#include <stdio.h>
#include <stdlib.h>
#include <string.h>

#define WANT(call, answer) \
    do { \
        long got_ = (long)(call); \
        if (got_ != (long)(answer)) { \
            fprintf(stderr, "tests/device/parts.c:%d: %s: %ld, not %ld\n", __LINE__, #call, got_, (long)(answer)); \
            return 1; \
        } \
    } while (0)

enum { OWN = 0x0a000032, SERVER = 0x0a000002, ROOM = BSDUDP_ETHER_ROOM, OPTIONS = 240, TICKS_OF_AN_HOUR = 7200 };

static const uint8_t mac[6] = {2, 0, 0, 0, 0, 1};
static unsigned char memory[BSDUDP_ETHER_MEMORY(40, 7)] __attribute__((aligned(BSDUDP_ALIGNMENT)));
static struct bsdudp host = BSDUDP_NONE;
static uint8_t frame[ROOM], message[600];

static void put32(uint8_t *at, uint32_t value)
{
    at[0] = (uint8_t)(value >> 24);
    at[1] = (uint8_t)(value >> 16);
    at[2] = (uint8_t)(value >> 8);
    at[3] = (uint8_t)value;
}

/* A server's message without options (RFC 2131, section 2). */
static void reply_to(uint32_t xid)
{
    memset(message, 0, sizeof message);
    memcpy(message, "\2\1\6", 3);
    put32(message + 4, xid);
    put32(message + 16, OWN);
    memcpy(message + 28, mac, 6);
    memcpy(message + 236, "\x63\x82\x53\x63", 4);
}

/* Messages with these bytes as their options, each in memory that ends behind it. An option may not go past the end
   (RFC 2131, 4.1; RFC 2132, 2). */
static int options(void)
{
    static const struct {
        const char *bytes;
        uint8_t len, is_right;
    } rows[] = {
        {"\x35\1\5\x36\4\x0a\0\0\2\xff", 10, 1},         {"\x35\1\5\x36\4\x0a\0\0\2", 9, 0},
        {"\x35\1\5\x36\4\x0a\0\0\2\x33\4\0\0\0", 14, 0}, {"\x35\1\5\x36\4\x0a\0\0\2\x33", 10, 0},
        {"\x35\1\5\x36\4\x0a\0\0\2\x33\4", 11, 0},       {"\x35\1\5\x36\4\x0a\0\0\2\0\0\xff", 12, 1},
        {"\x36\4\x0a\0\0\2\x33\4\0\0\xff", 11, 0},       {"\x35\1\5\xff", 4, 0},
    };
    unsigned k;
    for (k = 0; k < sizeof rows / sizeof rows[0]; k++) {
        const uint32_t len = OPTIONS + rows[k].len;
        uint8_t *exact = malloc(len);
        struct dhcp_lease lease;
        reply_to(7);
        memcpy(message + OPTIONS, rows[k].bytes, rows[k].len);
        memcpy(exact, message, len);
        WANT(dhcp_read(&lease, exact, len, 7, mac) * 100 + (int)k, rows[k].is_right * 100 + (int)k);
        free(exact);
    }
    return 0;
}

/* The server's message in a frame to the client, of this type and with these times, those that are 0 left out. */
static void answers(struct dhcp *it, uint8_t type, const uint32_t times[3])
{
    static const uint8_t codes[] = {51, 58, 59};
    const struct dhcp_words words = {mac, it->xid, 0, 0, 0, 0, 0};
    uint8_t *to = message + OPTIONS, *ip = frame + 14;
    uint32_t sum = 0, k;
    reply_to(it->xid);
    memcpy(to, "\x35\1\0\x36\4\x0a\0\0\2\1\4\xff\xff\xff\0", 15);
    to[2] = type;
    to += 15;
    for (k = 0; k < 3; k++)
        if (times[k] != 0) {
            *to++ = codes[k];
            *to++ = 4;
            put32(to, times[k]);
            to += 4;
        }
    *to = 0xff;
    memcpy(frame + DHCP_HEAD, message, DHCP_MESSAGE);
    dhcp_frame(frame, &words);
    put32(ip + 12, SERVER);
    memset(ip + 10, 0, 2);
    for (k = 0; k < 20; k += 2)
        sum += (uint32_t)ip[k] << 8 | ip[k + 1];
    sum = ~((sum & 0xffff) + (sum >> 16));
    ip[10] = (uint8_t)(sum >> 8);
    ip[11] = (uint8_t)sum;
    memcpy(ip + 20, "\0\x43\0\x44", 4); /* the ports, and no checksum */
    memset(ip + 26, 0, 2);
    dhcp_receive(it, frame, DHCP_HEAD + DHCP_MESSAGE);
}

/* Lets time pass until the client is in a state. Returns how many ticks after its request that was. */
static uint32_t ticks_until(struct dhcp *it, enum dhcp_state state, uint32_t asked)
{
    while (it->state != state && it->now - asked < TICKS_OF_AN_HOUR + 1) {
        dhcp_tick(it);
        while (dhcp_transmit(it, frame) > 0)
            continue;
    }
    return it->now - asked;
}

/* Renewal, rebinding and the end of a lease, in ticks of half a second (RFC 2131, 4.4.5): the server's times, or 0.5 and
   0.875 of the lease. Times in a wrong order aren't used. */
static int leases(void)
{
    static const struct {
        uint32_t times[3], renews, rebinds, ends;
    } rows[] = {{{3600, 0, 0}, 3600, 6300, 7200},   {{800, 0, 0}, 800, 1400, 1600},   {{100, 20, 60}, 40, 120, 200},
                {{800, 600, 500}, 800, 1400, 1600}, {{800, 0, 600}, 800, 1400, 1600}, {{800, 400, 800}, 800, 1400, 1600}};
    unsigned k;
    for (k = 0; k < sizeof rows / sizeof rows[0]; k++) {
        struct dhcp it = {.host = &host, .config = {0, 0, 40, 7, 1500, 1}, .memory = memory, .seed = 7 + k};
        uint32_t asked;
        memcpy(it.link.mac, mac, 6);
        it.memory_len = sizeof memory;
        WANT(dhcp_start(&it), 0);
        ticks_until(&it, DHCP_SELECTING, 0);
        answers(&it, DHCP_OFFER, rows[k].times);
        WANT(it.state, DHCP_REQUESTING);
        asked = it.now;
        while (it.tries < 2 && dhcp_transmit(&it, frame) == 0)
            dhcp_tick(&it);
        answers(&it, DHCP_ACK, rows[k].times);
        WANT(it.state, DHCP_BOUND);
        WANT(ticks_until(&it, DHCP_RENEWING, asked), rows[k].renews);
        WANT(ticks_until(&it, DHCP_REBINDING, asked), rows[k].rebinds);
        WANT(ticks_until(&it, DHCP_INIT, asked), rows[k].ends);
        WANT(bsdudp_end(&host), 0);
    }
    return 0;
}

/* A ping that gets its reply is no drop. A packet of protocol 99 is one. */
static int drops(void)
{
    static const char ping[] = "\2\0\0\0\0\1\2\0\0\0\0\2\x08\0\x45\0\0\x1c\0\1\0\0\x40\1\x66\xad\x0a\0\0\2\x0a\0\0\x32"
                               "\x08\0\xf7\xff\0\0\0\0";
    const struct bsdudp_config config = {OWN, 0, 40, 7, 1500, 1};
    const struct bsdudp_link link = {{2, 0, 0, 0, 0, 1}, 0xffffff00, 0, 0};
    char text[512];
    WANT(bsdudp_ether_boot_in(&host, &config, &link, memory, sizeof memory), 0);
    memcpy(frame, ping, sizeof ping - 1);
    WANT(bsdudp_ether_receive(&host, frame, sizeof ping - 1), 0);
    WANT(drops_text(&host, text, sizeof text), strlen(text));
    WANT(strstr(text, "ip.") == NULL, 1);
    frame[23] = 99;
    frame[25] = 0xad - (99 - 1);
    WANT(bsdudp_ether_receive(&host, frame, sizeof ping - 1), 0);
    drops_text(&host, text, sizeof text);
    WANT(strncmp(text, "ip.noproto 1\n", 13), 0);
    return bsdudp_end(&host);
}

int main(void) { return options() || leases() || drops(); }
