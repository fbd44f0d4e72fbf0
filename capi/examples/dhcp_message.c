/* The messages of DHCP: see dhcp_message.h. Section numbers are those of RFC 2131. */
#include "dhcp_message.h"

#include <string.h>

enum { PAD = 0, MASK = 1, ROUTER = 3, ADDRESS = 50, LEASE = 51, OVERLOAD = 52, TYPE = 53, SERVER = 54, LIST = 55 };
enum { T1 = 58, T2 = 59, END = 255 };
enum { REQUEST = 1, REPLY = 2, ETHERNET = 1, MAC_LEN = 6, BROADCAST = 0x80 }; /* op, htype, hlen, flags */

/* Offsets in a frame, and in a message. */
enum { IP_AT = 14, UDP_AT = 34, IP_LEN = 20, UDP_LEN = 8 };
enum { XID = 4, SECS = 8, FLAGS = 10, CIADDR = 12, YIADDR = 16, CHADDR = 28, SNAME = 44, FILE_AT = 108, COOKIE = 236 };
enum { OPTIONS = 240 };

static const uint8_t all[MAC_LEN] = {0xff, 0xff, 0xff, 0xff, 0xff, 0xff}, cookie[] = {99, 130, 83, 99};

static uint32_t get16(const uint8_t *at) { return at[0] * UINT32_C(0x100) + at[1]; }
static uint32_t get(const uint8_t *at) { return get16(at) * UINT32_C(0x10000) + get16(at + 2); }

static void put16(uint8_t *at, uint32_t value)
{
    at[0] = (uint8_t)(value >> 8);
    at[1] = (uint8_t)value;
}

static void put(uint8_t *at, uint32_t value)
{
    put16(at, value >> 16);
    put16(at + 2, value);
}

static int is_same(const uint8_t *a, const uint8_t *b, uint32_t len)
{
    uint32_t i = 0;
    /*@ loop invariant i <= len && \forall integer k; 0 <= k < i ==> a[k] == b[k];
        loop assigns i;
        loop variant len - i; */
    while (i < len && a[i] == b[i])
        i++;
    return i == len;
}

/* The sum of RFC 1071, before it's inverted. */
static uint32_t sum(uint32_t so_far, const uint8_t *at, uint32_t len)
{
    uint32_t i;
    /*@ loop invariant i <= len && so_far <= 131071 + 65280 * i;
        loop assigns i, so_far;
        loop variant len - i; */
    for (i = 0; i < len; i++)
        so_far += i % 2 == 0 ? at[i] * UINT32_C(0x100) : at[i];
    /*@ loop assigns so_far;
        loop variant so_far; */
    while (so_far > 0xffff)
        so_far = so_far / 0x10000 + so_far % 0x10000;
    return so_far;
}

/* The sum of a UDP packet in a frame, with its pseudo-header. */
static uint32_t udp_sum(const uint8_t *frame, uint32_t len)
{
    return sum(sum(17 + len, frame + IP_AT + 12, 8), frame + UDP_AT, len);
}

uint32_t dhcp_len(const uint8_t *frame, size_t frame_len, const uint8_t mac[6])
{
    const uint8_t *ip, *udp;
    uint32_t total, len;
    if (frame_len < DHCP_HEAD || (!is_same(frame, all, MAC_LEN) && !is_same(frame, mac, MAC_LEN)))
        return 0;
    ip = frame + IP_AT;
    udp = frame + UDP_AT;
    if (get16(frame + 12) != 0x0800 || ip[0] != 0x45 || ip[9] != 17 || sum(0, ip, IP_LEN) != 0xffff)
        return 0;
    total = get16(ip + 2);
    len = get16(udp + 4);
    if ((get16(ip + 6) & 0x3fff) != 0 || total > frame_len - IP_AT || total < IP_LEN + UDP_LEN) /* or a fragment */
        return 0;
    if (len < UDP_LEN || len > total - IP_LEN || get16(udp) != DHCP_SERVER_PORT || get16(udp + 2) != DHCP_CLIENT_PORT)
        return 0;
    return get16(udp + 6) != 0 && udp_sum(frame, len) != 0xffff ? 0 : len - UDP_LEN;
}

/* An option with a wrong length is ignored. */
static void take_option(struct dhcp_lease *to, uint8_t code, const uint8_t *at, uint8_t len)
{
    const uint32_t value = len >= 4 ? get(at) : 0;
    if (len == 1 && code == TYPE)
        to->type = at[0];
    if (len == 1 && code == OVERLOAD)
        to->overload = at[0];
    if (len % 4 == 0 && len > 0 && code == ROUTER)
        to->router = value;
    if (len != 4)
        return;
    to->mask = code == MASK ? value : to->mask;
    to->server = code == SERVER ? value : to->server;
    to->seconds = code == LEASE ? value : to->seconds;
    to->t1 = code == T1 ? value : to->t1;
    to->t2 = code == T2 ? value : to->t2;
}

/* Reads the options of a field. Returns 0 if one goes past its end, or END is missing (4.1). */
static int take_options(struct dhcp_lease *to, const uint8_t *at, uint32_t len)
{
    uint32_t i = 0;
    /*@ loop invariant i <= len;
        loop assigns i, *to;
        loop variant len - i; */
    while (i < len && at[i] != END) {
        if (at[i] == PAD) {
            i++;
            continue;
        }
        if (len - i < 2 || at[i + 1] > len - i - 2)
            return 0;
        take_option(to, at[i], at + i + 2, at[i + 1]);
        i += 2 + at[i + 1];
    }
    return i < len;
}

/* The fields `file` and `sname` may have options, too, which are read in this order (4.1). Only the options field says
   whether they have: an option OVERLOAD in them is ignored. */
int dhcp_read(struct dhcp_lease *to, const uint8_t *at, uint32_t len, uint32_t xid, const uint8_t mac[6])
{
    static const struct dhcp_lease none = {0, 0, 0, 0, 0, 0, 0, 0, 0};
    uint8_t overload;
    *to = none;
    if (len <= OPTIONS || at[0] != REPLY || at[1] != ETHERNET || at[2] != MAC_LEN || get(at + XID) != xid)
        return 0;
    if (!is_same(at + CHADDR, mac, MAC_LEN) || !is_same(at + COOKIE, cookie, sizeof cookie))
        return 0;
    to->addr = get(at + YIADDR);
    if (!take_options(to, at + OPTIONS, len - OPTIONS))
        return 0;
    overload = to->overload;
    return overload <= 3 && ((overload & 1) == 0 || take_options(to, at + FILE_AT, COOKIE - FILE_AT)) &&
           ((overload & 2) == 0 || take_options(to, at + SNAME, FILE_AT - SNAME)) && to->server != 0;
}

static uint8_t *put_option(uint8_t *at, uint8_t code, uint32_t value)
{
    if (value == 0)
        return at;
    at[0] = code;
    at[1] = 4;
    put(at + 2, value);
    return at + 6;
}

/* A client without an address wants replies to all hosts (4.1). DECLINE has no list of options (4.4.1, table 5). */
void dhcp_write(uint8_t *at, const struct dhcp_words *words)
{
    static const uint8_t list[] = {LIST, 6, MASK, ROUTER, LEASE, SERVER, T1, T2};
    uint8_t *to = at + OPTIONS;
    memset(at, 0, DHCP_MESSAGE);
    at[0] = REQUEST;
    at[1] = ETHERNET;
    at[2] = MAC_LEN;
    put(at + XID, words->xid);
    put16(at + SECS, words->secs);
    at[FLAGS] = words->own == 0 && words->type != DHCP_DECLINE ? BROADCAST : 0;
    put(at + CIADDR, words->own);
    memcpy(at + CHADDR, words->mac, MAC_LEN);
    memcpy(at + COOKIE, cookie, sizeof cookie);
    *to++ = TYPE;
    *to++ = 1;
    *to++ = words->type;
    to = put_option(to, ADDRESS, words->wanted);
    to = put_option(to, SERVER, words->server);
    if (words->type != DHCP_DECLINE) {
        memcpy(to, list, sizeof list);
        to += sizeof list;
    }
    *to = END;
}

size_t dhcp_frame(uint8_t *frame, const struct dhcp_words *words)
{
    uint8_t *ip = frame + IP_AT, *udp = frame + UDP_AT;
    uint32_t inverted;
    memset(frame, 0, DHCP_HEAD);
    memcpy(frame, all, MAC_LEN);
    memcpy(frame + 6, words->mac, MAC_LEN);
    put16(frame + 12, 0x0800);
    put16(ip, 0x4500);
    put16(ip + 2, IP_LEN + UDP_LEN + DHCP_MESSAGE);
    put16(ip + 4, words->xid);
    put16(ip + 8, 0x4011); /* TTL 64, UDP */
    put(ip + 12, words->own);
    put(ip + 16, 0xffffffff);
    put16(ip + 10, ~sum(0, ip, IP_LEN));
    put16(udp, DHCP_CLIENT_PORT);
    put16(udp + 2, DHCP_SERVER_PORT);
    put16(udp + 4, UDP_LEN + DHCP_MESSAGE);
    inverted = ~udp_sum(frame, UDP_LEN + DHCP_MESSAGE) & 0xffff;
    put16(udp + 6, inverted != 0 ? inverted : 0xffff);
    return DHCP_HEAD + DHCP_MESSAGE;
}
