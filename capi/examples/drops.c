/* Why packets were dropped, as text for a person. */
#include "drops.h"

#include <string.h>

enum { LINE = 40 }; /* the most bytes of a line: a name, and a number of 10 digits */

struct text {
    char *at;
    const char *end;
};

static void put(struct text *to, const char *before, uint32_t number)
{
    uint32_t scale = 1;
    to->at = strcpy(to->at, before) + strlen(before);
    while (number / scale > 9)
        scale *= 10;
    for (; scale > 0; scale /= 10)
        *to->at++ = (char)('0' + number / scale % 10);
    *to->at = 0;
}

static int has_room(const struct text *to) { return to->end - to->at > LINE; }

static void put_line(struct text *to, const char *name, uint64_t number)
{
    if (number == 0 || !has_room(to))
        return;
    to->at = strcpy(to->at, name) + strlen(name);
    put(to, " ", number > UINT32_MAX ? UINT32_MAX : (uint32_t)number);
    *to->at++ = '\n';
    *to->at = 0;
}

static void put_counters(struct bsdudp *host, struct text *to)
{
    const char *name;
    uint64_t value;
    uint32_t i;
    for (i = 0; (name = bsdudp_counter_name(i)) != NULL; i++) {
        if (bsdudp_counter_cause(i) == NULL || bsdudp_counter(host, i, &value) < 0)
            continue;
        if (strcmp(name, "ip.noproto") == 0) /* a ping that gets its reply is no drop */
            bsdudp_ether_noproto(host, &value);
        put_line(to, name, value);
    }
}

static void put_tallies(struct bsdudp *host, struct text *to)
{
    struct bsdudp_tallies it;
    if (bsdudp_ether_tallies(host, &it) < 0)
        return;
    put_line(to, "ignored", it.ignored);
    put_line(to, "martians", it.martians);
    put_line(to, "bad_arp", it.bad_arp);
    put_line(to, "conflicts", it.conflicts);
    put_line(to, "replies_dropped", it.replies_dropped);
    put_line(to, "no_route", it.no_route);
    put_line(to, "held_dropped", it.held_dropped);
    put_line(to, "unresolved", it.unresolved);
    put_line(to, "limited", it.limited);
    put_line(to, "icmp_dropped", it.icmp_dropped);
}

static void put_neighbours(struct bsdudp *host, struct text *to)
{
    struct bsdudp_neighbour it;
    uint32_t i;
    for (i = 0; has_room(to) && bsdudp_ether_neighbour(host, i, &it) == 0; i++) {
        put(to, it.known ? "neighbour " : "no reply from ", it.ip >> 24);
        put(to, ".", it.ip >> 16 & 255);
        put(to, ".", it.ip >> 8 & 255);
        put(to, ".", it.ip & 255);
        *to->at++ = '\n';
        *to->at = 0;
    }
}

uint32_t drops_text(struct bsdudp *host, char *text, uint32_t len)
{
    struct text to = {text, text + len};
    text[0] = 0;
    put_counters(host, &to);
    put_tallies(host, &to);
    put_neighbours(host, &to);
    return (uint32_t)(to.at - text);
}
