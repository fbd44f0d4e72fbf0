/* Plays a capture file (Ethernet, Linux cooked, loopback or raw IP) to a host that echoes port 7, and writes the
   packets that the host sends to another capture file. The clock follows the capture's times. At the end the program
   prints the host's counters. It needs libpcap (Debian's libpcap-dev).
       cc -std=gnu99 pcap.c -I PREFIX/include PREFIX/lib/libbsdudp.a -lpcap && ./a.out IN OUT 10.0.0.1 10.0.0.255 */
#include "bsdudp.h"

#include <arpa/inet.h>
#include <pcap/pcap.h>
#include <stdio.h>
#include <string.h>

enum { FD = BSDUDP_FIRST_FD, HALF_SECOND = 500000, LAST_TICK = 60 };

/* A link type. Its header has `header` bytes; an IPv4 packet follows if the `count` bytes at offset `at` are these. The
   header of BSD's loopback is in the byte order of the machine that wrote the capture. */
static const struct link {
    int type;
    size_t header, at, count;
    u_char ipv4[4];
} links[] = {
    {DLT_RAW, 0, 0, 0, {0}},
    {DLT_IPV4, 0, 0, 0, {0}},
    {DLT_EN10MB, 14, 12, 2, {0x08, 0x00}},
    {DLT_LINUX_SLL, 16, 14, 2, {0x08, 0x00}},
    {DLT_LINUX_SLL2, 20, 0, 2, {0x08, 0x00}},
    {DLT_LOOP, 4, 0, 4, {0, 0, 0, 2}},
    {DLT_NULL, 4, 0, 4, {0, 0, 0, 2}},
    {DLT_NULL, 4, 0, 4, {2, 0, 0, 0}},
};
enum { LINKS = sizeof links / sizeof links[0] };

static uint8_t buffer[BSDUDP_TX_ROOM], bytes[BSDUDP_DATAGRAM];

static int is_known(int type)
{
    int k;
    for (k = 0; k < LINKS && links[k].type != type; k++)
        ;
    return k < LINKS;
}

/* Returns the IP packet of a frame, or NULL if it has none. `*len` is the frame's length and becomes the packet's;
   bytes of padding may follow the packet. */
static const u_char *packet_in(int type, const u_char *frame, size_t *len)
{
    int k;
    for (k = 0; k < LINKS; k++) {
        const struct link *it = &links[k];
        if (it->type == type && *len >= it->header && memcmp(frame + it->at, it->ipv4, it->count) == 0) {
            *len -= it->header;
            return frame + it->header;
        }
    }
    return NULL;
}

/* Advances the clock to `now`, one tick for each half second; the next tick is due at `*next`. After 60 ticks no
   unfinished datagram is left, so 60 ticks are enough for any longer time. */
static void pass(struct bsdudp *stack, long long *next, long long now)
{
    long long ticks = now < *next ? 0 : (now - *next) / HALF_SECOND + 1, k;
    *next += ticks * HALF_SECOND;
    for (k = 0; k < ticks && k < LAST_TICK; k++)
        bsdudp_tick(stack);
}

static void echo(struct bsdudp *stack, pcap_dumper_t *out, struct timeval when)
{
    struct bsdudp_addr from;
    int len;
    while ((len = bsdudp_recvfrom(stack, FD, bytes, sizeof bytes, &from)) >= 0) {
        (void)bsdudp_sendto(stack, FD, &from, bytes, (size_t)len); /* if it fails, this echo is lost */
        while ((len = bsdudp_tx(stack, buffer, sizeof buffer)) > 0) {
            struct pcap_pkthdr head = {when, (bpf_u_int32)len, (bpf_u_int32)len};
            pcap_dump((u_char *)out, &head, buffer);
        }
    }
}

int main(int argc, char **argv)
{
    struct bsdudp stack = BSDUDP_NONE;
    struct bsdudp_config config = {0, 0, 1024, 128, 1500, 1};
    struct bsdudp_addr any = {0, 7};
    char fault[PCAP_ERRBUF_SIZE];
    struct pcap_pkthdr *head;
    const u_char *frame;
    pcap_t *in, *raw;
    pcap_dumper_t *out;
    long long next = -1;
    uint32_t k;
    int link;
    if (argc != 5)
        return fprintf(stderr, "usage: pcap IN OUT ADDR BCAST\n"), 2;
    config.addr = ntohl(inet_addr(argv[3]));
    config.bcast = ntohl(inet_addr(argv[4]));
    in = pcap_open_offline(argv[1], fault);
    if (in == NULL)
        return fprintf(stderr, "%s\n", fault), 1;
    raw = pcap_open_dead(DLT_RAW, BSDUDP_PACKET);
    out = pcap_dump_open(raw, argv[2]);
    link = pcap_datalink(in);
    if (!is_known(link))
        return fprintf(stderr, "unknown link type %d: use Ethernet, Linux cooked, loopback or raw IP\n", link), 1;
    if (out == NULL || bsdudp_boot(&stack, &config) < 0)
        return fprintf(stderr, "can't write OUT, or no host can have ADDR and BCAST\n"), 1;
    if (bsdudp_socket(&stack) != FD || bsdudp_bind(&stack, FD, &any) < 0)
        return 1;
    while (pcap_next_ex(in, &head, &frame) == 1) {
        long long now = head->ts.tv_sec * 1000000LL + head->ts.tv_usec;
        size_t len = head->caplen;
        const u_char *packet = packet_in(link, frame, &len);
        if (next < 0)
            next = now + HALF_SECOND;
        pass(&stack, &next, now);
        if (packet != NULL)
            bsdudp_rx(&stack, packet, len);
        echo(&stack, out, head->ts);
    }
    for (k = 0; k < BSDUDP_COUNTERS; k++) {
        uint64_t value = 0;
        if (bsdudp_counter(&stack, k, &value) == 0 && value != 0)
            printf("%s %llu\n", bsdudp_counter_name(k), (unsigned long long)value);
    }
    pcap_dump_close(out);
    pcap_close(raw);
    pcap_close(in);
    return bsdudp_end(&stack) < 0;
}
