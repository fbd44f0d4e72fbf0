/* A target for libFuzzer: an input is a list of calls on a stack, or on a host if its first byte is odd. Each call has
   two bytes: which one, and its argument. A packet or a frame takes the next bytes, after how it's made and its length.
   At the end the pool must be whole. The library of `portable/core --sanitized x86_64 LIBRARY` checks each access:

     clang -g -O1 -fsanitize=fuzzer,address -I../include fuzz.c LIBRARY/libbsdudp.a -o fuzz && ./fuzz -max_len=2048 */
#include "bsdudp.h"

#include <stdlib.h>
#include <string.h>

enum { MBUFS = 48, CLUSTERS = 6 };
static unsigned char memory[BSDUDP_ETHER_MEMORY(MBUFS, CLUSTERS)] __attribute__((aligned(BSDUDP_ALIGNMENT)));
static unsigned char room[BSDUDP_TX_ROOM], bytes[BSDUDP_DATAGRAM];

struct input {
    const uint8_t *at;
    size_t left;
};

static uint8_t taken(struct input *in)
{
    return in->left > 0 ? (in->left--, *in->at++) : 0;
}

/* Makes bytes a packet for the stack, with a right header checksum and this total length. */
static void mend(unsigned char *packet, size_t total)
{
    static const unsigned char head[] = {0x45, 0, 0, 0}, own[] = {10, 0, 0, 1};
    uint32_t sum = 0;
    int i;
    memcpy(packet, head, sizeof head);
    packet[2] = (unsigned char)(total >> 8);
    packet[3] = (unsigned char)total;
    packet[9] = packet[9] & 1 ? 1 : 17;
    packet[10] = packet[11] = 0;
    memcpy(packet + 16, own, sizeof own);
    for (i = 0; i < 20; i += 2)
        sum += (uint32_t)packet[i] << 8 | packet[i + 1];
    sum = (sum & 0xffff) + (sum >> 16);
    sum = ~((sum & 0xffff) + (sum >> 16));
    packet[10] = (unsigned char)(sum >> 8);
    packet[11] = (unsigned char)sum;
}

/* Passes bytes of the input, in a block of their own, so that an access beyond it is seen: as they are, or as a packet
   whose total length is right or one too much. */
static void arrive(struct bsdudp *s, int is_host, struct input *in)
{
    static const unsigned char to_host[] = {2, 0, 0, 0, 0, 1, 2, 0, 0, 0, 0, 2, 8, 0};
    const size_t start = is_host ? sizeof to_host : 0;
    const uint8_t how = taken(in) & 3;
    size_t len = (size_t)taken(in) << 4 | (taken(in) & 15);
    unsigned char *copy;
    len = len < in->left ? len : in->left;
    copy = malloc(len);
    if (copy == NULL)
        abort();
    memcpy(copy, in->at, len);
    in->at += len;
    in->left -= len;
    if (how >= 2 && len >= start + 20) {
        memcpy(copy, to_host, start);
        mend(copy + start, len - start + (how == 3));
    }
    if (is_host)
        bsdudp_ether_receive(s, copy, len);
    else
        bsdudp_rx(s, copy, len);
    free(copy);
}

static void leave(struct bsdudp *s, int is_host, int loops_back)
{
    int len = is_host ? bsdudp_ether_transmit(s, room, sizeof room) : bsdudp_tx(s, room, sizeof room);
    if (len > 0 && loops_back && is_host)
        bsdudp_ether_receive(s, room, (size_t)len);
    else if (len > 0 && loops_back)
        bsdudp_rx(s, room, (size_t)len);
}

static void call(struct bsdudp *s, int is_host, struct input *in)
{
    const uint8_t which = taken(in), argument = taken(in);
    const uint32_t fd = BSDUDP_FIRST_FD + argument % 5u;
    struct bsdudp_addr addr = {argument & 1 ? 0 : BSDUDP_IP(10, 0, 0, argument), (uint16_t)(argument % 7)};
    switch (which % 15) {
    case 0: case 1: case 2: case 3: arrive(s, is_host, in); break;
    case 4: bsdudp_socket(s); break;
    case 5: bsdudp_bind(s, fd, &addr); break;
    case 6: bsdudp_connect(s, fd, &addr); break;
    case 7: bsdudp_sendto(s, fd, &addr, bytes, (size_t)argument * 37 % sizeof bytes); break;
    case 8: bsdudp_send(s, fd, bytes, (size_t)argument * 37 % sizeof bytes); break;
    case 9: bsdudp_recvfrom(s, fd, room, argument, NULL); break;
    case 10: bsdudp_tick(s); break;
    case 11: bsdudp_close(s, fd); break;
    case 12: bsdudp_setsockopt(s, fd, argument & 1 ? BSDUDP_SO_BROADCAST : BSDUDP_SO_REUSEPORT, argument & 2); break;
    case 13: bsdudp_setsockopt(s, fd, BSDUDP_SO_RCVBUF, argument * 257); break;
    default: leave(s, is_host, argument & 1); break;
    }
}

/* Closes and takes all that holds buffers: then each one is free. */
static void finish(struct bsdudp *s, int is_host)
{
    struct bsdudp_mbstat usage;
    uint32_t fd;
    int i;
    for (fd = BSDUDP_FIRST_FD; fd < BSDUDP_FIRST_FD + BSDUDP_SOCKETS; fd++)
        bsdudp_close(s, fd);
    for (i = 0; i < 200; i++) {
        bsdudp_tick(s);
        leave(s, is_host, 0);
    }
    if (bsdudp_mbstat(s, &usage) < 0 || usage.free_mbufs != MBUFS || usage.free_clusters != CLUSTERS)
        abort();
    bsdudp_end(s);
}

int LLVMFuzzerTestOneInput(const uint8_t *data, size_t size);
int LLVMFuzzerTestOneInput(const uint8_t *data, size_t size)
{
    const struct bsdudp_config config = {BSDUDP_IP(10, 0, 0, 1), BSDUDP_IP(10, 0, 0, 255), MBUFS, CLUSTERS, 576, 1};
    const struct bsdudp_link link = {{2, 0, 0, 0, 0, 1}, 0xffffff00, 0, 0};
    struct bsdudp s = BSDUDP_NONE;
    struct input in = {data, size};
    const int is_host = taken(&in) & 1;
    if (is_host ? bsdudp_ether_boot_in(&s, &config, &link, memory, sizeof memory)
                : bsdudp_boot_in(&s, &config, memory, sizeof memory))
        abort();
    while (in.left > 0)
        call(&s, is_host, &in);
    finish(&s, is_host);
    return 0;
}
