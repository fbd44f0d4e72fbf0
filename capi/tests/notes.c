/* The notes of sockets: each field, order, a full ring, a full queue, datagrams without a note, and each error. It
   compiles as C99 and as C++, prints the line of the first wrong result, and then exits with 1. */
#include "bsdudp_notes.h"

#include <stdio.h>
#include <string.h>

#define WANT(call, answer) \
    do { \
        long got_ = (long)(call); \
        if (got_ != (long)(answer)) { \
            fprintf(stderr, "capi/tests/notes.c:%d: %s: %ld, not %ld\n", __LINE__, #call, got_, (long)(answer)); \
            return 1; \
        } \
    } while (0)

#define ALIGNED __attribute__((aligned(BSDUDP_ALIGNMENT)))

enum { OWN = 0x0a000001, ALL = 0x0a0000ff, PEER = 0x0a000002, ROOM = 3, FULL = 4, QUEUED = 4 };
#define EVERYONE 0xffffffff

static unsigned char memory[BSDUDP_ETHER_MEMORY(1000, 100)] ALIGNED;
static const struct bsdudp_config plain = {OWN, ALL, 1000, 100, 1500, 1};
static struct bsdudp stack = BSDUDP_NONE;
static struct bsdudp_notes notes[3];
static struct bsdudp_note ring[3][ROOM], note;
static uint8_t packet[1500], bytes[1500], frame[1514];

static void put32(uint8_t *at, uint32_t value)
{
    at[0] = (uint8_t)(value >> 24);
    at[1] = (uint8_t)(value >> 16);
    at[2] = (uint8_t)(value >> 8);
    at[3] = (uint8_t)value;
}

/* A packet from port 5000 of the peer, of 28 + len bytes, in which the datagram is whole or a fragment: `place` is the
   field of flags and offset. */
static size_t packet_of(uint32_t to, unsigned port, unsigned ttl, unsigned tos, unsigned place, size_t len)
{
    uint32_t sum = 0, k;
    memset(packet, 0, sizeof packet);
    packet[0] = 0x45;
    packet[1] = (uint8_t)tos;
    packet[2] = (uint8_t)((28 + len) >> 8);
    packet[3] = (uint8_t)(28 + len);
    packet[6] = (uint8_t)(place >> 8);
    packet[7] = (uint8_t)place;
    packet[8] = (uint8_t)ttl;
    packet[9] = 17;
    put32(packet + 12, PEER);
    put32(packet + 16, to);
    for (k = 0; k < 20; k += 2)
        sum += (uint32_t)packet[k] << 8 | packet[k + 1];
    sum = (sum & 0xffff) + (sum >> 16);
    sum = (sum & 0xffff) + (sum >> 16);
    packet[10] = (uint8_t)(~sum >> 8);
    packet[11] = (uint8_t)~sum;
    put32(packet + 20, (uint32_t)5000 << 16 | port);
    packet[24] = (uint8_t)((8 + len) >> 8);
    packet[25] = (uint8_t)(8 + len);
    return 28 + len;
}

static int arrives(uint32_t to, unsigned port, unsigned ttl, unsigned tos, uint64_t time, size_t len)
{
    const size_t all = packet_of(to, port, ttl, tos, 0, len);
    return bsdudp_rx_noted(&stack, notes, 3, packet, all, time);
}

static int receives(int which)
{
    return bsdudp_recvfrom_noted(&stack, &notes[which], bytes, sizeof bytes, NULL, &note);
}

static int is_note(uint32_t to, unsigned ttl, unsigned tos, uint64_t time, uint64_t drops)
{
    WANT(note.known, 1);
    WANT(note.to, to);
    WANT(note.ttl, ttl);
    WANT(note.tos, tos);
    WANT(note.time, time);
    WANT(note.drops, drops);
    return 0;
}

static int is_none(void)
{
    return note.known || note.to || note.ttl || note.tos || note.time || note.drops;
}

/* Three sockets: one for all addresses with port 7, one for the own address with port 8, and a connected one. */
static int opens(void)
{
    const struct bsdudp_addr any = {0, 7}, own = {OWN, 8}, last = {OWN, 9}, peer = {PEER, 5000};
    uint32_t k;
    for (k = 0; k < 3; k++)
        WANT(bsdudp_socket(&stack), 3 + k);
    WANT(bsdudp_bind(&stack, 3, &any), 0);
    WANT(bsdudp_bind(&stack, 4, &own), 0);
    WANT(bsdudp_bind(&stack, 5, &last), 0);
    WANT(bsdudp_connect(&stack, 5, &peer), 0);
    for (k = 0; k < 3; k++)
        WANT(bsdudp_note_socket(&stack, &notes[k], 3 + k, ring[k], ROOM), 0);
    return 0;
}

static int errors(void)
{
    struct bsdudp_note untouched;
    memset(&note, 0x77, sizeof note);
    untouched = note;
    WANT(bsdudp_note_socket(&stack, notes, 3, ring[0], ROOM), -BSDUDP_ENXIO);
    WANT(bsdudp_rx_noted(&stack, notes, 0, packet, 20, 0), -BSDUDP_ENXIO);
    WANT(bsdudp_ether_receive_noted(&stack, notes, 0, packet, 20, 0), -BSDUDP_ENXIO);
    WANT(bsdudp_recvfrom_noted(&stack, notes, bytes, 1, NULL, &note), -BSDUDP_ENXIO);
    WANT(memcmp(&note, &untouched, sizeof note), 0);
    return 0;
}

static int fields(void)
{
    WANT(arrives(OWN, 7, 1, 0xb8, 100, 0), 0);
    WANT(arrives(ALL, 7, 255, 1, 101, 1), 0);
    WANT(arrives(OWN, 8, 33, 2, 102, 2), 0);
    WANT(arrives(EVERYONE, 7, 64, 255, (uint64_t)1 << 63, 3), 0);
    WANT(arrives(OWN, 9, 65, 3, 104, 4), 0);
    WANT(arrives(OWN, 99, 66, 4, 105, 5), 0); /* nobody has this port */
    WANT(arrives(0x0a000003, 7, 66, 4, 106, 5), 0); /* nor this address */
    WANT(receives(2) == 4 && is_note(OWN, 65, 3, 104, 0) == 0, 1);
    WANT(receives(0) == 0 && is_note(OWN, 1, 0xb8, 100, 0) == 0, 1);
    WANT(receives(0) == 1 && is_note(ALL, 255, 1, 101, 0) == 0, 1);
    WANT(receives(0) == 3 && is_note(EVERYONE, 64, 255, (uint64_t)1 << 63, 0) == 0, 1);
    WANT(receives(1) == 2 && is_note(OWN, 33, 2, 102, 0) == 0, 1);
    WANT(receives(0), -BSDUDP_EWOULDBLOCK);
    WANT(is_note(OWN, 33, 2, 102, 0), 0);
    return 0;
}

/* Datagrams that this host sends itself, that a plain call receives, for which the ring has no room, that waited
   before. */
static int without(void)
{
    const struct bsdudp_addr to = {OWN, 7};
    int k;
    WANT(arrives(OWN, 7, 10, 0, 1, 1), 0);
    WANT(bsdudp_sendto(&stack, 4, &to, "xx", 2), 2);
    WANT(arrives(OWN, 7, 11, 0, 2, 3), 0);
    WANT(receives(0) == 1 && is_note(OWN, 10, 0, 1, 0) == 0, 1);
    WANT(receives(0) == 2 && is_none() == 0, 1);
    WANT(receives(0) == 3 && is_note(OWN, 11, 0, 2, 0) == 0, 1);
    for (k = 0; k < ROOM + 2; k++)
        WANT(arrives(OWN, 7, 20 + (unsigned)k, 0, 3, 1), 0);
    WANT(receives(0) == 1 && is_note(OWN, 20, 0, 3, 0) == 0, 1);
    WANT(arrives(OWN, 7, 30, 0, 4, 9), 0);
    WANT(bsdudp_recvfrom(&stack, 3, bytes, 9, NULL), 1);
    WANT(receives(0) == 1 && is_note(OWN, 22, 0, 3, 0) == 0, 1);
    for (k = 0; k < 2; k++)
        WANT(receives(0) == 1 && is_none() == 0, 1);
    WANT(receives(0) == 9 && is_note(OWN, 30, 0, 4, 0) == 0, 1);
    WANT(arrives(OWN, 7, 31, 0, 5, 1), 0);
    WANT(bsdudp_note_socket(&stack, &notes[0], 3, ring[0], ROOM), 0);
    WANT(arrives(OWN, 7, 32, 0, 6, 2), 0);
    WANT(receives(0) == 1 && is_none() == 0, 1);
    WANT(receives(0) == 2 && is_note(OWN, 32, 0, 6, 0) == 0, 1);
    for (k = 0; k < ROOM; k++)
        WANT(arrives(OWN, 7, 40 + (unsigned)k, 0, 7, 1), 0);
    for (k = 0; k < ROOM - 1; k++)
        WANT(bsdudp_recvfrom(&stack, 3, bytes, 9, NULL), 1);
    WANT(receives(0) == 1 && is_note(OWN, 39 + ROOM, 0, 7, 0) == 0, 1);
    return 0;
}

/* A queue of 41,600 bytes, each datagram with 16 for its sender, has no room for the 28th of 1,472. A drop counts for
   the socket whose queue was full, and only for it. */
static int drops(void)
{
    uint64_t full;
    int k;
    for (k = 0; k < 27 + FULL; k++)
        WANT(arrives(OWN, 7, 64, 0, 7, 1472), 0);
    WANT(bsdudp_counter(&stack, 21, &full) == 0 && full == FULL, 1);
    WANT(arrives(OWN, 8, 64, 0, 8, 1), 0);
    WANT(receives(1) == 1 && is_note(OWN, 64, 0, 8, 0) == 0, 1);
    for (k = 0; k < 27; k++)
        WANT(receives(0), 1472);
    WANT(arrives(OWN, 7, 64, 0, 9, 1), 0);
    WANT(receives(0) == 1 && is_note(OWN, 64, 0, 9, FULL) == 0, 1);
    return 0;
}

/* A datagram of 36 bytes in two fragments: the note is about the one that completes it. */
static int part(int is_first)
{
    const size_t len = is_first ? packet_of(OWN, 7, 50, 1, 0x2000, 16) : packet_of(OWN, 0, 51, 2, 24 / 8, 12);
    if (is_first)
        packet[25] = 8 + 36;
    return bsdudp_rx_noted(&stack, notes, 3, packet, len, is_first ? 1 : 2);
}

static int fragments(void)
{
    WANT(part(1) == 0 && receives(0) == -BSDUDP_EWOULDBLOCK, 1);
    WANT(part(0) == 0 && receives(0) == 36 && is_note(OWN, 51, 2, 2, FULL) == 0, 1);
    WANT(part(0) == 0 && receives(0) == -BSDUDP_EWOULDBLOCK, 1);
    WANT(part(1) == 0 && receives(0) == 36 && is_note(OWN, 50, 1, 1, FULL) == 0, 1);
    return 0;
}

/* Two sockets with port 7, descriptors 3 and 4: each has a queue for QUEUED datagrams of 1,472 bytes. The option to
   share is cleared afterwards. */
static int share(const struct bsdudp_addr *first)
{
    const struct bsdudp_addr any = {0, 7};
    uint32_t fd;
    WANT(bsdudp_end(&stack), 0);
    WANT(bsdudp_boot_in(&stack, &plain, memory, sizeof memory), 0);
    for (fd = 3; fd < 5; fd++) {
        WANT(bsdudp_socket(&stack), fd);
        WANT(bsdudp_setsockopt(&stack, fd, BSDUDP_SO_REUSEPORT, 1), 0);
        WANT(bsdudp_setsockopt(&stack, fd, BSDUDP_SO_RCVBUF, QUEUED * 1488), 0);
        WANT(bsdudp_bind(&stack, fd, fd == 3 ? first : &any), 0);
        WANT(bsdudp_note_socket(&stack, &notes[fd - 3], fd, ring[fd - 3], ROOM), 0);
    }
    for (fd = 3; fd < 5; fd++)
        WANT(bsdudp_setsockopt(&stack, fd, BSDUDP_SO_REUSEPORT, 0), 0);
    return 0;
}

static int flood(uint32_t to, int count)
{
    while (count-- > 0)
        WANT(arrives(to, 7, 64, 0, 7, 1472), 0);
    return 0;
}

/* The socket of `notes[which]` receives `count` datagrams, and no other, and then one that says what was lost. */
static int lost(int which, int count, uint64_t drops)
{
    while (count-- > 0)
        WANT(receives(which), 1472);
    WANT(receives(which), -BSDUDP_EWOULDBLOCK);
    WANT(arrives(OWN, 7, 64, 0, 9, 5), 0);
    WANT(receives(which), 5);
    return is_note(OWN, 64, 0, 9, drops);
}

/* A drop counts for the socket that lost the datagram: of two with the same address and port, for the newer one, which
   gets them; for a connected one, whose notes are not passed, and not for another with the port; and of broadcasts too
   if only one socket gets them. */
static int drops_of_others(void)
{
    const struct bsdudp_addr any = {0, 7}, own = {OWN, 7}, peer = {PEER, 5000};
    int k;
    WANT(share(&any) || flood(OWN, QUEUED + FULL) || lost(1, QUEUED, FULL), 0);
    WANT(bsdudp_close(&stack, 4) || lost(0, 0, 0), 0);
    WANT(share(&own) || bsdudp_connect(&stack, 3, &peer), 0);
    for (k = 0; k < QUEUED + FULL; k++)
        WANT(bsdudp_rx_noted(&stack, &notes[1], 1, packet, packet_of(OWN, 7, 64, 0, 0, 1472), 7), 0);
    WANT(bsdudp_close(&stack, 3) || lost(1, 0, 0), 0);
    WANT(share(&any) || flood(ALL, QUEUED + FULL + 5) || lost(1, QUEUED, FULL + 5), 0);
    WANT(bsdudp_close(&stack, 4) || lost(0, 0, 0), 0);
    return 0;
}

/* A datagram in fragments counts for its socket, whichever fragment arrives last. */
static int drops_in_fragments(void)
{
    const struct bsdudp_addr any = {0, 7};
    WANT(share(&any) || flood(OWN, QUEUED), 0);
    WANT(part(1) == 0 && part(0) == 0 && part(0) == 0 && part(1) == 0, 1);
    return lost(1, QUEUED, 2);
}

static int on_a_host(void)
{
    struct bsdudp_config config = {OWN, ALL, 64, 16, 1500, 1};
    const struct bsdudp_link link = {{2, 0, 0, 0, 0, 1}, 0xffffff00, 0, 0};
    size_t len;
    WANT(bsdudp_end(&stack), 0);
    WANT(bsdudp_ether_boot_in(&stack, &config, &link, memory, sizeof memory), 0);
    WANT(opens(), 0);
    len = packet_of(OWN, 7, 70, 5, 0, 6);
    memcpy(frame, link.mac, 6);
    frame[11] = 2;
    frame[6] = 2;
    frame[12] = 8;
    memcpy(frame + 14, packet, len);
    WANT(bsdudp_rx_noted(&stack, notes, 3, packet, len, 9), -BSDUDP_EOPNOTSUPP);
    WANT(bsdudp_ether_receive_noted(&stack, notes, 3, frame, 14 + len, 9), 0);
    WANT(bsdudp_ether_receive_noted(&stack, notes, 3, frame, 14, 10), 0);
    WANT(receives(0) == 6 && is_note(OWN, 70, 5, 9, 0) == 0, 1);
    WANT(receives(0), -BSDUDP_EWOULDBLOCK);
    WANT(bsdudp_close(&stack, 3), 0);
    WANT(bsdudp_ether_receive_noted(&stack, notes, 3, frame, 14 + len, 9), 0);
    WANT(receives(0), -BSDUDP_EBADF);
    return bsdudp_end(&stack);
}

int main(void)
{
    WANT(errors(), 0);
    WANT(bsdudp_boot_in(&stack, &plain, memory, sizeof memory), 0);
    WANT(bsdudp_note_socket(&stack, notes, 3, ring[0], ROOM), -BSDUDP_EBADF);
    return opens() || fields() || without() || drops() || fragments() || drops_of_others() || drops_in_fragments() ||
           on_a_host();
}
