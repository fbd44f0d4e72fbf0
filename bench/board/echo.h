/* Shared by the echoes of bench/board: datagrams as packets of at most 1,500 bytes, and the cost of one turn. With
   ETHER they are in frames from 02:00:00:00:00:02 to 02:00:00:00:00:01, and an ARP request and a ping are measured. */
#include "../packets.h"
#include "machine.h"

enum { MTU = 1500, LONGEST = 4000, PACKETS = 3, TURNS = 200 };

#ifdef ETHER
enum { PAD = 2, FRAME_HEAD = 14, ARP = 28, ICMP = 1 }; /* with PAD before a frame the packet in it is aligned */
#else
enum { PAD = 0, FRAME_HEAD = 0 };
#endif

static const Ends ENDS = {2, 1, 5000, 7};

/* The packets of a datagram, or frames with them. */
static uint8_t rooms[PACKETS][PAD + FRAME_HEAD + MTU] __attribute__((aligned(4)));
static uint8_t *const packets[PACKETS] = {rooms[0] + PAD, rooms[1] + PAD, rooms[2] + PAD};
static uint32_t lengths[PACKETS], packet_count;

/* The number of packets sent. */
static uint32_t gone;

/* A packet or a frame is sent. */
static inline void send_away(const uint8_t *bytes, uint32_t len)
{
    (void)bytes;
    (void)len;
    gone++;
}

/* One turn: all packets arrive, and the replies are sent. */
static void turn(void);

/* A packet with `len` bytes of a datagram from `offset` on, and before it the header of its frame (RFC 894). */
static void put_piece(const uint8_t *bytes, uint32_t len, uint8_t protocol, uint32_t offset, bool more)
{
    uint8_t *packet = packets[packet_count] + FRAME_HEAD;
#ifdef ETHER
    static const uint8_t frame_head[FRAME_HEAD] = {2, 0, 0, 0, 0, 1, 2, 0, 0, 0, 0, 2, 8, 0};
    memcpy(packets[packet_count], frame_head, FRAME_HEAD);
#endif
    put_header(packet, ENDS, protocol, offset, len, more);
    memcpy(packet + PACKET_HEADER, bytes + offset, len);
    lengths[packet_count++] = FRAME_HEAD + PACKET_HEADER + len;
}

/* The packets of a datagram with this many bytes. */
static void make_packets(uint32_t len)
{
    static uint8_t bytes[LONGEST], whole[PACKET_HEADER + DATAGRAM_HEADER + LONGEST];
    uint32_t offset, piece, last = DATAGRAM_HEADER + len;
    for (offset = 0; offset < len; offset++)
        bytes[offset] = (uint8_t)(offset * 7);
    put_datagram(whole, ENDS, bytes, len);
    packet_count = 0;
    for (offset = 0; offset < last; offset += piece) {
        piece = last - offset > MTU - PACKET_HEADER ? MTU - PACKET_HEADER : last - offset;
        put_piece(whole + PACKET_HEADER, piece, 17, offset, offset + piece < last);
    }
}

static void say_number(uint32_t number)
{
    char digits[12];
    int at = sizeof digits - 1;
    digits[at] = 0;
    digits[--at] = ' ';
    do
        digits[--at] = (char)('0' + number % 10);
    while ((number /= 10) != 0);
    machine_say(digits + at);
}

/* Prints how many instructions a turn takes, or 0 if a reply was missing. */
static void measure_turn(void)
{
    uint32_t k, ticks;
    for (k = 0; k < 2; k++) /* then one-time work has been done */
        turn();
    gone = 0;
    machine_watch();
    for (k = 0; k < TURNS; k++)
        turn();
    ticks = machine_watched();
    say_number(gone == TURNS * packet_count ? ticks / (TURNS / MACHINE_INSTRUCTIONS) : 0);
}

/* The echo of this many bytes. */
static void measure(uint32_t len)
{
    make_packets(len);
    measure_turn();
}

#ifdef ETHER
/* An ARP request of 10.0.0.2 (RFC 826). */
static void make_arp(void)
{
    static const uint8_t request[FRAME_HEAD + ARP] = {255, 255, 255, 255, 255, 255, 2, 0, 0, 0, 0, 2, 8, 6,
                                                      0,   1,   8,   0,   6,   4,   0, 1, 2, 0, 0, 0, 0, 2,
                                                      10,  0,   0,   2,   0,   0,   0, 0, 0, 0, 10, 0, 0, 1};
    memcpy(packets[0], request, sizeof request);
    lengths[0] = sizeof request;
    packet_count = 1;
}

/* A ping of this many bytes (RFC 792). */
static void make_ping(uint32_t len)
{
    static uint8_t bytes[8 + MTU] = {8, 0, 0, 0, 0, 1, 0, 1};
    put_two(bytes + 2, 0);
    put_two(bytes + 2, checksum_of(bytes, 8 + len, 0));
    packet_count = 0;
    put_piece(bytes, 8 + len, ICMP, 0, false);
}
#endif

/* The measurements: instructions of 2, 1,472 and 4,000 bytes, with ETHER of an ARP request and of a ping of 56 bytes, and
   the call stack. */
static void measure_all(void)
{
#ifdef ETHER
    make_arp(); /* the neighbour is known from now on */
    turn();
#endif
    measure(2);
    measure(1472);
    measure(LONGEST);
#ifdef ETHER
    make_arp();
    measure_turn();
    make_ping(56);
    measure_turn();
#endif
    say_number(machine_stack());
    machine_say("\n");
}
