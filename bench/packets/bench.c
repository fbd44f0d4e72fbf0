/*
 * The cost of one packet or one send, by its size and its fate: a packet that is delivered, one that is dropped for
 * each cause, broadcasts, and sends. lwIP does the same work if it can.
 */
#include "packets.h"
#include "timer.h"

enum { MOST = 9000, MTU = 1500, LARGE_MTU = 4352, PORT = 7, OTHER_PORT = 99, FILLS = 600 };
enum { SENDER = 1, RECEIVER = 2, BROADCAST = 255 };

/* crates/bench_packets/src/packets.rt */
uint32_t bsdudp_exchange(const uint8_t *bytes, size_t len, uint16_t mtu, bool is_connected, uint32_t times);
uint32_t bsdudp_loop_back(const uint8_t *bytes, size_t len, uint32_t times);
uint32_t bsdudp_send_refused(const uint8_t *bytes, size_t len, uint32_t times);
uint32_t bsdudp_receive(const uint8_t *packet, size_t len, uint8_t sockets, uint32_t before, bool is_read, uint32_t times);

/* bench/peers/lwip.c, if measure.sh has its sources. */
#ifdef PACKETS_LWIP
uint32_t lwip_receive(const uint8_t *packet, size_t len, uint32_t before, bool is_read, uint32_t times);
#endif

static const size_t LENS[] = {2, 72, 150, 207, 208, 1472, 4000, MOST};
static const char *const COLUMNS[] = {"2 bytes", "72", "150", "207", "208", "1,472", "4,000", "9,000"};

static uint8_t bytes[MOST];
static uint8_t packet[PACKET_HEADER + DATAGRAM_HEADER + MOST];

/* A kind of exchange between two stacks. */
typedef struct {
    uint16_t mtu;
    bool is_connected;
} Link;

static bool exchanged(const void *what, int column, uint64_t turns)
{
    const Link *link = what;
    return bsdudp_exchange(bytes, LENS[column], link->mtu, link->is_connected, (uint32_t)turns) == turns;
}

/* What one stack does by itself. */
typedef uint32_t Alone(const uint8_t *bytes, size_t len, uint32_t times);
static Alone *const LOOP_BACK = bsdudp_loop_back, *const REFUSE = bsdudp_send_refused;

static bool alone(const void *what, int column, uint64_t turns)
{
    return (*(Alone *const *)what)(bytes, LENS[column], (uint32_t)turns) == turns;
}

/* A packet: its receiver, how many sockets read it, how many arrive first and aren't read, and which byte is wrong. */
typedef struct {
    uint8_t host;
    uint16_t port;
    uint8_t readers;
    uint32_t before;
    enum { NO_BYTE, OF_HEADER, LAST_BYTE } wrong;
} Packet;

static size_t packet_of(const Packet *it, int column)
{
    size_t len = put_datagram(packet, (Ends){SENDER, it->host, PORT, it->port}, bytes, LENS[column]);
    if (it->wrong != NO_BYTE)
        packet[it->wrong == OF_HEADER ? 8 : len - 1] ^= 0xff;
    return len;
}

static bool arrived(const void *what, int column, uint64_t turns)
{
    const Packet *it = what;
    bool is_read = it->readers > 0;
    uint8_t sockets = is_read ? it->readers : 1;
    size_t len = packet_of(it, column);
    return bsdudp_receive(packet, len, sockets, it->before, is_read, (uint32_t)turns) == sockets * turns;
}

#ifdef PACKETS_LWIP
static bool arrived_at_lwip(const void *what, int column, uint64_t turns)
{
    const Packet *it = what;
    return lwip_receive(packet, packet_of(it, column), it->before, it->readers > 0, (uint32_t)turns) == turns;
}
#endif

static const Link SMALL = {MTU, false}, LARGE = {LARGE_MTU, false}, CONNECTED = {MTU, true};
static const Packet READ = {RECEIVER, PORT, 1, 0, NO_BYTE}, NO_PORT = {RECEIVER, OTHER_PORT, 0, 0, NO_BYTE},
                    FULL_QUEUE = {RECEIVER, PORT, 0, FILLS, NO_BYTE}, WRONG_SUM = {RECEIVER, PORT, 0, 0, LAST_BYTE},
                    WRONG_HEADER = {RECEIVER, PORT, 0, 0, OF_HEADER}, NOT_OURS = {RECEIVER + 1, PORT, 0, 0, NO_BYTE},
                    TO_NONE = {BROADCAST, OTHER_PORT, 0, 0, NO_BYTE}, TO_ONE = {BROADCAST, PORT, 1, 0, NO_BYTE},
                    TO_THREE = {BROADCAST, PORT, 3, 0, NO_BYTE};

static const Row ROWS[] = {
    {"from one stack to another", exchanged, &SMALL},
    {"the same with an MTU of 4,352", exchanged, &LARGE},
    {"by a connected socket", exchanged, &CONNECTED},
    {"by loopback", alone, &LOOP_BACK},
    {"delivered, with its recvfrom", arrived, &READ},
    {"dropped: no socket has the port", arrived, &NO_PORT},
    {"dropped: the receive queue is full", arrived, &FULL_QUEUE},
    {"dropped: wrong UDP checksum", arrived, &WRONG_SUM},
    {"dropped: wrong header checksum", arrived, &WRONG_HEADER},
    {"dropped: another destination", arrived, &NOT_OURS},
    {"broadcast that no socket receives", arrived, &TO_NONE},
    {"broadcast, read by one socket", arrived, &TO_ONE},
    {"broadcast, read by three sockets", arrived, &TO_THREE},
    {"sendto, output queue full", alone, &REFUSE},
#ifdef PACKETS_LWIP
    {"lwIP: delivered and read", arrived_at_lwip, &READ},
    {"lwIP: no such port", arrived_at_lwip, &NO_PORT},
    {"lwIP: full receive queue", arrived_at_lwip, &FULL_QUEUE},
    {"lwIP: wrong UDP checksum", arrived_at_lwip, &WRONG_SUM},
#endif
};

static const Table TABLE = {"a packet or a send, ns", COLUMNS, COUNT_OF(COLUMNS), ROWS, COUNT_OF(ROWS)};

int main(int argc, char **argv)
{
    fill_bytes(bytes, MOST);
    return bench_main(argc, argv, &TABLE);
}
