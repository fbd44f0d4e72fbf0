/*
 * host.c: the host around the six steps: its sockets, its clock, ICMP errors, and the judge's lines (kit.h).
 */
#define _POSIX_C_SOURCE 200809L
#include "lab.h"

#include "kit.h"

#define MOST_SOCKETS 64
#define MOST_WAITING 64 /* datagrams that wait in a socket whose reads are held back */
#define UNREACHABLE 3
#define EXCEEDED 11

struct waiting {
    uint32_t source;
    uint16_t port;
    int length;
    uint8_t *data;
};

struct socket sockets[MOST_SOCKETS];
int socket_count;
static struct waiting queue[MOST_SOCKETS][MOST_WAITING];
static int queued[MOST_SOCKETS];
static bool held[MOST_SOCKETS];
static uint64_t now;
static int mtu;

void transmit(const uint8_t *packet, int length)
{
    kit_out(packet, length);
}

void deliver(const struct socket *to, uint32_t source, uint16_t port, const uint8_t *data, int length)
{
    int number = to->number;
    if (!held[number]) {
        kit_got_at(number, source, port, data, length);
    } else if (queued[number] < MOST_WAITING) {
        struct waiting *it = &queue[number][queued[number]++];
        *it = (struct waiting){source, port, length, malloc((size_t)length + 1)};
        if (it->data == NULL) abort();
        memcpy(it->data, data, (size_t)length);
    }
}

/* Sends an ICMP error about a packet: its header with the options, and 8 bytes (RFC 792). */
static void icmp_error(uint8_t type, uint8_t code, const uint8_t *packet)
{
    uint8_t message[8 + 60 + 8] = {type, code};
    int header = (packet[0] & 15) * 4, left = get16(packet + 2) - header;
    int quoted = header + (left < 8 ? left : 8);
    memcpy(message + 8, packet, (size_t)quoted);
    put16(message + 2, (uint16_t)~ones_sum(message, 8 + quoted, 0));
    struct header it = {.source = HOST, .destination = get32(packet + 12), .protocol = PROTOCOL_ICMP,
                        .data = message, .length = 8 + quoted};
    ip_output(&it, mtu);
}

void time_exceeded(const uint8_t *packet)
{
    if (get32(packet + 16) == HOST) icmp_error(EXCEEDED, 1, packet);
}

static void boot(int link_mtu)
{
    mtu = link_mtu;
    sockets[socket_count++] = (struct socket){.port = 7};
}

static void open_socket(int number, int port)
{
    sockets[socket_count++] = (struct socket){.number = number, .port = (uint16_t)port};
}

static void connect_socket(int number, uint32_t address, int port)
{
    struct socket *it = &sockets[number];
    it->connected = true;
    it->peer = address;
    it->peer_port = (uint16_t)port;
}

/* A packet arrives. */
static void rx(const uint8_t *packet, int length)
{
    struct header it;
    if (!read_header(packet, length, &it) || !header_sum_holds(packet)) return;
    if ((it.offset > 0 || it.more) && !reassemble(&it, now)) return;
    bool taken = it.protocol == PROTOCOL_UDP ? udp_receive(&it) : it.protocol == PROTOCOL_ICMP;
    if (!taken && it.destination == HOST) icmp_error(UNREACHABLE, it.protocol == PROTOCOL_UDP ? 3 : 2, it.packet);
}

static void wait_ms(int ms)
{
    now += (uint64_t)ms;
    expire(now);
}

static int send_to(int number, uint32_t address, int port, const uint8_t *bytes, int length)
{
    static uint8_t datagram[LONGEST];
    if (length > LONGEST - 8) return 0;
    int size = put_udp(datagram, sockets[number].port, address, (uint16_t)port, bytes, length);
    struct header it = {.source = HOST, .destination = address, .protocol = PROTOCOL_UDP, .data = datagram,
                        .length = size};
    ip_output(&it, mtu);
    return 1;
}

static void hold(int number)
{
    held[number] = true;
}

static void read_held(int number, int count)
{
    for (int i = 0; i < count && queued[number] > 0; i++) {
        struct waiting *it = queue[number];
        kit_got_at(number, it->source, it->port, it->data, it->length);
        free(it->data);
        memmove(it, it + 1, (size_t)--queued[number] * sizeof *it);
    }
}

int main(void)
{
    struct kit_stack it = {.name = "the lab's stack", .has = "out send mtu sockets connect hold", .boot = boot,
                           .rx = rx, .wait = wait_ms, .socket = open_socket, .connect = connect_socket,
                           .send = send_to, .hold = hold, .read = read_held};
    return kit_serve(&it);
}
