/*
 * lwIP's side of bench/peers, built once for each of its builds: PEER is that build's prefix. One lwIP has two
 * interfaces, 10.0.0.1 and 10.0.0.2, each with a socket. A packet goes into an output queue, is copied out of it, and is
 * copied into the other interface's buffer; a datagram goes into a receive queue, and is copied out of that. So the
 * bytes are copied four times, as in ours.
 */
#include "lwip/init.h"
#include "lwip/ip4_frag.h"
#include "lwip/netif.h"
#include "lwip/pbuf.h"
#include "lwip/udp.h"

#include <stdbool.h>
#include <string.h>

#define JOINED(prefix, name) prefix##_##name
#define NAMED(prefix, name) JOINED(prefix, name)
#define EXPORT(name) __attribute__((visibility("default"))) NAMED(PEER, name)

enum { MTU = 1500, PORT = 7, QUEUE = 50, RECEIVE_SPACE = 41600, MOST = 9216, APART = 1500 };

static struct netif near, far;
static struct udp_pcb *sender, *hearer;
static ip_addr_t to_hearer;

/* Packets that wait for the link. */
static struct {
    struct pbuf *packets[QUEUE];
    unsigned first, count;
} out;

/* Datagrams that wait in the receiver's socket, with their senders. */
static struct {
    struct {
        struct pbuf *bytes;
        ip_addr_t from;
        u16_t port;
    } datagrams[QUEUE];
    unsigned first, count, bytes;
} in;

static unsigned place(unsigned first, unsigned count)
{
    return first + count < QUEUE ? first + count : first + count - QUEUE;
}

static err_t put_out(struct netif *interface, struct pbuf *packet, const ip4_addr_t *to)
{
    (void)interface;
    (void)to;
    if (out.count == QUEUE)
        return ERR_BUF;
    pbuf_ref(packet);
    out.packets[place(out.first, out.count++)] = packet;
    return ERR_OK;
}

/* Copies the oldest packet of the output queue out, and returns its length; 0 if none waits. */
static u16_t tx(u8_t *to)
{
    if (out.count == 0)
        return 0;
    struct pbuf *packet = out.packets[out.first];
    out.first = place(out.first, 1);
    out.count--;
    u16_t len = pbuf_copy_partial(packet, to, packet->tot_len, 0);
    pbuf_free(packet);
    return len;
}

static void rx(const u8_t *bytes, u16_t len)
{
    struct pbuf *packet = pbuf_alloc(PBUF_RAW, len, PBUF_POOL);
    if (packet == NULL)
        return;
    pbuf_take(packet, bytes, len);
    if (far.input(packet, &far) != ERR_OK)
        pbuf_free(packet);
}

static void heard(void *of, struct udp_pcb *pcb, struct pbuf *bytes, const ip_addr_t *from, u16_t port)
{
    (void)of;
    (void)pcb;
    if (in.count == QUEUE || in.bytes + bytes->tot_len > RECEIVE_SPACE) {
        pbuf_free(bytes);
        return;
    }
    unsigned at = place(in.first, in.count++);
    in.datagrams[at].bytes = bytes;
    in.datagrams[at].from = *from;
    in.datagrams[at].port = port;
    in.bytes += bytes->tot_len;
}

/* Copies the oldest datagram out with its sender, and returns its length; -1 if none waits. */
static int received(u8_t *to, u16_t size, ip_addr_t *from, u16_t *port)
{
    if (in.count == 0)
        return -1;
    struct pbuf *bytes = in.datagrams[in.first].bytes;
    *from = in.datagrams[in.first].from;
    *port = in.datagrams[in.first].port;
    in.first = place(in.first, 1);
    in.count--;
    in.bytes -= bytes->tot_len;
    u16_t len = pbuf_copy_partial(bytes, to, size, 0);
    pbuf_free(bytes);
    return len;
}

static bool sent(const u8_t *bytes, u16_t len)
{
    struct pbuf *datagram = pbuf_alloc(PBUF_TRANSPORT, len, PBUF_RAM);
    if (datagram == NULL)
        return false;
    pbuf_take(datagram, bytes, len);
    err_t fault = udp_sendto(sender, datagram, &to_hearer, PORT);
    pbuf_free(datagram);
    return fault == ERR_OK;
}

static err_t link_of(struct netif *interface)
{
    interface->mtu = MTU;
    interface->output = put_out;
    interface->flags = NETIF_FLAG_BROADCAST | NETIF_FLAG_LINK_UP;
    return ERR_OK;
}

/* The first interface in lwIP's list is the last that was added: packets to 10.0.0.2 leave by it. */
static void add(struct netif *interface, u8_t host)
{
    ip4_addr_t addr, mask, gateway;
    IP4_ADDR(&addr, 10, 0, 0, host);
    IP4_ADDR(&mask, 255, 255, 255, 0);
    ip4_addr_set_zero(&gateway);
    netif_add(interface, &addr, &mask, &gateway, NULL, link_of, ip4_input);
    netif_set_up(interface);
}

static void start(void)
{
    static bool started;
    if (started)
        return;
    started = true;
    lwip_init();
    add(&far, 2);
    add(&near, 1);
    to_hearer = far.ip_addr;
    sender = udp_new();
    hearer = udp_new();
    udp_bind(sender, &near.ip_addr, PORT);
    udp_bind(hearer, &far.ip_addr, PORT);
    udp_recv(hearer, heard, NULL);
}

/* Sends a datagram from one interface to the other and reads it there, this many times; returns how often all of it
   arrived. */
uint32_t EXPORT(send_and_receive)(const uint8_t *bytes, size_t len, uint32_t times)
{
    static u8_t packet[MTU], buffer[MOST];
    ip_addr_t from;
    u16_t port, size;
    uint32_t well = 0;
    start();
    for (uint32_t k = 0; k < times; k++) {
        bool gone = sent(bytes, (u16_t)len);
        while ((size = tx(packet)) != 0)
            rx(packet, size);
        if (gone && received(buffer, MOST, &from, &port) == (int)len)
            well++;
    }
    return memcmp(buffer, bytes, len) == 0 ? well : 0;
}

/*
 * A packet arrives `times` times, and is read if it's for the socket. `before` packets arrive first and aren't read.
 * Returns how many were read, or how many arrived. Queued datagrams are freed at the end.
 */
uint32_t EXPORT(receive)(const uint8_t *packet, size_t len, uint32_t before, bool is_read, uint32_t times)
{
    static u8_t buffer[MOST];
    ip_addr_t from;
    u16_t port;
    uint32_t well = 0;
    start();
    for (uint32_t k = 0; k < before; k++)
        rx(packet, (u16_t)len);
    for (uint32_t k = 0; k < times; k++) {
        rx(packet, (u16_t)len);
        if (!is_read || received(buffer, MOST, &from, &port) >= 0)
            well++;
    }
    while (received(buffer, MOST, &from, &port) >= 0)
        ;
    return well;
}

/* How many of the buffers for packets are free. */
static unsigned free_buffers(void)
{
    struct pbuf *taken[PBUF_POOL_SIZE];
    unsigned count = 0;
    while (count < PBUF_POOL_SIZE && (taken[count] = pbuf_alloc(PBUF_RAW, 1, PBUF_POOL)) != NULL)
        count++;
    for (unsigned at = 0; at < count; at++)
        pbuf_free(taken[at]);
    return count;
}

/*
 * Packets, 1,500 bytes apart in memory, arrive `times` times. The datagram that they complete is freed, because no
 * handler has its protocol. Returns how often, or 0 if a fragment before the last wasn't kept, or a buffer isn't free.
 */
uint32_t EXPORT(reassemble)(const uint8_t *packets, size_t len, uint32_t times)
{
    unsigned held = PBUF_POOL_SIZE;
    start();
    for (uint32_t k = 0; k < times; k++)
        for (size_t at = 0; at < len; at += APART) {
            if (k == 0 && at + APART >= len)
                held = free_buffers();
            rx(packets + at, (u16_t)(packets[at + 2] << 8 | packets[at + 3]));
        }
    return held + len / APART - 1 == PBUF_POOL_SIZE && free_buffers() == PBUF_POOL_SIZE ? times : 0;
}
