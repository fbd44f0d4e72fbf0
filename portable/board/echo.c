/* A service on a board that echoes datagrams to 10.0.0.1 port 7. Packets are sent and received by SLIP (RFC 1055) over
   the serial port. All memory is static: 64 KB are enough, with the stack. A packet of one byte 4 ends it, for the
   tests only. */
#include "bsdudp.h"
#include "machine.h"
#include "report.h"

enum { END = 0300, ESC = 0333, ESC_END = 0334, ESC_ESC = 0335, MTU = 1500, END_OF_TEXT = 4 };

#ifndef MBUFS
#define MBUFS 64
#endif
#ifndef CLUSTERS
#define CLUSTERS 16
#endif

static unsigned char memory[BSDUDP_MEMORY(MBUFS, CLUSTERS)] __attribute__((aligned(BSDUDP_ALIGNMENT)));
static struct bsdudp stack;
static uint8_t packet[MTU], buffer[BSDUDP_TX_ROOM]; /* a datagram of 4,096 bytes fits too */
static uint32_t length; /* of the part of a packet that arrived; above the MTU if it's too long */

/* A packet in SLIP, with an end before it too, so that noise on the line is a separate packet. */
static void transmit(const uint8_t *bytes, int len)
{
    int i;
    machine_put(END);
    for (i = 0; i < len; i++) {
        if (bytes[i] != END && bytes[i] != ESC) {
            machine_put(bytes[i]);
            continue;
        }
        machine_put(ESC);
        machine_put(bytes[i] == END ? ESC_END : ESC_ESC);
    }
    machine_put(END);
}

/* Adds a byte that arrived. Returns whether a packet is complete. */
static int whole(uint8_t byte)
{
    static uint8_t escaped;
    if (byte == END)
        return length > 0;
    if (escaped)
        byte = byte == ESC_END ? END : byte == ESC_ESC ? ESC : byte;
    else if (byte == ESC) {
        escaped = 1;
        return 0;
    }
    escaped = 0;
    if (length < MTU)
        packet[length] = byte;
    length += length <= MTU;
    return 0;
}

/* Echoes the socket's datagrams, and sends the packets for the link. */
static void serve(uint32_t fd)
{
    struct bsdudp_addr from = {0, 0};
    int len;
    while ((len = bsdudp_recvfrom(&stack, fd, buffer, sizeof buffer, &from)) >= 0)
        bsdudp_sendto(&stack, fd, &from, buffer, (size_t)len);
    while ((len = bsdudp_tx(&stack, buffer, sizeof buffer)) > 0)
        transmit(buffer, len);
}

int main(void)
{
    static const struct bsdudp_config config = {0x0a000001, 0x0a0000ff, MBUFS, CLUSTERS, MTU, 1};
    static const struct bsdudp_addr echo = {0, 7};
    int fd;
    if (bsdudp_boot_in(&stack, &config, memory, sizeof memory) < 0)
        return 1;
    fd = bsdudp_socket(&stack);
    bsdudp_bind(&stack, (uint32_t)fd, &echo);
    for (;;) {
        if (machine_ticked())
            bsdudp_tick(&stack);
        if (!machine_came() || !whole(machine_get()))
            continue;
        if (length == 1 && packet[0] == END_OF_TEXT)
            break;
        if (length <= MTU)
            bsdudp_rx(&stack, packet, length);
        length = 0;
        serve((uint32_t)fd);
    }
    report(&stack);
    bsdudp_end(&stack);
    return 0;
}
