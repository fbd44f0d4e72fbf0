/* A host on an Ethernet on a board: it replies to ARP and ping, and echoes datagrams to 10.0.0.1 port 7. All memory is
   static: 64 KB are enough, with the stack. A datagram of one byte 4 ends it, for the tests only. */
#include "bsdudp.h"
#include "lan9118.h"
#include "machine.h"
#include "report.h"

enum { END_OF_TEXT = 4 };

#ifndef MBUFS
#define MBUFS 64
#endif
#ifndef CLUSTERS
#define CLUSTERS 10
#endif

static unsigned char memory[BSDUDP_ETHER_MEMORY(MBUFS, CLUSTERS)] __attribute__((aligned(BSDUDP_ALIGNMENT)));
static struct bsdudp host;
static uint8_t bytes[4096];

/* A frame begins 2 bytes after an aligned place, so that the packet in it is aligned: memcpy then copies words. */
static uint8_t buffer[2 + BSDUDP_ETHER_ROOM] __attribute__((aligned(4)));
static uint8_t *const frame = buffer + 2;

/* Echoes the socket's datagrams, and sends the frames for the link. Returns whether to continue. */
static int serve(uint32_t fd)
{
    struct bsdudp_addr from = {0, 0};
    int len, is_over = 0;
    while ((len = bsdudp_recvfrom(&host, fd, bytes, sizeof bytes, &from)) >= 0) {
        is_over |= len == 1 && bytes[0] == END_OF_TEXT;
        bsdudp_sendto(&host, fd, &from, bytes, (size_t)len);
    }
    while ((len = bsdudp_ether_transmit(&host, frame, BSDUDP_ETHER_ROOM)) > 0)
        lan9118_send(frame, (size_t)len);
    return !is_over;
}

int main(void)
{
    static const struct bsdudp_config config = {0x0a000001, 0x0a0000ff, MBUFS, CLUSTERS, 1500, 1};
    static const struct bsdudp_link link = {{2, 0, 0, 0, 0, 1}, 0xffffff00, BSDUDP_IP(10, 0, 0, 2), 0};
    static const struct bsdudp_addr echo = {0, 7};
    uint32_t fd;
    size_t len;
    int is_on = 1;
    if (lan9118_start(link.mac) < 0 || bsdudp_ether_boot_in(&host, &config, &link, memory, sizeof memory) < 0) {
        machine_say("no card, or no host\n");
        return 1;
    }
    fd = (uint32_t)bsdudp_socket(&host);
    bsdudp_bind(&host, fd, &echo);
    while (is_on) {
        if (machine_ticked())
            bsdudp_tick(&host);
        len = lan9118_receive(frame);
        if (len > 0)
            bsdudp_ether_receive(&host, frame, len);
        is_on = serve(fd);
    }
    report(&host);
    bsdudp_end(&host);
    return 0;
}
