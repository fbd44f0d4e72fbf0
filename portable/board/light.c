/* A light on an Ethernet, for a board with 40 KB of memory: CoAP (RFC 7252) with the resource /led, and replies to ARP
   and ping. It has no file, no TFTP and no text about drops. Its messages have at most 1,152 bytes (RFC 7252, 4.6), so
   none comes in fragments, and a small pool is enough. */
#include "../../capi/examples/coap.h"
#include "lan9118.h"
#include "machine.h"

#ifndef MBUFS
#define MBUFS 16
#endif
#ifndef CLUSTERS
#define CLUSTERS 3
#endif

static unsigned char memory[BSDUDP_ETHER_MEMORY(MBUFS, CLUSTERS)] __attribute__((aligned(BSDUDP_ALIGNMENT)));
static struct bsdudp host;
static char led = '0';

/* Frames and messages share a buffer. A frame begins 2 bytes after an aligned place, so that the packet in it is
   aligned: memcpy then copies words. */
static uint8_t buffer[2 + BSDUDP_ETHER_ROOM] __attribute__((aligned(4)));
static uint8_t *const frame = buffer + 2;

static void get_led(struct coap_content *content)
{
    *content = (struct coap_content){(const uint8_t *)&led, 1, 0};
}

static int put_led(const uint8_t *bytes, uint32_t len)
{
    if (len != 1 || (bytes[0] != '0' && bytes[0] != '1'))
        return COAP_CODE(4, 0);
    led = (char)bytes[0]; /* a board switches its light here */
    return COAP_CODE(2, 4);
}

static void get_links(struct coap_content *content)
{
    static const char links[] = "</led>;ct=0";
    *content = (struct coap_content){(const uint8_t *)links, sizeof links - 1, 0};
}

static const struct coap_resource resources[] = {
    {"/led", COAP_TEXT, get_led, put_led},
    {"/.well-known/core", COAP_LINKS, get_links, NULL},
};
static struct coap coap; /* without initial values, which would take as much flash */

int main(void)
{
    static const struct bsdudp_config config = {0x0a000001, 0x0a0000ff, MBUFS, CLUSTERS, 1500, 1};
    static const struct bsdudp_link link = {{2, 0, 0, 0, 0, 1}, 0xffffff00, BSDUDP_IP(10, 0, 0, 2), 0};
    size_t len;
    int sent;
    coap.host = &host;
    coap.resources = resources;
    coap.count = sizeof resources / sizeof resources[0];
    coap.buffer = buffer;
    coap.buffer_len = sizeof buffer;
    if (lan9118_start(link.mac) < 0 || bsdudp_ether_boot_in(&host, &config, &link, memory, sizeof memory) < 0 ||
        coap_start(&coap, config.addr) < 0) {
        machine_say("no card, or no host\n");
        return 1;
    }
    lan9118_listen();
    for (;;) {
        for (; machine_ticked(); coap_tick(&coap))
            bsdudp_tick(&host);
        len = lan9118_receive(frame);
        if (len > 0)
            bsdudp_ether_receive(&host, frame, len);
        coap_serve(&coap);
        while ((sent = bsdudp_ether_transmit(&host, frame, BSDUDP_ETHER_ROOM)) > 0)
            lan9118_send(frame, (size_t)sent);
        if (len == 0)
            machine_sleep(LAN9118_INTERRUPT, lan9118_heard);
    }
}
