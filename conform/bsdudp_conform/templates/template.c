/* An adapter to fill in: cc -I. template.c YOUR_STACK.. -o adapter && bsdudp-conform run -- ./adapter */
#define _POSIX_C_SOURCE 200809L
#include "kit.h"

/* Boot a new stack: address 10.0.0.1, netmask 255.255.255.0, broadcast 10.0.0.255, all other addresses reached directly
 * on the link, a UDP socket bound to port 7. */
static void boot(int mtu)
{
    (void)mtu;
}

/* A packet arrives from the wire. For each datagram that the socket then receives, call kit_got. For each IPv4 packet
 * that the stack sends meanwhile, call kit_out. */
static void rx(const uint8_t *packet, int length)
{
    (void)packet;
    (void)length;
}

/* Time passes: advance your stack's clock, and run its timers. */
static void wait_ms(int ms)
{
    (void)ms;
}

int main(void)
{
    struct kit_stack it = {0};
    it.name = "my stack 1.0";
    it.has = ""; /* "out" if you call kit_out: then the judge checks the packets that your stack sends */
    it.boot = boot;
    it.rx = rx;
    it.wait = wait_ms;
    return kit_serve(&it);
}
