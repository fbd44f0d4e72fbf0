/*
 * Plays `rx HEX`, `tick` and `send HEX` on libslirp, whose ip_input.c, ip_output.c and udp.c come from 4.4BSD. Each
 * line of standard input gets one reply. For `rx` it's `ok`, or `from ADDR PORT HEX` if udp_input passes a datagram
 * to a socket (sosendto is replaced by a print). `send` passes bytes to udp_output, from 10.0.0.1:1024 to 10.0.0.2:7,
 * and prints the packets. The argument is the MTU. `build` makes it.
 */
#include <arpa/inet.h>
#include "slirp.h"
#include "hex.h"

#define LONGEST 70000

static Slirp *slirp;
static int printed;
static uint8_t packet[LONGEST];

int __wrap_sosendto(struct socket *so, struct mbuf *m)
{
    char from[INET_ADDRSTRLEN];
    inet_ntop(AF_INET, &so->so_laddr, from, sizeof from);
    printf("%sfrom %s %d ", printed++ ? " " : "", from, ntohs(so->so_lport));
    print_hex((uint8_t *)m->m_data, m->m_len);
    return 0;
}

static ssize_t send_packet(const void *frame, size_t length, void *opaque)
{
    const uint8_t *bytes = frame;
    (void)opaque;
    if (length <= ETH_HLEN || bytes[12] != 8 || bytes[13] != 0) return (ssize_t)length;
    printf("%spacket ", printed++ ? " " : "");
    print_hex(bytes + ETH_HLEN, (int)length - ETH_HLEN);
    return (ssize_t)length;
}

static void guest_error(const char *text, void *opaque) { (void)text, (void)opaque; }
static int64_t clock_get_ns(void *opaque) { (void)opaque; return 1000000000; }
static void *timer_new(SlirpTimerCb call, void *with, void *opaque)
{
    (void)call, (void)with, (void)opaque;
    return malloc(1);
}
static void timer_free(void *timer, void *opaque) { (void)opaque; free(timer); }
static void timer_mod(void *timer, int64_t at, void *opaque) { (void)timer, (void)at, (void)opaque; }
static void poll_fd(int fd, void *opaque) { (void)fd, (void)opaque; }
static void notify(void *opaque) { (void)opaque; }

static const SlirpCb calls = {
    .send_packet = send_packet, .guest_error = guest_error, .clock_get_ns = clock_get_ns, .timer_new = timer_new,
    .timer_free = timer_free, .timer_mod = timer_mod, .register_poll_fd = poll_fd, .unregister_poll_fd = poll_fd,
    .notify = notify,
};

/* The guest, 10.0.0.2, announces its hardware address by ARP. */
static void boot(int mtu)
{
    static const uint8_t arp[42] = {255, 255, 255, 255, 255, 255, 82, 85, 10, 0, 2, 15, 8, 6, 0, 1, 8, 0, 6, 4, 0, 2,
                                    82, 85, 10, 0, 2, 15, 10, 0, 0, 2, 255, 255, 255, 255, 255, 255, 10, 0, 0, 2};
    SlirpConfig config = {.version = 3, .in_enabled = true, .if_mtu = (size_t)mtu, .if_mru = 65521};
    config.vnetwork.s_addr = htonl(0x0A000000);
    config.vnetmask.s_addr = htonl(0xFFFFFF00);
    config.vhost.s_addr = htonl(0x0A000001);
    config.vdhcp_start.s_addr = htonl(0x0A00000F);
    config.vnameserver.s_addr = htonl(0x0A0000F0);
    slirp = slirp_new(&config, &calls, NULL);
    slirp_input(slirp, arp, sizeof arp);
    slirp->ip_id = 1;
}

static void receive(const char *hex)
{
    static const uint8_t header[ETH_HLEN] = {82, 85, 10, 0, 0, 1, 82, 85, 10, 0, 2, 15, 8, 0};
    memcpy(packet, header, ETH_HLEN);
    slirp_input(slirp, packet, ETH_HLEN + of_hex(hex, packet + ETH_HLEN, LONGEST - ETH_HLEN));
}

static void send_bytes(const char *hex)
{
    struct sockaddr_in here = {.sin_port = htons(1024), .sin_addr = {htonl(0x0A000001)}};
    struct sockaddr_in there = {.sin_port = htons(7), .sin_addr = {htonl(0x0A000002)}};
    int n = of_hex(hex, packet, LONGEST);
    struct mbuf *m = m_get(slirp);
    m->m_data += IF_MAXLINKHDR + sizeof(struct udpiphdr);
    m_inc(m, n + 1);
    memcpy(m->m_data, packet, (size_t)n);
    m->m_len = n;
    udp_output(NULL, m, &here, &there, 0);
}

int main(int count, char **words)
{
    static char line[3 * LONGEST];
    boot(count > 1 ? atoi(words[1]) : 1500);
    while (fgets(line, sizeof line, stdin)) {
        printed = 0;
        if (!strncmp(line, "rx ", 3)) receive(line + 3);
        else if (!strncmp(line, "send ", 5)) send_bytes(line + 5);
        else if (!strcmp(line, "tick\n")) ip_slowtimo(slirp);
        else printed = printf("? line");
        puts(printed ? "" : "ok");
        fflush(stdout);
    }
    return 0;
}
