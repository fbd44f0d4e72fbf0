/*
 * The whole of libslirp, by its public calls: the guest's packets go in, and a datagram for 10.0.0.1:7 arrives at a
 * socket on 127.0.0.1:7 of this process, in its own network namespace. libslirp is a gateway that translates addresses,
 * so the sender of a datagram isn't known.
 */
#define _GNU_SOURCE
#include "kit.h"
#include <fcntl.h>
#include <net/if.h>
#include <netinet/in.h>
#include <poll.h>
#include <sched.h>
#include <sys/ioctl.h>
#include <sys/socket.h>
#include "libslirp.h"

#define POLLED 64
#define LONGEST 70000
#define ETHERNET 14

static Slirp *slirp;
static int64_t now;
static int user;
static struct pollfd polled[POLLED];
static int count;

static ssize_t send_packet(const void *frame, size_t length, void *opaque)
{
    const uint8_t *bytes = frame;
    (void)opaque;
    if (length > ETHERNET && bytes[12] == 8 && bytes[13] == 0) kit_out(bytes + ETHERNET, (int)length - ETHERNET);
    return (ssize_t)length;
}

static void guest_error(const char *text, void *opaque) { (void)text, (void)opaque; }
static int64_t clock_get_ns(void *opaque) { (void)opaque; return now * 1000000; }
static void *timer_new(SlirpTimerCb call, void *with, void *opaque)
{
    (void)call, (void)with, (void)opaque;
    return malloc(1);
}
static void timer_free(void *timer, void *opaque) { (void)opaque; free(timer); }
static void timer_mod(void *timer, int64_t at, void *opaque) { (void)timer, (void)at, (void)opaque; }
static void poll_fd(int fd, void *opaque) { (void)fd, (void)opaque; }
static void notify(void *opaque) { (void)opaque; }

static const SlirpCb calls = {
    .send_packet = send_packet, .guest_error = guest_error, .clock_get_ns = clock_get_ns, .timer_new = timer_new,
    .timer_free = timer_free, .timer_mod = timer_mod, .register_poll_fd = poll_fd, .unregister_poll_fd = poll_fd,
    .notify = notify,
};

static int add_poll(int fd, int events, void *opaque)
{
    (void)opaque;
    if (count == POLLED) return -1;
    short wanted = (short)((events & SLIRP_POLL_IN ? POLLIN : 0) | (events & SLIRP_POLL_OUT ? POLLOUT : 0) |
                           (events & SLIRP_POLL_PRI ? POLLPRI : 0));
    polled[count] = (struct pollfd){fd, wanted, 0};
    return count++;
}

static int revents(int place, void *opaque)
{
    (void)opaque;
    short got = place < 0 ? 0 : polled[place].revents;
    return (got & POLLIN ? SLIRP_POLL_IN : 0) | (got & POLLOUT ? SLIRP_POLL_OUT : 0) |
           (got & POLLPRI ? SLIRP_POLL_PRI : 0) | (got & POLLERR ? SLIRP_POLL_ERR : 0) |
           (got & POLLHUP ? SLIRP_POLL_HUP : 0);
}

static void turn(void)
{
    static uint8_t bytes[LONGEST];
    uint32_t timeout = 0;
    ssize_t length;
    count = 0;
    slirp_pollfds_fill(slirp, &timeout, add_poll, NULL);
    poll(polled, (nfds_t)count, 0);
    slirp_pollfds_poll(slirp, 0, revents, NULL);
    while ((length = recv(user, bytes, sizeof bytes, MSG_DONTWAIT)) >= 0) kit_got_unknown(bytes, (int)length);
}

/* A namespace in which 127.0.0.1 is up, and the socket that takes what libslirp passes on. */
static void user_socket(void)
{
    struct ifreq lo = {.ifr_name = "lo"};
    int size = 1 << 20;
    struct sockaddr_in here = {.sin_family = AF_INET, .sin_port = htons(7), .sin_addr = {htonl(INADDR_LOOPBACK)}};
    if (unshare(CLONE_NEWNET)) abort();
    user = socket(AF_INET, SOCK_DGRAM, 0);
    if (ioctl(user, SIOCGIFFLAGS, &lo)) abort();
    lo.ifr_flags |= IFF_UP;
    if (ioctl(user, SIOCSIFFLAGS, &lo)) abort();
    setsockopt(user, SOL_SOCKET, SO_RCVBUF, &size, sizeof size);
    if (bind(user, (struct sockaddr *)&here, sizeof here)) abort();
}

static void boot(int mtu)
{
    SlirpConfig config = {.version = 3, .in_enabled = true, .if_mtu = 65521, .if_mru = 65521};
    (void)mtu;
    user_socket();
    config.vnetwork.s_addr = htonl(0x0A000000);
    config.vnetmask.s_addr = htonl(0xFFFFFF00);
    config.vhost.s_addr = htonl(0x0A000001);
    config.vdhcp_start.s_addr = htonl(0x0A00000F);
    config.vnameserver.s_addr = htonl(0x0A0000F0);
    now = 1000;
    slirp = slirp_new(&config, &calls, NULL);
    for (uint8_t last = 2; last <= 3; last++) { /* the guest says where it is */
        uint8_t arp[42] = {255, 255, 255, 255, 255, 255, 82, 85, 10, 0, 2, 15, 8, 6, 0, 1, 8, 0, 6, 4, 0, 2,
                           82, 85, 10, 0, 2, 15, 10, 0, 0, last, 255, 255, 255, 255, 255, 255, 10, 0, 0, last};
        slirp_input(slirp, arp, sizeof arp);
    }
}

static void rx(const uint8_t *packet, int length)
{
    static const uint8_t header[ETHERNET] = {82, 85, 10, 0, 0, 1, 82, 85, 10, 0, 2, 15, 8, 0};
    uint8_t *frame = malloc(ETHERNET + (size_t)length);
    if (!frame) abort();
    memcpy(frame, header, ETHERNET);
    memcpy(frame + ETHERNET, packet, (size_t)length);
    slirp_input(slirp, frame, ETHERNET + length);
    free(frame);
    now++;
    turn();
}

static void wait_ms(int ms)
{
    for (; ms > 0; ms -= 250) {
        now += ms < 250 ? ms : 250;
        turn();
    }
}

static void end(void)
{
    usleep(1000); /* an answer of the host's kernel */
    turn();
}

int main(void)
{
    struct kit_stack it = {0};
    static char name[80];
    snprintf(name, sizeof name, "libslirp %s", slirp_version_string());
    it.name = name;
    it.has = "out gateway";
    it.boot = boot, it.rx = rx, it.wait = wait_ms, it.end = end;
    return kit_serve(&it);
}
