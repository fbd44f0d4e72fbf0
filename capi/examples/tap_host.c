/* A host 10.0.0.1 on an Ethernet that is the TAP device tap0 of Linux: it echoes UDP on port 7, and replies to ping.
       cc -std=gnu99 tap_host.c -I PREFIX/include PREFIX/lib/libbsdudp.a && sudo ./a.out tap0
   makes the device. Then give Linux its address, `ip addr add 10.0.0.2/24 dev tap0; ip link set tap0 up`, and try
   `ping 10.0.0.1` and `nc -u 10.0.0.1 7`. Three optional arguments may follow tap0: the host's address, its hardware
   address such as 02:00:00:00:00:01, and a gateway. SIGTERM and Ctrl-C end it; it then prints its link's counters. */
#include "bsdudp.h"

#include <arpa/inet.h>
#include <errno.h>
#include <fcntl.h>
#include <linux/if.h>
#include <linux/if_tun.h>
#include <poll.h>
#include <signal.h>
#include <stdio.h>
#include <string.h>
#include <sys/ioctl.h>
#include <time.h>
#include <unistd.h>

enum { FD = BSDUDP_FIRST_FD, HALF_SECOND = 500, MBUFS = 512, CLUSTERS = 64 };

static unsigned char memory[BSDUDP_ETHER_MEMORY(MBUFS, CLUSTERS)] __attribute__((aligned(BSDUDP_ALIGNMENT)));
static uint8_t frame[2048], buffer[BSDUDP_ETHER_ROOM], bytes[BSDUDP_DATAGRAM];
static volatile sig_atomic_t is_over;

static void stop(int signal)
{
    (void)signal;
    is_over = 1;
}

static long long milliseconds(void)
{
    struct timespec now;
    clock_gettime(CLOCK_MONOTONIC, &now);
    return now.tv_sec * 1000LL + now.tv_nsec / 1000000;
}

static int open_device(const char *name)
{
    struct ifreq request;
    int device = open("/dev/net/tun", O_RDWR | O_NONBLOCK);
    memset(&request, 0, sizeof request);
    request.ifr_flags = IFF_TAP | IFF_NO_PI;
    snprintf(request.ifr_name, sizeof request.ifr_name, "%s", name);
    return device < 0 || ioctl(device, TUNSETIFF, &request) < 0 ? -1 : device;
}

/* Echoes the datagrams of the socket, and sends the frames for the link. */
static void serve(struct bsdudp *host, int device)
{
    struct bsdudp_addr from;
    int len;
    do {
        if ((len = bsdudp_recvfrom(host, FD, bytes, sizeof bytes, &from)) >= 0)
            (void)bsdudp_sendto(host, FD, &from, bytes, (size_t)len); /* if it fails, this echo is lost */
        for (int sent; (sent = bsdudp_ether_transmit(host, buffer, sizeof buffer)) > 0;)
            if (write(device, buffer, (size_t)sent) < 0 && errno != EIO) /* the device is not up yet: no cable */
                perror("write");
    } while (len >= 0);
}

static void report(struct bsdudp *host)
{
    struct bsdudp_tallies it;
    struct bsdudp_neighbour near;
    if (bsdudp_ether_tallies(host, &it) < 0)
        return;
    printf("ignored %llu, bad ARP %llu, conflicts %llu, echoes %llu, unreachable %llu, dropped %llu, given up %llu\n",
           (unsigned long long)it.ignored, (unsigned long long)it.bad_arp, (unsigned long long)it.conflicts,
           (unsigned long long)it.echoes, (unsigned long long)it.unreachable, (unsigned long long)it.held_dropped,
           (unsigned long long)it.unresolved);
    for (uint32_t i = 0; bsdudp_ether_neighbour(host, i, &near) == 0; i++)
        printf("%08x at %02x:%02x:%02x:%02x:%02x:%02x%s\n", (unsigned)near.ip, near.mac[0], near.mac[1], near.mac[2],
               near.mac[3], near.mac[4], near.mac[5], near.known ? "" : ", asked for");
}

int main(int argc, char **argv)
{
    const char *addr = argc > 2 ? argv[2] : "10.0.0.1", *gateway = argc > 4 ? argv[4] : "0.0.0.0";
    struct bsdudp host = BSDUDP_NONE;
    struct bsdudp_link link = {{2, 0, 0, 0, 0, 1}, 0xffffff00, ntohl(inet_addr(gateway)), 0};
    struct bsdudp_config config = {ntohl(inet_addr(addr)), 0, MBUFS, CLUSTERS, 1500, 1};
    struct bsdudp_addr echo = {0, 7};
    uint8_t *mac = link.mac;
    long long next;
    int device, answer;
    if (argc < 2 || (argc > 3 && sscanf(argv[3], "%hhx:%hhx:%hhx:%hhx:%hhx:%hhx", mac, mac + 1, mac + 2, mac + 3,
                                        mac + 4, mac + 5) != 6))
        return fprintf(stderr, "usage: tap_host DEVICE [ADDRESS [MAC [GATEWAY]]]\n"), 2;
    config.bcast = config.addr | ~link.mask;
    if ((device = open_device(argv[1])) < 0)
        return perror(argv[1]), 1;
    if ((answer = bsdudp_ether_boot_in(&host, &config, &link, memory, sizeof memory)) < 0)
        return fprintf(stderr, "boot: %s\n", bsdudp_boot_strerror(answer, &config, &link)), 1;
    if (bsdudp_socket(&host) != FD || bsdudp_bind(&host, FD, &echo) < 0 ||
        bsdudp_setsockopt(&host, FD, BSDUDP_SO_BROADCAST, 1) < 0)
        return 1;
    signal(SIGTERM, stop);
    signal(SIGINT, stop);
    for (next = milliseconds() + HALF_SECOND; !is_over;) {
        struct pollfd wait = {device, POLLIN, 0};
        long long now = milliseconds();
        ssize_t len;
        for (; now >= next; next += HALF_SECOND)
            bsdudp_tick(&host);
        serve(&host, device);
        if (poll(&wait, 1, (int)(next - now)) > 0)
            while ((len = read(device, frame, sizeof frame)) > 0) {
                bsdudp_ether_receive(&host, frame, (size_t)len);
                serve(&host, device);
            }
    }
    report(&host);
    return bsdudp_end(&host) < 0;
}
