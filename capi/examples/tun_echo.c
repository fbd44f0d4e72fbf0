/* A host 10.0.0.1 on a TUN device of Linux that echoes UDP on port 7. Linux has 10.0.0.2 there: try `nc -u 10.0.0.1 7`.
       cc -std=gnu99 tun_echo.c -I PREFIX/include PREFIX/lib/libbsdudp.a && sudo ./a.out 1500 */
#include "bsdudp.h"

#include <fcntl.h>
#include <linux/if.h>
#include <linux/if_tun.h>
#include <poll.h>
#include <signal.h>
#include <stdio.h>
#include <stdlib.h>
#include <string.h>
#include <sys/ioctl.h>
#include <time.h>
#include <unistd.h>

enum { FD = BSDUDP_FIRST_FD, HALF_SECOND = 500 };

static volatile sig_atomic_t is_over;
static uint8_t packet[BSDUDP_PACKET], bytes[BSDUDP_DATAGRAM];

static void stop(int signal)
{
    (void)signal;
    is_over = 1;
}

static long long milliseconds(void)
{
    struct timespec now;
    clock_gettime(CLOCK_MONOTONIC, &now);
    return now.tv_sec * 1000LL + now.tv_nsec / 1000000;
}

/* Opens the device, and sets Linux's address and the MTU with ip(8). */
static int open_device(const char *mtu)
{
    struct ifreq request;
    char command[240];
    int device = open("/dev/net/tun", O_RDWR | O_NONBLOCK);
    memset(&request, 0, sizeof request);
    request.ifr_flags = IFF_TUN | IFF_NO_PI;
    strcpy(request.ifr_name, "bsdudp0");
    if (device < 0 || ioctl(device, TUNSETIFF, &request) < 0)
        return -1;
    snprintf(command, sizeof command,
             "ip link set bsdudp0 mtu %s && ip addr add 10.0.0.2/24 broadcast 10.0.0.255 dev bsdudp0 && "
             "ip link set bsdudp0 up",
             mtu);
    return system(command) == 0 ? device : -1;
}

/* Echoes the datagrams of the socket, packet by packet. */
static void echo(struct bsdudp *stack, int device)
{
    struct bsdudp_addr from;
    int len;
    while ((len = bsdudp_recvfrom(stack, FD, bytes, sizeof bytes, &from)) >= 0) {
        (void)bsdudp_sendto(stack, FD, &from, bytes, (size_t)len); /* if it fails, this echo is lost */
        while ((len = bsdudp_tx(stack, packet, sizeof packet)) > 0)
            if (write(device, packet, (size_t)len) < 0)
                perror("write");
    }
}

int main(int argc, char **argv)
{
    struct bsdudp stack = BSDUDP_NONE;
    struct bsdudp_config config = {0x0a000001, 0x0a0000ff, 512, 64, 1500, 1};
    struct bsdudp_addr any = {0, 7};
    struct bsdudp_mbstat usage;
    long long next;
    int device, answer;
    if (argc != 2)
        return fprintf(stderr, "usage: tun_echo MTU\n"), 2;
    config.mtu = (uint16_t)atoi(argv[1]);
    if ((device = open_device(argv[1])) < 0)
        return perror("tun"), 1;
    if ((answer = bsdudp_boot(&stack, &config)) < 0)
        return fprintf(stderr, "boot: %s\n", bsdudp_boot_strerror(answer, &config, NULL)), 1;
    if (bsdudp_socket(&stack) != FD || bsdudp_bind(&stack, FD, &any) < 0 ||
        bsdudp_setsockopt(&stack, FD, BSDUDP_SO_BROADCAST, 1) < 0)
        return 1;
    signal(SIGTERM, stop);
    signal(SIGINT, stop);
    for (next = milliseconds() + HALF_SECOND; !is_over;) {
        struct pollfd wait = {device, POLLIN, 0};
        long long now = milliseconds();
        ssize_t len;
        if (now >= next) {
            bsdudp_tick(&stack);
            next += HALF_SECOND;
            continue;
        }
        if (poll(&wait, 1, (int)(next - now)) <= 0)
            continue;
        while ((len = read(device, packet, sizeof packet)) > 0) {
            bsdudp_rx(&stack, packet, (size_t)len);
            echo(&stack, device);
        }
    }
    if (bsdudp_mbstat(&stack, &usage) < 0)
        return 1;
    printf("free: mbufs %u of %u, clusters %u of %u\n", usage.free_mbufs, usage.mbufs, usage.free_clusters,
           usage.clusters);
    return bsdudp_end(&stack) < 0;
}
