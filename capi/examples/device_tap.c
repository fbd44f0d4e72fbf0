/* The device of device.c as a program of Linux: a host 10.0.0.1 on the TAP device tap0, whose file "flash" is FILE.
       cc -std=gnu99 device_tap.c device.c dhcp.c dhcp_message.c coap.c tftp.c drops.c -I PREFIX/include \
           PREFIX/lib/libbsdudp.a &&
           sudo ./a.out tap0 FILE
   Then give Linux its address, `ip addr add 10.0.0.2/24 dev tap0; ip link set tap0 up`, and try
   `coap-client-notls -m get coap://10.0.0.1/stats` and `curl tftp://10.0.0.1/flash`. After FILE may follow how many
   milliseconds a tick has, 500 if nothing does, and then `dhcp` for an address by DHCP, with the address that it had at
   its last start if it had one. It ends at SIGTERM or Ctrl-C. */
#include "device.h"

#include <arpa/inet.h>
#include <errno.h>
#include <fcntl.h>
#include <linux/if.h>
#include <linux/if_tun.h>
#include <poll.h>
#include <signal.h>
#include <stdio.h>
#include <stdlib.h>
#include <string.h>
#include <sys/ioctl.h>
#include <sys/mman.h>
#include <sys/stat.h>
#include <time.h>
#include <unistd.h>

enum { MBUFS = 512, CLUSTERS = 64, RAM = 2 << 20 };

static unsigned char memory[BSDUDP_ETHER_MEMORY(MBUFS, CLUSTERS)] __attribute__((aligned(BSDUDP_ALIGNMENT)));
static uint8_t ram[RAM];
static const char *name;
static int card, tick = 500;
static long long next_tick;
static volatile sig_atomic_t is_over;

static void stop(int signal)
{
    (void)signal;
    is_over = 1;
}

static long long milliseconds(void)
{
    struct timespec now;
    clock_gettime(CLOCK_MONOTONIC, &now);
    return now.tv_sec * 1000LL + now.tv_nsec / 1000000;
}

int port_start(const uint8_t mac[6])
{
    struct ifreq request;
    (void)mac; /* the host's. The device that Linux has gets another one by itself */
    memset(&request, 0, sizeof request);
    request.ifr_flags = IFF_TAP | IFF_NO_PI;
    snprintf(request.ifr_name, sizeof request.ifr_name, "%s", name);
    card = open("/dev/net/tun", O_RDWR | O_NONBLOCK);
    next_tick = milliseconds() + tick;
    return card < 0 || ioctl(card, TUNSETIFF, &request) < 0 ? -1 : 0;
}

size_t port_receive(uint8_t *frame)
{
    const ssize_t len = read(card, frame, BSDUDP_ETHER_ROOM);
    return len > 0 ? (size_t)len : 0;
}

void port_send(const uint8_t *frame, size_t len)
{
    if (write(card, frame, len) < 0 && errno != EIO) /* nobody has set the device up yet: no cable */
        perror("write");
}

int port_ticked(void)
{
    const int has_passed = milliseconds() >= next_tick;
    next_tick += has_passed ? tick : 0;
    return has_passed;
}

int port_wait(void)
{
    struct pollfd wait = {card, POLLIN, 0};
    const long long left = next_tick - milliseconds();
    poll(&wait, 1, left > 0 ? (int)left : 0);
    return !is_over;
}

void port_say(const char *text)
{
    fputs(text, stdout);
    fflush(stdout);
}

uint32_t port_random(void)
{
    uint32_t number = 0;
    if (getentropy(&number, sizeof number) < 0)
        perror("getentropy");
    return number;
}

uint32_t port_stack(void) { return 0; }

int main(int argc, char **argv)
{
    struct device device = {{BSDUDP_IP(10, 0, 0, 1), BSDUDP_IP(10, 0, 0, 255), MBUFS, CLUSTERS, 1500, 1},
                            {{2, 0, 0, 0, 0, 1}, 0xffffff00, BSDUDP_IP(10, 0, 0, 2), 0},
                            memory, sizeof memory, NULL, 0, ram, RAM};
    struct stat file;
    void *flash;
    int status, fd = argc > 2 ? open(argv[2], O_RDONLY) : -1;
    if (argc < 3 || argc > 6 || (argc > 3 && (tick = atoi(argv[3])) < 1) || (argc > 4 && strcmp(argv[4], "dhcp") != 0))
        return fprintf(stderr, "usage: device_tap DEVICE FILE [MILLISECONDS [dhcp [ADDRESS]]]\n"), 2;
    if (argc > 4) {
        device.config.addr = argc > 5 ? ntohl(inet_addr(argv[5])) : 0;
        device.link.mask = 0;
    }
    if (fd < 0 || fstat(fd, &file) < 0 ||
        (flash = mmap(NULL, (size_t)file.st_size, PROT_READ, MAP_PRIVATE, fd, 0)) == MAP_FAILED)
        return perror(argv[2]), 1;
    device.flash = flash;
    device.flash_len = (uint32_t)file.st_size;
    name = argv[1];
    signal(SIGTERM, stop);
    signal(SIGINT, stop);
    if ((status = device_run(&device)) < 0)
        fprintf(stderr, "%s: %s\n", name, status == -1 ? "no TAP device" : bsdudp_strerror(status));
    return status < 0;
}
