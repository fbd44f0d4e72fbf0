/* In place of board/echo.h: lwIP's host 10.0.0.1 is on a TUN device, like our stack's of capi/examples/tun_echo.c. Its
   packets are copied to and from the device as in lwIP's port for Unix. */
#include "lwip/ip4_frag.h"

#include <fcntl.h>
#include <linux/if.h>
#include <linux/if_tun.h>
#include <poll.h>
#include <stdio.h>
#include <string.h>
#include <sys/ioctl.h>
#include <time.h>
#include <unistd.h>

enum { MTU = 1500, FRAME_HEAD = 0, SECOND = 1000 };

static int device;
static uint8_t room[65535];
static uint8_t *const packets[] = {room};
static uint32_t lengths[1];
static const uint32_t packet_count = 1;

static void send_away(const uint8_t *packet, uint32_t len)
{
    if (write(device, packet, len) != (ssize_t)len)
        perror("tun");
}

static void turn(void);

static int open_device(void)
{
    struct ifreq request;
    int it = open("/dev/net/tun", O_RDWR | O_NONBLOCK);
    memset(&request, 0, sizeof request);
    request.ifr_flags = IFF_TUN | IFF_NO_PI;
    strcpy(request.ifr_name, "lwip0");
    if (it < 0 || ioctl(it, TUNSETIFF, &request) < 0)
        return -1;
    return system("ip addr add 10.0.0.2/24 dev lwip0 && ip link set lwip0 mtu 1500 up") == 0 ? it : -1;
}

/* Echoes until the process is ended. */
static void measure_all(void)
{
    time_t last = time(NULL), now;
    ssize_t len;
    device = open_device();
    if (device < 0)
        perror("tun");
    while (device >= 0) {
        struct pollfd wait = {device, POLLIN, 0};
        poll(&wait, 1, SECOND);
        while ((len = read(device, room, sizeof room)) > 0) {
            lengths[0] = (uint32_t)len;
            turn();
        }
        if ((now = time(NULL)) != last) {
            ip_reass_tmr();
            last = now;
        }
    }
}
