/* lwIP's echo by its raw interface: a callback sends what arrived, as lwIP's own echo does. With COPIES the bytes are
   copied out of the packet and into another, as sockets copy them. A packet from the link is copied in, and one for it
   is copied out, as in ours. With ETHER packets are in frames, with lwIP's etharp. With SOCKETS it's an echo by lwIP's
   sockets, which need an operating system: it's linked without one to see its size, and can't run. With TUN it's a host
   on a device of Linux, for bench/tun. */
#include "lwip/etharp.h"
#include "lwip/init.h"
#include "lwip/netif.h"
#include "lwip/udp.h"
#ifdef SOCKETS
#include "lwip/sockets.h"
#include "lwip/tcpip.h"
#endif

#ifdef TUN
#include "../tun/echo.h"
#else
#include "echo.h"
#endif

static struct netif interface;
static uint8_t packet[FRAME_HEAD + MTU];

u32_t sys_now(void)
{
    return 0;
}

static err_t send_out(struct netif *netif, struct pbuf *bytes)
{
    (void)netif;
    pbuf_copy_partial(bytes, packet, bytes->tot_len, 0);
    send_away(packet, bytes->tot_len);
    return ERR_OK;
}

#ifdef ETHER
static err_t link_of(struct netif *netif)
{
    static const uint8_t mac[6] = {2, 0, 0, 0, 0, 1};
    netif->mtu = MTU;
    netif->hwaddr_len = sizeof mac;
    memcpy(netif->hwaddr, mac, sizeof mac);
    netif->output = etharp_output;
    netif->linkoutput = send_out;
    netif->flags = NETIF_FLAG_BROADCAST | NETIF_FLAG_LINK_UP | NETIF_FLAG_ETHARP;
    return ERR_OK;
}
#define input_of_link netif_input
#else
static err_t put_out(struct netif *netif, struct pbuf *bytes, const ip4_addr_t *to)
{
    (void)to;
    return send_out(netif, bytes);
}

static err_t link_of(struct netif *netif)
{
    netif->mtu = MTU;
    netif->output = put_out;
    netif->flags = NETIF_FLAG_BROADCAST | NETIF_FLAG_LINK_UP;
    return ERR_OK;
}
#define input_of_link ip_input
#endif

#ifdef SOCKETS
static int fd;

static void turn(void)
{
    static uint8_t buffer[LONGEST];
    struct sockaddr_in from;
    socklen_t size = sizeof from;
    struct pbuf *bytes = pbuf_alloc(PBUF_RAW, (u16_t)lengths[0], PBUF_POOL);
    ssize_t len;
    pbuf_take(bytes, packets[0], (u16_t)lengths[0]);
    interface.input(bytes, &interface);
    while ((len = lwip_recvfrom(fd, buffer, sizeof buffer, 0, (struct sockaddr *)&from, &size)) >= 0)
        lwip_sendto(fd, buffer, (size_t)len, 0, (struct sockaddr *)&from, size);
}

static void begin(void)
{
    struct sockaddr_in port = {sizeof port, AF_INET, PP_HTONS(7), {0}, {0}};
    fd = lwip_socket(AF_INET, SOCK_DGRAM, 0);
    lwip_bind(fd, (struct sockaddr *)&port, sizeof port);
}
#undef input_of_link
#define input_of_link tcpip_input
#else
static void echo(void *of, struct udp_pcb *pcb, struct pbuf *bytes, const ip_addr_t *from, u16_t port)
{
#ifdef COPIES
    static uint8_t buffer[LONGEST];
    u16_t len = pbuf_copy_partial(bytes, buffer, sizeof buffer, 0);
    struct pbuf *answer = pbuf_alloc(PBUF_TRANSPORT, len, PBUF_RAM);
    if (answer != NULL) {
        pbuf_take(answer, buffer, len);
        udp_sendto(pcb, answer, from, port);
        pbuf_free(answer);
    }
#else
    udp_sendto(pcb, bytes, from, port);
#endif
    (void)of;
    pbuf_free(bytes);
}

static void turn(void)
{
    uint32_t i;
    for (i = 0; i < packet_count; i++) {
        struct pbuf *bytes = pbuf_alloc(PBUF_RAW, (u16_t)lengths[i], PBUF_POOL);
        if (bytes == NULL)
            continue;
        pbuf_take(bytes, packets[i], (u16_t)lengths[i]);
        if (interface.input(bytes, &interface) != ERR_OK)
            pbuf_free(bytes);
    }
#if ENABLE_LOOPBACK
    netif_poll(&interface);
#endif
}

static void begin(void)
{
    struct udp_pcb *pcb = udp_new();
    udp_bind(pcb, IP_ADDR_ANY, 7);
    udp_recv(pcb, echo, NULL);
}
#endif

int main(void)
{
    ip4_addr_t addr, mask, gateway;
    IP4_ADDR(&addr, 10, 0, 0, 1);
    IP4_ADDR(&mask, 255, 255, 255, 0);
    IP4_ADDR(&gateway, 10, 0, 0, 2);
#ifdef SOCKETS
    tcpip_init(NULL, NULL);
#else
    lwip_init();
#endif
    netif_add(&interface, &addr, &mask, &gateway, NULL, link_of, input_of_link);
    netif_set_default(&interface);
    netif_set_up(&interface);
    begin();
    measure_all();
    return 0;
}
