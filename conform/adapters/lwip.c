/* lwIP: packets by netif->input, raw UDP pcbs, time by sys_now. */
#include "kit.h"
#include <lwip/init.h>
#include <lwip/ip4.h>
#include <lwip/netif.h>
#include <lwip/pbuf.h>
#include <lwip/timeouts.h>
#include <lwip/udp.h>

#define SOCKETS 8
#define LONGEST 70000

static u32_t now;
static struct netif nif;
static struct udp_pcb *pcbs[SOCKETS];
static uint8_t bytes[LONGEST];

u32_t sys_now(void) { return now; }

static err_t output(struct netif *n, struct pbuf *p, const ip4_addr_t *to)
{
    (void)n, (void)to;
    kit_out(bytes, pbuf_copy_partial(p, bytes, p->tot_len, 0));
    return ERR_OK;
}

static err_t up(struct netif *n)
{
    n->output = output;
    n->flags = NETIF_FLAG_BROADCAST | NETIF_FLAG_LINK_UP;
    return ERR_OK;
}

/* Copies the bytes that are in the chain: tot_len isn't trusted. */
static void receive(void *number, struct udp_pcb *pcb, struct pbuf *p, const ip_addr_t *from, u16_t port)
{
    int length = 0;
    (void)pcb;
    for (struct pbuf *q = p; q; q = q->next) {
        memcpy(bytes + length, q->payload, q->len);
        length += q->len;
        if (q->len == q->tot_len) break;
    }
    kit_got_at((int)(intptr_t)number, lwip_ntohl(ip_2_ip4(from)->addr), port, bytes, length);
    pbuf_free(p);
}

static void socket_on(int number, int port)
{
    struct udp_pcb *pcb = udp_new();
    ip_set_option(pcb, SOF_REUSEADDR | SOF_BROADCAST);
    if (udp_bind(pcb, IP4_ADDR_ANY, (u16_t)port)) abort();
    udp_recv(pcb, receive, (void *)(intptr_t)number);
    pcbs[number] = pcb;
}

static void boot(int mtu)
{
    ip4_addr_t address, mask;
    IP4_ADDR(&address, 10, 0, 0, 1);
    IP4_ADDR(&mask, 255, 255, 255, 0);
    lwip_init();
    netif_add(&nif, &address, &mask, NULL, NULL, up, ip4_input);
    nif.mtu = (u16_t)mtu;
    netif_set_default(&nif);
    netif_set_up(&nif);
    socket_on(0, 7);
}

static void rx(const uint8_t *packet, int length)
{
    struct pbuf *p = pbuf_alloc(PBUF_RAW, (u16_t)length, PBUF_RAM);
    if (!p) {
        printf("note no pbuf\n");
        return;
    }
    pbuf_take(p, packet, (u16_t)length);
    if (nif.input(p, &nif)) pbuf_free(p);
    now++;
    sys_check_timeouts();
}

static void wait_ms(int ms)
{
    for (; ms > 0; ms -= 250) {
        now += ms < 250 ? (u32_t)ms : 250;
        sys_check_timeouts();
    }
}

static void connect_to(int number, uint32_t addr, int port)
{
    ip_addr_t to = IPADDR4_INIT(lwip_htonl(addr));
    if (udp_connect(pcbs[number], &to, (u16_t)port)) abort();
}

static int send_to(int number, uint32_t addr, int port, const uint8_t *data, int length)
{
    ip_addr_t to = IPADDR4_INIT(lwip_htonl(addr));
    struct pbuf *p = pbuf_alloc(PBUF_TRANSPORT, (u16_t)length, PBUF_RAM);
    if (!p) return 0;
    pbuf_take(p, data, (u16_t)length);
    err_t status = udp_sendto(pcbs[number], p, &to, (u16_t)port);
    pbuf_free(p);
    return status == ERR_OK;
}

int main(void)
{
    struct kit_stack it = {0};
    it.name = "lwIP " LWIP_VERSION_STRING;
    it.has = "out ping send mtu sockets connect";
    it.boot = boot, it.rx = rx, it.wait = wait_ms, it.socket = socket_on, it.connect = connect_to, it.send = send_to;
    return kit_serve(&it);
}
