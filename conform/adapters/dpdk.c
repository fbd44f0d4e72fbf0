/*
 * DPDK's librte_ip_frag, by kit.h. It's a library of reassembly and no host: this adapter checks each IP header before,
 * and the datagram's UDP header after, as RFC 1122 says, and `has reassembly` says so. Time is in milliseconds.
 * Unfinished datagrams last 60 s, and the table has room for 4,096 of them.
 */
#include "kit.h"
#include <rte_config.h>
#include <rte_eal.h>
#include <rte_ip.h>
#include <rte_ip_frag.h>
#include <rte_mbuf.h>
#include <rte_version.h>

enum { OURS = 0x0a000001, NET = 0x0a0000ff, EVERY = 0xffffffffu, SEGMENT = 2048 };

static struct rte_mempool *pool;
static struct rte_ip_frag_tbl *table;
static struct rte_ip_frag_death_row dead;
static uint64_t now = 1000000;
static uint8_t whole[70000];

static unsigned two(const uint8_t *p) { return (unsigned)p[0] << 8 | p[1]; }
static uint32_t four(const uint8_t *p) { return (uint32_t)two(p) << 16 | two(p + 2); }

static uint32_t sum(const uint8_t *p, int n, uint32_t s)
{
    for (int i = 0; i < n; i++) s += i % 2 ? p[i] : (uint32_t)p[i] << 8;
    while (s >> 16) s = (s & 65535) + (s >> 16);
    return s;
}

static void boot(int mtu)
{
    (void)mtu;
    table = rte_ip_frag_table_create(256, 16, 4096, 60000, SOCKET_ID_ANY);
    if (!table) abort();
}

static void end(void)
{
    rte_ip_frag_free_death_row(&dead, 0);
    rte_ip_frag_table_destroy(table);
}

static void deliver(const uint8_t *ip, int header, int total)
{
    const uint8_t *udp = ip + header;
    int length = total - header;
    if (ip[9] != 17 || length < 8 || two(udp + 2) != 7) return;
    int said = (int)two(udp + 4);
    if (said < 8 || said > length) return;
    if (two(udp + 6) && sum(udp, said, sum(ip + 12, 8, 17 + (uint32_t)said)) != 65535) return;
    kit_got(four(ip + 12), (int)two(udp), udp + 8, said - 8);
}

static void rx(const uint8_t *packet, int length)
{
    if (length < 20 || packet[0] >> 4 != 4) return;
    int header = (packet[0] & 15) * 4, total = (int)two(packet + 2);
    uint32_t to = four(packet + 16), from = four(packet + 12);
    if (header < 20 || header > length || total < header || total > length) return;
    if (sum(packet, header, 0) != 65535 || (to != OURS && to != NET && to != EVERY)) return;
    if (from == NET || from >> 28 >= 14 || from >> 24 == 127 || from >> 24 == 0) return;
    struct rte_mbuf *m = NULL;
    for (int at = 0; at < total; at += SEGMENT) {
        struct rte_mbuf *part = rte_pktmbuf_alloc(pool);
        int n = total - at < SEGMENT ? total - at : SEGMENT;
        if (!part) { printf("note no mbuf\n"); if (m) rte_pktmbuf_free(m); return; }
        memcpy(rte_pktmbuf_append(part, (uint16_t)n), packet + at, (size_t)n);
        if (!m) m = part;
        else if (rte_pktmbuf_chain(m, part)) abort();
    }
    m->l2_len = 0, m->l3_len = (uint64_t)header & 511;
    struct rte_ipv4_hdr *ip = rte_pktmbuf_mtod(m, struct rte_ipv4_hdr *);
    if (rte_ipv4_frag_pkt_is_fragmented(ip)) {
        m = rte_ipv4_frag_reassemble_packet(table, &dead, m, now, ip);
        rte_ip_frag_free_death_row(&dead, 0);
    }
    if (m) {
        int at = 0;
        for (struct rte_mbuf *q = m; q; q = q->next) {
            memcpy(whole + at, rte_pktmbuf_mtod(q, uint8_t *), q->data_len);
            at += q->data_len;
        }
        rte_pktmbuf_free(m);
        /* what DPDK wrote into the header is its caller's total length */
        if ((int)two(whole + 2) <= at) deliver(whole, (whole[0] & 15) * 4, (int)two(whole + 2));
    }
}

static void wait_ms(int ms) { now += (uint64_t)ms; }

int main(void)
{
    char *eal[] = {"dpdk", "--no-huge", "--no-pci", "--no-shconf", "-l0", "-m64", "--log-level=1", "--no-telemetry",
                   NULL};
    struct kit_stack it = {0};
    if (rte_eal_init(8, eal) < 0) return 1;
    pool = rte_pktmbuf_pool_create("pool", 8191, 0, 0, SEGMENT + RTE_PKTMBUF_HEADROOM, SOCKET_ID_ANY);
    if (!pool) return 1;
    char name[32];
    snprintf(name, sizeof name, "DPDK %d.%d", RTE_VER_YEAR, RTE_VER_MONTH);
    it.name = name;
    it.has = "reassembly";
    it.boot = boot, it.rx = rx, it.wait = wait_ms, it.end = end;
    return kit_serve(&it);
}
