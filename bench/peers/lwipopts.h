/*
 * lwIP as it's built here: IPv4, UDP and fragments, what our stack has. `LWIP_NOASSERT`, `PEERS_SUM`, `PEERS_POOLS` and
 * `BOARD` come from the compiler's command line, and so do `ETHER` and `SOCKETS` (board/lwip.c).
 */
#ifndef BSDUDP_LWIPOPTS_H
#define BSDUDP_LWIPOPTS_H

#define LWIP_TCP 0

/* No operating system, so no locks. Its own sockets, for the row that isn't run, need a thread for the stack. */
#ifdef SOCKETS
#define LWIP_SOCKET_SELECT 0
#define LWIP_SOCKET_POLL 0
#define LWIP_COMPAT_SOCKETS 0
#define LWIP_TIMEVAL_PRIVATE 0
#define LWIP_ERRNO_STDINCLUDE 1
#include <sys/time.h>
#else
#define NO_SYS 1
#define SYS_LIGHTWEIGHT_PROT 0
#define LWIP_NETCONN 0
#define LWIP_SOCKET 0
#endif

/* Options that our bare stack lacks and our host on an Ethernet has: the same numbers of neighbours and of waiting
   packets. */
#ifdef ETHER
#define ARP_TABLE_SIZE 32
#define ARP_QUEUEING 1
#define ARP_QUEUE_LEN 8
#define MEMP_NUM_ARP_QUEUE 8
#else
#define LWIP_ICMP 0
#define LWIP_ARP 0
#endif

/* On a board: also loopback, shared ports and counters, like ours, and memory for 16 packets. Otherwise the capacity of
   our stacks of 512 mbufs, no timers, because a turn never waits, and no counters, as in Debian's package. A buffer of
   the pool holds a packet. */
#ifdef BOARD
#define LWIP_NOASSERT 1
#define LWIP_NETIF_LOOPBACK 1
#define SO_REUSE 1
#define SO_REUSE_RXTOALL 1
#define IP_SOF_BROADCAST 1
#define IP_SOF_BROADCAST_RECV 1
#define MEM_ALIGNMENT 4
#define MEM_SIZE 16384
#define PBUF_POOL_BUFSIZE 1520
#define MEMP_NUM_FRAG_PBUF 16
#define MEMP_NUM_REASSDATA 4
#else
#define LWIP_TIMERS 0
#define LWIP_STATS 0
#define MEM_ALIGNMENT 8
#define MEM_SIZE 131072
#define PBUF_POOL_SIZE 64
#define PBUF_POOL_BUFSIZE 2048
#define MEMP_NUM_PBUF 64
#define MEMP_NUM_FRAG_PBUF 64
#define MEMP_NUM_UDP_PCB 64
#define MEMP_NUM_REASSDATA 16
#define IP_REASS_MAX_PBUFS 48
#endif

/* Pools instead of its heap: lwippools.h has them. */
#ifdef PEERS_POOLS
#define MEM_USE_POOLS 1
#define MEMP_USE_CUSTOM_POOLS 1
#endif

/* The port's sum, which lwIP calls by this name. */
#ifdef PEERS_SUM
unsigned short peers_sum(const void *bytes, int len);
#define LWIP_CHKSUM peers_sum
#endif

#endif
