/*
 * bsdudp: the datagram half of a 4.4BSD network stack (TCP/IP Illustrated, volume 2, "the book"), proved.
 *
 * A stack is a value that you hold. The library has no threads, files, clocks or errno: every call takes the stack as
 * its first argument and returns at once. Stacks do not share any state.
 *
 * Results. Every call that returns int returns 0 or a count if it succeeded, and the negative of one of the BSDUDP_E
 * numbers below if it failed: `-BSDUDP_EBADF` is -9. A call that failed has changed nothing, unless its description
 * says what it leaves. If several errors apply, a call returns the first one in the order of its description.
 *
 * Every call with a handle, except those that boot, returns -BSDUDP_ENXIO if the handle holds no stack.
 *
 * Numbers. Addresses and ports are in the byte order of the CPU: 10.0.0.1 is 0x0a000001, or BSDUDP_IP(10, 0, 0, 1). A
 * packet begins with its IPv4 header. Descriptors are 3 to 66, and of type uint32_t: cast what bsdudp_socket returns, an
 * int because it may be an error. A tick is half a second.
 *
 * Rules that the caller must follow, for every call:
 *   - Set all bytes of a `struct bsdudp` to 0 before its first boot (BSDUDP_NONE). After that, do not copy it, and do
 *     not access its members: a copy of the handle leads to memory that bsdudp_end has given back.
 *   - Make one call at a time on a stack. Other threads may make calls on other stacks meanwhile, including boot and
 *     end. Make no call from a signal handler or an interrupt handler.
 *   - Pass no null pointer, except where a description allows it. Each pointer must point to the number of bytes that
 *     the description gives, and no two arguments of a call may overlap.
 * Everything else is checked and returns an error: a handle without a stack, a wrong descriptor, a wrong length. A
 * damaged packet is dropped and counted. A library built with BSDUDP_CHECK=1 (capi/build) also ends the program, with a
 * sentence, at a second call on a stack, at a handle that was copied or changed, and at one without a stack.
 *
 * While a boot runs, it uses a thread-local variable, the only state that the library shares between calls. On bare
 * metal without thread-local storage, compile capi/src/memory.c with -DBSDUDP_THREADS=0 and link it before the library.
 * The variable is then a plain one, and only one boot may run at a time in the whole program.
 */
#ifndef BSDUDP_H
#define BSDUDP_H

#include <stddef.h>
#include <stdint.h>

#ifdef __cplusplus
extern "C" {
#endif

/* The version of this header. */
#define BSDUDP_VERSION "0.5.0"

/* A cast, as C or C++ writes it. */
#ifdef __cplusplus
#define BSDUDP_CAST(type, value) static_cast<type>(value)
#else
#define BSDUDP_CAST(type, value) ((type)(value))
#endif

/* A handle: it holds a stack or none. Its members are private. Those of the core have the same offsets on every CPU. */
struct bsdudp_core {
    uint32_t live, none;
    uint64_t at;
};
struct bsdudp {
    struct bsdudp_core core;
    void *block;
    void (*give_back)(void *);
    struct bsdudp_core link;
    int (*tick_link)(struct bsdudp *);
    int (*end_link)(struct bsdudp *);
};
#define BSDUDP_NONE {{0, 0, 0}, NULL, NULL, {0, 0, 0}, NULL, NULL}

/* The parameters of boot. */
struct bsdudp_config {
    uint32_t addr;     /* the address of the interface: 1.0.0.0 to 223.255.255.255, not in 127/8 */
    uint32_t bcast;    /* the broadcast address of its network: in the same range, and not `addr`; a host on an Ethernet
                          may have 0 here, for the last address of the network of its mask */
    uint32_t mbufs;    /* the number of mbufs in the pool, of 128 bytes each: 1 to 65535 */
    uint32_t clusters; /* the number of clusters in the pool, of 2,048 bytes each: 0 to 4096 */
    uint16_t mtu;      /* the longest packet that the stack sends to the link: 68 to 4352 bytes */
    uint16_t first_id; /* the IP identification of the first datagram that it sends, and of a host's first ICMP reply:
                          the next ones count up from it. Draw it at random, so that others cannot guess them */
};

/* The address a.b.c.d: a constant if its bytes are. */
#define BSDUDP_IP(a, b, c, d) \
    (BSDUDP_CAST(uint32_t, a) << 24 | BSDUDP_CAST(uint32_t, b) << 16 | BSDUDP_CAST(uint32_t, c) << 8 | \
     BSDUDP_CAST(uint32_t, d))

/* An address with a port. */
struct bsdudp_addr {
    uint32_t ip;
    uint16_t port;
};

/* The usage of the pool. */
struct bsdudp_mbstat {
    uint32_t free_mbufs, mbufs;       /* free, and in total */
    uint32_t free_clusters, clusters; /* free, and in total */
    uint32_t refs;                    /* the sum of the reference counts of all clusters */
    uint32_t most;                    /* the greatest reference count of a cluster */
};

/* The addresses and ports of a socket, 0 if unset, and its options, 1 or 0. */
struct bsdudp_name {
    uint32_t local_ip, peer_ip;
    uint16_t local_port, peer_port;
    uint8_t broadcast, reuse_port;
};

/* The oldest datagram in a receive queue. */
struct bsdudp_next {
    uint32_t ip;      /* its sender's address */
    uint16_t port;    /* its sender's port */
    uint32_t len;     /* its length in bytes: recvfrom truncates it if the buffer is shorter */
    uint32_t waiting; /* the number of datagrams in the queue, including this one */
};

/* A datagram that has some of its fragments, but not all. */
struct bsdudp_unfinished {
    uint32_t source, destination; /* its addresses */
    uint32_t bytes;               /* the number of bytes that have arrived */
    uint32_t ranges;              /* the number of ranges that these bytes form */
    uint16_t id;                  /* its identification */
    uint8_t protocol;             /* its protocol number: 17 is UDP */
    uint8_t ticks;                /* the number of ticks after which it is dropped, 1 to 60 */
};

/* The bytes of one fragment that an unfinished datagram still uses. */
struct bsdudp_range {
    uint32_t offset; /* the offset of the first byte, counted from the end of the IP header */
    uint32_t len;    /* the number of bytes, 1 or more */
    uint8_t more;    /* 1 if more fragments follow the one that brought these bytes, otherwise 0 */
};

/* What happened to a packet: bsdudp_rx_fate, bsdudp_ether_receive_fate. */
struct bsdudp_fate {
    uint64_t got;      /* the sockets that got its datagram: bit k is descriptor BSDUDP_FIRST_FD + k */
    uint64_t lost;     /* the sockets that lost it: the receive queue was full, or the pool had too few buffers */
    uint32_t cause;    /* if it was dropped, the counter that counts it, as for bsdudp_counter; otherwise 0 */
    uint8_t kind;      /* what it was: BSDUDP_DELIVERED, BSDUDP_KEPT, BSDUDP_DROPPED or BSDUDP_NO_PACKET */
    uint8_t completed; /* 1 if the packet is a fragment that completed its datagram, otherwise 0 */
};

/* The link of a host on an Ethernet: bsdudp_ether_boot_in. */
struct bsdudp_link {
    uint8_t mac[6];   /* its hardware address, as in a frame; not 0, nor a group address, so mac[0] is even */
    uint32_t mask;    /* the network mask, ones and then at least two zeros: 0xffffff00 for 10.0.0.1/24 */
    uint32_t gateway; /* the neighbour to which packets for other networks are sent; 0: such packets are dropped */
    uint8_t probe;    /* 0: the host uses its address at once; otherwise it probes for it first (RFC 5227) */
};

/* The counters of a host's link since boot. Each stops at 2 to the 64th, less 1. */
struct bsdudp_tallies {
    uint64_t ignored;         /* frames for other hosts, or of a type other than IPv4 and ARP */
    uint64_t martians;        /* packets with an address that cannot occur on a link (RFC 1122, 3.2.1.3) */
    uint64_t bad_arp;         /* ARP packets not for Ethernet and IPv4, or from its own, a group's or no address */
    uint64_t conflicts;       /* ARP packets of another host that claims this host's address */
    uint64_t replies_dropped; /* ARP requests for the host without space for the reply: at most 8 replies are queued */
    uint64_t no_route;        /* packets to another network, without a gateway */
    uint64_t held_dropped;    /* packets dropped for a newer one while waiting for a hardware address: at most 8 wait */
    uint64_t unresolved;      /* packets dropped because no reply gave the hardware address */
    uint64_t too_long;        /* packets that are too long for a frame: always 0 for a host of this library */
    uint64_t echoes;          /* echo requests that got a reply */
    uint64_t unreachable;     /* datagrams for which the host sent "port unreachable" or "protocol unreachable" */
    uint64_t limited;         /* datagrams for which it sent no error: it sends at most 10 between two ticks */
    uint64_t icmp_dropped;    /* ICMP replies dropped for another one, or because no reply gave the hardware address */
};

/* A neighbour: its hardware address is known, or the host has requested it. */
struct bsdudp_neighbour {
    uint32_t ip;    /* its address */
    uint8_t mac[6]; /* its hardware address; all bytes are 0 if it is not known */
    uint8_t known;  /* 1 if the hardware address is known, otherwise 0 */
    uint8_t tries;  /* the number of requests sent for it; 0 if the neighbour sent its address unasked */
    uint16_t ticks; /* if it is known: the ticks until it expires; otherwise: the ticks until the next request */
};

/* Errors, with 4.4BSD's numbers. A call that fails returns the negative of one of them. */
enum {
    BSDUDP_ENXIO = 6,           /* the handle holds no stack; boot: it holds one already */
    BSDUDP_EBADF = 9,           /* the descriptor is not open */
    BSDUDP_ENOMEM = 12,         /* boot: too little memory for the stack */
    BSDUDP_EACCES = 13,         /* the destination is the broadcast address, and the socket is not allowed to send to
                                   it; SO_BROADCAST allows it */
    BSDUDP_EINVAL = 22,         /* boot: a wrong setting, which bsdudp_boot_strerror names; bind: the socket is
                                   already bound; bind_random: no port is in the range; a query: no such number */
    BSDUDP_EMFILE = 24,         /* all descriptors are open; at most 64 */
    BSDUDP_EDOM = 33,           /* boot: numbers of mbufs or clusters that a pool cannot have */
    BSDUDP_EWOULDBLOCK = 35,    /* no datagram is queued, and the call does not wait */
    BSDUDP_EDESTADDRREQ = 39,   /* the socket is not connected, and the call has no destination */
    BSDUDP_EMSGSIZE = 40,       /* send: the datagram is too long; rx: the packet is too long; tx: the buffer is too
                                   short */
    BSDUDP_ENOPROTOOPT = 42,    /* no such option */
    BSDUDP_EOPNOTSUPP = 45,     /* a call for packets on a host, or a call for frames on a bare stack */
    BSDUDP_EADDRINUSE = 48,     /* another socket has the address and port; another host uses the address */
    BSDUDP_EADDRNOTAVAIL = 49,  /* the address is not an address of this host, or the port to connect to is 0 */
    BSDUDP_ENOBUFS = 55,        /* the pool has too few buffers; nothing was sent */
    BSDUDP_EISCONN = 56,        /* the socket is connected, and the call has a destination */
    BSDUDP_ECONNREFUSED = 61,   /* the peer refused a datagram: it has no socket with the port; only
                                   bsdudp_ether_last_error reports it */
    BSDUDP_EHOSTUNREACH = 65,   /* no interface leads to the destination */
    BSDUDP_EQUEUE = 155         /* the interface's output queue is full; the packets that fit are queued (ENOBUFS in
                                   4.4BSD) */
};

/* The kinds of fate of a packet: `kind` of a `struct bsdudp_fate`. */
enum {
    BSDUDP_NO_PACKET = 0, /* a frame without a packet for the stack: only of bsdudp_ether_receive_fate */
    BSDUDP_DELIVERED = 1, /* its datagram was for the sockets in `got` and `lost`, at least one */
    BSDUDP_KEPT = 2,      /* it is a fragment, which waits for the others of its datagram */
    BSDUDP_DROPPED = 3    /* it was dropped, or the datagram that it completed: bsdudp_counter_cause of `cause` */
};

/* The options of bsdudp_setsockopt and bsdudp_getsockopt. */
enum {
    BSDUDP_SO_BROADCAST = 0x20,  /* the socket may send to the broadcast address */
    BSDUDP_SO_REUSEPORT = 0x200, /* other sockets with this option may bind to the same address and port */
    BSDUDP_SO_RCVBUF = 0x1002    /* the size of the receive queue in bytes, 1 to 65,535: bsdudp_setsockopt */
};

/* Limits. */
enum {
    BSDUDP_FIRST_FD = 3,    /* the lowest descriptor; bit k of bsdudp_readable is descriptor BSDUDP_FIRST_FD + k */
    BSDUDP_SOCKETS = 64,    /* the most sockets that can be open */
    BSDUDP_QUEUE = 50,      /* the most packets in the output queue */
    BSDUDP_TX_ROOM = 4352,  /* the buffer size in bytes that is enough for bsdudp_tx at every MTU */
    BSDUDP_DATAGRAM = 9216, /* the longest datagram that can be sent, in bytes of data */
    BSDUDP_PACKET = 65535,  /* the longest packet that bsdudp_rx accepts, in bytes */
    BSDUDP_ALIGNMENT = 16,  /* the alignment of a stack's memory, in bytes */
    BSDUDP_TICK = 500,      /* the time between two ticks, in milliseconds */
    BSDUDP_ETHER_ROOM = 1514,   /* the buffer size in bytes for bsdudp_ether_transmit: a frame of 14 and 1,500 bytes */
    BSDUDP_ETHER_FRAME = 65549, /* the longest frame that bsdudp_ether_receive accepts, in bytes */
    BSDUDP_NEIGHBOURS = 32, /* the most neighbours in a host's table */
    BSDUDP_COUNTERS = 26    /* the number of counters: bsdudp_counter */
};

/* ---- boot and end: this library's own */

/* The size in bytes of the memory for a stack with these numbers of mbufs and clusters. It is a constant if they are,
   so `static unsigned char memory[BSDUDP_MEMORY(64, 16)]` works. It is a multiple of BSDUDP_ALIGNMENT, so in an aligned
   array of such memories each is aligned. */
#define BSDUDP_MEMORY(mbufs, clusters) \
    ((4432 + 150 * BSDUDP_CAST(size_t, mbufs) + 2050 * BSDUDP_CAST(size_t, clusters) + 15) / 16 * 16)

/* Computes the size of the memory for a stack with this configuration.

   Returns the value of BSDUDP_MEMORY for `config->mbufs` and `config->clusters`, in bytes. */
size_t bsdudp_memory(const struct bsdudp_config *config);

/* Boots a stack in memory that the caller provides: `len` bytes from `memory` on, aligned to BSDUDP_ALIGNMENT. The
   stack uses the memory until bsdudp_end. No later call allocates memory.

   Returns 0.

   Errors:
   -BSDUDP_ENXIO if the handle already holds a stack, which continues to run.
   -BSDUDP_EDOM if `config->mbufs` is not 1 to 65535, or `config->clusters` is above 4096.
   -BSDUDP_EINVAL if the MTU or an address is out of its range, both addresses are equal, or `memory` is not aligned.
   -BSDUDP_ENOMEM if `len` is too small. BSDUDP_MEMORY bytes are always enough; up to 128 bytes less may be, too. */
int bsdudp_boot_in(struct bsdudp *stack, const struct bsdudp_config *config, void *memory, size_t len);

/* Boots a stack as bsdudp_boot_in does, in memory from malloc, which bsdudp_end frees. This call is in an object file
   of its own: a program that does not use it needs no malloc.

   Returns 0.

   Errors: those of bsdudp_boot_in, and
   -BSDUDP_ENOMEM if malloc fails. */
int bsdudp_boot(struct bsdudp *stack, const struct bsdudp_config *config);

/* Returns why boot failed, with the name of the setting that is wrong, for example "mtu must be 68 to 4352". `result` is
   what boot returned. `config` and `link` are those that were passed to it; `link` is NULL for a bare stack. If several
   settings are wrong, it names the first one that boot checks. For 0 it is "ok". */
const char *bsdudp_boot_strerror(int result, const struct bsdudp_config *config, const struct bsdudp_link *link);

/* Ends a stack, with its sockets, queues and unfinished datagrams. The handle can then be used for another boot.

   Returns 0.

   Errors:
   -BSDUDP_ENXIO if the handle holds no stack. */
int bsdudp_end(struct bsdudp *stack);

/* ---- packets and time */

/* Passes a packet from the link to the stack, which delivers it, keeps it until the other fragments of its datagram
   arrive, or drops and counts it. A drop is not an error. Bytes after the packet's total length are ignored. The stack
   does not keep `packet`. Source: the book, chapters 8 (ipintr), 10 (ip_reass) and 23 (udp_input).

   Returns 0.

   Errors:
   -BSDUDP_ENXIO if the handle holds no stack.
   -BSDUDP_EOPNOTSUPP if it holds a host, which receives frames: bsdudp_ether_receive.
   -BSDUDP_EMSGSIZE if `len` is above BSDUDP_PACKET. */
int bsdudp_rx(struct bsdudp *stack, const void *packet, size_t len);

/* Passes a packet to the stack as bsdudp_rx does, and stores in `*fate` what happened to it: which sockets got its
   datagram and which lost it, that the stack keeps it as a fragment, or why it was dropped. For a fragment that
   completes its datagram, `*fate` says what happened to the datagram. Unfinished datagrams that were dropped to free
   buffers are not reported: ip.reclaimed counts them.

   Returns 0.

   Errors, with `*fate` unchanged: those of bsdudp_rx. */
int bsdudp_rx_fate(struct bsdudp *stack, const void *packet, size_t len, struct bsdudp_fate *fate);

/* Removes the oldest packet from the output queue and copies it to the front of `buffer`. The rest of the buffer is
   unchanged. Source: the book, chapter 3 (IF_DEQUEUE).

   Returns the length of the packet in bytes, at most the MTU; 0 if the queue is empty.

   Errors:
   -BSDUDP_ENXIO if the handle holds no stack.
   -BSDUDP_EOPNOTSUPP if it holds a host, which sends frames: bsdudp_ether_transmit.
   -BSDUDP_EMSGSIZE if `len` is below the MTU. */
int bsdudp_tx(struct bsdudp *stack, void *buffer, size_t len);

/* Sets time to live and type of service of a packet that leaves, and the checksum of its header. `packet` points to the
   `len` bytes that bsdudp_tx stored, or to those after the 14 bytes of header of a frame. The other bytes are unchanged.
   The stack itself sends each packet with 64 and 0. Source: RFC 791, section 3.1.

   Returns 0.

   Errors, with `packet` unchanged:
   -BSDUDP_EINVAL if `packet` does not begin with an IPv4 header that a stack accepts, because it is for example ARP, has
   options or a wrong checksum, or if `len` is below the header's total length or above BSDUDP_PACKET. */
int bsdudp_mark(void *packet, size_t len, uint8_t ttl, uint8_t tos);

/* Advances the stack's clock by half a second. An unfinished datagram is dropped after 60 ticks. If its first fragment
   arrived, a host then sends "time exceeded" to its source. The neighbours of a host grow older. Source: the book,
   chapter 10 (ip_slowtimo); RFC 791, section 3.2; RFC 1122, section 3.3.2.

   Returns 0.

   Errors:
   -BSDUDP_ENXIO if the handle holds no stack. */
int bsdudp_tick(struct bsdudp *stack);

/* Makes the ticks that are due at `now`, a time of a clock that never goes back, in milliseconds. `*due` is the time of
   the next tick, which this call updates: set it to 0 before the first call. After the first call, a tick is due every
   BSDUDP_TICK milliseconds. If the clock was set back, the next tick is due BSDUDP_TICK milliseconds later. After a long
   sleep the call makes only the ticks that can change something: at most 60 for a bare stack, and 2,400 for a host. If
   `now` is above UINT64_MAX - BSDUDP_TICK, for example because reading the clock failed with -1, no tick is due and
   `*due` is unchanged.

   Returns the number of milliseconds until the next tick is due, 1 to BSDUDP_TICK: the timeout for poll.

   Errors:
   -BSDUDP_ENXIO if the handle holds no stack and a tick is due. */
int bsdudp_tick_until(struct bsdudp *stack, uint64_t now, uint64_t *due);

/* ---- a host on an Ethernet: a stack with frames (RFC 894), ARP (RFC 826), replies to ping, "port unreachable" and
   "protocol unreachable" (RFC 792). All other calls work as for a bare stack, except bsdudp_rx and bsdudp_tx. */

/* The size in bytes of the memory for a host with these numbers of mbufs and clusters. It is a constant if they are,
   and a multiple of BSDUDP_ALIGNMENT. */
#define BSDUDP_ETHER_MEMORY(mbufs, clusters) (BSDUDP_MEMORY(mbufs, clusters) + 14784)

/* Boots a host in memory that the caller provides, as bsdudp_boot_in boots a stack. BSDUDP_ETHER_MEMORY bytes are
   always enough; up to 160 bytes less may be, too. Its table of neighbours is empty. The host announces its address
   (RFC 5227). With `link->probe` it first probes whether another host has the address, and sends nothing else for 5.0
   to 5.5 seconds.

   Returns 0.

   Errors:
   -BSDUDP_ENXIO if the handle already holds a stack, which continues to run.
   -BSDUDP_EINVAL with the text that bsdudp_boot_strerror returns for the first of these settings that is wrong:
     mtu must be 68 to 1500 on an Ethernet
     mac must not be a group address: its first byte is odd
     mac must not be 0
     addr must be 1.0.0.0 to 223.255.255.255, and not in 127/8
     mask must be ones followed by zeros, at most 30 ones
     mask must have more ones: its network's last address is in 127/8 or above 223/8
     addr must not be the first or last address of mask's network
     bcast must be the last address of mask's network
     gateway must be a neighbour: another host's address on mask's network
   Then -BSDUDP_EDOM, -BSDUDP_EINVAL and -BSDUDP_ENOMEM, as bsdudp_boot_in returns them. A `bcast` of 0 stands for the
   last address of the network. A mask of 31 ones (RFC 3021) is refused because its network has no broadcast address. */
int bsdudp_ether_boot_in(struct bsdudp *stack, const struct bsdudp_config *config, const struct bsdudp_link *link,
                         void *memory, size_t len);

/* Boots a host as bsdudp_ether_boot_in does, in memory from malloc, which bsdudp_end frees.

   Returns 0.

   Errors: those of bsdudp_ether_boot_in, and
   -BSDUDP_ENOMEM if malloc fails. */
int bsdudp_ether_boot(struct bsdudp *stack, const struct bsdudp_config *config, const struct bsdudp_link *link);

/* Boots the host again with other settings, for example with another address, and opens its sockets again. Each socket
   keeps its descriptor, its local port, its peer and its options. A local address that was the host's own or its
   broadcast address becomes the new one. Everything else is lost, as with bsdudp_end: datagrams, packets and frames
   that wait, unfinished datagrams, counters, neighbours and reports of ICMP. Sockets that share a port by
   BSDUDP_SO_REUSEPORT count as opened in the order of their descriptors.

   `memory` and `len` are those of bsdudp_ether_boot_in. The memory may be that in which the host runs. NULL stands for
   the memory from malloc of a host that bsdudp_ether_boot booted, if it is enough. The call takes about 900 bytes of
   call stack more than boot.

   Returns 0.

   Errors, with the host unchanged, which continues to run:
   -BSDUDP_ENXIO if the handle holds no stack.
   -BSDUDP_EOPNOTSUPP if it holds a bare stack.
   -BSDUDP_EDOM and -BSDUDP_EINVAL as bsdudp_ether_boot_in returns them.
   -BSDUDP_ENOMEM if `len` is below BSDUDP_ETHER_MEMORY by more than 15 bytes. */
int bsdudp_ether_rehost(struct bsdudp *host, const struct bsdudp_config *config, const struct bsdudp_link *link,
                        void *memory, size_t len);

/* Passes a frame from the network card to the host: 14 bytes of header and the data, without the frame check sequence.
   The host handles an IPv4 packet as bsdudp_rx does, and an ARP packet by RFC 826. It drops and counts any other frame,
   which is not an error. Replies are queued for bsdudp_ether_transmit. The host does not keep `frame`. Source: the
   book, chapters 4 (ether_input), 11 (icmp_input) and 21 (arpintr).

   Returns 0.

   Errors:
   -BSDUDP_ENXIO if the handle holds no stack.
   -BSDUDP_EOPNOTSUPP if it holds a bare stack, which receives packets: bsdudp_rx.
   -BSDUDP_EMSGSIZE if `len` is above BSDUDP_ETHER_FRAME. */
int bsdudp_ether_receive(struct bsdudp *stack, const void *frame, size_t len);

/* Passes a frame to the host as bsdudp_ether_receive does, and stores in `*fate` what happened to its packet, as
   bsdudp_rx_fate does. If no packet reached the stack, because the frame was ARP or was dropped by the link, its kind is
   BSDUDP_NO_PACKET. A reply of the host to the packet is not reported.

   Returns 0.

   Errors, with `*fate` unchanged: those of bsdudp_ether_receive. */
int bsdudp_ether_receive_fate(struct bsdudp *stack, const void *frame, size_t len, struct bsdudp_fate *fate);

/* Copies the next frame for the network card to the front of `buffer`. The contents of the rest of the buffer are
   unspecified, and so are those of the whole buffer if there is no frame. The card or its driver pads a short frame to
   60 bytes and adds the frame check sequence. The order is: ARP replies and requests, packets that waited for a
   hardware address, ICMP replies, packets of the stack's output queue. Source: the book, chapters 4 (ether_output) and
   21.

   Returns the length of the frame in bytes, at most 1514; 0 if there is no frame to send.

   Errors:
   -BSDUDP_ENXIO if the handle holds no stack.
   -BSDUDP_EOPNOTSUPP if it holds a bare stack, which sends packets: bsdudp_tx.
   -BSDUDP_EMSGSIZE if `len` is below BSDUDP_ETHER_ROOM. */
int bsdudp_ether_transmit(struct bsdudp *stack, void *buffer, size_t len);

/* Reads, and then clears, what other hosts reported by ICMP about the datagrams that a connected socket sent to its
   peer. A report is a result and not a failure of this call, so it is a positive number. The host keeps the last eight
   reports, by local port and peer: a socket also gets a report about a datagram of an earlier socket with the same port
   and peer. Source: the book, chapters 11 (icmp_input) and 23 (udp_ctlinput).

   Returns 0 if nothing was reported; BSDUDP_ECONNREFUSED (61, positive) if no socket has that port there;
   BSDUDP_EHOSTUNREACH (65, positive) if no route leads there. bsdudp_strerror takes the negative of the report.

   Errors (negative, as for every call):
   -BSDUDP_ENXIO if the handle holds no stack.
   -BSDUDP_EOPNOTSUPP if it holds a bare stack.
   -BSDUDP_EBADF if no open socket has the descriptor `fd`. */
int bsdudp_ether_last_error(struct bsdudp *stack, uint32_t fd);

/* Reads whether the host may use its address (RFC 5227).

   Returns 1 if the address is in use, and 0 while the host probes for it.

   Errors:
   -BSDUDP_ENXIO if the handle holds no stack.
   -BSDUDP_EOPNOTSUPP if it holds a bare stack.
   -BSDUDP_EADDRINUSE if another host has the address. This host then sends nothing: end it, and boot it with another
   address. */
int bsdudp_ether_address(struct bsdudp *stack);

/* Reads the counters of a host's link into `*tallies`.

   Returns 0.

   Errors, with `*tallies` unchanged:
   -BSDUDP_ENXIO if the handle holds no stack.
   -BSDUDP_EOPNOTSUPP if it holds a bare stack. */
int bsdudp_ether_tallies(struct bsdudp *stack, struct bsdudp_tallies *tallies);

/* Reads into `*value` how many datagrams were dropped because of their protocol: ip.noproto without the echo requests
   that got a reply. The stack counts each ICMP message in ip.noproto before the host looks at it. Those that reported
   an error, and so may have reached bsdudp_ether_last_error, are included here, too.

   Returns 0.

   Errors, with `*value` unchanged:
   -BSDUDP_ENXIO if the handle holds no stack.
   -BSDUDP_EOPNOTSUPP if it holds a bare stack. */
int bsdudp_ether_noproto(struct bsdudp *stack, uint64_t *value);

/* Reads into `*value` for how many unfinished datagrams the host sent "time exceeded" (RFC 1122, 3.3.2): their first
   fragment had arrived, but another one was still missing after 60 ticks. struct bsdudp_tallies keeps its members, so
   this counter has its own call.

   Returns 0.

   Errors, with `*value` unchanged:
   -BSDUDP_ENXIO if the handle holds no stack.
   -BSDUDP_EOPNOTSUPP if it holds a bare stack. */
int bsdudp_ether_expired(struct bsdudp *stack, uint64_t *value);

/* Reads the neighbour at index `i` of the host's table into `*neighbour`. Indices begin at 0, and there are at most 32
   neighbours. The last one is the newest entry.

   Returns 0.

   Errors, with `*neighbour` unchanged:
   -BSDUDP_ENXIO if the handle holds no stack.
   -BSDUDP_EOPNOTSUPP if it holds a bare stack.
   -BSDUDP_EINVAL if there is no neighbour with this index. */
int bsdudp_ether_neighbour(struct bsdudp *stack, uint32_t i, struct bsdudp_neighbour *neighbour);

/* ---- sockets */

/* Opens a UDP socket. Source: the book, chapter 15 (socket).

   Returns its descriptor, the lowest free one: 3 to 66.

   Errors:
   -BSDUDP_ENXIO if the handle holds no stack.
   -BSDUDP_EMFILE if 64 sockets are open. */
int bsdudp_socket(struct bsdudp *stack);

/* Binds a socket to a local address and port. Address 0 means all addresses of the host. Port 0 means the next free
   port of 1024 to 5000, which bsdudp_getsockname returns. Source: the book, chapter 22 (in_pcbbind).

   Returns 0.

   Errors:
   -BSDUDP_ENXIO if the handle holds no stack.
   -BSDUDP_EBADF if no open socket has the descriptor `fd`.
   -BSDUDP_EINVAL if the socket already has a local port or address.
   -BSDUDP_EADDRNOTAVAIL if `local->ip` is not 0 and not one of the host's addresses: its own, its broadcast address,
   and 127.0.0.1.
   -BSDUDP_EADDRINUSE if `local->port` is not 0 and another socket has this port, and the same address or one of the two
   has no address. If this socket has BSDUDP_SO_REUSEPORT, only the newest unconnected socket with the same port and
   exactly the same address counts, and only if it lacks that option. */
int bsdudp_bind(struct bsdudp *stack, uint32_t fd, const struct bsdudp_addr *local);

/* Binds a socket to `local->ip` and to a port from `local->port` to `last`, so that others cannot guess the port.
   `random` is a number that the caller draws from all numbers of 32 bits; it selects the port. If bsdudp_bind refuses a
   port with -BSDUDP_EADDRINUSE, the call tries the following one, and `local->port` after `last`: at most 64 ports,
   because at most 63 other sockets are open. Source: RFC 6056, section 3.3.1 (algorithm 1).

   Returns the port, 1 to 65535.

   Errors, with the socket unchanged:
   -BSDUDP_ENXIO if the handle holds no stack.
   -BSDUDP_EBADF if no open socket has the descriptor `fd`.
   -BSDUDP_EINVAL if `local->port` is 0 or above `last`, or the socket already has a local port or address.
   -BSDUDP_EADDRNOTAVAIL if `local->ip` is not an address to which bsdudp_bind binds.
   -BSDUDP_EADDRINUSE if bsdudp_bind returns it for each port of the range. */
int bsdudp_bind_random(struct bsdudp *stack, uint32_t fd, const struct bsdudp_addr *local, uint16_t last,
                       uint32_t random);

/* Connects a socket to a peer: bsdudp_send sends to the peer, and the socket receives only from it. A socket that is
   connected is first disconnected, and stays disconnected if the call fails. A missing local port or address is chosen.
   Address 0 means the host itself, and 255.255.255.255 its broadcast address. Source: the book, chapter 22
   (in_pcbconnect).

   Returns 0.

   Errors:
   -BSDUDP_ENXIO if the handle holds no stack.
   -BSDUDP_EBADF if no open socket has the descriptor `fd`.
   -BSDUDP_EADDRNOTAVAIL if `to->port` is 0.
   -BSDUDP_EHOSTUNREACH if no packet can be sent to `to->ip`: it is in 0/8, but not 0; in 127/8, but not 127.0.0.1; or
   224.0.0.0 to 255.255.255.254.
   -BSDUDP_EADDRINUSE if another socket has the same local and foreign address and port. */
int bsdudp_connect(struct bsdudp *stack, uint32_t fd, const struct bsdudp_addr *to);

/* Disconnects a socket: it then receives from all peers again, and bsdudp_sendto can send. It keeps its local port; its
   local address is cleared. A socket that is not connected is unchanged. Source: the book, chapters 15 (soconnect) and
   22 (in_pcbdisconnect).

   Returns 0.

   Errors:
   -BSDUDP_ENXIO if the handle holds no stack.
   -BSDUDP_EBADF if no open socket has the descriptor `fd`. */
int bsdudp_disconnect(struct bsdudp *stack, uint32_t fd);

/* Sends `len` bytes as one datagram to an address. Its packets are queued for bsdudp_tx or bsdudp_ether_transmit. A
   datagram to this host has arrived when the call returns. A missing local port is chosen. Address 0 means the host
   itself, and 255.255.255.255 its broadcast address. On an Ethernet, packets to another network are dropped later if
   the host has no gateway: `no_route` of bsdudp_ether_tallies counts them. Source: the book, chapters 16 (sosend), 23
   (udp_output), 8 and 10 (ip_output).

   Returns `len`.

   Errors:
   -BSDUDP_ENXIO if the handle holds no stack.
   -BSDUDP_EBADF if no open socket has the descriptor `fd`.
   -BSDUDP_EMSGSIZE if `len` is above BSDUDP_DATAGRAM.
   -BSDUDP_EISCONN if the socket is connected.
   -BSDUDP_EADDRNOTAVAIL if `to->port` is 0.
   -BSDUDP_EHOSTUNREACH if no packet can be sent to `to->ip`, as for bsdudp_connect.
   -BSDUDP_EADDRINUSE if another socket has the same local and foreign address and port.
   -BSDUDP_EACCES if `to->ip` is the broadcast address and the socket does not have BSDUDP_SO_BROADCAST.
   -BSDUDP_EMSGSIZE if `to->ip` is the broadcast address and the packet would exceed the MTU.
   -BSDUDP_ENOBUFS if the pool has too few free buffers. All unfinished datagrams have been dropped to free buffers.
   -BSDUDP_EQUEUE if the output queue does not have space for all packets. The packets that fit are queued, and the
   identification and a chosen port are used up. */
int bsdudp_sendto(struct bsdudp *stack, uint32_t fd, const struct bsdudp_addr *to, const void *bytes, size_t len);

/* Sends `len` bytes as one datagram to the peer of a connected socket, as bsdudp_sendto does.

   Returns `len`.

   Errors:
   -BSDUDP_ENXIO if the handle holds no stack.
   -BSDUDP_EBADF if no open socket has the descriptor `fd`.
   -BSDUDP_EDESTADDRREQ if the socket is not connected.
   -BSDUDP_EMSGSIZE, -BSDUDP_EACCES, -BSDUDP_ENOBUFS and -BSDUDP_EQUEUE as bsdudp_sendto returns them. */
int bsdudp_send(struct bsdudp *stack, uint32_t fd, const void *bytes, size_t len);

/* Removes the oldest datagram from a socket's receive queue, copies up to `len` bytes of it to `buffer`, and stores its
   sender in `*from`, if `from` is not NULL. The rest of the datagram is lost: bsdudp_recvfrom_trunc shows that. The
   call does not block. Source: the book, chapter 16 (soreceive).

   Returns the number of bytes copied.

   Errors, with `buffer` and `*from` unchanged:
   -BSDUDP_ENXIO if the handle holds no stack.
   -BSDUDP_EBADF if no open socket has the descriptor `fd`.
   -BSDUDP_EWOULDBLOCK if the receive queue is empty. */
int bsdudp_recvfrom(struct bsdudp *stack, uint32_t fd, void *buffer, size_t len, struct bsdudp_addr *from);

/* Copies the oldest datagram as bsdudp_recvfrom does, and leaves it in the receive queue: the flag MSG_PEEK of other
   systems. So nothing is lost if it is longer than `len`. Source: the book, chapter 16 (soreceive).

   Returns the number of bytes copied.

   Errors, with `buffer` and `*from` unchanged: those of bsdudp_recvfrom. */
int bsdudp_peek(struct bsdudp *stack, uint32_t fd, void *buffer, size_t len, struct bsdudp_addr *from);

/* Receives as bsdudp_recvfrom does, and returns the length of the whole datagram, as Linux does with MSG_TRUNC.

   Returns the length of the datagram in bytes. If it is above `len`, only `len` bytes were copied.

   Errors: those of bsdudp_recvfrom. */
int bsdudp_recvfrom_trunc(struct bsdudp *stack, uint32_t fd, void *buffer, size_t len, struct bsdudp_addr *from);

/* Closes a socket. The datagrams in its receive queue are lost. Source: the book, chapter 15 (soclose).

   Returns 0.

   Errors:
   -BSDUDP_ENXIO if the handle holds no stack.
   -BSDUDP_EBADF if no open socket has the descriptor `fd`. */
int bsdudp_close(struct bsdudp *stack, uint32_t fd);

/* Sets an option of a socket. BSDUDP_SO_BROADCAST and BSDUDP_SO_REUSEPORT are cleared if `value` is 0, otherwise set.
   BSDUDP_SO_RCVBUF is the size of the receive queue, in bytes. Its datagrams have at most `value` bytes, with 16 for
   each sender's address. Their mbufs and clusters have at most 2 * `value` bytes of memory: 128 for each mbuf, and
   2,048 more for one with a cluster. So the queue never holds more than BSDUDP_RCVBUF_MBUFS(value) mbufs and
   BSDUDP_RCVBUF_CLUSTERS(value) clusters, whatever arrives. 1,488 bytes are enough for a datagram in one packet of
   1,500 bytes; below 1,152 bytes no datagram fits that needs a cluster. A datagram that does not fit is dropped and
   counted (udp.fullsock). Queued datagrams stay, even if they exceed the new size. A new socket has no size of its own:
   its queue takes 41,600 bytes, and up to 83,200 bytes of memory before the last datagram. Source: the book, chapters
   16 and 17 (sbreserve, setsockopt); in 4.4BSD a datagram's own mbufs do not count.

   Returns 0.

   Errors:
   -BSDUDP_ENXIO if the handle holds no stack.
   -BSDUDP_EBADF if no open socket has the descriptor `fd`.
   -BSDUDP_EINVAL if `value` is not 1 to 65,535 for BSDUDP_SO_RCVBUF. 4.4BSD accepts up to 246,723.
   -BSDUDP_ENOPROTOOPT if there is no such option. */
int bsdudp_setsockopt(struct bsdudp *stack, uint32_t fd, int option, int value);

/* The most mbufs and clusters that a receive queue of this size holds: the bound of BSDUDP_SO_RCVBUF. If the bounds of
   all sockets, the packets of the output queue and a send's own buffers together fit into the pool, the send does not
   fail with -BSDUDP_ENOBUFS, whatever arrives. */
#define BSDUDP_RCVBUF_MBUFS(size) (BSDUDP_CAST(uint32_t, size) * 2 / 128)
#define BSDUDP_RCVBUF_CLUSTERS(size) (BSDUDP_CAST(uint32_t, size) * 2 / 2176)

/* ---- queries: they change nothing */

/* Returns an option of a socket: 1 or 0 for BSDUDP_SO_BROADCAST and BSDUDP_SO_REUSEPORT, the size in bytes for
   BSDUDP_SO_RCVBUF, or 0 if none was set. Source: the book, chapter 17 (getsockopt).

   Errors:
   -BSDUDP_ENXIO if the handle holds no stack.
   -BSDUDP_EBADF if no open socket has the descriptor `fd`.
   -BSDUDP_ENOPROTOOPT if there is no such option. */
int bsdudp_getsockopt(struct bsdudp *stack, uint32_t fd, int option);

/* Reads the local and foreign address and port of a socket, and its options, into `*name`. Source: the book, chapter 17
   (getsockname, getpeername, getsockopt).

   Returns 0.

   Errors, with `*name` unchanged:
   -BSDUDP_ENXIO if the handle holds no stack.
   -BSDUDP_EBADF if no open socket has the descriptor `fd`. */
int bsdudp_getsockname(struct bsdudp *stack, uint32_t fd, struct bsdudp_name *name);

/* Reads the sender and the length of the oldest datagram in a socket's receive queue into `*next`. Source: the book,
   chapters 16 (soreceive with MSG_PEEK) and 17 (soo_ioctl with FIONREAD).

   Returns 0.

   Errors, with `*next` unchanged:
   -BSDUDP_ENXIO if the handle holds no stack.
   -BSDUDP_EBADF if no open socket has the descriptor `fd`.
   -BSDUDP_EWOULDBLOCK if the receive queue is empty. */
int bsdudp_next(struct bsdudp *stack, uint32_t fd, struct bsdudp_next *next);

/* Reads which sockets have a datagram in their receive queue: bit k of `*set` is descriptor BSDUDP_FIRST_FD + k.
   Source: the book, chapter 16 (soo_select).

   Returns 0.

   Errors:
   -BSDUDP_ENXIO if the handle holds no stack. */
int bsdudp_readable(struct bsdudp *stack, uint64_t *set);

/* Returns the number of packets in the output queue, 0 to BSDUDP_QUEUE. Source: the book, chapter 3 (struct ifqueue).

   Errors:
   -BSDUDP_ENXIO if the handle holds no stack. */
int bsdudp_output_len(struct bsdudp *stack);

/* Returns the length in bytes of the packet that bsdudp_tx removes next; 0 if the output queue is empty. Source: the
   book, chapter 3 (struct ifqueue).

   Errors:
   -BSDUDP_ENXIO if the handle holds no stack. */
int bsdudp_next_packet(struct bsdudp *stack);

/* Returns the number of unfinished datagrams: some of their fragments have arrived, and others are missing. Source: the
   book, chapter 10 (struct ipq).

   Errors:
   -BSDUDP_ENXIO if the handle holds no stack. */
int bsdudp_unfinished_len(struct bsdudp *stack);

/* Reads the unfinished datagram at index `i` into `*datagram`. Indices are 0 to bsdudp_unfinished_len - 1, in the order
   in which the first fragments arrived. Source: the book, chapter 10 (struct ipq).

   Returns 0.

   Errors, with `*datagram` unchanged:
   -BSDUDP_ENXIO if the handle holds no stack.
   -BSDUDP_EINVAL if there is no unfinished datagram with this index. */
int bsdudp_unfinished(struct bsdudp *stack, uint32_t i, struct bsdudp_unfinished *datagram);

/* Reads the range at index `k` of the bytes of unfinished datagram `i` into `*range`. Indices are 0 to `ranges` - 1, in
   order of offset. The call takes time in proportion to `k`. Source: the book, chapter 10 (struct ipq).

   Returns 0.

   Errors, with `*range` unchanged:
   -BSDUDP_ENXIO if the handle holds no stack.
   -BSDUDP_EINVAL if there is no unfinished datagram with index `i`, or it has no range with index `k`. */
int bsdudp_unfinished_range(struct bsdudp *stack, uint32_t i, uint32_t k, struct bsdudp_range *range);

/* Reads counter `which` into `*value`. A counter stops at 2 to the 64th, less 1. Source: the book, chapters 8 (ipstat)
   and 23 (udpstat); options, badfrag, reclaimed, out.dropped and nobufs are this library's own. The counters:

    0  ip.total        packets that reached IP input, from the link or by loopback
    1  ip.toosmall     packets of fewer than 20 bytes
    2  ip.badvers      packets with a version other than 4
    3  ip.badhlen      packets with a header length below 5 words
    4  ip.options      packets with options
    5  ip.badsum       packets with a wrong header checksum
    6  ip.badlen       packets with a total length below 20
    7  ip.tooshort     packets with fewer bytes than their total length
    8  ip.cantforward  packets for another host
    9  ip.badfrag      fragments with an impossible size or offset
   10  ip.fragments    fragments that passed that test
   11  ip.fragdropped  fragments whose bytes had all arrived already
   12  ip.fragtimeout  unfinished datagrams dropped after 60 ticks
   13  ip.reclaimed    unfinished datagrams dropped to free their buffers
   14  ip.reassembled  datagrams reassembled
   15  ip.noproto      datagrams of a protocol other than UDP
   16  udp.hdrops      datagrams of fewer than 8 bytes
   17  udp.badlen      datagrams with a UDP length below 8 or above what the packet carries
   18  udp.badsum      datagrams with a wrong UDP checksum
   19  udp.noport      datagrams for a port without a socket, except broadcasts
   20  udp.noportbcast broadcasts for a port without a socket
   21  udp.fullsock    datagrams dropped because a receive queue was full; a broadcast counts for each such socket
   22  ip.localout     datagrams sent
   23  ip.fragmented   datagrams sent in fragments
   24  out.dropped     datagrams sent whose packets did not all fit into the output queue
   25  nobufs          packets dropped because the pool had too few buffers; a broadcast counts for each such socket

   Returns 0.

   Errors:
   -BSDUDP_ENXIO if the handle holds no stack.
   -BSDUDP_EINVAL if `which` is not below BSDUDP_COUNTERS; `*value` is then unchanged. */
int bsdudp_counter(struct bsdudp *stack, uint32_t which, uint64_t *value);

/* Reads the usage of the pool into `*usage`. Source: the book, chapter 2 (mbstat).

   Returns 0.

   Errors:
   -BSDUDP_ENXIO if the handle holds no stack. */
int bsdudp_mbstat(struct bsdudp *stack, struct bsdudp_mbstat *usage);

/* Returns the name of counter `which`, for example "ip.total"; NULL if `which` is not below BSDUDP_COUNTERS. */
const char *bsdudp_counter_name(uint32_t which);

/* Returns the cause of each drop that counter `which` counts, for example "no socket has the port" for udp.noport; NULL
   if it counts no drops, or `which` is not below BSDUDP_COUNTERS. */
const char *bsdudp_counter_cause(uint32_t which);

/* Returns 4.4BSD's name of an error, for example "EADDRINUSE" for -BSDUDP_EADDRINUSE, and "ENOBUFS" for both
   -BSDUDP_ENOBUFS and -BSDUDP_EQUEUE; NULL if `result` is not the negative of a BSDUDP_E number. */
const char *bsdudp_error_name(int result);

/* Returns the meaning of a result, for example "the descriptor is not open" for -BSDUDP_EBADF. It is "ok" for 0 and
   above, and "unknown" for a number that no call returns. */
const char *bsdudp_strerror(int result);

/* Returns the version of the library that the program is linked with, for example "0.4.0", or "0.4.0, unproved build"
   for one that was built without a proof (TRIAL=1). BSDUDP_VERSION is the version of this header. */
const char *bsdudp_version(void);

#ifdef __cplusplus
}
#endif
#endif
