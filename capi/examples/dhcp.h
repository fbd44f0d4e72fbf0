/* A DHCP client (RFC 2131) for a loop without an operating system. It boots a host when it has an address for it,
   renews the lease, and moves the host when the address changes: its sockets stay. The host probes for an address
   before it uses it (RFC 5227), and the client declines one that another host has. If no server replies for a minute,
   the host gets a link-local address (RFC 3927) until one does. */
#ifndef DHCP_H
#define DHCP_H

#include "bsdudp.h"
#include "dhcp_message.h"

/* The states of RFC 2131, figure 5. From DHCP_BOUND on there is a lease. */
enum dhcp_state {
    DHCP_INIT, /* it waits before it begins */
    DHCP_SELECTING,
    DHCP_REQUESTING,
    DHCP_REBOOTING,
    DHCP_BOUND,
    DHCP_RENEWING,
    DHCP_REBINDING,
    DHCP_FIXED /* no server is asked */
};

/* After DHCP_TRIES messages without a reply, which is a minute, the client gives up a request, or takes a link-local
   address. It ignores a lease of less than DHCP_LEAST seconds. */
enum { DHCP_TRIES = 4, DHCP_LEAST = 10 };

/* The bytes of its socket's receive queue, so that a flood leaves the pool to other sockets: a message of up to 576 bytes
   needs a cluster. */
enum { DHCP_QUEUE = 1152 };

/* A client. Set its members up to `random`, and leave the others 0. */
struct dhcp {
    struct bsdudp *host;         /* without a stack: the client boots it */
    struct bsdudp_config config; /* `addr`: the address of the last start, if the device remembers it, or 0 */
    struct bsdudp_link link;     /* `mac`. With a `mask`, the host has these settings, and no server is asked */
    void *memory;                /* BSDUDP_ETHER_MEMORY bytes, aligned to BSDUDP_ALIGNMENT */
    size_t memory_len;
    uint32_t seed; /* another number at each start is best */
    uint32_t (*random)(void); /* draws the number of a message, which a forged reply has to guess; NULL: the numbers
                                 follow from `seed` */

    /* The address of the host, which dhcp_tick sets; 0 while it has none. Without one it neither sends nor receives,
       and keeps its sockets. */
    uint32_t addr;
    uint8_t is_booted; /* 1: the host holds a stack, so sockets can be opened. It stays 1 */

    uint8_t is_up, message; /* the host's frames pass; the type of the message to send, or 0 */
    enum dhcp_state state;
    struct dhcp_lease lease;
    uint32_t now, due, begun, asked, rebind, end, local_due; /* in ticks */
    uint32_t fd, xid, tries, conflicts;
    uint16_t secs;
};

/* Begins. Returns 0, or the error with which the boot of a host fails, whatever its address: bsdudp_boot_strerror of
   `config` and `link` says why. */
int dhcp_start(struct dhcp *client);

/* A frame came, in a buffer of BSDUDP_ETHER_ROOM bytes. The client uses all of it. Call this instead of
   bsdudp_ether_receive. */
void dhcp_receive(struct dhcp *client, uint8_t *frame, size_t len);

/* Stores the next frame to send, in a buffer of BSDUDP_ETHER_ROOM bytes. Returns its length, or 0 if no frame waits.
   Call this instead of bsdudp_ether_transmit. */
size_t dhcp_transmit(struct dhcp *client, uint8_t *frame);

/* Half a second passed. Call this instead of bsdudp_tick. */
void dhcp_tick(struct dhcp *client);

#endif
