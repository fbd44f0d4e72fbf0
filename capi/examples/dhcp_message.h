/* The messages of DHCP (RFC 2131, section 2; options of RFC 2132), and the frames that carry them while a client has no
   stack. */
#ifndef DHCP_MESSAGE_H
#define DHCP_MESSAGE_H

#include <stddef.h>
#include <stdint.h>

enum { DHCP_SERVER_PORT = 67, DHCP_CLIENT_PORT = 68 };
enum { DHCP_DISCOVER = 1, DHCP_OFFER = 2, DHCP_REQUEST = 3, DHCP_DECLINE = 4, DHCP_ACK = 5, DHCP_NAK = 6 };

/* The length of the frame's headers, and of a message that is sent, BOOTP's: both in bytes. */
enum { DHCP_HEAD = 42, DHCP_MESSAGE = 300 };

/* What a server says. 0: it doesn't say so. */
struct dhcp_lease {
    uint32_t addr, mask, router, server;
    uint32_t seconds, t1, t2; /* how long the lease lasts, and when to renew it and to rebind */
    uint8_t type, overload;
};

/* What a client says. */
struct dhcp_words {
    const uint8_t *mac;
    uint32_t xid, own, wanted, server; /* own: `ciaddr`. 0: the option isn't written */
    uint16_t secs;
    uint8_t type;
};

/* Returns the length of the message to this client in a frame, after DHCP_HEAD bytes. Returns 0 if the frame is
   for another host, has other data, isn't whole, or has a wrong checksum. */
uint32_t dhcp_len(const uint8_t *frame, size_t frame_len, const uint8_t mac[6]);

/* Reads a server's reply to the message with this number. Returns 1, or 0 for other messages and malformed ones. */
int dhcp_read(struct dhcp_lease *to, const uint8_t *at, uint32_t len, uint32_t xid, const uint8_t mac[6]);

/* Writes a message of DHCP_MESSAGE bytes. */
void dhcp_write(uint8_t *at, const struct dhcp_words *words);

/* Writes the headers of a frame to all hosts before the message in it. Returns the frame's length. */
size_t dhcp_frame(uint8_t *frame, const struct dhcp_words *words);

#endif
