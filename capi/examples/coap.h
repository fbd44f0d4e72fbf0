/* A small CoAP server (RFC 7252) for a loop without an operating system: confirmable and non-confirmable GET and PUT,
   piggybacked responses, Block2 (RFC 7959) for what doesn't fit in one message, and no request done twice. It lacks
   separate responses, Observe, Block1 and DTLS. */
#ifndef COAP_H
#define COAP_H

#include "bsdudp.h"

/* COAP_RESPONSES responses are kept for EXCHANGE_LIFETIME, 247 s, in case their requests come again (RFC 7252, 4.5). A
   new one takes the place of the oldest, so a client that awaits each response needs one. A response carries at most 16
   times 2 to the COAP_EXPONENT bytes of payload, which is 0 to 6, and 22 bytes of head, token, options and marker. A
   resource's path has at most COAP_PATH characters. The receive queue has COAP_QUEUE bytes, so that a flood leaves the
   pool to other sockets; a message in one packet fits (4.6). */
enum { COAP_PORT = 5683, COAP_RESPONSES = 6, COAP_LIFETIME = 247, COAP_EXPONENT = 4, COAP_PATH = 32 };
enum { COAP_QUEUE = 1488 };
enum { COAP_RESPONSE = 22 + (16 << COAP_EXPONENT) };

/* Codes of responses: 4.04 is COAP_CODE(4, 4). */
#define COAP_CODE(class, detail) ((class) << 5 | (detail))

/* Content-Formats (RFC 7252, 12.3). */
enum { COAP_TEXT = 0, COAP_LINKS = 40, COAP_BYTES = 42 };

/* What a resource holds now. A client that reads it by blocks sees by `version` that it changed meanwhile. */
struct coap_content {
    const uint8_t *bytes;
    uint32_t len;
    uint8_t version;
};

/* A resource. /.well-known/core is one like others: its text lists them (RFC 6690). */
struct coap_resource {
    const char *path; /* as "/a/b" */
    uint16_t format;
    void (*get)(struct coap_content *content);
    int (*put)(const uint8_t *bytes, uint32_t len); /* returns the response's code. NULL: PUT isn't allowed */
};

/* A response, and the request that it was given to. */
struct coap_response {
    struct bsdudp_addr to;
    uint32_t born;    /* the tick in which it was given */
    uint16_t id, len; /* of the request; of the response, or 0: the place is free */
    uint8_t bytes[COAP_RESPONSE];
};

/* A server. Set its members up to `buffer`, and leave the others 0. */
struct coap {
    struct bsdudp *host;
    const struct coap_resource *resources;
    uint32_t count, buffer_len; /* the number of resources, and of bytes in `buffer` */
    uint8_t *buffer;            /* for a received message: a longer request is refused with 4.13 */
    uint32_t fd, now, given; /* its socket, the ticks so far, and the responses so far */
    uint16_t last_id;
    struct coap_response responses[COAP_RESPONSES];
};

/* Opens the server's socket at an address of the host. Returns 0, the error of a call of the stack, or -BSDUDP_EINVAL if
   a resource's path is too long. */
int coap_start(struct coap *server, uint32_t addr);

/* Reads all that has come, and responds. */
void coap_serve(struct coap *server);

/* Half a second passed. */
void coap_tick(struct coap *server);

#endif
