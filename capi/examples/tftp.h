/* A small TFTP server (RFC 1350) for a loop without an operating system: clients read and write files in mode octet,
   with the options blksize and tsize (RFC 2347 to 2349), several at once, each transfer on a port of its own. The tick
   sends again what isn't acknowledged; an acknowledgement that comes twice never does (RFC 1123, 4.2.3.1). */
#ifndef TFTP_H
#define TFTP_H

#include "bsdudp.h"

/* How many transfers run at once, and the longest block that is agreed on: 512 to 9,212 bytes. A request beyond that
   many transfers is ignored, and its client repeats it. A message has 4 bytes more than its block, and its buffer one
   more, by which a longer one is known. */
enum { TFTP_PORT = 69, TFTP_TRANSFERS = 4, TFTP_BLOCK = 8192, TFTP_ROOM = 4 + TFTP_BLOCK + 1 };

/* The bytes of the receive queues, so that a flood leaves the pool to other sockets: for requests, which have at most 512
   bytes and need a cluster, and for the longest datagram with its sender's address: a block that is longer than agreed
   gets an error. */
enum { TFTP_REQUESTS = 1152, TFTP_QUEUE = 9216 + 16 };

/* A message goes out TFTP_TRIES times: after 2 ticks, 4, 8, 8 and so on (RFC 1123, 4.2.3.2). The tick never repeats two
   of them: the last acknowledgement, and the options of a writer. They are repeated only if the client repeats itself
   within TFTP_LINGER ticks. curl takes options that come twice for an acknowledgement of its first block. */
enum { TFTP_TRIES = 6, TFTP_LINGER = 24 };

/* A file. While a client writes it, no other client reads or writes it, and it's empty until the last block comes. */
struct tftp_file {
    const char *name;
    const uint8_t *bytes; /* what clients read: `len` bytes */
    uint8_t *buffer;      /* where clients write: the same bytes, `most` at most; NULL if they may not */
    uint32_t len, most;
    uint8_t version; /* counts how often it was written */
};

struct tftp_transfer {
    struct tftp_file *file; /* NULL: the place is free */
    struct bsdudp_addr peer;
    uint32_t fd;
    uint32_t block;  /* of a reader: the one that was sent last, 0 for the answer to options; of a writer: came last */
    uint32_t at;     /* where the next block of a writer stands in the file */
    uint32_t total;  /* the value of tsize */
    uint16_t size;   /* bytes of a block */
    uint8_t ticks;   /* after so many more, what was sent last goes out again */
    uint8_t options; /* which options were agreed on, a bit for each */
    uint8_t tries, is_write, is_done, is_once; /* `is_once`: the tick doesn't send again what was sent last */
};

/* A server. Set its members up to `buffer`, and leave the others 0. */
struct tftp {
    struct bsdudp *host;
    struct tftp_file *files;
    uint32_t count; /* how many files there are */
    uint8_t *buffer; /* TFTP_ROOM bytes for one message; others may use them between the calls */
    uint32_t fd;
    struct tftp_transfer transfers[TFTP_TRANSFERS];
};

/* Opens the server's socket at an address of the host. Returns 0, or the refusal of a call of the stack. */
int tftp_start(struct tftp *server, uint32_t addr);

/* Takes all that has come, and sends what is due. */
void tftp_serve(struct tftp *server);

/* Half a second passed: sends again what wasn't acknowledged. */
void tftp_tick(struct tftp *server);

#endif
