/*
 * Notes: the destination address, time to live and type of service of a datagram's packet, the caller's time, and the
 * number of datagrams that the socket lost before it. Each datagram that waits in a receive queue can have a note.
 *
 * Notes are kept in memory of the caller. A socket with notes has a `struct bsdudp_notes` and a ring of `struct
 * bsdudp_note`. All packets go through bsdudp_rx_noted or bsdudp_ether_receive_noted, or bsdudp_note_fate is called for
 * each of them, and the socket's datagrams are received by bsdudp_recvfrom_noted. A program that does not make these
 * calls is linked without them.
 *
 * The rules of bsdudp.h apply, also to results and errors. Do not access the members of a `struct bsdudp_notes`.
 */
#ifndef BSDUDP_NOTES_H
#define BSDUDP_NOTES_H

#include "bsdudp.h"

#ifdef __cplusplus
extern "C" {
#endif

/* A note about a datagram. If it came in fragments, the note is about the packet that completed it. */
struct bsdudp_note {
    uint64_t time;   /* the time that was passed with its packet */
    uint64_t drops;  /* how many datagrams its socket lost before it: the receive queue was full, or the pool had too few
                        buffers */
    uint64_t number; /* private */
    uint32_t to;     /* the destination address of its packet */
    uint8_t ttl;     /* time to live */
    uint8_t tos;     /* type of service */
    uint8_t known;   /* 1; 0 if there is no note, and then all members are 0 */
};

/* The notes of a socket. Its members are private. */
struct bsdudp_notes {
    struct bsdudp_note *ring;
    uint64_t came, read, drops;
    uint32_t fd, room, first, count;
};

/* Begins notes for a socket in `*notes`, with a ring of `room` notes from `ring` on. Datagrams that already wait have
   no note. Nor has one that arrives while `room` others with notes wait, or that the host sends to itself.

   Returns 0.

   Errors, with `*notes` unchanged:
   -BSDUDP_ENXIO if the handle holds no stack.
   -BSDUDP_EBADF if no open socket has the descriptor `fd`. */
int bsdudp_note_socket(struct bsdudp *stack, struct bsdudp_notes *notes, uint32_t fd, struct bsdudp_note *ring,
                       uint32_t room);

/* Passes a packet to the stack as bsdudp_rx does, and adds a note to the notes of each socket that gets its datagram.
   `notes` points to the notes of `count` sockets; those of a closed socket are skipped. `time` is a time of the
   caller's, of any unit.

   The notes of a socket that loses the datagram count it: `lost` of a `struct bsdudp_fate` has these sockets.

   Returns 0.

   Errors: those of bsdudp_rx. */
int bsdudp_rx_noted(struct bsdudp *stack, struct bsdudp_notes *notes, uint32_t count, const void *packet, size_t len,
                    uint64_t time);

/* Passes a frame to a host as bsdudp_ether_receive does, with notes as bsdudp_rx_noted.

   Returns 0.

   Errors: those of bsdudp_ether_receive. */
int bsdudp_ether_receive_noted(struct bsdudp *stack, struct bsdudp_notes *notes, uint32_t count, const void *frame,
                               size_t len, uint64_t time);

/* Adds the notes for a packet that was passed to the stack already, for a program that also reads its fate: `fate` is
   what bsdudp_rx_fate stored for the packet, and no other call was made since. bsdudp_rx_noted makes both calls. For a
   frame, `packet` points behind its 14 bytes of header, and `fate` is from bsdudp_ether_receive_fate.

   Returns 0.

   Errors:
   -BSDUDP_ENXIO if the handle holds no stack. */
int bsdudp_note_fate(struct bsdudp *stack, struct bsdudp_notes *notes, uint32_t count, const void *packet, size_t len,
                     uint64_t time, const struct bsdudp_fate *fate);

/* Receives as bsdudp_recvfrom does, from the socket of `*notes`, and stores the datagram's note in `*note`.

   Returns the number of bytes copied.

   Errors, with `buffer`, `*from` and `*note` unchanged: those of bsdudp_recvfrom. */
int bsdudp_recvfrom_noted(struct bsdudp *stack, struct bsdudp_notes *notes, void *buffer, size_t len,
                          struct bsdudp_addr *from, struct bsdudp_note *note);

#ifdef __cplusplus
}
#endif
#endif
