/* A ring of frames between one interrupt, which puts them in, and one loop, which takes them out, without a lock. Only
   the interrupt changes `put`, and only the loop changes `taken`. RING_FRAMES is a power of 2. A frame that comes while
   the ring is full is lost and counted.

   On a processor with several cores, or one that reorders accesses to memory, put a barrier where RING_BARRIER stands.
   Cortex-M0 to M7 need only that the compiler doesn't move accesses across it. */
#ifndef RING_H
#define RING_H

#include "bsdudp.h"

#include <string.h>

#ifndef RING_BARRIER
#define RING_BARRIER() __asm__ volatile("" ::: "memory")
#endif

enum { RING_FRAMES = 8 };
struct ring {
    volatile uint32_t put, taken, lost;
    uint16_t len[RING_FRAMES];
    uint8_t frames[RING_FRAMES][BSDUDP_ETHER_ROOM + 2]; /* a frame begins 2 bytes after an aligned place */
};

/* In the interrupt: keeps a frame of at most BSDUDP_ETHER_ROOM bytes. */
static inline void ring_put(struct ring *ring, const uint8_t *frame, size_t len)
{
    const uint32_t at = ring->put % RING_FRAMES;
    if (ring->put - ring->taken == RING_FRAMES || len > BSDUDP_ETHER_ROOM) {
        ring->lost++;
        return;
    }
    memcpy(ring->frames[at] + 2, frame, len);
    ring->len[at] = (uint16_t)len;
    RING_BARRIER();
    ring->put++;
}

/* In the loop, as port_receive: copies the oldest frame, and returns its length, or 0 if the ring is empty. */
static inline size_t ring_take(struct ring *ring, uint8_t *frame)
{
    const uint32_t at = ring->taken % RING_FRAMES;
    size_t len;
    if (ring->put == ring->taken)
        return 0;
    RING_BARRIER();
    len = ring->len[at];
    memcpy(frame, ring->frames[at] + 2, len);
    RING_BARRIER();
    ring->taken++;
    return len;
}

#endif
