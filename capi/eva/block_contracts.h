/* The contract of the memory in a block from malloc: it begins behind the length, and is aligned. */
#include "bsdudp.h"
#include "eva/addresses.h"

/*@ requires \valid((unsigned char *)block + (0 .. sizeof(size_t) + BSDUDP_ALIGNMENT - 1));
    assigns \result \from block;
    ensures \exists integer k; sizeof(size_t) <= k < sizeof(size_t) + BSDUDP_ALIGNMENT && \result == (unsigned char *)block + k;
    ensures (uintptr_t)\result % BSDUDP_ALIGNMENT == 0; */
void *bsdudp_memory_of(size_t *block);
