/* The contract of the memory for boot: a block lies in the memory that was lent, and behind the blocks before it. */
#include "bsdudp.h"

static unsigned char *arena;
static size_t left;

/*@ requires left % 16 == 0 && (left == 0 || \valid(arena + (0 .. left - 1)));
    assigns arena, left, \result \from arena, left, size;
    ensures left % 16 == 0 && (left == 0 || \valid(arena + (0 .. left - 1)));
    ensures \result == \null || (size <= \old(left) && \result == \old(arena));
    ensures \result != \null && size > 0 ==> \valid((char *)\result + (0 .. size - 1));
    ensures \result != \null ==> arena >= (unsigned char *)\result + size; */
void *bsdudp_block(uint64_t size);
