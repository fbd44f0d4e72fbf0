/* The block from malloc in which boot.c boots a stack. It begins with the length of the memory in it. */
#include "bsdudp.h"

/* Returns that memory. It's aligned: a malloc for 32 bits may align only to 8. */
void *bsdudp_memory_of(size_t *block);
void *bsdudp_memory_of(size_t *block)
{
    unsigned char *at = (unsigned char *)block + sizeof *block;
    return at + (BSDUDP_ALIGNMENT - (uintptr_t)at % BSDUDP_ALIGNMENT) % BSDUDP_ALIGNMENT;
}
