/* The memory of a stack. The core allocates only in boot, by rattle_alloc, and frees in end, by rattle_dealloc. Boot
   gets its blocks one after another from the memory that was passed to bsdudp_boot_in.

   While boot runs, a thread-local variable points to the rest of that memory. Without thread-local storage, compile
   this file with -DBSDUDP_THREADS=0, and link it before the library. Then the variable is a plain one, and only one
   boot may run at a time in the whole program. */
#include "bsdudp.h"

#include <stdbool.h>

#ifndef BSDUDP_THREADS
#define BSDUDP_THREADS 1
#endif
#if BSDUDP_THREADS
#define OF_THE_THREAD __thread
#else
#define OF_THE_THREAD
#endif

int bsdudp_core_boot(struct bsdudp_core *, const struct bsdudp_config *);

static OF_THE_THREAD unsigned char *arena;
static OF_THE_THREAD size_t left;

/* A block of `size` bytes, aligned to BSDUDP_ALIGNMENT, or NULL. */
void *bsdudp_block(uint64_t size);
void *bsdudp_block(uint64_t size)
{
    unsigned char *at = arena;
    if (size > left || (size + 15) / 16 * 16 > left)
        return NULL;
    arena += (size_t)((size + 15) / 16 * 16);
    left -= (size_t)((size + 15) / 16 * 16);
    return at;
}

#if UINTPTR_MAX > 0xffffffff /* with 32-bit addresses the core gets another form of this */
struct tried {
    bool ok;
    void *at;
};

/* The core calls this for a block; `alignment` is at most BSDUDP_ALIGNMENT. */
struct tried rattle_alloc(size_t size, size_t alignment);
struct tried rattle_alloc(size_t size, size_t alignment)
{
    static const unsigned char none;
    struct tried answer;
    (void)alignment;
    answer.at = bsdudp_block(size);
    answer.ok = answer.at != NULL;
    if (!answer.ok)
        answer.at = (void *)&none;
    return answer;
}
#endif

/* The core frees a block: the memory belongs to the caller again when all blocks are free. */
void rattle_dealloc(void *block);
void rattle_dealloc(void *block)
{
    (void)block;
}

size_t bsdudp_memory(const struct bsdudp_config *config)
{
    return BSDUDP_MEMORY(config->mbufs, config->clusters);
}

/* Sets the memory for boot. Memory that is not aligned counts as no memory, so the core returns ENOMEM if there is no
   other error. ether.c calls this too. */
void bsdudp_lend(void *memory, size_t len);
void bsdudp_lend(void *memory, size_t len)
{
    arena = memory;
    left = (uintptr_t)memory % BSDUDP_ALIGNMENT == 0 ? len / 16 * 16 : 0;
}

/* Ends the use of the memory for boot, and returns the result of boot. */
int bsdudp_lent(const void *memory, int answer);
int bsdudp_lent(const void *memory, int answer)
{
    arena = NULL;
    left = 0;
    return answer == -BSDUDP_ENOMEM && (uintptr_t)memory % BSDUDP_ALIGNMENT != 0 ? -BSDUDP_EINVAL : answer;
}

int bsdudp_boot_in(struct bsdudp *stack, const struct bsdudp_config *config, void *memory, size_t len)
{
    bsdudp_lend(memory, len);
    return bsdudp_lent(memory, bsdudp_core_boot(&stack->core, config));
}
