/* Boots a stack, or a host, in memory from malloc. */
#include "bsdudp.h"

#include <stdlib.h>

/* Of block.c: the memory in a block, which begins with its length. */
void *bsdudp_memory_of(size_t *block);

/* Allocates a block for `len` bytes of memory. Returns NULL if that fails, or if boot fails in any case: then
   bsdudp_boot_in without memory returns the error. */
static size_t *block_of(struct bsdudp *stack, const struct bsdudp_config *config, size_t len)
{
    enum { HEAD = sizeof(size_t), MARGIN = BSDUDP_ALIGNMENT - 1 };
    const int has_sizes = config->mbufs >= 1 && config->mbufs <= 65535 && config->clusters <= 4096;
    struct bsdudp_mbstat usage;
    size_t *block = bsdudp_mbstat(stack, &usage) < 0 && has_sizes ? malloc(HEAD + MARGIN + len) : NULL;
    if (block != NULL)
        *block = len;
    return block;
}

/* Gives the block to the stack, or frees it if boot failed. */
static int kept(struct bsdudp *stack, size_t *block, int answer)
{
    if (answer < 0) {
        free(block);
        return answer;
    }
    stack->block = block;
    stack->give_back = free;
    return 0;
}

int bsdudp_boot(struct bsdudp *stack, const struct bsdudp_config *config)
{
    const size_t len = bsdudp_memory(config);
    size_t *block = block_of(stack, config, len);
    if (block == NULL)
        return bsdudp_boot_in(stack, config, NULL, 0);
    return kept(stack, block, bsdudp_boot_in(stack, config, bsdudp_memory_of(block), len));
}

int bsdudp_ether_boot(struct bsdudp *stack, const struct bsdudp_config *config, const struct bsdudp_link *link)
{
    const size_t len = BSDUDP_ETHER_MEMORY(config->mbufs, config->clusters);
    size_t *block = block_of(stack, config, len);
    if (block == NULL)
        return bsdudp_ether_boot_in(stack, config, link, NULL, 0);
    return kept(stack, block, bsdudp_ether_boot_in(stack, config, link, bsdudp_memory_of(block), len));
}
