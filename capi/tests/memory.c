/* The memory of a stack: each allocation failing in turn, memory that is just enough, handles booted twice, ended or
   zeroed. The linker redirects the library's malloc, free and boot of a host to this file (--wrap), which can count them
   and let them fail. It compiles as C99 and as C++, prints the line of the first wrong result, and then exits with 1. */
#include "bsdudp.h"

#include <stdio.h>
#include <stdlib.h>
#include <string.h>

#define WANT(call, answer) \
    do { \
        long got_ = (long)(call); \
        if (got_ != (long)(answer)) { \
            fprintf(stderr, "capi/tests/memory.c:%d: %s: %ld, not %ld\n", __LINE__, #call, got_, (long)(answer)); \
            return 1; \
        } \
    } while (0)

enum { BLOCK = 16, GUARD = 64, UNTOUCHED = 0xa5 };

#ifdef __cplusplus
extern "C" {
#endif
void *__real_malloc(size_t len);
void __real_free(void *block);
void *__wrap_malloc(size_t len);
void __wrap_free(void *block);
int __real_bsdudp_ether_boot_in(struct bsdudp *stack, const struct bsdudp_config *config,
                                const struct bsdudp_link *link, void *memory, size_t len);
int __wrap_bsdudp_ether_boot_in(struct bsdudp *stack, const struct bsdudp_config *config,
                                const struct bsdudp_link *link, void *memory, size_t len);
/* Of capi/src/memory.c. */
void *bsdudp_block(uint64_t size);
void bsdudp_lend(void *memory, size_t len);
int bsdudp_lent(const void *memory, int answer);
#ifdef __cplusplus
}
#endif

static int is_refused, taken, given_back;

void *__wrap_malloc(size_t len)
{
    if (is_refused)
        return NULL;
    taken++;
    return __real_malloc(len);
}

void __wrap_free(void *block)
{
    given_back++;
    __real_free(block);
}

/* Without memory, it returns the error that it would have. */
int __wrap_bsdudp_ether_boot_in(struct bsdudp *stack, const struct bsdudp_config *config,
                                const struct bsdudp_link *link, void *memory, size_t len)
{
    return __real_bsdudp_ether_boot_in(stack, config, link, memory, is_refused ? 0 : len);
}

static struct bsdudp_config config_of(uint32_t mbufs, uint32_t clusters)
{
    struct bsdudp_config it = {0x0a000001, 0x0a0000ff, mbufs, clusters, 1500, 1};
    return it;
}

/* A stack that works: it receives its own datagram by loopback. Its only socket is open afterwards. */
static int works(struct bsdudp *s)
{
    struct bsdudp_addr self = {0x7f000001, 7}, from;
    uint8_t bytes[3] = {1, 2, 3}, buffer[8];
    WANT(bsdudp_socket(s), 3);
    WANT(bsdudp_bind(s, 3, &self), 0);
    WANT(bsdudp_sendto(s, 3, &self, bytes, sizeof bytes), 3);
    WANT(bsdudp_recvfrom(s, 3, buffer, sizeof buffer, &from), 3);
    WANT(memcmp(buffer, bytes, 3), 0);
    return 0;
}

static int is_untouched(const unsigned char *at)
{
    int k;
    for (k = 0; k < GUARD; k++)
        if (at[k] != UNTOUCHED)
            return 0;
    return 1;
}

/* Boot with more and more memory: each of its allocations fails in turn, until all fit. No byte outside is changed.
   BSDUDP_MEMORY is at least the smallest size that is enough, and not much larger. */
static int grows(uint32_t mbufs, uint32_t clusters, size_t step)
{
    struct bsdudp s = BSDUDP_NONE;
    struct bsdudp_config config = config_of(mbufs, clusters);
    size_t all = bsdudp_memory(&config), len = 0;
    unsigned char *block = (unsigned char *)__real_malloc(all + 2 * GUARD + BSDUDP_ALIGNMENT), *memory = block;
    int answer;
    if (block == NULL)
        return 1;
    while ((uintptr_t)(memory + GUARD) % BSDUDP_ALIGNMENT != 0) /* malloc may align to less */
        memory++;
    memset(memory, UNTOUCHED, all + 2 * GUARD);
    WANT(all, BSDUDP_MEMORY(mbufs, clusters));
    for (;;) {
        answer = bsdudp_boot_in(&s, &config, memory + GUARD, len);
        WANT(answer == 0 || answer == -BSDUDP_ENOMEM, 1);
        WANT(bsdudp_output_len(&s), answer == 0 ? 0 : -BSDUDP_ENXIO);
        WANT(answer != 0 || mbufs < 4 ? 0 : works(&s), 0);
        WANT(is_untouched(memory + GUARD + len), 1);
        if (answer == 0 || len == all)
            break;
        len = all - len < step ? all : len + step;
    }
    WANT(answer, 0);
    WANT(len + all / 50 + 128 >= all, 1);
    WANT(bsdudp_end(&s), 0);
    WANT(bsdudp_boot_in(&s, &config, memory + GUARD, all), 0);
    WANT(mbufs < 4 ? 0 : works(&s), 0);
    WANT(bsdudp_end(&s), 0);
    WANT(is_untouched(memory) && is_untouched(memory + GUARD + all), 1);
    __real_free(block);
    return 0;
}

/* Boot calls malloc once, and end frees the block once. A boot that fails keeps no block. */
static int from_malloc(void)
{
    struct bsdudp s = BSDUDP_NONE;
    struct bsdudp_config config = config_of(64, 16), wrong = config;
    int k;
    is_refused = 1;
    WANT(bsdudp_boot(&s, &config), -BSDUDP_ENOMEM);
    WANT(bsdudp_socket(&s), -BSDUDP_ENXIO);
    is_refused = 0;
    for (k = 0; k < 4; k++) {
        wrong = config;
        if (k == 0)
            wrong.mtu = 67;
        else if (k == 1)
            wrong.mbufs = 65536;
        else if (k == 2)
            wrong.clusters = 4097;
        else
            wrong.bcast = 0xe0000001;
        WANT(bsdudp_boot(&s, &wrong), k == 0 || k == 3 ? -BSDUDP_EINVAL : -BSDUDP_EDOM);
        WANT(bsdudp_socket(&s), -BSDUDP_ENXIO);
        WANT(taken, given_back);
    }
    taken = given_back = 0;
    WANT(bsdudp_boot(&s, &config), 0);
    WANT(works(&s), 0);
    WANT(taken == 1 && given_back == 0, 1);
    WANT(bsdudp_end(&s), 0);
    WANT(taken == 1 && given_back == 1, 1);
    WANT(bsdudp_end(&s), -BSDUDP_ENXIO);
    WANT(given_back, 1);
    return 0;
}

/* The same for a host: a boot that fails because of its link, or of its stack, keeps no block. */
static int host_from_malloc(void)
{
    struct bsdudp s = BSDUDP_NONE;
    struct bsdudp_config config = config_of(64, 16);
    struct bsdudp_link link = {{2, 0, 0, 0, 0, 1}, 0xffffff00, 0, 0};
    int k;
    taken = given_back = 0;
    is_refused = 1;
    WANT(bsdudp_ether_boot(&s, &config, &link), -BSDUDP_ENOMEM);
    is_refused = 0;
    for (k = 0; k < 6; k++) {
        struct bsdudp_config wrong = config;
        struct bsdudp_link bad = link;
        if (k == 0)
            bad.mac[0] = 1;
        else if (k == 1)
            bad.gateway = config.addr;
        else if (k == 2)
            wrong.mtu = 1501;
        else if (k == 3)
            wrong.mtu = 67;
        else if (k == 4)
            wrong.bcast = 0xe0000001;
        else
            wrong.mbufs = 65536;
        WANT(bsdudp_ether_boot(&s, &wrong, &bad), k == 5 ? -BSDUDP_EDOM : -BSDUDP_EINVAL);
        WANT(bsdudp_socket(&s), -BSDUDP_ENXIO);
        WANT(taken, given_back);
    }
    taken = given_back = 0;
    WANT(bsdudp_ether_boot(&s, &config, &link), 0);
    WANT(taken == 1 && given_back == 0, 1);
    WANT(bsdudp_end(&s), 0);
    WANT(taken == 1 && given_back == 1, 1);
    return 0;
}

/* If rehost ends the host and can't boot it again, the block is freed, and the handle can be booted. */
static int rehost_fails(void)
{
    struct bsdudp s = BSDUDP_NONE;
    struct bsdudp_config config = config_of(64, 16);
    struct bsdudp_link link = {{2, 0, 0, 0, 0, 1}, 0xffffff00, 0, 0};
    taken = given_back = 0;
    WANT(bsdudp_ether_boot(&s, &config, &link), 0);
    is_refused = 1;
    WANT(bsdudp_ether_rehost(&s, &config, &link, NULL, 0), -BSDUDP_ENOMEM);
    is_refused = 0;
    WANT(taken == 1 && given_back == 1, 1);
    WANT(bsdudp_end(&s), -BSDUDP_ENXIO);
    WANT(bsdudp_ether_boot(&s, &config, &link), 0);
    WANT(bsdudp_end(&s), 0);
    WANT(taken == 2 && given_back == 2, 1);
    return 0;
}

/* A handle that has a stack keeps it, whichever boot is called next, with any arguments. */
static int booted_twice(void)
{
    static unsigned char memory[2][BSDUDP_MEMORY(64, 16)] __attribute__((aligned(BSDUDP_ALIGNMENT)));
    struct bsdudp_config config = config_of(64, 16), wrong = config_of(0, 0);
    int first;
    for (first = 0; first < 2; first++) {
        struct bsdudp s = BSDUDP_NONE;
        taken = given_back = 0;
        WANT(first ? bsdudp_boot(&s, &config) : bsdudp_boot_in(&s, &config, memory[0], sizeof memory[0]), 0);
        WANT(works(&s), 0);
        WANT(bsdudp_boot(&s, &config), -BSDUDP_ENXIO);
        WANT(bsdudp_boot(&s, &wrong), -BSDUDP_ENXIO);
        WANT(bsdudp_boot_in(&s, &config, memory[1], sizeof memory[1]), -BSDUDP_ENXIO);
        WANT(bsdudp_boot_in(&s, &config, memory[1], 0), -BSDUDP_ENXIO);
        WANT(bsdudp_boot_in(&s, &wrong, memory[1], 0), -BSDUDP_ENXIO);
        WANT(bsdudp_socket(&s), 4);
        WANT(bsdudp_end(&s), 0);
        WANT(taken == first && given_back == first, 1);
        WANT(bsdudp_boot_in(&s, &config, memory[1], sizeof memory[1]), 0); /* ended, it's free for another stack */
        WANT(works(&s), 0);
        WANT(bsdudp_end(&s), 0);
        memset(&s, 0, sizeof s); /* and so it is zeroed */
        WANT(bsdudp_socket(&s), -BSDUDP_ENXIO);
        WANT(bsdudp_boot(&s, &config), 0);
        WANT(bsdudp_end(&s), 0);
        WANT(taken == first + 1 && given_back == first + 1, 1);
    }
    return 0;
}

/* Each block of boot is aligned, and the blocks have the whole memory. */
static int blocks(void)
{
    static unsigned char memory[64] __attribute__((aligned(BSDUDP_ALIGNMENT)));
    bsdudp_lend(memory, sizeof memory + 15);
    WANT((unsigned char *)bsdudp_block(5) - memory, 0);
    WANT((unsigned char *)bsdudp_block(16) - memory, 16);
    WANT((unsigned char *)bsdudp_block(17) - memory, 32);
    WANT(bsdudp_block(1) == NULL, 1);
    bsdudp_lend(memory + 8, sizeof memory - 8);
    WANT(bsdudp_block(1) == NULL, 1);
    WANT(bsdudp_lent(memory + 8, -BSDUDP_ENOMEM), -BSDUDP_EINVAL);
    return 0;
}

int main(void)
{
    return blocks() || grows(1, 0, BLOCK) || grows(64, 16, BLOCK) || grows(65535, 4096, 5000 * BLOCK) || from_malloc() ||
           host_from_malloc() || rehost_fails() || booted_twice();
}
