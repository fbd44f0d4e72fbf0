/* Four threads boot, use and end their own stacks at the same time, without a lock: in their own memory, and in memory
   from malloc. At the same time two threads share a stack with a lock, and each ends the present one and boots another.
   It prints what is wrong, and then exits with 1. A thread sanitizer finds data races. */
#include "bsdudp.h"

#include <pthread.h>
#include <stdio.h>
#include <string.h>

enum { THREADS = 4, TURNS = 100, GUARD = 64, MARK = 0xa5 };

/* A thread's data. No two stacks have the same sizes, so a block of another stack is detected. */
struct place {
    uint32_t mbufs, clusters;
    unsigned char memory[BSDUDP_MEMORY(64, 16) + GUARD] __attribute__((aligned(BSDUDP_ALIGNMENT)));
    const char *fault;
};

static struct place places[THREADS];
static pthread_mutex_t lock = PTHREAD_MUTEX_INITIALIZER;
static struct bsdudp shared = BSDUDP_NONE;

/* A stack of these sizes sends to itself. */
static const char *works(struct bsdudp *stack, const struct place *here)
{
    const struct bsdudp_addr self = {0x7f000001, 7};
    struct bsdudp_addr from;
    struct bsdudp_mbstat usage;
    uint8_t bytes[200], buffer[200];
    uint32_t fd = BSDUDP_FIRST_FD;
    memset(bytes, (int)here->mbufs, sizeof bytes);
    if (bsdudp_mbstat(stack, &usage) != 0 || usage.mbufs != here->mbufs || usage.clusters != here->clusters)
        return "a stack has the sizes of another";
    if (bsdudp_socket(stack) != BSDUDP_FIRST_FD || bsdudp_bind(stack, fd, &self) != 0)
        return "no socket";
    if (bsdudp_sendto(stack, fd, &self, bytes, sizeof bytes) != (int)sizeof bytes)
        return "nothing is sent";
    if (bsdudp_recvfrom(stack, fd, buffer, sizeof buffer, &from) != (int)sizeof buffer ||
        memcmp(bytes, buffer, sizeof buffer))
        return "other bytes come";
    return NULL;
}

/* Boots, uses and ends a stack, every second time in memory from malloc. */
static const char *lives(struct place *here, int number)
{
    const struct bsdudp_config config = {0x0a000001, 0x0a0000ff, here->mbufs, here->clusters, 1500, 1};
    const size_t len = bsdudp_memory(&config);
    struct bsdudp stack = BSDUDP_NONE;
    const char *fault;
    size_t k;
    memset(here->memory, MARK, sizeof here->memory);
    if ((number % 2 ? bsdudp_boot(&stack, &config) : bsdudp_boot_in(&stack, &config, here->memory, len)) != 0)
        return "boot is refused";
    if ((fault = works(&stack, here)) != NULL)
        return fault;
    for (k = len; k < len + GUARD; k++)
        if (here->memory[k] != MARK)
            return "a byte behind the memory is touched";
    return bsdudp_end(&stack) == 0 ? NULL : "end is refused";
}

/* The stack that two threads share. The first one boots it. Each call holds the lock. */
static const char *shares(int number)
{
    const struct bsdudp_config config = {0x0a000001, 0x0a0000ff, 8, 0, 1500, 1};
    int booted, ended = 0;
    pthread_mutex_lock(&lock);
    booted = bsdudp_boot(&shared, &config);
    if (number % 3 == 0)
        ended = bsdudp_end(&shared);
    pthread_mutex_unlock(&lock);
    return ended == 0 && (booted == 0 || booted == -BSDUDP_ENXIO) ? NULL : "the shared stack";
}

static void *run(void *place)
{
    struct place *here = place;
    int k;
    for (k = 0; k < TURNS && here->fault == NULL; k++)
        here->fault = lives(here, k);
    for (k = 0; k < TURNS && here->fault == NULL && here < places + 2; k++)
        here->fault = shares(k);
    return NULL;
}

int main(void)
{
    pthread_t threads[THREADS];
    int k;
    for (k = 0; k < THREADS; k++) {
        places[k].mbufs = 64 - (uint32_t)k;
        places[k].clusters = 16 - (uint32_t)k;
        if (pthread_create(&threads[k], NULL, run, &places[k]) != 0)
            return fprintf(stderr, "capi/tests/threads.c: no thread\n"), 1;
    }
    for (k = 0; k < THREADS; k++)
        pthread_join(threads[k], NULL);
    for (k = 0; k < THREADS; k++)
        if (places[k].fault != NULL)
            return fprintf(stderr, "capi/tests/threads.c: thread %d: %s\n", k, places[k].fault), 1;
    bsdudp_end(&shared);
    return 0;
}
