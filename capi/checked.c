/* The checks of a library that is built with BSDUDP_CHECK=1 (capi/build). A wrapper of each call, which tools/checked.py
   makes of the header, calls bsdudp_enter before it and bsdudp_leave after it. They stop the program, with a sentence
   on stderr, at what the rules of the header forbid and an unchecked library can't see. */
#include "bsdudp.h"

#include <stdio.h>
#include <stdlib.h>
#include <string.h>

/* A handle in use: what it held after its last call, and the call that is under way, with its thread. */
struct seen {
    const struct bsdudp *stack;
    struct bsdudp held;
    const char *call, *thread;
};

/* Handles beyond so many aren't checked. */
enum { MOST = 4096 };
static struct seen table[MOST];
static int count;
/* Its address differs in each thread. */
static __thread char here;
/* The thread that uses the table. */
static const char *holder;

void bsdudp_enter(const struct bsdudp *stack, const char *call, int boots);
int bsdudp_leave(const struct bsdudp *stack, int answer);

static void stop(const char *call, const char *what, const char *other)
{
    fprintf(stderr, "%s: %s%s\n", call, what, other);
    abort();
}

static void lock(const char *call)
{
    const char *none = NULL;
    while (!__atomic_compare_exchange_n(&holder, &none, &here, 0, __ATOMIC_ACQUIRE, __ATOMIC_RELAXED)) {
        if (none == &here)
            stop(call, "called within another call, as by a signal handler", "");
        none = NULL;
    }
}

static void unlock(void)
{
    __atomic_store_n(&holder, NULL, __ATOMIC_RELEASE);
}

static int is_none(const struct bsdudp *stack)
{
    static const struct bsdudp none = BSDUDP_NONE;
    return memcmp(stack, &none, sizeof none) == 0;
}

static struct seen *find(const struct bsdudp *stack)
{
    int i;
    for (i = 0; i < count; i++)
        if (table[i].stack == stack)
            return &table[i];
    return NULL;
}

void bsdudp_enter(const struct bsdudp *stack, const char *call, int boots)
{
    struct seen *it;
    if (stack == NULL)
        stop(call, "the handle is NULL", "");
    lock(call);
    it = find(stack);
    if (it != NULL && it->call != NULL && it->thread != &here)
        stop(call, "one call at a time on a stack, but another thread is in ", it->call);
    if (it != NULL && it->call != NULL)
        stop(call, "called within another call on this stack, as by a signal handler: ", it->call);
    if (!is_none(stack) && it == NULL && count < MOST)
        stop(call, "the handle wasn't set to BSDUDP_NONE before its first boot, or is a copy of another handle", "");
    if (!is_none(stack) && it != NULL && memcmp(stack, &it->held, sizeof *stack) != 0)
        stop(call, "the handle was changed since the last call", "");
    if (!boots && stack->core.live == 0)
        stop(call, "the handle holds no stack: it was never booted, or was ended", "");
    if (it == NULL && count < MOST)
        it = &table[count++];
    if (it != NULL) {
        it->stack = stack;
        it->thread = &here;
        it->call = call;
    }
    unlock();
}

/* A handle whose bytes are 0 again isn't kept. */
int bsdudp_leave(const struct bsdudp *stack, int answer)
{
    struct seen *it;
    lock("bsdudp");
    it = find(stack);
    if (it != NULL && is_none(stack)) {
        *it = table[--count];
    } else if (it != NULL) {
        it->held = *stack;
        it->call = NULL;
    }
    unlock();
    return answer;
}
