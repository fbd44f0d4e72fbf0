/* Measures how many bytes of the call stack each call of bsdudp.h uses, without its arguments: the memory below is
   painted before the call, and read after it. A program that's linked with --wrap of each call and of `main` prints the
   maximum of each at its end. */
#include "bsdudp.h"
#include "machine.h"

enum { WORDS = 1024, PAINT = 0x5aa5c33c };

struct use {
    const char *name;
    uint32_t most;
    struct use *next;
};
static struct use *first;

/* Paints the memory below, and returns its end. It must not call a function. */
static inline __attribute__((always_inline)) volatile uint32_t *paint(void)
{
    volatile uint32_t *here, *at;
    __asm__ volatile("mov %0, sp" : "=r"(here));
    for (at = here - WORDS; at < here; at++)
        *at = PAINT;
    return here;
}

static inline __attribute__((always_inline)) void note(struct use *use, volatile uint32_t *here)
{
    volatile uint32_t *at = here - WORDS;
    while (at < here && *at == PAINT)
        at++;
    if (use->name[0] == '*') { /* its first call */
        use->name++;
        use->next = first;
        first = use;
    }
    if (use->most < (uint32_t)(here - at) * 4)
        use->most = (uint32_t)(here - at) * 4;
}

#define CALL(call, parameters, arguments) \
    int __real_bsdudp_##call parameters; \
    int __wrap_bsdudp_##call parameters; \
    int __wrap_bsdudp_##call parameters \
    { \
        static struct use use = {"*" #call, 0, 0}; \
        volatile uint32_t *here = paint(); \
        int answer = __real_bsdudp_##call arguments; \
        note(&use, here); \
        return answer; \
    }

typedef struct bsdudp stack;
typedef const struct bsdudp_addr addr;
CALL(boot_in, (stack * s, const struct bsdudp_config *config, void *at, size_t len), (s, config, at, len))
CALL(end, (stack * s), (s))
CALL(rx, (stack * s, const void *at, size_t len), (s, at, len))
CALL(tx, (stack * s, void *at, size_t len), (s, at, len))
CALL(tick, (stack * s), (s))
CALL(socket, (stack * s), (s))
CALL(bind, (stack * s, uint32_t fd, addr *local), (s, fd, local))
CALL(connect, (stack * s, uint32_t fd, addr *to), (s, fd, to))
CALL(sendto, (stack * s, uint32_t fd, addr *to, const void *at, size_t len), (s, fd, to, at, len))
CALL(send, (stack * s, uint32_t fd, const void *at, size_t len), (s, fd, at, len))
CALL(recvfrom, (stack * s, uint32_t fd, void *at, size_t len, struct bsdudp_addr *from), (s, fd, at, len, from))
CALL(close, (stack * s, uint32_t fd), (s, fd))
CALL(setsockopt, (stack * s, uint32_t fd, int option, int on), (s, fd, option, on))
CALL(getsockname, (stack * s, uint32_t fd, struct bsdudp_name *name), (s, fd, name))
CALL(next, (stack * s, uint32_t fd, struct bsdudp_next *next), (s, fd, next))
CALL(readable, (stack * s, uint64_t *set), (s, set))
CALL(output_len, (stack * s), (s))
CALL(next_packet, (stack * s), (s))
CALL(unfinished_len, (stack * s), (s))
CALL(unfinished, (stack * s, uint32_t i, struct bsdudp_unfinished *datagram), (s, i, datagram))
CALL(unfinished_range, (stack * s, uint32_t i, uint32_t k, struct bsdudp_range *range), (s, i, k, range))
CALL(counter, (stack * s, uint32_t which, uint64_t *value), (s, which, value))
CALL(mbstat, (stack * s, struct bsdudp_mbstat *usage), (s, usage))

int __real_main(void);
int __wrap_main(void);

int __wrap_main(void)
{
    int answer = __real_main();
    for (; first != 0; first = first->next) {
        char digits[] = " 0000\n";
        uint32_t bit, most = first->most;
        for (bit = 4; bit > 0; bit--, most /= 10)
            digits[bit] = (char)('0' + most % 10);
        machine_say(first->name);
        machine_say(digits);
    }
    return answer;
}
