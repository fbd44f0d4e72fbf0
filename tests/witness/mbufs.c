/*
 * Plays scripts of chains (docs/scripts.md, "Scripts of chains") on the mbuf calls of libusrsctp: FreeBSD's
 * kern/uipc_mbuf.c, compiled by `build` with the sizes of a 32-bit 4.4BSD. Each line of standard input gets one reply.
 * Only lines that bsdudp accepts may be given.
 *
 * libusrsctp has neither sosend nor m_devget, so this file puts the bytes of `user` and `wire` into mbufs, in bsdudp's
 * layouts. `prepend` is M_PREPEND and a copy. All other calls are the library's.
 *
 * Two lines aren't bsdudp's: `writable C OFF LEN` tests M_WRITABLE, like `copyback` before it writes, and `reset`
 * frees all chains. After each line the program ends if a reference count isn't the number of mbufs in slots that
 * refer to the cluster, or if the library has taken an mbuf or a cluster that is in no slot.
 */
#include <stdlib.h>
#include <user_mbuf.h>
#include "hex.h"

#define SLOTS 64
#define LONGEST 65535

struct buffer { unsigned size, seen, pad[2]; };

static struct mbuf *slots[SLOTS];
static int mbufs, clusters;
static uint8_t bytes[LONGEST];

void *__real_malloc(size_t size);
void __real_free(void *buffer);

static void stop(const char *why)
{
    fflush(stdout);
    fprintf(stderr, "the witness: %s\n", why);
    exit(4);
}

/* The library's buffers. A new one is full of 0xa5, a freed one of 0xdd. */
void *__wrap_malloc(size_t size)
{
    struct buffer *it = __real_malloc(sizeof *it + size);
    if (!it) stop("no memory");
    it->size = (unsigned)size;
    mbufs += size == MSIZE, clusters += size == MCLBYTES;
    return memset(it + 1, 0xa5, size);
}

void __wrap_free(void *buffer)
{
    struct buffer *it = (struct buffer *)buffer - 1;
    mbufs -= it->size == MSIZE, clusters -= it->size == MCLBYTES;
    memset(buffer, 0xdd, it->size);
    __real_free(it);
}

static int is_plain(const struct mbuf *m) { return !(m->m_flags & M_EXT); }
static unsigned *seen(const struct mbuf *m) { return &((struct buffer *)m->m_ext.ext_buf - 1)->seen; }

static int length_of(const struct mbuf *m)
{
    int n = 0;
    for (; m; m = m->m_next) n += m->m_len;
    return n;
}

static void census(void)
{
    int all = 0, different = 0;
    for (int i = 0; i < SLOTS; i++)
        for (struct mbuf *m = slots[i]; m; m = m->m_next)
            if (all++, !is_plain(m)) *seen(m) = 0;
    for (int i = 0; i < SLOTS; i++)
        for (struct mbuf *m = slots[i]; m; m = m->m_next)
            if (!is_plain(m)) different += !(*seen(m))++;
    if (all != mbufs) stop("an mbuf is in no slot, or in two");
    if (different != clusters) stop("a cluster is in no slot");
    for (int i = 0; i < SLOTS; i++)
        for (struct mbuf *m = slots[i]; m; m = m->m_next)
            if (!is_plain(m) && *m->m_ext.ref_cnt != *seen(m)) stop("wrong reference count");
}

/* The layouts of new chains: tests/bsdudp/test_layouts.py has examples. */
static struct mbuf *stored(int n, int user)
{
    struct mbuf *top = NULL, **end = &top;
    const uint8_t *from = bytes;
    do {
        struct mbuf *m;
        int first = !top, room = first ? MHLEN : MLEN;
        if (first) MGETHDR(m, M_NOWAIT, MT_DATA); else MGET(m, M_NOWAIT, MT_DATA);
        if (n >= 208) {
            MCLGET(m, M_NOWAIT);
            room = MCLBYTES;
            if (first && user) room -= 56, m->m_data += 56;
        } else if (first && user && n < MHLEN) MH_ALIGN(m, n);
        m->m_len = n < room ? n : room;
        memcpy(mtod(m, char *), from, m->m_len);
        from += m->m_len, n -= m->m_len;
        *end = m, end = &m->m_next;
    } while (n > 0);
    top->m_pkthdr.len = length_of(top);
    return top;
}

static int is_writable(struct mbuf *m, int off, int n)
{
    for (; m; off -= m->m_len, m = m->m_next)
        if (!M_WRITABLE(m) && (off > 0 ? off : 0) < (off + n < m->m_len ? off + n : m->m_len)) return 0;
    return 1;
}

static int show(const struct mbuf *m)
{
    printf("len %d", length_of(m));
    for (; m; m = m->m_next)
        if (is_plain(m)) printf(" P%d", m->m_len); else printf(" C%dx%u", m->m_len, *m->m_ext.ref_cnt);
    return putchar('\n');
}

/* Each caller of m_cat raises the length in the packet header. */
static void cat(struct mbuf *m, struct mbuf *second)
{
    int n = length_of(second);
    m_cat(m, second);
    if (m->m_flags & M_PKTHDR) m->m_pkthdr.len += n;
}

/* Plays a line of several words, of which the first two slots and three numbers are given. Returns the reply, or NULL
 * if it has been printed. */
static const char *play(const char *call, struct mbuf **c, struct mbuf **d, const int *number, const char *last)
{
#define IS(name) (!strcmp(call, name))
    if (IS("user")) *c = stored(of_hex(last, bytes, LONGEST), 1);
    else if (IS("wire")) *c = stored(of_hex(last, bytes, LONGEST), 0);
    else if (IS("copym")) {
        int all = !strcmp(last, "all");
        *c = m_copym(*d, all ? 0 : number[2], all ? M_COPYALL : number[3], M_NOWAIT);
        return *c ? "ok" : "failed";
    } else if (IS("prepend")) {
        int n = of_hex(last, bytes, LONGEST);
        M_PREPEND(*c, n, M_NOWAIT);
        memcpy(mtod(*c, char *), bytes, n);
    } else if (IS("pullup")) {
        *c = m_pullup(*c, number[1]);
        return *c && (*c)->m_len >= number[1] ? "ok" : "failed";
    } else if (IS("adj")) m_adj(*c, number[1]);
    else if (IS("split")) return (*c = m_split(*d, number[2], M_NOWAIT)) ? "ok" : "failed";
    else if (IS("cat")) cat(*c, *d), *d = NULL;
    else if (IS("writable")) return is_writable(*c, number[1], number[2]) ? "ok" : "shared";
    else if (IS("copyback")) {
        int n = of_hex(last, bytes, LONGEST);
        if (!is_writable(*c, number[1], n)) return "shared";
        m_copyback(*c, number[1], n, (caddr_t)bytes);
    } else if (IS("free")) m_freem(*c), *c = NULL;
    else if (IS("copydata")) {
        m_copydata(*c, number[1], number[2], (caddr_t)bytes);
        printf("data "), print_hex(bytes, number[2]), putchar('\n');
        return NULL;
    } else if (IS("show")) return show(*c), NULL;
    else if (IS("reset")) for (int i = 0; i < SLOTS; i++) m_freem(slots[i]), slots[i] = NULL;
    else return "? line";
    return "ok";
}

int main(void)
{
    static char line[4 * LONGEST];
    mbuf_initialize(NULL);
    max_protohdr = 40; /* as ip_init of 4.4BSD sets it: the headers of TCP and IP */
    if (MLEN != 108 || MHLEN != 100 || MCLBYTES != 2048) stop("wrong sizes");
    while (fgets(line, sizeof line, stdin)) {
        char *words[5] = {"", "", "", "", ""}, *last = "";
        int number[4] = {0}, count = 0;
        for (char *it = strtok(line, " \n"); it && count < 5; it = strtok(NULL, " \n")) last = words[count++] = it;
        for (int i = 0; i < 4; i++) number[i] = atoi(words[i + 1]);
        const char *reply = play(words[0], &slots[number[0] & 63], &slots[number[1] & 63], number, last);
        if (reply) puts(reply);
        census();
        fflush(stdout);
    }
    return 0;
}
