/* Random calls on a stack, and the same calls as lines of `bsdudp run`, which runs at the same time: random PROGRAM
   SEED.. Each reply must be the same, byte for byte. For each seed there are five machines, with 10,000 calls each:
   datagrams, fragments, damaged packets, and pools that run empty. The queries must agree with the results of the next
   calls. At the end each call must have failed with each of its errors, and each counter must be above 0. It prints the
   first fault, and then exits with 1. */
#define _POSIX_C_SOURCE 200809L
#include "bsdudp.h"
#include "packets.h"

#include <signal.h>
#include <stdarg.h>
#include <stdio.h>
#include <stdlib.h>
#include <string.h>
#include <sys/wait.h>
#include <unistd.h>

enum { CALLS = 10000, PHASE = 200, TEXT = 140000, KEPT = 16, UNTOUCHED = 0xa5 };

/* The calls that have a line. */
enum kind { SOCKET, BIND, CONNECT, SENDTO, SEND, RECVFROM, CLOSE, SETSOCKOPT, RX, TX, TICK, STAT, MBSTAT, KINDS };

/* How often each is drawn; in each phase one of them is drawn forty times as often. */
static const unsigned weights[KINDS] = {6, 10, 8, 12, 8, 12, 5, 10, 25, 8, 3, 1, 2};

/* The errors of each call, from docs/scripts.md. */
static const struct {
    enum kind kind;
    int errors[10];
} refusals[] = {
    {SOCKET, {BSDUDP_EMFILE}},
    {BIND, {BSDUDP_EBADF, BSDUDP_EINVAL, BSDUDP_EADDRNOTAVAIL, BSDUDP_EADDRINUSE}},
    {CONNECT, {BSDUDP_EBADF, BSDUDP_EADDRNOTAVAIL, BSDUDP_EHOSTUNREACH, BSDUDP_EADDRINUSE}},
    {SENDTO,
     {BSDUDP_EBADF, BSDUDP_EMSGSIZE, BSDUDP_EISCONN, BSDUDP_EADDRNOTAVAIL, BSDUDP_EHOSTUNREACH, BSDUDP_EADDRINUSE,
      BSDUDP_EACCES, BSDUDP_ENOBUFS, BSDUDP_EQUEUE}},
    {SEND, {BSDUDP_EBADF, BSDUDP_EMSGSIZE, BSDUDP_EDESTADDRREQ, BSDUDP_EACCES, BSDUDP_ENOBUFS, BSDUDP_EQUEUE}},
    {RECVFROM, {BSDUDP_EBADF, BSDUDP_EWOULDBLOCK}},
    {CLOSE, {BSDUDP_EBADF}},
    {SETSOCKOPT, {BSDUDP_EBADF}},
};

/* The machines. With 300 mbufs and MTU 68 the output queue is full before the pool is empty. */
static const struct bsdudp_config machines[] = {
    {HOST, BROADCAST, 512, 64, 1500, 1}, {HOST, BROADCAST, 40, 6, 576, 65530}, {HOST, BROADCAST, 300, 8, 68, 7},
    {HOST, BROADCAST, 12, 0, 1500, 0},   {HOST, BROADCAST, 64, 16, 4352, 1},
};

static struct bsdudp stack = BSDUDP_NONE;
static const char *seed_text;
static FILE *to, *from;
static char line[TEXT], reply[TEXT];
static size_t line_len, reply_len;
static enum kind kind;
static bool refused[KINDS][256], counted[BSDUDP_COUNTERS];
static uint8_t bytes[BSDUDP_PACKET], packet[BSDUDP_PACKET], kept[KEPT][BSDUDP_TX_ROOM];
static size_t mtu;
static size_t kept_len[KEPT], kept_count;

static void wrong(const char *what)
{
    fprintf(stderr, "capi/tests/random.c: seed %s: %.60s: %s\n", seed_text, line, what);
    exit(1);
}

/* ---- texts */

static void say(char *text, size_t *len, const char *format, va_list values)
{
    *len += (size_t)vsnprintf(text + *len, TEXT - *len, format, values);
}

static void ask(const char *format, ...)
{
    va_list values;
    va_start(values, format);
    say(line, &line_len, format, values);
    va_end(values);
}

static void answer(const char *format, ...)
{
    va_list values;
    va_start(values, format);
    say(reply, &reply_len, format, values);
    va_end(values);
}

static void put_hex(char *text, size_t *len, const uint8_t *data, size_t count)
{
    size_t k;
    *len += (size_t)sprintf(text + *len, count == 0 ? " -" : " ");
    for (k = 0; k < count; k++) {
        text[(*len)++] = "0123456789abcdef"[data[k] >> 4];
        text[(*len)++] = "0123456789abcdef"[data[k] & 15];
    }
    text[*len] = 0;
}

static void put_addr(char *text, size_t *len, const struct bsdudp_addr *it)
{
    *len += (size_t)sprintf(text + *len, " %u.%u.%u.%u %u", it->ip >> 24, it->ip >> 16 & 255, it->ip >> 8 & 255,
                            it->ip & 255, it->port);
}

/* The reply for an error; otherwise `ok`, with the result if there is one. */
static void answer_number(int number, bool told)
{
    const char *name = bsdudp_error_name(number);
    if (number >= 0) {
        answer(told ? "ok %d" : "ok", number);
        return;
    }
    if (-number < 256)
        refused[kind][-number] = true;
    answer("error %d %s%s", number == -BSDUDP_EQUEUE ? BSDUDP_ENOBUFS : -number, name != NULL ? name : "of no name",
           number == -BSDUDP_EQUEUE ? " queue" : number == -BSDUDP_ENOBUFS ? " pool" : "");
}

/* ---- random choices */

/* A descriptor, mostly one of the first six, so that these are used often. */
static uint32_t some_fd(void)
{
    switch (dice(40)) {
    case 0:
        return dice(70);
    case 1:
        return 0xffffffffu;
    default:
        return BSDUDP_FIRST_FD + dice(dice(2) ? 3 : 6);
    }
}

/* An address and a port: half of them are port 7 of this one. */
static struct bsdudp_addr some_addr(uint32_t likely)
{
    static const uint32_t addresses[] = {0,        HOST,       PEER,       BROADCAST,  PEER,
                                         LOOPBACK, 0x7f000002, 0xe0000001, 0xffffffff, 0x00000001};
    static const uint16_t ports[] = {0, 7, 9, 1024, 65535};
    struct bsdudp_addr it = {likely, 7};
    if (dice(2) == 0) {
        it.ip = addresses[dice(sizeof addresses / sizeof *addresses)];
        it.port = ports[dice(sizeof ports / sizeof *ports)];
    }
    return it;
}

/* A number of bytes for a datagram: few, at a limit, or any number that a socket sends, and one more. */
static size_t some_len(void)
{
    static const unsigned borders[] = {72, 73, 100, 101, 207, 208, 1472, 1473, 1992, 1993, 9216, 9217};
    switch (dice(4)) {
    case 0:
        return borders[dice(sizeof borders / sizeof *borders)];
    case 1:
        return dice(BSDUDP_DATAGRAM + 2);
    default:
        return dice(40);
    }
}

/* ---- calls: each writes its line, and its result as a reply */

static void call_socket(void)
{
    ask("socket");
    answer_number(bsdudp_socket(&stack), true);
}

static void call_bind(void)
{
    uint32_t fd = some_fd();
    struct bsdudp_addr local = some_addr(HOST);
    struct bsdudp_name name;
    int number = bsdudp_bind(&stack, fd, &local);
    ask("bind %u", fd);
    put_addr(line, &line_len, &local);
    answer_number(number, false);
    if (number == 0) {
        bsdudp_getsockname(&stack, fd, &name);
        if (name.local_ip != local.ip || (local.port == 0 ? name.local_port < 1024 : name.local_port != local.port))
            wrong("getsockname tells another local address");
    }
}

static void call_connect(void)
{
    uint32_t fd = some_fd();
    struct bsdudp_addr peer = some_addr(PEER);
    struct bsdudp_name name;
    int number = bsdudp_connect(&stack, fd, &peer);
    ask("connect %u", fd);
    put_addr(line, &line_len, &peer);
    answer_number(number, false);
    if (number == 0) {
        bsdudp_getsockname(&stack, fd, &name);
        if (name.peer_port != peer.port || name.local_ip == 0 || name.local_port == 0)
            wrong("getsockname tells another peer");
    }
}

static void call_sendto(void)
{
    uint32_t fd = some_fd();
    struct bsdudp_addr peer = some_addr(PEER);
    size_t len = some_len();
    ask("sendto %u", fd);
    put_addr(line, &line_len, &peer);
    put_hex(line, &line_len, bytes, len);
    answer_number(bsdudp_sendto(&stack, fd, &peer, bytes, len), true);
}

static void call_send(void)
{
    uint32_t fd = some_fd();
    size_t len = some_len();
    ask("send %u", fd);
    put_hex(line, &line_len, bytes, len);
    answer_number(bsdudp_send(&stack, fd, bytes, len), true);
}

/* Whether the bytes of a buffer from `len` on are unchanged. */
static bool is_untouched(const uint8_t *buffer, size_t len, size_t end)
{
    while (len < end && buffer[len] == UNTOUCHED)
        len++;
    return len >= end;
}

static void call_recvfrom(void)
{
    static uint8_t buffer[BSDUDP_PACKET], peeked[BSDUDP_PACKET];
    uint32_t fd = some_fd(), k;
    size_t len = dice(3) == 0 ? 1 + dice(100) : sizeof buffer;
    struct bsdudp_addr sender = {1, 2}, seen = {1, 2};
    struct bsdudp_next next;
    uint64_t set = 0;
    int waits, number, peek;
    bsdudp_readable(&stack, &set);
    for (k = 0; k < BSDUDP_SOCKETS && dice(2); k++) /* mostly from a socket in which one waits */
        if (set >> k & 1)
            fd = BSDUDP_FIRST_FD + k;
    waits = bsdudp_next(&stack, fd, &next);
    memset(buffer, UNTOUCHED, sizeof buffer);
    memset(peeked, UNTOUCHED, sizeof peeked);
    peek = bsdudp_peek(&stack, fd, peeked, len, &seen);
    number = bsdudp_recvfrom(&stack, fd, buffer, len, &sender);
    if (peek != number || seen.ip != sender.ip || seen.port != sender.port ||
        memcmp(peeked, buffer, sizeof buffer) != 0)
        wrong("peek tells another datagram");
    ask("recvfrom %u %u", fd, (unsigned)len);
    if (number < 0) {
        answer_number(number, false);
        if (sender.ip != 1 || sender.port != 2 || waits != number)
            wrong("a refusal tells a sender, or next answers otherwise");
    } else {
        answer("from");
        put_addr(reply, &reply_len, &sender);
        put_hex(reply, &reply_len, buffer, (size_t)number);
        if (waits != 0 || next.ip != sender.ip || next.port != sender.port || next.waiting == 0)
            wrong("next tells another datagram");
        if ((size_t)number != (next.len < len ? next.len : len))
            wrong("next tells another length");
    }
    if (!is_untouched(buffer, number < 0 ? 0 : (size_t)number, sizeof buffer))
        wrong("the buffer behind the bytes was written to");
    if (fd >= BSDUDP_FIRST_FD && fd < BSDUDP_FIRST_FD + BSDUDP_SOCKETS)
        if ((set >> (fd - BSDUDP_FIRST_FD) & 1) != (number >= 0))
            wrong("readable tells otherwise");
}

static void call_close(void)
{
    uint32_t fd = some_fd();
    ask("close %u", fd);
    answer_number(bsdudp_close(&stack, fd), false);
}

static void call_setsockopt(void)
{
    uint32_t fd = some_fd();
    bool shares = dice(3) != 0, on = dice(4) != 0;
    struct bsdudp_name name;
    int number = bsdudp_setsockopt(&stack, fd, shares ? BSDUDP_SO_REUSEPORT : BSDUDP_SO_BROADCAST, on);
    ask("setsockopt %u %s %d", fd, shares ? "reuseport" : "broadcast", on);
    answer_number(number, false);
    if (number == 0) {
        bsdudp_getsockname(&stack, fd, &name);
        if ((shares ? name.reuse_port : name.broadcast) != on)
            wrong("getsockname tells another option");
    }
}

/* The address and port of a socket, and its peer's port, if it's one that receives from the peer. */
static struct bsdudp_addr some_name(uint16_t *peer_port)
{
    struct bsdudp_addr it = some_addr(HOST);
    struct bsdudp_name name;
    *peer_port = dice(2) ? 7 : 5000;
    if (dice(4) != 0 && bsdudp_getsockname(&stack, some_fd(), &name) == 0 && name.local_port != 0) {
        it.ip = name.local_ip == 0 ? HOST : name.local_ip;
        it.port = name.local_port;
        *peer_port = name.peer_port == 0 ? *peer_port : name.peer_port;
    }
    return it;
}

/* Each unfinished datagram has separate ranges in order, and the sum of their lengths. */
static void look_at_unfinished(void)
{
    struct bsdudp_unfinished datagram;
    struct bsdudp_range range;
    int count = bsdudp_unfinished_len(&stack), i;
    for (i = 0; i < count; i++) {
        uint32_t sum = 0, end = 0, k;
        if (bsdudp_unfinished(&stack, (uint32_t)i, &datagram) != 0 || datagram.ticks < 1 || datagram.ticks > 60)
            wrong("an unfinished datagram isn't told, or has no time left");
        for (k = 0; k < datagram.ranges; k++) {
            if (bsdudp_unfinished_range(&stack, (uint32_t)i, k, &range) != 0 || range.offset < end || range.len == 0)
                wrong("a range isn't told, or not apart from the one in front");
            end = range.offset + range.len;
            sum += range.len;
        }
        if (k == 0 || sum != datagram.bytes)
            wrong("the ranges have other bytes");
        if (bsdudp_unfinished_range(&stack, (uint32_t)i, k, &range) != -BSDUDP_EINVAL)
            wrong("there is a range more");
    }
    if (bsdudp_unfinished(&stack, (uint32_t)count, &datagram) != -BSDUDP_EINVAL)
        wrong("there is an unfinished datagram more");
}

/* A packet from a peer, or one that this stack sent: whole, as a fragment, or damaged. */
static void call_rx(void)
{
    uint16_t peer_port;
    struct bsdudp_addr local = some_name(&peer_port);
    size_t len;
    if (kept_count > 0 && dice(5) == 0) {
        size_t which = dice((unsigned)kept_count);
        len = kept_len[which];
        memcpy(packet, kept[which], len);
    } else {
        uint16_t ident = (uint16_t)dice(4);
        size_t data = dice(3) == 0 ? dice(dice(4) == 0 ? 65508 : 9300) : dice(300);
        len = make_packet(packet, peer_port, local.ip, local.port, ident, bytes, data);
    }
    if (len > 28 && dice(2) == 0)
        len = keep_fragment(packet, len);
    if (dice(4) == 0)
        len = damage(packet, len);
    ask("rx");
    put_hex(line, &line_len, packet, len);
    answer_number(bsdudp_rx(&stack, packet, len), false);
    look_at_unfinished();
}

static void call_tx(void)
{
    static uint8_t buffer[BSDUDP_TX_ROOM + 8];
    int next = bsdudp_next_packet(&stack), waiting = bsdudp_output_len(&stack), len;
    memset(buffer, UNTOUCHED, sizeof buffer);
    if (bsdudp_tx(&stack, buffer, mtu - 1) != -BSDUDP_EMSGSIZE || bsdudp_output_len(&stack) != waiting)
        wrong("a buffer shorter than the MTU is taken, or changes something");
    len = bsdudp_tx(&stack, buffer, mtu);
    ask("tx");
    if (len != next || bsdudp_output_len(&stack) != waiting - (waiting > 0))
        wrong("next_packet or output_len tells otherwise");
    if (len < 0 || !is_untouched(buffer, (size_t)len, sizeof buffer))
        wrong("the buffer behind the packet was written to");
    if (len == 0) {
        answer("none");
        return;
    }
    answer("packet");
    put_hex(reply, &reply_len, buffer, (size_t)len);
    kept_count += kept_count < KEPT;
    kept_len[kept_count - 1] = (size_t)len;
    memcpy(kept[kept_count - 1], buffer, (size_t)len);
    if (dice(2) == 0) /* as the peer's reply */
        turn_round(kept[kept_count - 1]);
}

static void call_tick(void)
{
    ask("tick");
    answer_number(bsdudp_tick(&stack), false);
}

static void call_stat(void)
{
    uint32_t k;
    ask("stat");
    answer("stat");
    for (k = 0; k < BSDUDP_COUNTERS; k++) {
        uint64_t value = 0;
        bsdudp_counter(&stack, k, &value);
        if (value != 0)
            answer(" %s=%llu", bsdudp_counter_name(k), (unsigned long long)value);
        counted[k] |= value != 0;
    }
}

static void call_mbstat(void)
{
    struct bsdudp_mbstat it;
    ask("mbstat");
    if (bsdudp_mbstat(&stack, &it) == 0)
        answer("mbufs %u/%u clusters %u/%u refs %u most %u", it.free_mbufs, it.mbufs, it.free_clusters, it.clusters,
               it.refs, it.most);
}

static void (*const calls[KINDS])(void) = {call_socket, call_bind,       call_connect, call_sendto, call_send,
                                           call_recvfrom, call_close,    call_setsockopt, call_rx,  call_tx,
                                           call_tick,   call_stat,       call_mbstat};

/* ---- the program that runs at the same time */

static pid_t start(const char *program, const struct bsdudp_config *it)
{
    char mbufs[16], clusters[16], mtu[16], id[16];
    int in[2], out[2];
    pid_t child;
    sprintf(mbufs, "%u", it->mbufs), sprintf(clusters, "%u", it->clusters);
    sprintf(mtu, "%u", it->mtu), sprintf(id, "%u", it->first_id);
    if (pipe(in) < 0 || pipe(out) < 0 || (child = fork()) < 0)
        wrong("no process");
    if (child == 0) {
        dup2(in[0], 0), dup2(out[1], 1);
        close(in[0]), close(in[1]), close(out[0]), close(out[1]);
        execl(program, program, "run", "--mbufs", mbufs, "--clusters", clusters, "--mtu", mtu, "--id", id, (char *)0);
        _exit(127);
    }
    close(in[0]), close(out[1]);
    to = fdopen(in[1], "w"), from = fdopen(out[0], "r");
    return child;
}

static void stop(pid_t child)
{
    int status = -1;
    fclose(to);
    if (waitpid(child, &status, 0) != child || status != 0)
        wrong("the program doesn't end well");
    fclose(from);
}

/* The program's reply to the line. */
static void compare(void)
{
    static char theirs[TEXT];
    fprintf(to, "%s\n", line);
    if (fflush(to) != 0 || fgets(theirs, sizeof theirs, from) == NULL)
        wrong("the program has no reply");
    theirs[strcspn(theirs, "\n")] = 0;
    if (strcmp(theirs, reply) != 0) {
        fprintf(stderr, "capi/tests/random.c: seed %s: %.60s: %.60s, but the program replies %.60s\n", seed_text, line,
                reply, theirs);
        exit(1);
    }
}

static void do_call(enum kind which)
{
    kind = which;
    line_len = reply_len = 0;
    line[0] = reply[0] = 0;
    calls[kind]();
    compare();
}

static enum kind some_kind(enum kind favoured)
{
    unsigned all = 0, drawn, k;
    for (k = 0; k < KINDS; k++)
        all += weights[k] * (k == favoured ? 40 : 1);
    drawn = dice(all);
    for (k = 0; k < KINDS - 1; k++) {
        unsigned weight = weights[k] * (k == favoured ? 40 : 1);
        if (drawn < weight)
            break;
        drawn -= weight;
    }
    return (enum kind)k;
}

static void run(const char *program, const struct bsdudp_config *config)
{
    enum kind favoured = SOCKET;
    pid_t child = start(program, config);
    int turn;
    kept_count = 0;
    mtu = config->mtu;
    if (bsdudp_boot(&stack, config) < 0)
        wrong("no stack");
    for (turn = 0; turn < CALLS; turn++) {
        if (turn % PHASE == 0)
            favoured = (enum kind)dice(KINDS);
        do_call(some_kind(favoured));
    }
    do_call(STAT);
    do_call(MBSTAT);
    stop(child);
    if (bsdudp_end(&stack) < 0)
        wrong("the stack doesn't end");
}

/* Each error of each call, and each counter. */
static int all_came(void)
{
    size_t k, e;
    int missing = 0;
    for (k = 0; k < sizeof refusals / sizeof *refusals; k++)
        for (e = 0; e < 10 && refusals[k].errors[e] != 0; e++)
            if (!refused[refusals[k].kind][refusals[k].errors[e]]) {
                fprintf(stderr, "capi/tests/random.c: these seeds never have call %d refused with %d\n",
                        refusals[k].kind, refusals[k].errors[e]);
                missing = 1;
            }
    for (k = 0; k < BSDUDP_COUNTERS; k++)
        if (!counted[k]) {
            fprintf(stderr, "capi/tests/random.c: with these seeds %s never counts\n",
                    bsdudp_counter_name((uint32_t)k));
            missing = 1;
        }
    return missing;
}

int main(int argc, char **argv)
{
    size_t k;
    int at;
    if (argc < 3)
        return fprintf(stderr, "usage: random PROGRAM SEED..\n"), 2;
    signal(SIGPIPE, SIG_IGN);
    for (k = 0; k < sizeof bytes; k++)
        bytes[k] = (uint8_t)(k % 251);
    for (at = 2; at < argc; at++) {
        seed_text = argv[at];
        seed = strtoull(seed_text, NULL, 10);
        for (k = 0; k < sizeof machines / sizeof *machines; k++)
            run(argv[1], &machines[k]);
    }
    return all_came();
}
