/* The language of `bsdudp run` (docs/scripts.md) with bsdudp.h. The input is one script after another: a line with
   options, such as `--mtu 68`, the script's lines, and a byte 0. The output has, for each script, a
   line for each reply, and a byte 0. It uses the functions of run.h, so that it runs on a board too. */
#include "run.h"

#include "bsdudp.h"

#include <string.h>

enum { LINE = 131200, WORDS = 6 };

static char line[LINE + 2]; /* one byte more than a line of any form has, and an end */
static uint8_t bytes[BSDUDP_PACKET];
static struct bsdudp stack;

struct word {
    const char *at;
    size_t len;
};

/* ---- replies */

static void say(const char *text) { run_put(text, strlen(text)); }

static void say_number(uint64_t number)
{
    char digits[20];
    size_t at = sizeof digits;
    do
        digits[--at] = (char)('0' + number % 10);
    while ((number /= 10) != 0);
    run_put(digits + at, sizeof digits - at);
}

static void say_hex(const uint8_t *from, size_t len)
{
    static const char digits[] = "0123456789abcdef";
    size_t i;
    for (i = 0; i < len; i++) {
        char two[2];
        two[0] = digits[from[i] >> 4];
        two[1] = digits[from[i] & 15];
        run_put(two, 2);
    }
    if (len == 0)
        say("-");
}

static void say_addr(uint32_t ip)
{
    int shift;
    for (shift = 24; shift >= 0; shift -= 8) {
        say_number(ip >> shift & 255);
        say(shift != 0 ? "." : "");
    }
}

/* Whether a result is an error; it's then printed. */
static int refused(int answer)
{
    const char *name = bsdudp_error_name(answer);
    if (answer >= 0)
        return 0;
    say("error ");
    say_number((uint64_t)(answer == -BSDUDP_EQUEUE ? BSDUDP_ENOBUFS : -answer));
    say(" ");
    say(name != NULL ? name : "that no call can have");
    say(answer == -BSDUDP_EQUEUE ? " queue" : answer == -BSDUDP_ENOBUFS ? " pool" : "");
    return 1;
}

static void say_done(int answer) { say(refused(answer) ? "" : "ok"); }

static void say_count(int answer)
{
    if (refused(answer))
        return;
    say("ok ");
    say_number((uint64_t)answer);
}

static void say_stat(void)
{
    uint32_t which;
    uint64_t value;
    say("stat");
    for (which = 0; bsdudp_counter(&stack, which, &value) == 0; which++) {
        if (value == 0)
            continue;
        say(" ");
        say(bsdudp_counter_name(which));
        say("=");
        say_number(value);
    }
}

static void say_mbstat(void)
{
    static const char *const texts[] = {"mbufs ", "/", " clusters ", "/", " refs ", " most "};
    struct bsdudp_mbstat usage;
    uint32_t values[6];
    int i;
    bsdudp_mbstat(&stack, &usage);
    values[0] = usage.free_mbufs, values[1] = usage.mbufs, values[2] = usage.free_clusters;
    values[3] = usage.clusters, values[4] = usage.refs, values[5] = usage.most;
    for (i = 0; i < 6; i++) {
        say(texts[i]);
        say_number(values[i]);
    }
}

/* ---- words */

static int is(struct word word, const char *text)
{
    return word.len == strlen(text) && memcmp(word.at, text, word.len) == 0;
}

/* A number of at most `most`, without leading zeros. */
static int number_of(struct word word, uint32_t most, uint32_t *number)
{
    uint64_t value = 0;
    size_t i;
    if (word.len == 0 || word.len > 10 || (word.len > 1 && word.at[0] == '0'))
        return 0;
    for (i = 0; i < word.len; i++) {
        if (word.at[i] < '0' || word.at[i] > '9')
            return 0;
        value = 10 * value + (uint64_t)(word.at[i] - '0');
    }
    *number = (uint32_t)value;
    return value <= most;
}

static int ip_of(struct word word, uint32_t *ip)
{
    uint32_t part;
    int dots;
    *ip = 0;
    for (dots = 3; dots >= 0; dots--) {
        const char *dot = dots != 0 ? memchr(word.at, '.', word.len) : word.at + word.len;
        struct word first;
        if (dot == NULL)
            return 0;
        first.at = word.at;
        first.len = (size_t)(dot - word.at);
        if (!number_of(first, 255, &part))
            return 0;
        *ip = *ip << 8 | part;
        word.len -= dots != 0 ? first.len + 1 : 0;
        word.at = dot + 1;
    }
    return 1;
}

static int addr_of(const struct word *words, struct bsdudp_addr *addr)
{
    uint32_t port;
    if (!ip_of(words[0], &addr->ip) || !number_of(words[1], 65535, &port))
        return 0;
    addr->port = (uint16_t)port;
    return 1;
}

static int digit_of(char c)
{
    if (c >= '0' && c <= '9')
        return c - '0';
    if (c >= 'a' && c <= 'f')
        return c - 'a' + 10;
    return c >= 'A' && c <= 'F' ? c - 'A' + 10 : -1;
}

/* Bytes, which are then in `bytes`. */
static int bytes_of(struct word word, size_t *len)
{
    size_t i;
    *len = 0;
    if (is(word, "-"))
        return 1;
    if (word.len == 0 || word.len % 2 != 0 || word.len > 2 * sizeof bytes)
        return 0;
    for (i = 0; i < word.len; i += 2) {
        int high = digit_of(word.at[i]), low = digit_of(word.at[i + 1]);
        if (high < 0 || low < 0)
            return 0;
        bytes[i / 2] = (uint8_t)(high << 4 | low);
    }
    *len = word.len / 2;
    return 1;
}

/* The words between single spaces, at most one more than any line has. */
static int split(const char *text, size_t len, struct word *words)
{
    size_t from = 0, i;
    int count = 0;
    for (i = 0; i <= len; i++) {
        if (i < len && text[i] != ' ')
            continue;
        if (count == WORDS)
            return WORDS;
        words[count].at = text + from;
        words[count++].len = i - from;
        from = i + 1;
    }
    return count;
}

/* ---- lines: each of these returns whether the line has its form, and has then printed the reply */

static int plain(const struct word *w, int count)
{
    int len;
    if (count != 1)
        return 0;
    if (is(w[0], "socket"))
        say_count(bsdudp_socket(&stack));
    else if (is(w[0], "tick"))
        say_done(bsdudp_tick(&stack));
    else if (is(w[0], "stat"))
        say_stat();
    else if (is(w[0], "mbstat"))
        say_mbstat();
    else if (is(w[0], "tx")) {
        len = bsdudp_tx(&stack, bytes, BSDUDP_TX_ROOM);
        say(len > 0 ? "packet " : "none");
        if (len > 0)
            say_hex(bytes, (size_t)len);
    } else
        return 0;
    return 1;
}

static int receives(const struct word *w, int count)
{
    struct bsdudp_addr from;
    uint32_t fd, len;
    size_t octets;
    int answer;
    if (count == 2 && is(w[0], "rx") && bytes_of(w[1], &octets)) {
        say_done(bsdudp_rx(&stack, bytes, octets));
        return 1;
    }
    if (count != 3 || !is(w[0], "recvfrom") || !number_of(w[1], 0xffffffff, &fd))
        return 0;
    if (!number_of(w[2], 65535, &len) || len == 0)
        return 0;
    answer = bsdudp_recvfrom(&stack, fd, bytes, len, &from);
    if (refused(answer))
        return 1;
    say("from ");
    say_addr(from.ip);
    say(" ");
    say_number(from.port);
    say(" ");
    say_hex(bytes, (size_t)answer);
    return 1;
}

static int sends(const struct word *w, int count)
{
    struct bsdudp_addr to;
    uint32_t fd;
    size_t len;
    if (count < 3 || !number_of(w[1], 0xffffffff, &fd))
        return 0;
    if (count == 3 && is(w[0], "send") && bytes_of(w[2], &len))
        say_count(bsdudp_send(&stack, fd, bytes, len));
    else if (count == 5 && is(w[0], "sendto") && addr_of(w + 2, &to) && bytes_of(w[4], &len))
        say_count(bsdudp_sendto(&stack, fd, &to, bytes, len));
    else
        return 0;
    return 1;
}

static int of_sockets(const struct word *w, int count)
{
    struct bsdudp_addr addr;
    uint32_t fd, on;
    if (count < 2 || !number_of(w[1], 0xffffffff, &fd))
        return 0;
    if (count == 2 && is(w[0], "close"))
        say_done(bsdudp_close(&stack, fd));
    else if (count == 4 && is(w[0], "bind") && addr_of(w + 2, &addr))
        say_done(bsdudp_bind(&stack, fd, &addr));
    else if (count == 4 && is(w[0], "connect") && addr_of(w + 2, &addr))
        say_done(bsdudp_connect(&stack, fd, &addr));
    else if (count == 4 && is(w[0], "setsockopt") && number_of(w[3], 1, &on) && is(w[2], "broadcast"))
        say_done(bsdudp_setsockopt(&stack, fd, BSDUDP_SO_BROADCAST, (int)on));
    else if (count == 4 && is(w[0], "setsockopt") && number_of(w[3], 1, &on) && is(w[2], "reuseport"))
        say_done(bsdudp_setsockopt(&stack, fd, BSDUDP_SO_REUSEPORT, (int)on));
    else
        return 0;
    return 1;
}

static void answer_line(size_t len)
{
    struct word words[WORDS];
    int count = len <= LINE ? split(line, len, words) : 0;
    if (!plain(words, count) && !receives(words, count) && !sends(words, count) && !of_sockets(words, count))
        say("? line");
    say("\n");
}

/* ---- scripts */

/* The configuration from a line of options (docs/scripts.md). */
static int config_of(size_t len, struct bsdudp_config *config)
{
    static const struct bsdudp_config usual = {0x0a000001, 0x0a0000ff, 512, 64, 1500, 1};
    struct word words[2 * WORDS];
    size_t from = 0;
    uint32_t number;
    *config = usual;
    while (from < len) {
        const char *text = line + from, *space = memchr(text, ' ', len - from), *end;
        if (space == NULL)
            return 0;
        end = memchr(space + 1, ' ', len - (size_t)(space + 1 - line));
        words[0].at = text, words[0].len = (size_t)(space - text);
        words[1].at = space + 1, words[1].len = (size_t)((end != NULL ? end : line + len) - words[1].at);
        from = (size_t)(words[1].at - line) + words[1].len + 1;
        if (is(words[0], "--addr") && ip_of(words[1], &config->addr))
            continue;
        if (is(words[0], "--bcast") && ip_of(words[1], &config->bcast))
            continue;
        if (!number_of(words[1], 0xffffffff, &number))
            return 0;
        if (is(words[0], "--mbufs"))
            config->mbufs = number;
        else if (is(words[0], "--clusters"))
            config->clusters = number;
        else if (is(words[0], "--mtu"))
            config->mtu = (uint16_t)number;
        else if (is(words[0], "--id"))
            config->first_id = (uint16_t)number;
        else
            return 0;
    }
    return 1;
}

/* Reads a line. Returns the byte after it: a line feed, 0, or -1 at the end of the input. */
static int read_line(size_t *len)
{
    int c;
    *len = 0;
    while ((c = run_get()) > 0 && c != '\n') {
        line[*len] = (char)c;
        *len += *len <= LINE;
    }
    return c;
}

void run_scripts(void *(*memory_of)(size_t))
{
    struct bsdudp_config config;
    size_t len;
    int end;
    while ((end = read_line(&len)) == '\n') {
        void *memory;
        if (!config_of(len, &config) || (memory = memory_of(bsdudp_memory(&config))) == NULL
            || bsdudp_boot_in(&stack, &config, memory, bsdudp_memory(&config)) != 0) {
            say("no such stack\n");
            return;
        }
        while ((end = read_line(&len)) == '\n')
            answer_line(len);
        if (len > 0)
            answer_line(len);
        bsdudp_end(&stack);
        run_put("", 1);
        run_flush();
    }
}
