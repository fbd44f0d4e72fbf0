/*
 * kit.h: for an adapter in C or C++ between a UDP/IPv4 stack and the judge, bsdudp-conform.
 *
 * Put the calls of your stack into a struct kit_stack, and let main return kit_serve(&it). template.c is a template.
 * Cases are read from standard input, and results are written to standard output, so don't print there. Each case is
 * played in its own process: the stack is new, and a crash affects only one case.
 */
#ifndef BSDUDP_CONFORM_KIT_H
#define BSDUDP_CONFORM_KIT_H

#include <stdint.h>
#include <stdio.h>
#include <stdlib.h>
#include <string.h>
#include <sys/wait.h>
#include <unistd.h>

struct kit_stack {
    const char *name;                                     /* "lwIP 2.1.3" */
    const char *has;                                      /* of: out ping send mtu sockets connect hold offload
                                                             reassembly gateway; or "" */
    void (*boot)(int mtu);                                /* 10.0.0.1/24; socket 0 on port 7 of any address */
    void (*rx)(const uint8_t *packet, int length);        /* a packet comes from the wire, from its IPv4 header on */
    void (*wait)(int ms);                                 /* time passes */
    void (*end)(void);                                    /* the case is over; may be NULL */
    void (*socket)(int number, int port);                 /* has sockets: another one, on a port */
    void (*connect)(int number, uint32_t addr, int port); /* has connect: a socket is connected. Call kit_refused if
                                                             the stack refuses */
    /* has send; 0: refused. If the socket is connected, this is its peer's address: send without one */
    int (*send)(int number, uint32_t addr, int port, const uint8_t *bytes, int length);
    void (*hold)(int number);                             /* has hold: from now on, a socket is read only by read */
    void (*read)(int number, int count);                  /* has hold: reads up to this many, and calls kit_got_at */
};

static int kit_step; /* the number of the step that is played */

static void kit_hex(const uint8_t *bytes, int length)
{
    static const char digit[] = "0123456789abcdef";
    if (length == 0) putchar('-');
    for (int i = 0; i < length; i++) {
        putchar(digit[bytes[i] >> 4]);
        putchar(digit[bytes[i] & 15]);
    }
}

/* Reports that a socket received a datagram from addr (in the host's byte order) and port. */
static inline void kit_got_at(int number, uint32_t addr, int port, const uint8_t *bytes, int length)
{
    printf("got %d %u.%u.%u.%u %d ", kit_step, addr >> 24, addr >> 16 & 255, addr >> 8 & 255, addr & 255, port);
    kit_hex(bytes, length);
    printf(number ? " %d\n" : "\n", number);
}

/* Reports that socket 0 received a datagram. */
static inline void kit_got(uint32_t addr, int port, const uint8_t *bytes, int length)
{
    kit_got_at(0, addr, port, bytes, length);
}

/* Reports that socket 0 received a datagram whose sender can't be known. */
static inline void kit_got_unknown(const uint8_t *bytes, int length)
{
    printf("got %d * 0 ", kit_step);
    kit_hex(bytes, length);
    putchar('\n');
}

/* Reports that the stack sent a packet. */
static inline void kit_out(const uint8_t *packet, int length)
{
    printf("out %d ", kit_step);
    kit_hex(packet, length);
    putchar('\n');
}

/* Reports that the stack refused to connect a socket. For a send, return 0. */
static inline void kit_refused(void)
{
    printf("refused %d\n", kit_step);
}

/* Reads hexadecimal bytes into a block of exactly their length, so that a tool detects reads beyond it. */
static uint8_t *kit_bytes(const char *text, int *length)
{
    size_t size = strlen(text) / 2;
    uint8_t *block = (uint8_t *)malloc(size ? size : 1);
    if (block == NULL) abort();
    *length = *text == '-' ? 0 : (int)size;
    for (int i = 0; i < *length; i++) {
        char pair[3] = {text[2 * i], text[2 * i + 1], 0};
        block[i] = (uint8_t)strtoul(pair, NULL, 16);
    }
    return block;
}

static uint32_t kit_addr(const char *text)
{
    unsigned a = 0, b = 0, c = 0, d = 0;
    sscanf(text, "%u.%u.%u.%u", &a, &b, &c, &d);
    return a << 24 | b << 16 | c << 8 | d;
}

static void kit_play_line(const struct kit_stack *it, char *line)
{
    char *word[5] = {line, NULL, NULL, NULL, NULL};
    int length;
    for (int i = 1; i < 5 && word[i - 1] != NULL; i++) {
        word[i] = strchr(word[i - 1], ' ');
        if (word[i] != NULL) *word[i]++ = 0;
    }
    if (strcmp(line, "rx") == 0) {
        uint8_t *block = kit_bytes(word[1], &length);
        it->rx(block, length);
        free(block);
    } else if (strcmp(line, "wait") == 0) {
        it->wait(atoi(word[1]));
    } else if (strcmp(line, "socket") == 0 && it->socket) {
        it->socket(atoi(word[1]), atoi(word[2]));
    } else if (strcmp(line, "connect") == 0 && it->connect) {
        it->connect(atoi(word[1]), kit_addr(word[2]), atoi(word[3]));
    } else if (strcmp(line, "hold") == 0 && it->hold) {
        it->hold(atoi(word[1]));
    } else if (strcmp(line, "read") == 0 && it->read) {
        it->read(atoi(word[1]), atoi(word[2]));
    } else if (strcmp(line, "send") == 0 && it->send) {
        uint8_t *block = kit_bytes(word[4], &length);
        if (!it->send(atoi(word[1]), kit_addr(word[2]), atoi(word[3]), block, length)) kit_refused();
        free(block);
    }
}

static void kit_play(const struct kit_stack *it, char **lines, int count)
{
    int first = count > 0 && strncmp(lines[0], "mtu ", 4) == 0;
    it->boot(first ? atoi(lines[0] + 4) : 1500);
    for (kit_step = 0; kit_step < count - first; kit_step++) kit_play_line(it, lines[kit_step + first]);
    kit_step = count - first - 1;
    if (it->end) it->end();
    fflush(stdout);
    _exit(0);
}

/* Plays a case in a new process. */
static void kit_case(const struct kit_stack *it, char **lines, int count)
{
    int status = 0;
    fflush(stdout);
    pid_t child = fork();
    if (child == 0) kit_play(it, lines, count);
    waitpid(child, &status, 0);
    if (WIFSIGNALED(status)) printf("crash signal %d\n", WTERMSIG(status));
    else if (WEXITSTATUS(status)) printf("crash status %d\n", WEXITSTATUS(status));
    printf("end\n");
    fflush(stdout);
}

/* Serves cases until standard input ends. */
static int kit_serve(const struct kit_stack *it)
{
    char *line = NULL, **lines = NULL;
    size_t size = 0;
    int count = 0;
    while (getline(&line, &size, stdin) > 0) {
        line[strcspn(line, "\n")] = 0;
        if (strncmp(line, "hello", 5) == 0) {
            printf("stack %s\nhas %s\nend\n", it->name, it->has);
            fflush(stdout);
        } else if (strncmp(line, "case ", 5) == 0) {
            while (count) free(lines[--count]);
            printf("%s\n", line);
        } else if (strcmp(line, "end") == 0) {
            kit_case(it, lines, count);
        } else {
            lines = (char **)realloc(lines, (size_t)(count + 1) * sizeof *lines);
            if (lines == NULL) abort();
            lines[count++] = strdup(line);
        }
    }
    free(line);
    return 0;
}

#endif
