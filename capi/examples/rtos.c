/* A stack that the tasks of an RTOS share. One task handles packets and time. Each service has a task of its own, which
   waits for its socket. The link's interrupt only fills a queue. Here the tasks are threads of Linux, by rtos.h, and
   the peer is another stack, which sends datagrams to two services and expects them back.
       cc -std=gnu99 -pthread rtos.c -I PREFIX/include PREFIX/lib/libbsdudp.a && ./a.out */
#include "bsdudp.h"
#include "rtos.h"

#include <stdio.h>

enum { MTU = 576, HALF_SECOND = 500, SERVICES = 2, PORT = 7, TURNS = 300, LONGEST = 2000, PATIENCE = 60000 };

static unsigned char memory[BSDUDP_MEMORY(128, 32)] __attribute__((aligned(BSDUDP_ALIGNMENT)));
static struct bsdudp stack = BSDUDP_NONE;
static mutex turn = MUTEX; /* protects each call on `stack`, and is_over */
static struct flags readable = FLAGS;
static struct queue received, sent; /* packets from the link, and packets for it */
static int is_over;

/* Sends the packets for the link, and wakes the tasks whose sockets are readable. Call it after each call by which a
   datagram may arrive or leave. The caller holds the lock. */
static void pass_on(void)
{
    static uint8_t packet[MTU];
    uint64_t set = 0;
    int len;
    while ((len = bsdudp_tx(&stack, packet, sizeof packet)) > 0)
        queue_put(&sent, packet, len);
    bsdudp_readable(&stack, &set);
    flags_set(&readable, set);
}

/* The task of the stack. */
static void *net_task(void *none)
{
    static uint8_t packet[SLOT];
    long long next = milliseconds() + HALF_SECOND;
    int is_running = 1;
    while (is_running) {
        int len = queue_take(&received, packet, next);
        lock(&turn);
        if (len > 0)
            bsdudp_rx(&stack, packet, (size_t)len);
        for (; milliseconds() >= next; next += HALF_SECOND)
            bsdudp_tick(&stack);
        pass_on();
        is_running = !is_over;
        unlock(&turn);
    }
    return none;
}

/* A bsdudp_recvfrom that waits. A flag that is set after the call and before the wait stays set, so none is missed. */
static int receive(uint32_t fd, void *buffer, size_t len, struct bsdudp_addr *from)
{
    for (;;) {
        int result;
        lock(&turn);
        result = bsdudp_recvfrom(&stack, fd, buffer, len, from);
        unlock(&turn);
        if (result != -BSDUDP_EWOULDBLOCK)
            return result;
        flags_wait(&readable, (uint64_t)1 << (fd - BSDUDP_FIRST_FD));
    }
}

/* The task of a service, until its socket is closed. */
static void *echo_task(void *of)
{
    const uint32_t fd = *(const uint32_t *)of;
    uint8_t bytes[LONGEST];
    struct bsdudp_addr from;
    int len;
    while ((len = receive(fd, bytes, sizeof bytes, &from)) >= 0) {
        lock(&turn);
        bsdudp_sendto(&stack, fd, &from, bytes, (size_t)len);
        pass_on();
        unlock(&turn);
    }
    return NULL;
}

/* ---- the peer: sends a datagram to each service, waits for the echoes, and returns how many are missing. */
static int missing(struct bsdudp *peer, int number)
{
    static uint8_t bytes[LONGEST], back[LONGEST], packet[MTU];
    const int wanted = number * 7 % (LONGEST + 1);
    struct bsdudp_addr to = {BSDUDP_IP(10, 0, 0, 1), PORT};
    int left = SERVICES, len;
    memset(bytes, number, sizeof bytes);
    for (; to.port < PORT + SERVICES; to.port++)
        bsdudp_sendto(peer, BSDUDP_FIRST_FD, &to, bytes, (size_t)wanted);
    while ((len = bsdudp_tx(peer, packet, sizeof packet)) > 0)
        queue_put(&received, packet, len); /* the interrupt of the board's link */
    while (left > 0 && (len = queue_take(&sent, packet, milliseconds() + PATIENCE)) > 0) {
        bsdudp_rx(peer, packet, (size_t)len);
        while ((len = bsdudp_recvfrom(peer, BSDUDP_FIRST_FD, back, sizeof back, &to)) >= 0)
            left -= len == wanted && memcmp(back, bytes, (size_t)len) == 0;
    }
    return left;
}

int main(void)
{
    struct bsdudp_config config = {BSDUDP_IP(10, 0, 0, 1), BSDUDP_IP(10, 0, 0, 255), 128, 32, MTU, 1};
    struct bsdudp peer = BSDUDP_NONE;
    task tasks[SERVICES + 1];
    uint32_t fds[SERVICES];
    int k, number, lost = 0;
    queue_make(&received);
    queue_make(&sent);
    if (bsdudp_boot_in(&stack, &config, memory, sizeof memory) < 0)
        return 1;
    config.addr = BSDUDP_IP(10, 0, 0, 2);
    if (bsdudp_boot(&peer, &config) < 0 || bsdudp_socket(&peer) < 0)
        return 1;
    for (k = 0; k < SERVICES; k++) {
        const struct bsdudp_addr local = {0, (uint16_t)(PORT + k)};
        const int fd = bsdudp_socket(&stack);
        if (fd < 0 || bsdudp_bind(&stack, (uint32_t)fd, &local) < 0)
            return 1;
        fds[k] = (uint32_t)fd;
    }
    task_start(&tasks[SERVICES], net_task, NULL);
    for (k = 0; k < SERVICES; k++)
        task_start(&tasks[k], echo_task, &fds[k]);
    for (number = 0; number < TURNS && lost == 0; number++)
        lost += missing(&peer, number);
    lock(&turn);
    for (is_over = 1, k = 0; k < SERVICES; k++)
        bsdudp_close(&stack, fds[k]);
    unlock(&turn);
    flags_set(&readable, ~(uint64_t)0);
    for (k = 0; k <= SERVICES; k++)
        task_join(tasks[k]);
    printf("%d datagrams, %d lost\n", SERVICES * number, lost);
    return bsdudp_end(&stack) < 0 || bsdudp_end(&peer) < 0 || lost != 0;
}
