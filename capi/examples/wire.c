/* Two stacks on a wire that loses, repeats and reorders packets. Each datagram received was sent, with these bytes.
       cc -std=c99 wire.c -I PREFIX/include PREFIX/lib/libbsdudp.a && ./a.out [SEED] */
#include "bsdudp.h"
#include <stdio.h>
#include <stdlib.h>
#include <string.h>

enum { TURNS = 20000, HELD = 64, LONGEST = 3000, MTU = 576, FD = BSDUDP_FIRST_FD };

static unsigned long long seed = 1;
static uint8_t wire[HELD][MTU], bytes[LONGEST], buffer[LONGEST];
static int lens[HELD], held;

static unsigned dice(unsigned n)
{
    seed = seed * 6364136223846793005ULL + 1442695040888963407ULL;
    return (unsigned)(seed >> 33) % n;
}

/* Writes the datagram of this number, which begins with the number, and returns its length. */
static int datagram(unsigned number, uint8_t *to)
{
    int len = 4 + (int)(number * 2654435761u % (LONGEST - 3));
    memset(to, (int)(number & 0xff), (size_t)len);
    memcpy(to, &number, 4);
    return len;
}

/* One in twenty packets is lost, and one in twenty is sent twice. */
static void put_on_wire(struct bsdudp *from)
{
    int len;
    while (held + 1 < HELD && (len = bsdudp_tx(from, wire[held], MTU)) > 0) {
        memcpy(wire[held + 1], wire[held], (size_t)len);
        lens[held] = lens[held + 1] = len;
        held += dice(20) == 0 ? 0 : dice(19) == 0 ? 2 : 1;
    }
}

/* Delivers packets from the wire in random order, until `leave` are left. */
static void take_off_wire(struct bsdudp *to, int leave)
{
    for (; held > leave; held--) {
        int k = (int)dice((unsigned)held), last = held - 1;
        bsdudp_rx(to, wire[k], (size_t)lens[k]);
        memmove(wire[k], wire[last], (size_t)lens[last]);
        lens[k] = lens[last];
    }
}

int main(int argc, char **argv)
{
    struct bsdudp near = BSDUDP_NONE, far = BSDUDP_NONE;
    struct bsdudp_config config = {0x0a000001, 0x0a0000ff, 256, 32, MTU, 1};
    struct bsdudp_addr any = {0, 7}, to = {0x0a000002, 7}, from;
    unsigned sent = 0, came = 0, wrong = 0, turn, which;
    int len;
    if (argc > 1)
        seed = strtoull(argv[1], NULL, 10);
    if (bsdudp_boot(&near, &config) < 0 || (config.addr = to.ip, bsdudp_boot(&far, &config) < 0) ||
        bsdudp_socket(&near) != FD || bsdudp_socket(&far) != FD || bsdudp_bind(&far, FD, &any) < 0)
        return 1;
    for (turn = 0; turn < TURNS; turn++) {
        len = datagram(sent, bytes);
        if (bsdudp_sendto(&near, FD, &to, bytes, (size_t)len) == len)
            sent++;
        put_on_wire(&near);
        take_off_wire(&far, 8);
        while ((len = bsdudp_recvfrom(&far, FD, buffer, sizeof buffer, &from)) >= 0) {
            memcpy(&which, buffer, 4);
            came++;
            wrong += which >= sent || datagram(which, bytes) != len || memcmp(buffer, bytes, (size_t)len) != 0;
        }
        if (turn % 50 == 0)
            bsdudp_tick(&far);
    }
    printf("sent %u, came %u, wrong %u\n", sent, came, wrong);
    return bsdudp_end(&near) < 0 || bsdudp_end(&far) < 0 || wrong != 0 || came == 0;
}
