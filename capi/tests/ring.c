/* capi/examples/ring.h: it holds RING_FRAMES frames. Then a signal handler puts numbered frames into the ring, as an
   interrupt does, while the main program takes them. No frame is changed, doubled or out of order, and each one is taken
   or counted as lost. */
#include "ring.h"

#include <signal.h>
#include <stdio.h>
#include <sys/time.h>

enum { FRAMES = 20000 };
static struct ring ring;
static volatile uint32_t made;

static void interrupt(int number)
{
    uint8_t frame[BSDUDP_ETHER_ROOM];
    int i;
    (void)number;
    for (i = 0; i < 12 && made < FRAMES; i++) {
        memset(frame, (int)(made & 255), sizeof frame);
        memcpy(frame, (const void *)&made, sizeof made);
        ring_put(&ring, frame, 60 + made % (BSDUDP_ETHER_ROOM - 59));
        made++;
    }
}

/* Returns whether a ring keeps RING_FRAMES frames, and loses those after them and those that are too long. */
static int is_full_in_time(void)
{
    static struct ring it;
    static uint8_t frame[BSDUDP_ETHER_ROOM + 1];
    uint32_t k;
    ring_put(&it, frame, sizeof frame);
    for (k = 0; k < RING_FRAMES + 2; k++)
        ring_put(&it, frame, BSDUDP_ETHER_ROOM - k);
    for (k = 0; k < RING_FRAMES; k++)
        if (ring_take(&it, frame) != BSDUDP_ETHER_ROOM - k)
            return 0;
    return ring_take(&it, frame) == 0 && it.lost == 3;
}

int main(void)
{
    const struct itimerval often = {{0, 200}, {0, 200}};
    uint8_t frame[BSDUDP_ETHER_ROOM];
    uint32_t next = 0, count = 0, number;
    size_t len, i;
    if (!is_full_in_time())
        return fprintf(stderr, "a ring doesn't hold %d frames\n", RING_FRAMES), 1;
    signal(SIGALRM, interrupt);
    setitimer(ITIMER_REAL, &often, NULL);
    while (made < FRAMES || ring.put != ring.taken) {
        if ((len = ring_take(&ring, frame)) == 0)
            continue;
        memcpy(&number, frame, sizeof number);
        if (number < next || len != 60 + number % (BSDUDP_ETHER_ROOM - 59))
            return fprintf(stderr, "frame %u of %zu bytes after frame %u\n", number, len, next), 1;
        for (i = sizeof number; i < len; i++)
            if (frame[i] != (number & 255))
                return fprintf(stderr, "byte %zu of frame %u\n", i, number), 1;
        next = number + 1;
        count++;
    }
    if (count + ring.lost != FRAMES || count < 100 || ring.lost == 0)
        return fprintf(stderr, "%u taken and %u lost of %d\n", count, ring.lost, FRAMES), 1;
    return 0;
}
