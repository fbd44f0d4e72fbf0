/* capi/examples/tun_echo.c with a wire that loses one packet in twenty, repeats one in twenty, and reorders waiting
   packets. It's the same program: its reads and writes of the device go through the wire, and its clock runs a hundred
   times as fast, so that incomplete datagrams are dropped after a third of a second. */
#include <stdint.h>
#include <string.h>
#include <time.h>
#include <unistd.h>

enum { HELD = 16, LONGEST = 65535, SHARE = 20, FAST = 100 };

struct wire {
    uint8_t packets[HELD][LONGEST];
    size_t lens[HELD];
    int count;
};

static struct wire in, out;
static unsigned long long seed = 1;

static unsigned dice(unsigned n)
{
    seed = seed * 6364136223846793005ULL + 1442695040888963407ULL;
    return (unsigned)(seed >> 33) % n;
}

/* A packet is lost, or goes onto the wire once or twice; there is room for two. */
static void put(struct wire *wire, const void *packet, size_t len)
{
    unsigned copies = dice(SHARE) == 0 ? 0 : dice(SHARE) == 0 ? 2 : 1;
    while (copies-- > 0) {
        memcpy(wire->packets[wire->count], packet, len);
        wire->lens[wire->count++] = len;
    }
}

/* Any of the packets leaves the wire, which isn't empty. */
static size_t take(struct wire *wire, void *packet)
{
    int which = (int)dice((unsigned)wire->count), last = --wire->count;
    size_t len = wire->lens[which];
    memcpy(packet, wire->packets[which], len);
    memmove(wire->packets[which], wire->packets[last], wire->lens[last]);
    wire->lens[which] = wire->lens[last];
    return len;
}

/* Writes packets of the wire to the device until no more than `leave` are left. */
static void deliver(int device, int leave)
{
    static uint8_t packet[LONGEST];
    while (out.count > leave) {
        size_t len = take(&out, packet);
        if (write(device, packet, len) < 0)
            return;
    }
}

/* The device's packets go onto the wire while there is space. If the device has no more, the packets of the stack are
   delivered. */
static ssize_t lossy_read(int device, void *packet, size_t size)
{
    static uint8_t fresh[LONGEST];
    ssize_t len = 0;
    while (in.count + 2 <= HELD && (len = read(device, fresh, sizeof fresh)) > 0)
        put(&in, fresh, (size_t)len);
    if (in.count == 0 || size < LONGEST) {
        deliver(device, 0);
        return -1;
    }
    return (ssize_t)take(&in, packet);
}

static ssize_t lossy_write(int device, const void *packet, size_t len)
{
    deliver(device, HELD - 2);
    put(&out, packet, len);
    return (ssize_t)len;
}

static int fast_clock(clockid_t clock, struct timespec *now)
{
    int answer = clock_gettime(clock, now);
    long long all = (now->tv_sec * 1000000000LL + now->tv_nsec) * FAST;
    now->tv_sec = (time_t)(all / 1000000000LL);
    now->tv_nsec = (long)(all % 1000000000LL);
    return answer;
}

#define read lossy_read
#define write lossy_write
#define clock_gettime fast_clock
#include "../examples/tun_echo.c"
