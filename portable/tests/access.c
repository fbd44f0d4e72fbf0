/* The checks of accesses in bsdudp_portable.c, at the limits of each window, whose bytes are a block from malloc. */
#include <setjmp.h>
#include <stdio.h>
#include <stdlib.h>

#define BSDUDP_STOP stopped
#include "bsdudp_portable.c"

static jmp_buf failed;
void stopped(void) { longjmp(failed, 1); }

/* Whether `len` bytes at an address pass the check for reading. */
static int reads(const struct core *it, u32 address, u32 len)
{
    if (setjmp(failed))
        return 0;
    readable(it, address, len);
    return 1;
}

/* The same for writing. */
static int writes(const struct core *it, u32 address, u32 len)
{
    if (setjmp(failed))
        return 0;
    writable(it, address, len);
    return 1;
}

/* A window of 24 bytes that begins at an address. This many of them may be written. */
static int borders(struct core *it, u32 address, u32 size)
{
    const u32 last = address + 23;
    u8 *bytes = malloc(24);
    struct window window = {NULL, 24, 0};
    window.start = bytes;
    window.writable = size;
    it->windows[WINDOW(address)] = window;
    if (!reads(it, address, 24) || !reads(it, last, 1) || !reads(it, address + 16, 8) || !reads(it, address + 24, 0))
        return __LINE__;
    if (reads(it, address, 25) || reads(it, last, 2) || reads(it, address + 17, 8) || reads(it, address + 24, 1))
        return __LINE__;
    if (reads(it, address + 0x3fffffff, 1) || reads(it, address - 1, 1) || reads(it, address, 0xffffffff))
        return __LINE__;
    if (writes(it, address, size + 1) || writes(it, last, 2) || writes(it, last, 1) != (size == 24))
        return __LINE__;
    if (!writes(it, address, size) || writes(it, address + size, 1))
        return __LINE__;
    it->windows[WINDOW(address)].start = NULL;
    it->windows[WINDOW(address)].readable = it->windows[WINDOW(address)].writable = 0;
    free(bytes);
    return reads(it, address, 1) || writes(it, address, 1) ? __LINE__ : 0;
}

int main(void)
{
    static const u32 addresses[] = {CONSTANTS, FRAMES, MEMORY, BYTES};
    static struct core it;
    int i, line;
    for (i = 0; i < 8; i++) {
        line = borders(&it, addresses[i / 2], i % 2 != 0 ? 24 : 0);
        if (line != 0) {
            fprintf(stderr, "portable/tests/access.c:%d: window %d\n", line, i / 2);
            return 1;
        }
    }
    return 0;
}
