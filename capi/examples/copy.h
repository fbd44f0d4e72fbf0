/* How coap.c and tftp.c take blocks of a content, or of a file. */
#ifndef COPY_H
#define COPY_H

#include <stdint.h>

/* Copies what `len` bytes have from `at` on, at most `most` bytes. Returns their number. */
static uint32_t copy_block(uint8_t *to, uint32_t most, const uint8_t *bytes, uint32_t len, uint32_t at)
{
    uint32_t i;
    /*@ loop invariant i <= most && at == \at(at, Pre) + i && (i == 0 || at <= len);
        loop invariant \forall integer k; 0 <= k < i ==> to[k] == bytes[\at(at, Pre) + k];
        loop assigns i, at, to[0 .. most - 1];
        loop variant most - i; */
    for (i = 0; i < most && at < len; i++)
        to[i] = bytes[at++];
    return i;
}

#endif
