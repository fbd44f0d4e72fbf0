/* The contract of copy.h: any bytes, any lengths. */
#include <stdint.h>

/*@ requires \valid(to + (0 .. most - 1)) && \valid_read(bytes + (0 .. len - 1));
    requires \separated(to + (0 .. most - 1), bytes + (0 .. len - 1));
    assigns to[0 .. most - 1] \from bytes[0 .. len - 1], len, at, most;
    assigns \result \from len, at, most;
    ensures \result <= most;
    ensures \result == \min(most, \max(0, len - at));
    ensures \forall integer k; 0 <= k < \result ==> to[k] == bytes[at + k]; */
static uint32_t copy_block(uint8_t *to, uint32_t most, const uint8_t *bytes, uint32_t len, uint32_t at);
