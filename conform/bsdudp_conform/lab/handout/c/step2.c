/* Step 2: the checksum. Sources: RFC 1071, RFC 768. */
#include "lab.h"

/* Returns the ones' complement sum of 16-bit words in network byte order, added to `sum`, with all carries folded in.
 * If `length` is odd, the last byte is the high byte of a word whose low byte is 0. */
uint16_t ones_sum(const uint8_t *bytes, int length, uint32_t sum)
{
    (void)bytes, (void)length, (void)sum;
    return 0;
}

/* Returns the sum of UDP's pseudo header (RFC 768), which ones_sum folds: both addresses, the protocol, and the length
 * of the datagram with its UDP header. */
uint32_t pseudo_sum(uint32_t source, uint32_t destination, int length)
{
    (void)source, (void)destination, (void)length;
    return 0;
}

/* Returns whether the checksum of an IPv4 header with its options is right. */
bool header_sum_holds(const uint8_t *packet)
{
    (void)packet;
    return true;
}

/* Returns whether the checksum of a UDP datagram of `length` bytes at it->data is right, or is 0: then the sender
 * computed none. */
bool udp_sum_holds(const struct header *it, int length)
{
    (void)it, (void)length;
    return true;
}
