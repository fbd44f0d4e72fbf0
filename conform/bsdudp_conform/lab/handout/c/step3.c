/* Step 3: demultiplexing. Sources: RFC 768, RFC 1122 4.1. */
#include "lab.h"

/* A UDP datagram arrived: its data is at it->data, it->length bytes with the UDP header.
 *   - Drop it (return true) if it has less than 8 bytes, if its UDP length is below 8 or above it->length, or if its
 *     checksum doesn't hold (udp_sum_holds). Bytes after the UDP length aren't the user's.
 *   - A socket matches if it has the destination port, and isn't connected, or is connected to the sender.
 *   - If it->destination is HOST, deliver it to one socket: a connected one that matches, otherwise the youngest.
 *   - If it's a broadcast, deliver it to each socket that matches.
 * Returns false if no socket matches: then the host sends Port Unreachable. */
bool udp_receive(const struct header *it)
{
    (void)it;
    return true;
}
