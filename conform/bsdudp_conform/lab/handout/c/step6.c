/* Step 6: reassembly with overlaps. Sources: RFC 791 3.2, RFC 1122 3.3.2. */
#include "lab.h"

#define LIFE_MS 60000 /* how long an unfinished datagram is kept, from its first fragment on */

/* A fragment arrived at the time `now`, in milliseconds. Fragments belong to one datagram if they have the same source,
 * destination, identification and protocol. They come in any order; some come twice, and some overlap: then you choose
 * whose bytes count, but no byte may reach a user that no fragment has at that place.
 * Drop a fragment without data, one that isn't the last and whose length is no multiple of 8, and one that ends beyond
 * LONGEST. Copy what you keep: the packet is gone when you return.
 * Returns true if the datagram is whole: then `it` has its data and length, with offset 0, more false, and `packet` at
 * the beginning of the first fragment's packet (its header, and 8 bytes). Otherwise returns false. */
bool reassemble(struct header *it, uint64_t now)
{
    (void)it, (void)now;
    return false;
}

/* Time passed: forgets the datagrams that are LIFE_MS old. If the first fragment of one is there, calls time_exceeded
 * with its packet (the header with its options, and 8 bytes). */
void expire(uint64_t now)
{
    (void)now;
}
