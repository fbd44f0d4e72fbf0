/* Step 1: header checks. */
#include "lab.h"

/* Whether a host may have this address (RFC 1122 3.2.1.3). */
static bool is_host(uint32_t address)
{
    uint32_t network = address >> 24;
    return network != 0 && network != 127 && network < 224 && address != BROADCAST;
}

bool read_header(const uint8_t *packet, int length, struct header *to)
{
    if (length < 20 || packet[0] >> 4 != 4) return false;
    int size = (packet[0] & 15) * 4, total = get16(packet + 2), place = get16(packet + 6);
    if (size < 20 || total < size || total > length) return false;
    *to = (struct header){
        .source = get32(packet + 12),
        .destination = get32(packet + 16),
        .identification = get16(packet + 4),
        .protocol = packet[9],
        .offset = (place & 0x1fff) * 8,
        .more = (place & 0x2000) != 0,
        .data = packet + size,
        .length = total - size,
        .packet = packet,
    };
    bool is_ours = to->destination == HOST || to->destination == BROADCAST || to->destination == ONES;
    return is_ours && is_host(to->source);
}
