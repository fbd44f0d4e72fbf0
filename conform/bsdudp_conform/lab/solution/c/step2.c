/* Step 2: the checksum. */
#include "lab.h"

uint16_t ones_sum(const uint8_t *bytes, int length, uint32_t sum)
{
    for (int i = 0; i + 1 < length; i += 2) sum += get16(bytes + i);
    if (length % 2) sum += (uint32_t)bytes[length - 1] << 8;
    while (sum >> 16) sum = (sum & 0xffff) + (sum >> 16);
    return (uint16_t)sum;
}

uint32_t pseudo_sum(uint32_t source, uint32_t destination, int length)
{
    return (source >> 16) + (source & 0xffff) + (destination >> 16) + (destination & 0xffff) + PROTOCOL_UDP
           + (uint32_t)length;
}

bool header_sum_holds(const uint8_t *packet)
{
    return ones_sum(packet, (packet[0] & 15) * 4, 0) == 0xffff;
}

bool udp_sum_holds(const struct header *it, int length)
{
    if (get16(it->data + 6) == 0) return true;
    return ones_sum(it->data, length, pseudo_sum(it->source, it->destination, length)) == 0xffff;
}
