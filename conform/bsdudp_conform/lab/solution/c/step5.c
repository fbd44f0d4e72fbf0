/* Step 5: fragments out. */
#include "lab.h"

#include <string.h>

void ip_output(const struct header *it, int mtu)
{
    static uint16_t identification;
    uint8_t packet[65535];
    int most = 20 + it->length <= mtu ? it->length : (mtu - 20) / 8 * 8;
    struct header part = *it;
    part.identification = ++identification;
    for (part.offset = 0; part.offset < it->length; part.offset += part.length) {
        int left = it->length - part.offset;
        part.length = left < most ? left : most;
        part.more = part.length < left;
        put_ip(packet, &part);
        memcpy(packet + 20, it->data + part.offset, (size_t)part.length);
        transmit(packet, 20 + part.length);
    }
}
