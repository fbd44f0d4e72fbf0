/* Step 4: sending. */
#include "lab.h"

#include <string.h>

void put_ip(uint8_t *to, const struct header *it)
{
    to[0] = 0x45;
    to[1] = 0;
    put16(to + 2, (uint16_t)(20 + it->length));
    put16(to + 4, it->identification);
    put16(to + 6, (uint16_t)(it->offset / 8 | (it->more ? 0x2000 : 0)));
    to[8] = 64;
    to[9] = it->protocol;
    put16(to + 10, 0);
    put32(to + 12, it->source);
    put32(to + 16, it->destination);
    put16(to + 10, (uint16_t)~ones_sum(to, 20, 0));
}

int put_udp(uint8_t *to, uint16_t source_port, uint32_t destination, uint16_t port, const uint8_t *data, int length)
{
    int size = 8 + length;
    put16(to, source_port);
    put16(to + 2, port);
    put16(to + 4, (uint16_t)size);
    put16(to + 6, 0);
    memcpy(to + 8, data, (size_t)length);
    uint16_t checksum = (uint16_t)~ones_sum(to, size, pseudo_sum(HOST, destination, size));
    put16(to + 6, checksum == 0 ? 0xffff : checksum);
    return size;
}
