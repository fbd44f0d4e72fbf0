/* Step 4: sending. Sources: RFC 791 3.1, RFC 768. */
#include "lab.h"

/* Writes the 20 bytes of an IPv4 header: type of service 0, time to live 64, no options, no flag except `more`; the
 * total length is that of the header and of it->length bytes of data. */
void put_ip(uint8_t *to, const struct header *it)
{
    (void)to, (void)it;
}

/* Writes a UDP datagram from HOST, and returns its length: 8 more than the data's. A checksum that is computed as 0 is
 * sent as 0xffff. */
int put_udp(uint8_t *to, uint16_t source_port, uint32_t destination, uint16_t port, const uint8_t *data, int length)
{
    (void)to, (void)source_port, (void)destination, (void)port, (void)data, (void)length;
    return 8 + length;
}
