/* Step 3: demultiplexing. */
#include "lab.h"

static bool matches(const struct socket *it, uint32_t source, uint16_t source_port, uint16_t port)
{
    return it->port == port && (!it->connected || (it->peer == source && it->peer_port == source_port));
}

bool udp_receive(const struct header *it)
{
    if (it->length < 8) return true;
    int length = get16(it->data + 4);
    if (length < 8 || length > it->length || !udp_sum_holds(it, length)) return true;
    uint16_t source_port = get16(it->data), port = get16(it->data + 2);
    const struct socket *best = NULL;
    for (int i = 0; i < socket_count; i++) {
        if (!matches(&sockets[i], it->source, source_port, port)) continue;
        if (it->destination != HOST) deliver(&sockets[i], it->source, source_port, it->data + 8, length - 8);
        if (best == NULL || sockets[i].connected >= best->connected) best = &sockets[i];
    }
    if (best == NULL) return false;
    if (it->destination == HOST) deliver(best, it->source, source_port, it->data + 8, length - 8);
    return true;
}
