/* Any frames and any ticks, in any order, for a device with any settings and any remembered address. */
#include "dhcp.h"

#include "__fc_builtin.h"

static uint8_t memory[BSDUDP_ETHER_MEMORY(40, 7)] __attribute__((aligned(BSDUDP_ALIGNMENT)));
static uint8_t frame[BSDUDP_ETHER_ROOM];

#define ANY(object) Frama_C_make_unknown((char *)&(object), sizeof(object))

static uint32_t draw(void)
{
    uint32_t number;
    ANY(number);
    return number;
}

int main(void)
{
    static struct bsdudp host;
    static struct dhcp client;
    client.host = &host;
    client.random = Frama_C_interval(0, 1) ? draw : NULL;
    ANY(client.config);
    ANY(client.link);
    ANY(client.seed);
    client.memory = memory;
    client.memory_len = sizeof memory;
    if (dhcp_start(&client) < 0)
        return 1;
    while (Frama_C_interval(0, 1)) {
        switch (Frama_C_interval(0, 2)) {
        case 0:
            ANY(frame);
            dhcp_receive(&client, frame, (size_t)Frama_C_interval(0, BSDUDP_ETHER_ROOM));
            break;
        case 1: dhcp_transmit(&client, frame); break;
        default: dhcp_tick(&client);
        }
    }
    return 0;
}
