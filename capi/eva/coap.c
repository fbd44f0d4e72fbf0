/* Any datagrams from anyone, and any ticks, in any order. The resources have any contents and take any bytes. One path
   is as long as the server can hold, and one longer. */
#include "coap.h"

#include "__fc_builtin.h"

enum { ROOM = 1200, MOST = 100000 };
static uint8_t buffer[ROOM], contents[MOST];

static void get(struct coap_content *content)
{
    content->bytes = contents;
    content->len = (uint32_t)Frama_C_interval(0, MOST);
    content->version = (uint8_t)Frama_C_interval(0, 255);
}

static int put(const uint8_t *bytes, uint32_t len)
{
    (void)bytes, (void)len;
    return Frama_C_interval(0, 255);
}

static const struct coap_resource resources[] = {
    {"/led", COAP_TEXT, get, put},
    {"/sensors/temperature/outside/no3", COAP_BYTES, get, NULL},
    {"/", 65535, get, put},
    {"/sensors/temperature/outside/wall", COAP_TEXT, get, NULL}, /* too long */
};

int main(void)
{
    static struct bsdudp host;
    static struct coap server;
    host.core.live = 1651729525;
    server.host = &host;
    server.resources = resources;
    server.count = (uint32_t)Frama_C_interval(0, 4);
    server.buffer = buffer;
    server.buffer_len = (uint32_t)Frama_C_interval(0, ROOM);
    Frama_C_make_unknown((char *)contents, sizeof contents);
    if (coap_start(&server, 0x0a000001) < 0)
        return 1;
    //@ widen_hints global:"all", 278;
    while (Frama_C_interval(0, 1))
        (Frama_C_interval(0, 1) ? coap_serve : coap_tick)(&server);
    return 0;
}
