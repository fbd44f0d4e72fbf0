/* Any datagrams from anyone to the server's port and to those of its transfers, and any ticks, in any order. One file
   is only read, the other one is written, too; both can have as many bytes. */
#include "tftp.h"

#include "__fc_builtin.h"

enum { MOST = 100000 };
static uint8_t flash[MOST], ram[MOST], buffer[TFTP_ROOM];

int main(void)
{
    static struct bsdudp host;
    static struct tftp_file files[] = {{"flash", flash, NULL, 0, MOST, 0}, {"ram", ram, ram, 0, MOST, 0}};
    static struct tftp server;
    host.core.live = 1651729525;
    files[0].len = (uint32_t)Frama_C_interval(0, MOST);
    server.host = &host;
    server.files = files;
    server.count = 2;
    server.buffer = buffer;
    Frama_C_make_unknown((char *)flash, sizeof flash);
    if (tftp_start(&server, 0x0a000001) < 0)
        return 1;
    //@ widen_hints global:"all", 100000;
    while (Frama_C_interval(0, 1))
        (Frama_C_interval(0, 1) ? tftp_serve : tftp_tick)(&server);
    return 0;
}
