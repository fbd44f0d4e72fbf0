/* A device: a CoAP server and a TFTP server on a host of an Ethernet, in one loop without an operating system. CoAP has
   the resources /led, /stats, /drops, /flash, /ram and /.well-known/core; TFTP has the files "flash" and "ram".
   device.h lists what it takes of a machine. */
#include "device.h"

#include "coap.h"
#include "dhcp.h"
#include "drops.h"
#include "tftp.h"

#include <string.h>

enum { FLASH, RAM, FILES };

static struct bsdudp host;
static struct dhcp dhcp;
static struct tftp_file files[FILES];
static uint32_t ticks;
static char led = '0', text[512];

/* Frames and messages share a buffer: the stack copies a frame before a server writes there. A frame begins 2 bytes
   after an aligned place, so that the packet in it is aligned: memcpy takes words then. */
enum { FRAME_ROOM = 2 + BSDUDP_ETHER_ROOM, SIZE = (int)TFTP_ROOM > (int)FRAME_ROOM ? (int)TFTP_ROOM : (int)FRAME_ROOM };
static uint8_t buffer[SIZE] __attribute__((aligned(4)));
static uint8_t *const frame = buffer + 2;

/* Writes a text and a number, and returns their end. */
static char *put(char *at, const char *before, uint32_t number)
{
    uint32_t scale = 1;
    at = strcpy(at, before) + strlen(before);
    while (number / scale > 9)
        scale *= 10;
    for (; scale > 0; scale /= 10)
        *at++ = (char)('0' + number / scale % 10);
    *at = 0;
    return at;
}

/* ---- the resources */

static void get_led(struct coap_content *content)
{
    *content = (struct coap_content){(const uint8_t *)&led, 1, 0};
}

static int put_led(const uint8_t *bytes, uint32_t len)
{
    if (len != 1 || (bytes[0] != '0' && bytes[0] != '1'))
        return COAP_CODE(4, 0);
    led = (char)bytes[0]; /* a board switches its light here */
    return COAP_CODE(2, 4);
}

static void get_stats(struct coap_content *content)
{
    struct bsdudp_mbstat usage;
    char *at = text;
    bsdudp_mbstat(&host, &usage);
    at = put(at, "half seconds ", ticks);
    at = put(at, "\nfree mbufs ", usage.free_mbufs);
    at = put(at, " of ", usage.mbufs);
    at = put(at, "\nfree clusters ", usage.free_clusters);
    at = put(at, " of ", usage.clusters);
    at = put(at, "\nbytes of call stack ", port_stack());
    *content = (struct coap_content){(const uint8_t *)text, (uint32_t)(at - text), (uint8_t)ticks};
}

static void get_drops(struct coap_content *content)
{
    const uint32_t len = drops_text(&host, text, sizeof text);
    uint32_t i;
    uint8_t sum = 0; /* a new version if the text is another one */
    for (i = 0; i < len; i++)
        sum = (uint8_t)(sum * 31 + text[i]);
    *content = (struct coap_content){(const uint8_t *)text, len, sum};
}

static void get_file(const struct tftp_file *file, struct coap_content *content)
{
    *content = (struct coap_content){file->bytes, file->len, file->version};
}

static void get_flash(struct coap_content *content) { get_file(files + FLASH, content); }
static void get_ram(struct coap_content *content) { get_file(files + RAM, content); }

static void get_links(struct coap_content *content)
{
    static const char links[] = "</led>;ct=0,</stats>;ct=0,</drops>;ct=0,</flash>;ct=42,</ram>;ct=42";
    *content = (struct coap_content){(const uint8_t *)links, sizeof links - 1, 0};
}

static const struct coap_resource resources[] = {
    {"/led", COAP_TEXT, get_led, put_led},     {"/stats", COAP_TEXT, get_stats, NULL},
    {"/drops", COAP_TEXT, get_drops, NULL},    {"/flash", COAP_BYTES, get_flash, NULL},
    {"/ram", COAP_BYTES, get_ram, NULL},       {"/.well-known/core", COAP_LINKS, get_links, NULL},
};
enum { RESOURCES = sizeof resources / sizeof resources[0] };

static struct coap coap;
static struct tftp tftp;

/* Sets what the servers need. As initial values this would take 1.9 KB of flash, nearly all of it zeros. */
static void equip(void)
{
    coap.host = tftp.host = &host;
    coap.buffer = tftp.buffer = buffer;
    coap.buffer_len = sizeof buffer;
    coap.resources = resources;
    coap.count = RESOURCES;
    tftp.files = files;
    tftp.count = FILES;
}

/* ---- the loop */

/* Prints why the device doesn't start. Returns the status. */
static int failed(const char *what, const char *why, int status)
{
    port_say(what);
    port_say(why);
    port_say("\n");
    return status;
}

static int start(const struct device *it)
{
    int status = port_start(it->link.mac);
    if (status < 0)
        return failed("no card", "", status);
    files[FLASH] = (struct tftp_file){"flash", it->flash, NULL, it->flash_len, 0, 0};
    files[RAM] = (struct tftp_file){"ram", it->ram, it->ram, 0, it->ram_len, 0};
    equip();
    dhcp = (struct dhcp){.host = &host, .config = it->config, .link = it->link, .memory = it->memory,
                         .memory_len = it->memory_len, .seed = port_random(), .random = port_random};
    status = dhcp_start(&dhcp);
    return status < 0 ? failed("no host: ", bsdudp_boot_strerror(status, &dhcp.config, &dhcp.link), status) : 0;
}

/* The host has its first address: from now on the servers keep their sockets. Returns 0, or why there is no server. */
static int open_servers(void)
{
    int status = coap_start(&coap, dhcp.config.addr);
    if (status == 0)
        status = tftp_start(&tftp, dhcp.config.addr);
    return status < 0 ? failed("no server: ", bsdudp_strerror(status), status) : 0;
}

/* Prints the address when it's another one. */
static void tell_address(void)
{
    static uint32_t told;
    char *at = text;
    int i;
    if (dhcp.addr == told)
        return;
    told = dhcp.addr;
    for (i = 24; i >= 0; i -= 8)
        at = put(at, i == 24 ? "address " : ".", told >> i & 255);
    strcpy(at, "\n");
    port_say(text);
}

/* Prints once a minute what was dropped since boot, if there is more of it. */
static void tell_drops(void)
{
    static uint8_t told;
    struct coap_content now;
    if (ticks % 120 != 0)
        return;
    get_drops(&now);
    if (now.len > 0 && now.version != told)
        port_say(text);
    told = now.version;
}

void device_announce(const struct device *it)
{
    /* an ARP request for the own address: Ethernet, IPv4, 6 and 4 bytes, request */
    static const uint8_t middle[] = {8, 6, 0, 1, 8, 0, 6, 4, 0, 1};
    const uint32_t ip = dhcp.addr != 0 ? dhcp.addr : it->config.addr;
    const uint8_t own[] = {(uint8_t)(ip >> 24), (uint8_t)(ip >> 16), (uint8_t)(ip >> 8), (uint8_t)ip};
    memset(frame, 0, 42);
    memset(frame, 0xff, 6);
    memcpy(frame + 6, it->link.mac, 6);
    memcpy(frame + 12, middle, sizeof middle);
    memcpy(frame + 22, it->link.mac, 6);
    memcpy(frame + 28, own, sizeof own);
    memcpy(frame + 38, own, sizeof own);
    port_send(frame, 42);
}

static void greet(const struct device *it)
{
    const uint32_t servers = sizeof coap + sizeof tftp + sizeof dhcp + sizeof files + sizeof buffer + sizeof text;
    char *at = put(text, "CoAP and TFTP. Bytes of memory: the stack ", (uint32_t)it->memory_len);
    at = put(at, ", the servers ", servers);
    at = put(at, ", the file ram ", it->ram_len);
    strcpy(at, "\n");
    port_say(text);
}

int device_run(const struct device *it)
{
    int is_open = 0, status = start(it);
    size_t len, sent;
    if (status < 0)
        return status;
    greet(it);
    do {
        for (; port_ticked(); ticks++) {
            dhcp_tick(&dhcp);
            tell_address();
            coap_tick(&coap);
            tftp_tick(&tftp);
            tell_drops();
        }
        len = port_receive(frame);
        if (len > 0)
            dhcp_receive(&dhcp, frame, len);
        if (!is_open && dhcp.is_booted) {
            if ((status = open_servers()) < 0)
                return status;
            is_open = 1;
        }
        coap_serve(&coap);
        tftp_serve(&tftp);
        while ((sent = dhcp_transmit(&dhcp, frame)) > 0)
            port_send(frame, sent);
    } while (len > 0 || port_wait());
    return is_open ? bsdudp_end(&host) : 0;
}
