/* What device.c takes of the machine that it runs on, and how that starts it. device_tap.c has these functions for
   Linux, and portable/board/device_port.c for a Cortex-M3. */
#ifndef DEVICE_H
#define DEVICE_H

#include "bsdudp.h"

/* The card's driver. port_start returns 0, or -1 if there is no card. port_receive stores the frame that came first in
   `frame`, which has BSDUDP_ETHER_ROOM bytes, and returns its length, or 0 if none waits. port_send sends a frame. */
int port_start(const uint8_t mac[6]);
size_t port_receive(uint8_t *frame);
void port_send(const uint8_t *frame, size_t len);

/* The clock: returns 1 once for each half second that has passed, or 0. */
int port_ticked(void);

/* Sleeps until a frame or a half second may have come. Returns 0 if the program is to end, or 1. A driver that polls
   returns 1 at once. */
int port_wait(void);

/* Prints text for the person who watches. */
void port_say(const char *text);

/* Returns another number at each call, which others can't guess if the machine has a random generator. */
uint32_t port_random(void);

/* Returns how many bytes of the call stack were used since the start, or 0 if that isn't known. */
uint32_t port_stack(void);

/* Which host the device is, and its memory. If `link.mask` is 0, it gets its address by DHCP (dhcp.h); `config.addr` is
   then 0 or the address of its last start. */
struct device {
    struct bsdudp_config config;
    struct bsdudp_link link;
    void *memory; /* of the stack: BSDUDP_ETHER_MEMORY bytes, aligned to BSDUDP_ALIGNMENT */
    size_t memory_len;
    const uint8_t *flash; /* the file "flash", which clients read */
    uint32_t flash_len;
    uint8_t *ram; /* where the file "ram" is kept, which clients read and write */
    uint32_t ram_len;
};

/* Gets an address, boots the stack and both servers, and serves until port_wait returns 0. Returns 0, or the error of a
   call of the stack as a number below 0; -1 also if there is no card. */
int device_run(const struct device *device);

/* Announces the device's address to its neighbours (RFC 5227, 2.3): for a driver whose link has come up again. Call it
   between two rounds of the loop, for example in port_receive before it stores a frame. */
void device_announce(const struct device *device);

#endif
