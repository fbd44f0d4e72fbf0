/* Why packets were dropped, as text for a person: over CoAP, or on a serial line. */
#ifndef DROPS_H
#define DROPS_H

#include "bsdudp.h"

/* Writes a line for each counter of drops and each tally of a host's link that isn't 0, and for each neighbour. A line
   that doesn't fit into `len` bytes is left out. Returns the length of the text, without the 0 after it. A request of
   CoAP that is handled changes nothing in it, so all blocks of a response agree. */
uint32_t drops_text(struct bsdudp *host, char *text, uint32_t len);

#endif
