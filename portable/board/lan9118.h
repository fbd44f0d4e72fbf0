/* The network card of the board, by polling: a LAN9118 of SMSC, which ARM's MPS2 boards and QEMU's mps2-an385 have at
   0x40200000. It has no DMA here, and its interrupt only wakes the processor. A frame is without its check sequence,
   which the card makes and tests, and the card pads a short one to 60 bytes. */
#include <stddef.h>
#include <stdint.h>

enum { LAN9118_FRAME = 1514 }; /* the longest frame: 14 bytes of header, and 1,500 */

/* Resets the card, which then accepts frames for this address and broadcasts. Returns 0, or -1 if there is no card, or
   its reset doesn't end. */
int lan9118_start(const uint8_t mac[6]);

/* Takes the oldest frame: its bytes are stored at the front of `buffer`, which has LAN9118_FRAME bytes. Returns their
   number, or 0 if none waits. A frame that arrived damaged, or is longer, is dropped. */
size_t lan9118_receive(uint8_t *buffer);

/* Sends a frame of 14 to LAN9118_FRAME bytes. It waits until the card has space for it. Returns 0, or -1 if the card
   has reported since the last call that a frame couldn't be sent: that one is lost. */
int lan9118_send(const uint8_t *frame, size_t len);

/* From now on the card interrupts if a frame arrives: LAN9118_INTERRUPT is the number on this board. lan9118_heard
   clears the request; take the frames that have arrived by then afterwards. */
enum { LAN9118_INTERRUPT = 13 };
void lan9118_listen(void);
void lan9118_heard(void);
