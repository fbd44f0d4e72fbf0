/* Any calls of the driver in any order, with any values in the card's registers, which are volatile at 0x40200000. */
#include "../../portable/board/lan9118.h"

#include "__fc_builtin.h"

static uint8_t buffer[LAN9118_FRAME], mac[6];

int main(void)
{
    Frama_C_make_unknown((char *)mac, sizeof mac);
    Frama_C_make_unknown((char *)buffer, sizeof buffer);
    while (Frama_C_interval(0, 1)) {
        const uint32_t len = (uint32_t)Frama_C_interval(14, LAN9118_FRAME);
        switch (Frama_C_interval(0, 4)) {
        case 0: lan9118_start(mac); break;
        case 1: lan9118_receive(buffer); break;
        case 2: lan9118_send(buffer, len); break;
        case 3: lan9118_listen(); break;
        default: lan9118_heard();
        }
    }
    return 0;
}
