#include "dhcp_message.h"
#include "__fc_builtin.h"
/* Any words, written as a message and as a frame: with the bodies of dhcp_message.c. */
int main(void)
{
    static uint8_t frame[DHCP_HEAD + DHCP_MESSAGE], mac[6];
    struct dhcp_words words;
    Frama_C_make_unknown((char *)&words, sizeof words);
    Frama_C_make_unknown((char *)mac, sizeof mac);
    words.mac = mac;
    dhcp_write(frame + DHCP_HEAD, &words);
    return (int)dhcp_frame(frame, &words);
}
