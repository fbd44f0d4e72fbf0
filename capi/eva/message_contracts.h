/* What the calls of dhcp_message.h require and ensure. WP proves this of dhcp_message.c, and Eva takes it for granted in
   dhcp.c. */
#include "dhcp_message.h"

/*@ requires \valid_read(frame + (0 .. frame_len - 1)) && \valid_read(mac + (0 .. 5));
    assigns \result \from frame[0 .. frame_len - 1], frame_len, mac[0 .. 5];
    ensures \result <= 65507;
    ensures \result <= \max(0, frame_len - DHCP_HEAD); */
uint32_t dhcp_len(const uint8_t *frame, size_t frame_len, const uint8_t mac[6]);

/*@ requires \valid(to);
    requires \valid_read(at + (0 .. len - 1));
    requires \valid_read(mac + (0 .. 5));
    requires \separated(to, at + (0 .. len - 1)) && \separated(to, mac + (0 .. 5));
    assigns *to \from at[0 .. len - 1], len, xid, mac[0 .. 5];
    assigns \result \from at[0 .. len - 1], len, xid, mac[0 .. 5];
    ensures \result == 0 || \result == 1;
    ensures \result == 1 ==> len > 240 && to->server != 0;
    ensures \result == 1 ==> \old(at[0]) == 2; */
int dhcp_read(struct dhcp_lease *to, const uint8_t *at, uint32_t len, uint32_t xid, const uint8_t mac[6]);

/*@ requires \valid(at + (0 .. DHCP_MESSAGE - 1)) && \valid_read(words) && \valid_read(words->mac + (0 .. 5));
    assigns at[0 .. DHCP_MESSAGE - 1] \from words->xid, words->own, words->wanted, words->server, words->secs,
                                            words->type, words->mac[0 .. 5]; */
void dhcp_write(uint8_t *at, const struct dhcp_words *words);

/*@ requires \valid(frame + (0 .. DHCP_HEAD + DHCP_MESSAGE - 1));
    requires \valid_read(words) && \valid_read(words->mac + (0 .. 5));
    assigns frame[0 .. DHCP_HEAD - 1] \from frame[DHCP_HEAD .. DHCP_HEAD + DHCP_MESSAGE - 1], words->xid, words->own,
                                            words->mac[0 .. 5];
    assigns \result \from \nothing;
    ensures \result == DHCP_HEAD + DHCP_MESSAGE; */
size_t dhcp_frame(uint8_t *frame, const struct dhcp_words *words);
