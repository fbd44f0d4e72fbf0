/* The contracts of the functions by which dhcp_message.c reads. */
#include "eva/message_contracts.h"

/*@ requires \valid_read(at + (0 .. 1));
    assigns \nothing;
    ensures \result == 256 * at[0] + at[1]; */
static uint32_t get16(const uint8_t *at);

/*@ requires \valid_read(at + (0 .. 3));
    assigns \nothing;
    ensures \result == 16777216 * at[0] + 65536 * at[1] + 256 * at[2] + at[3]; */
static uint32_t get(const uint8_t *at);

/*@ requires \valid_read(a + (0 .. len - 1)) && \valid_read(b + (0 .. len - 1));
    assigns \nothing;
    ensures \result == 1 <==> \forall integer k; 0 <= k < len ==> a[k] == b[k];
    ensures \result == 0 || \result == 1; */
static int is_same(const uint8_t *a, const uint8_t *b, uint32_t len);

/*@ requires \valid_read(at + (0 .. len - 1)) && so_far <= 131071 && len <= 65535;
    assigns \nothing;
    ensures \result <= 0xffff; */
static uint32_t sum(uint32_t so_far, const uint8_t *at, uint32_t len);

/*@ requires len <= 65535 - 17 && \valid_read(frame + (0 .. 33)) && \valid_read(frame + (34 .. 34 + len - 1));
    assigns \nothing; */
static uint32_t udp_sum(const uint8_t *frame, uint32_t len);

/*@ requires \valid(to) && \valid_read(at + (0 .. len - 1)) && \separated(to, at + (0 .. len - 1));
    assigns *to; */
static void take_option(struct dhcp_lease *to, uint8_t code, const uint8_t *at, uint8_t len);

/*@ requires \valid(to) && \valid_read(at + (0 .. len - 1)) && \separated(to, at + (0 .. len - 1));
    assigns *to;
    ensures \result == 0 || \result == 1; */
static int take_options(struct dhcp_lease *to, const uint8_t *at, uint32_t len);
