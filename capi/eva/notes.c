/* Any packets and frames, and any receives, for two sockets with notes and one whose ring has no room; and one packet
   or frame of each length up to SHORT that ends where its memory ends, so that no byte behind it is read. */
#include "bsdudp_notes.h"

#include "__fc_builtin.h"

enum { LONGEST = 66000, SHORT = 44, SOCKETS = 3 };

static uint8_t bytes[LONGEST];
static struct bsdudp_note first[1], second[5];
static struct bsdudp_notes notes[SOCKETS];

static int is(void) { return Frama_C_interval(0, 1); }

static void receive(struct bsdudp *stack, struct bsdudp_notes *of)
{
    struct bsdudp_addr from;
    struct bsdudp_note note;
    bsdudp_recvfrom_noted(stack, of, bytes, (size_t)Frama_C_interval(0, LONGEST), is() ? &from : NULL, &note);
}

static void pass_short(struct bsdudp *stack)
{
    const uint32_t len = (uint32_t)Frama_C_interval(0, SHORT);
    const uint8_t *at = bytes + LONGEST;
    struct bsdudp_fate fate;
    //@ split len;
    Frama_C_make_unknown((char *)&fate, sizeof fate);
    if (is())
        bsdudp_rx_noted(stack, notes, 1, at - len, len, 0);
    else if (is())
        bsdudp_note_fate(stack, notes, 1, at - len, len, 0, &fate);
    else
        bsdudp_ether_receive_noted(stack, notes, 1, at - len, len, 0);
}

int main(void)
{
    struct bsdudp stack = BSDUDP_NONE;
    struct bsdudp_fate fate;
    uint64_t time;
    uint32_t len;
    stack.core.live = is() ? 1651729525 : 0;
    stack.link.live = is() ? 1651731563 : 0;
    Frama_C_make_unknown((char *)bytes, sizeof bytes);
    Frama_C_make_unknown((char *)&fate, sizeof fate);
    bsdudp_note_fate(&stack, notes, 0, bytes, LONGEST, 0, &fate);
    if (bsdudp_note_socket(&stack, &notes[0], 3, first, 1) < 0 ||
        bsdudp_note_socket(&stack, &notes[1], 4, second, 5) < 0 || bsdudp_note_socket(&stack, &notes[2], 5, first, 0) < 0)
        return 1;
    if (is()) {
        pass_short(&stack);
        return 0;
    }
    while (is()) {
        Frama_C_make_unknown((char *)bytes, sizeof bytes);
        Frama_C_make_unknown((char *)&time, sizeof time);
        len = (uint32_t)Frama_C_interval(0, LONGEST);
        switch (Frama_C_interval(0, 5)) {
        case 0: receive(&stack, &notes[0]); break;
        case 1: receive(&stack, &notes[1]); break;
        case 2: receive(&stack, &notes[2]); break;
        case 3: bsdudp_rx_noted(&stack, notes, SOCKETS, bytes, len, time); break;
        case 4: bsdudp_ether_receive_noted(&stack, notes, SOCKETS, bytes, len, time); break;
        default: bsdudp_rx(&stack, bytes, len);
        }
    }
    return 0;
}
