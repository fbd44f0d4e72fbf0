/* The notes of sockets: made of calls of bsdudp.h. The fate of a packet says which sockets got its datagram. */
#include "bsdudp_notes.h"

enum { IP_HEADER = 20, ETHER_HEADER = 14 };

static uint32_t get16(const uint8_t *at) { return (uint32_t)at[0] << 8 | at[1]; }
static uint32_t get32(const uint8_t *at) { return get16(at) << 16 | get16(at + 2); }

static uint64_t waiting(struct bsdudp *stack, uint32_t fd)
{
    struct bsdudp_next next;
    return bsdudp_next(stack, fd, &next) == 0 ? next.waiting : 0;
}

/* Datagrams are numbered as they come: `read` is the oldest one's number, and `now` of them wait. Those that came or
   went by other calls have no note. */
static void follow(struct bsdudp_notes *it, uint64_t now)
{
    if (now > it->came - it->read)
        it->came = it->read + now;
    else
        it->read = it->came - now;
    while (it->count > 0 && it->ring[it->first].number < it->read) {
        it->first = (it->first + 1) % it->room;
        it->count--;
    }
}

/* The newest datagram in the queue came in this packet. */
static void add(struct bsdudp *stack, struct bsdudp_notes *it, const uint8_t *packet, uint64_t time)
{
    struct bsdudp_note *note;
    follow(it, waiting(stack, it->fd) - 1);
    it->came++;
    if (it->count == it->room)
        return;
    note = &it->ring[(it->first + it->count++) % it->room];
    note->time = time;
    note->drops = it->drops;
    note->number = it->came - 1;
    note->to = get32(packet + 16);
    note->ttl = packet[8];
    note->tos = packet[1];
    note->known = 1;
}

int bsdudp_note_socket(struct bsdudp *stack, struct bsdudp_notes *notes, uint32_t fd, struct bsdudp_note *ring,
                       uint32_t room)
{
    struct bsdudp_name name;
    const int answer = bsdudp_getsockname(stack, fd, &name);
    if (answer < 0)
        return answer;
    notes->ring = ring;
    notes->came = notes->read = notes->drops = 0;
    notes->fd = fd;
    notes->room = room;
    notes->first = notes->count = 0;
    return 0;
}

/* A packet that is shorter than a header goes to no socket. */
int bsdudp_note_fate(struct bsdudp *stack, struct bsdudp_notes *notes, uint32_t count, const void *packet, size_t len,
                     uint64_t time, const struct bsdudp_fate *fate)
{
    const int answer = bsdudp_output_len(stack);
    uint32_t k;
    for (k = 0; k < count && answer >= 0 && len >= IP_HEADER; k++) {
        const uint64_t bit = (uint64_t)1 << (notes[k].fd - BSDUDP_FIRST_FD);
        notes[k].drops += (fate->lost & bit) != 0;
        if ((fate->got & bit) != 0)
            add(stack, &notes[k], packet, time);
    }
    return answer < 0 ? answer : 0;
}

int bsdudp_rx_noted(struct bsdudp *stack, struct bsdudp_notes *notes, uint32_t count, const void *packet, size_t len,
                    uint64_t time)
{
    struct bsdudp_fate fate;
    const int answer = bsdudp_rx_fate(stack, packet, len, &fate);
    return answer < 0 ? answer : bsdudp_note_fate(stack, notes, count, packet, len, time, &fate);
}

int bsdudp_ether_receive_noted(struct bsdudp *stack, struct bsdudp_notes *notes, uint32_t count, const void *frame,
                               size_t len, uint64_t time)
{
    struct bsdudp_fate fate;
    const int answer = bsdudp_ether_receive_fate(stack, frame, len, &fate);
    if (answer < 0 || len < ETHER_HEADER)
        return answer;
    return bsdudp_note_fate(stack, notes, count, (const uint8_t *)frame + ETHER_HEADER, len - ETHER_HEADER, time, &fate);
}

int bsdudp_recvfrom_noted(struct bsdudp *stack, struct bsdudp_notes *notes, void *buffer, size_t len,
                          struct bsdudp_addr *from, struct bsdudp_note *note)
{
    static const struct bsdudp_note none = {0, 0, 0, 0, 0, 0, 0};
    int answer;
    follow(notes, waiting(stack, notes->fd));
    answer = bsdudp_recvfrom(stack, notes->fd, buffer, len, from);
    if (answer < 0)
        return answer;
    *note = notes->count > 0 && notes->ring[notes->first].number == notes->read ? notes->ring[notes->first] : none;
    follow(notes, waiting(stack, notes->fd));
    return answer;
}
