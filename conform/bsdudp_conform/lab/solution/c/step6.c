/* Step 6: reassembly with overlaps. */
#include "lab.h"

#include <stdlib.h>
#include <string.h>

#define LIFE_MS 60000
#define MOST_QUOTED 68 /* a header with all options, and 8 bytes */

/* Bytes of a datagram, from begin to end. */
struct piece {
    struct piece *next;
    int begin, end;
    bool more;
    const uint8_t *bytes; /* within room */
    uint8_t room[];
};

/* A datagram of which some fragments are there, by offset. If they overlap, the one that begins first keeps its bytes. */
struct unfinished {
    struct unfinished *next;
    struct header key;
    uint64_t born;
    struct piece *pieces;
    bool has_first;
    uint8_t first[MOST_QUOTED]; /* the beginning of the first fragment's packet */
};

static struct unfinished *all;

static bool is_same(const struct header *one, const struct header *other)
{
    return one->source == other->source && one->destination == other->destination
           && one->identification == other->identification && one->protocol == other->protocol;
}

static void drop(struct unfinished **at)
{
    struct unfinished *it = *at;
    *at = it->next;
    while (it->pieces != NULL) {
        struct piece *gone = it->pieces;
        it->pieces = gone->next;
        free(gone);
    }
    free(it);
}

static void cut_front(struct piece *it, int begin)
{
    it->bytes += begin - it->begin;
    it->begin = begin;
}

static void insert(struct unfinished *in, struct piece *new)
{
    struct piece **at = &in->pieces, *before = NULL;
    while (*at != NULL && (*at)->begin <= new->begin) {
        before = *at;
        at = &before->next;
    }
    if (before != NULL && before->end > new->begin) {
        if (before->end >= new->end) {
            free(new);
            return;
        }
        cut_front(new, before->end);
    }
    while (*at != NULL && (*at)->begin < new->end) {
        struct piece *after = *at;
        if (after->end > new->end) {
            cut_front(after, new->end);
            break;
        }
        *at = after->next;
        free(after);
    }
    new->next = *at;
    *at = new;
}

/* Returns the length of the datagram, or 0 if a fragment is missing. */
static int whole_length(const struct unfinished *in)
{
    int end = 0;
    for (const struct piece *it = in->pieces; it != NULL; it = it->next) {
        if (it->begin != end) return 0;
        end = it->end;
        if (it->next == NULL && it->more) return 0;
    }
    return end;
}

static struct unfinished **find(const struct header *key, uint64_t now)
{
    struct unfinished **at = &all;
    while (*at != NULL && !is_same(&(*at)->key, key)) at = &(*at)->next;
    if (*at == NULL) {
        *at = calloc(1, sizeof **at);
        if (*at == NULL) abort();
        (*at)->key = *key;
        (*at)->born = now;
    }
    return at;
}

bool reassemble(struct header *it, uint64_t now)
{
    static uint8_t joined[LONGEST], first[MOST_QUOTED];
    if (it->length == 0 || (it->more && it->length % 8) || it->offset + it->length > LONGEST) return false;
    struct unfinished **at = find(it, now), *in = *at;
    struct piece *new = malloc(sizeof *new + (size_t)it->length);
    if (new == NULL) abort();
    *new = (struct piece){.begin = it->offset, .end = it->offset + it->length, .more = it->more, .bytes = new->room};
    memcpy(new->room, it->data, (size_t)it->length);
    if (it->offset == 0 && !in->has_first) {
        int quoted = (int)(it->data - it->packet) + (it->length < 8 ? it->length : 8);
        memcpy(in->first, it->packet, (size_t)quoted);
        in->has_first = true;
    }
    insert(in, new);
    int length = whole_length(in);
    if (length == 0) return false;
    for (const struct piece *each = in->pieces; each != NULL; each = each->next)
        memcpy(joined + each->begin, each->bytes, (size_t)(each->end - each->begin));
    memcpy(first, in->first, sizeof first);
    drop(at);
    it->offset = 0;
    it->more = false;
    it->data = joined;
    it->length = length;
    it->packet = first;
    return true;
}

void expire(uint64_t now)
{
    for (struct unfinished **at = &all; *at != NULL;) {
        if (now - (*at)->born < LIFE_MS) {
            at = &(*at)->next;
            continue;
        }
        if ((*at)->has_first) time_exceeded((*at)->first);
        drop(at);
    }
}
