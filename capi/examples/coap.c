/* A small CoAP server: see coap.h. Section numbers are those of RFC 7252. */
#include "coap.h"
#include "copy.h"

#include <string.h>

enum { VERSION = 1, CON = 0, NON = 1, ACK = 2, RST = 3, GET = 1, PUT = 3, LAST_METHOD = 31, HEAD = 4, MARKER = 0xff };
enum { URI_HOST = 3, ETAG = 4, URI_PORT = 7, URI_PATH = 11, CONTENT_FORMAT = 12, URI_QUERY = 15, ACCEPT = 17 };
enum { BLOCK2 = 23, PROXY_URI = 35, PROXY_SCHEME = 39, PATH = COAP_PATH, NONE = 1 << 24 };

/* The critical options that are known, with the lengths that they may have (5.10). */
static const struct {
    uint8_t number, least, most, is_once;
} known[] = {{URI_HOST, 1, 255, 1},  {URI_PORT, 0, 2, 1}, {URI_PATH, 0, 255, 0},
             {URI_QUERY, 0, 255, 0}, {ACCEPT, 0, 2, 1},   {BLOCK2, 0, 3, 1}};
enum { KNOWN = sizeof known / sizeof known[0] };

struct request {
    const uint8_t *head, *payload;
    uint32_t payload_len, path_len, accept, block; /* the values of Accept and Block2, or NONE */
    int code;                                      /* the response's, if an option refuses the request, else 0 */
    uint32_t token;                                /* the length of the token */
    char path[PATH];                               /* a '/' before each segment. Too long: path_len is above PATH */
};

/* Adds a segment to the path. With a '/' in it, it's as one that is too long: no resource has it. */
static void add_segment(struct request *it, const uint8_t *bytes, uint32_t len)
{
    const uint32_t at = it->path_len;
    uint32_t i;
    it->path_len = PATH + 1;
    if (at + 1 + len > PATH)
        return;
    it->path[at] = '/';
    /*@ loop invariant i <= len;
        loop assigns i, it->path[at + 1 .. PATH - 1];
        loop variant len - i; */
    for (i = 0; i < len; i++) {
        if (bytes[i] == '/')
            return;
        it->path[at + 1 + i] = (char)bytes[i];
    }
    it->path_len = at + 1 + len;
}

/* A critical option that isn't known, has a wrong length, or comes again, refuses the request (5.4). A query changes
   nothing here, and one name of the host is as good as another. */
static void take_option(struct request *it, uint32_t number, int is_again, const uint8_t *bytes, uint32_t len)
{
    uint32_t value = 0, i;
    /*@ loop invariant i <= len && i <= 4;
        loop assigns i, value;
        loop variant 4 - i; */
    for (i = 0; i < len && i < 4; i++)
        value = value << 8 | bytes[i];
    /*@ loop invariant i <= KNOWN;
        loop assigns i;
        loop variant KNOWN - i; */
    for (i = 0; i < KNOWN && known[i].number != number; i++)
        continue;
    if (it->code == 0 && (number == PROXY_URI || number == PROXY_SCHEME))
        it->code = COAP_CODE(5, 5);
    if (it->code == 0 && (number & 1) != 0 &&
        (i == KNOWN || len < known[i].least || len > known[i].most || (is_again && known[i].is_once)))
        it->code = COAP_CODE(4, 2);
    it->accept = number == ACCEPT ? value : it->accept;
    it->block = number == BLOCK2 ? value : it->block;
    if (number == URI_PATH)
        add_segment(it, bytes, len);
}

/* A delta or a length of 13 or more goes on after the first byte of its option (3.1). Returns 0 if it's wrong. */
static int extend(const uint8_t *bytes, uint32_t len, uint32_t *at, uint32_t *value)
{
    const uint32_t more = *value > 12 ? *value - 12 : 0;
    if (more > 2 || len - *at < more)
        return 0;
    if (more > 0)
        *value = more == 1 ? 13u + bytes[*at] : 269u + bytes[*at] * 256u + bytes[*at + 1];
    *at += more;
    return 1;
}

/* Reads a request of HEAD bytes or more into an empty one. Returns 0 if its form is wrong (3). */
static int parse(struct request *it, const uint8_t *bytes, uint32_t len)
{
    const uint32_t token = bytes[0] % 16u;
    uint32_t number = 0, at = HEAD + token;
    it->head = bytes;
    if (token > 8 || len < HEAD + token)
        return 0;
    it->token = token;
    /*@ loop invariant HEAD <= at <= len && number <= 65804 * at && it->path_len <= PATH + 1;
        loop assigns at, number, it->code, it->accept, it->block, it->path_len, it->path[0 .. PATH - 1];
        loop variant len - at; */
    while (at < len && bytes[at] != MARKER) {
        uint32_t delta = bytes[at] / 16u, length = bytes[at] % 16u;
        at++;
        if (!extend(bytes, len, &at, &delta) || !extend(bytes, len, &at, &length) || length > len - at)
            return 0;
        number += delta;
        take_option(it, number, delta == 0, bytes + at, length);
        at += length;
    }
    if (number > 0xffff || (at < len && ++at == len)) /* a marker has a payload behind it */
        return 0;
    it->payload = bytes + at;
    it->payload_len = len - at;
    return 1;
}

/* Writes an option with a number as its value, in as few bytes as hold it (3.2). Returns where it ends. */
static uint32_t put_option(uint8_t *bytes, uint32_t at, uint32_t delta, uint32_t value)
{
    uint32_t len = value == 0 ? 0 : value <= 0xff ? 1 : value <= 0xffff ? 2 : 3;
    bytes[at++] = (uint8_t)(delta << 4 | len);
    while (len-- > 0)
        bytes[at++] = (uint8_t)(value >> 8 * len);
    return at;
}

/* Appends the options and the payload of a response to GET: one block, if Block2 requests it, or if all of it is more
   (RFC 7959, 2.2 and 2.4). A block that is smaller than asked for begins at the same byte. Returns the code. */
static int get(const struct request *it, const struct coap_resource *resource, struct coap_response *response)
{
    const uint32_t block = it->block != NONE ? it->block : COAP_EXPONENT, asked = block & 7;
    const uint32_t exponent = asked < COAP_EXPONENT ? asked : COAP_EXPONENT, size = 16u << exponent;
    const uint32_t from = block >> 4 << (asked + 4);
    struct coap_content content = {it->head, 0, 0};
    uint32_t at = HEAD + it->token, more;
    if (it->accept != NONE && it->accept != resource->format)
        return COAP_CODE(4, 6);
    resource->get(&content);
    if (asked == 7 || (from > 0 && from >= content.len))
        return COAP_CODE(4, 0);
    more = content.len - from > size;
    at = put_option(response->bytes, at, ETAG, 0x80u | content.version);
    at = put_option(response->bytes, at, CONTENT_FORMAT - ETAG, resource->format);
    if (it->block != NONE || more)
        at = put_option(response->bytes, at, BLOCK2 - CONTENT_FORMAT, from / size << 4 | more << 3 | exponent);
    if (content.len > 0)
        response->bytes[at++] = MARKER;
    response->len = (uint16_t)(at + copy_block(response->bytes + at, size, content.bytes, content.len, from));
    return COAP_CODE(2, 5);
}

/* Whether this is the path of a request. */
static int is_path(const struct request *it, const char *path)
{
    uint32_t i;
    /*@ loop invariant i <= it->path_len && i <= PATH && i <= strlen(path);
        loop invariant \forall integer k; 0 <= k < i ==> path[k] == it->path[k];
        loop assigns i;
        loop variant PATH - i; */
    for (i = 0; i < it->path_len && i < PATH && path[i] != 0 && path[i] == it->path[i]; i++)
        continue;
    return i == it->path_len && path[i] == 0;
}

/* Does what a request wants, and appends its options and payload to the response. Returns the code. */
static int serve(struct coap *server, const struct request *it, struct coap_response *response)
{
    const struct coap_resource *resource = NULL;
    uint32_t i;
    if (it->code != 0)
        return it->code;
    for (i = 0; i < server->count && resource == NULL; i++)
        resource = is_path(it, server->resources[i].path) ? &server->resources[i] : NULL;
    if (resource == NULL)
        return COAP_CODE(4, 4);
    if (it->head[1] == GET)
        return get(it, resource, response);
    return it->head[1] == PUT && resource->put != NULL ? resource->put(it->payload, it->payload_len) : COAP_CODE(4, 5);
}

/* Writes the response to a request: on the acknowledgement, or with an id of its own (5.2). */
static void respond(struct coap *server, const struct request *it, struct coap_response *response)
{
    const int type = (it->head[0] >> 4 & 3) == CON ? ACK : NON;
    const uint16_t id = type == ACK ? response->id : ++server->last_id;
    uint32_t i;
    response->len = (uint16_t)(HEAD + it->token);
    for (i = HEAD; i < HEAD + it->token; i++)
        response->bytes[i] = it->head[i];
    response->bytes[1] = (uint8_t)serve(server, it, response);
    response->bytes[0] = (uint8_t)(VERSION << 6 | type << 4 | (int)it->token);
    response->bytes[2] = (uint8_t)(id >> 8);
    response->bytes[3] = (uint8_t)id;
}

/* A message. What is confirmable and no request, as an empty "ping", is reset (4.2, 4.3); other faults are ignored. A
   request that is longer than the buffer is refused (5.9.2.9), or, if its options are cut, reset (4.6). */
static void take(struct coap *server, const struct bsdudp_addr *from, uint32_t whole)
{
    const uint8_t *bytes = server->buffer;
    const uint32_t len = whole < server->buffer_len ? whole : server->buffer_len;
    struct coap_response *at = NULL;
    struct request it = {.accept = NONE, .block = NONE};
    uint32_t place;
    uint16_t id;
    int type;
    if (len < HEAD || bytes[0] >> 6 != VERSION)
        return;
    type = bytes[0] >> 4 & 3;
    id = (uint16_t)(bytes[2] << 8 | bytes[3]);
    if (type == RST || type == ACK)
        return;
    if (bytes[1] == 0 || bytes[1] > LAST_METHOD || !parse(&it, bytes, len) || (type == NON && it.code != 0)) {
        const uint8_t reset[HEAD] = {VERSION << 6 | RST << 4, 0, bytes[2], bytes[3]};
        if (type == CON)
            bsdudp_sendto(server->host, server->fd, from, reset, HEAD);
        return;
    }
    it.code = it.code == 0 && whole > len ? COAP_CODE(4, 13) : it.code;
    for (place = 0; place < COAP_RESPONSES; place++) { /* a request that came before isn't done again (4.5) */
        at = &server->responses[place];
        if (at->len > 0 && server->now - at->born < 2 * COAP_LIFETIME && at->id == id && at->to.ip == from->ip &&
            at->to.port == from->port)
            break;
    }
    if (place < COAP_RESPONSES && type == NON)
        return;
    if (place == COAP_RESPONSES) {
        place = server->given++ % COAP_RESPONSES; /* the oldest */
        //@ split place;
        at = &server->responses[place];
        at->to = *from;
        at->id = id;
        at->born = server->now;
        respond(server, &it, at);
    }
    bsdudp_sendto(server->host, server->fd, from, at->bytes, at->len); /* if it's refused, the client asks again */
}

int coap_start(struct coap *server, uint32_t addr)
{
    const struct bsdudp_addr local = {addr, COAP_PORT}; /* with an address, or requests to everyone came, too (8.1) */
    uint32_t i;
    int fd;
    for (i = 0; i < server->count; i++)
        if (strlen(server->resources[i].path) > PATH)
            return -BSDUDP_EINVAL;
    fd = bsdudp_socket(server->host);
    server->fd = (uint32_t)fd;
    bsdudp_setsockopt(server->host, server->fd, BSDUDP_SO_RCVBUF, COAP_QUEUE);
    return fd < 0 ? fd : bsdudp_bind(server->host, server->fd, &local);
}

void coap_serve(struct coap *server)
{
    struct bsdudp_addr from = {0, 0};
    int len;
    while ((len = bsdudp_recvfrom_trunc(server->host, server->fd, server->buffer, server->buffer_len, &from)) >= 0)
        take(server, &from, (uint32_t)len);
}

void coap_tick(struct coap *server)
{
    server->now++;
}
