/* A small TFTP server: see tftp.h. */
#include "tftp.h"
#include "copy.h"

#include <string.h>

enum { RRQ = 1, WRQ = 2, DATA = 3, ACK = 4, ERROR = 5, OACK = 6, HEAD = 4, BLKSIZE = 1, TSIZE = 2 };
enum { IN_USE = 0, NO_FILE = 1, NO_ACCESS = 2, FULL = 3, ILLEGAL = 4, UNKNOWN_TRANSFER = 5 };
enum { NO_NUMBER = 1000000000 };

/* Reports an error to the sender of a message with this opcode, unless that is an error itself. */
static void refuse(struct tftp *server, int opcode, uint32_t fd, const struct bsdudp_addr *to, int code)
{
    static const char errors[][21] = {"\0\5\0\0in use",  "\0\5\0\1no file", "\0\5\0\2not writable",
                                      "\0\5\0\3no room", "\0\5\0\4illegal", "\0\5\0\5unknown transfer"};
    if (opcode != ERROR)
        bsdudp_sendto(server->host, fd, to, errors[code], HEAD + strlen(errors[code] + HEAD) + 1);
}

static int opcode_of(const struct tftp *server, uint32_t len)
{
    return len < 2 ? 0 : (int)(256u * server->buffer[0] + server->buffer[1]);
}

static void end(struct tftp *server, struct tftp_transfer *it)
{
    bsdudp_close(server->host, it->fd);
    it->file = NULL;
}

/* Writes an option and its value, each with a 0 after it. Returns where they end. */
static uint32_t put_option(uint8_t *buffer, uint32_t at, const char *name, uint32_t value)
{
    uint32_t scale = 1;
    for (; *name != 0; name++)
        buffer[at++] = (uint8_t)*name;
    buffer[at++] = 0;
    while (value / scale > 9)
        scale *= 10;
    for (; scale > 0; scale /= 10)
        buffer[at++] = (uint8_t)('0' + value / scale % 10);
    buffer[at++] = 0;
    return at;
}

/* Writes bytes to a file that can hold `most`, from `at` on, until it's full. Returns where they end. */
static uint32_t write_file(uint8_t *file, uint32_t most, uint32_t at, const uint8_t *bytes, uint32_t len)
{
    uint32_t i;
    /*@ loop invariant i <= len && at == \at(at, Pre) + i && (i == 0 || at <= most);
        loop invariant \forall integer k; 0 <= k < i ==> file[\at(at, Pre) + k] == bytes[k];
        loop assigns i, at, file[\at(at, Pre) .. most - 1];
        loop variant len - i; */
    for (i = 0; i < len && at < most; i++)
        file[at++] = bytes[i];
    return at;
}

/* Where the block of a reader that was sent last stands in the file. */
static uint32_t begin_of(const struct tftp_transfer *it)
{
    return it->block == 0 ? 0 : (it->block - 1) * it->size;
}

/* Sends what is under way: the options that were agreed on, a block, or an acknowledgement. */
static void send(struct tftp *server, struct tftp_transfer *it)
{
    const struct tftp_file *file = it->file;
    uint8_t *buffer = server->buffer;
    uint32_t len = HEAD;
    buffer[0] = 0;
    buffer[1] = it->is_write ? ACK : DATA;
    buffer[2] = (uint8_t)(it->block >> 8);
    buffer[3] = (uint8_t)it->block;
    if (it->block == 0 && it->options != 0) {
        buffer[1] = OACK;
        len = it->options & BLKSIZE ? put_option(buffer, 2, "blksize", it->size) : 2;
        len = it->options & TSIZE ? put_option(buffer, len, "tsize", it->is_write ? it->total : file->len) : len;
    } else if (!it->is_write) {
        len += copy_block(buffer + HEAD, it->size, file->bytes, file->len, begin_of(it));
    }
    it->is_once = it->is_done || (it->is_write && buffer[1] == OACK);
    it->ticks = it->is_once ? TFTP_LINGER : (uint8_t)(2 << (it->tries < 2 ? it->tries : 2));
    bsdudp_sendto(server->host, it->fd, &it->peer, buffer, len);
}

/* The next block of a writer came. */
static void store(struct tftp *server, struct tftp_transfer *it, uint32_t len)
{
    struct tftp_file *file = it->file;
    uint8_t *to = file->buffer;
    const uint32_t at = it->at;
    if (to != NULL && len <= it->size)
        it->at = write_file(to, file->most, at, server->buffer + HEAD, len);
    if (it->at - at < len) {
        refuse(server, DATA, it->fd, &it->peer, len > it->size ? ILLEGAL : FULL);
        end(server, it);
        return;
    }
    it->block++;
    it->tries = 0;
    it->is_done = len < it->size;
    file->len = it->is_done ? it->at : 0;
    file->version = (uint8_t)(file->version + it->is_done);
    send(server, it);
}

/* A message came to the port of a transfer. One from elsewhere doesn't end it. An acknowledgement that comes again does
   nothing: else each block after it went out twice, the "sorcerer's apprentice" (RFC 1123, 4.2.3.1). */
static void take(struct tftp *server, struct tftp_transfer *it, const struct bsdudp_addr *from, uint32_t len)
{
    const int opcode = opcode_of(server, len);
    const uint32_t last = it->block & 0xffff;
    uint32_t block;
    if (len < HEAD)
        return;
    block = (uint32_t)server->buffer[2] << 8 | server->buffer[3];
    if (from->ip != it->peer.ip || from->port != it->peer.port) {
        refuse(server, opcode, it->fd, from, UNKNOWN_TRANSFER);
    } else if (opcode != (it->is_write ? DATA : ACK)) {
        refuse(server, opcode, it->fd, from, ILLEGAL);
        end(server, it);
    } else if (it->is_write && block == ((last + 1) & 0xffff) && !it->is_done) {
        store(server, it, len - HEAD);
    } else if (block == last && !it->is_write && it->block > 0 && it->file->len - begin_of(it) < it->size) {
        end(server, it); /* it was shorter than the others, so the last */
    } else if (block == last) {
        it->tries = 0;
        it->block += !it->is_write;
        send(server, it);
    }
}

/* Where the text behind the one at `at` begins: after the next 0. At the end of the message if no 0 follows. */
static uint32_t next_text(const uint8_t *bytes, uint32_t len, uint32_t at)
{
    /*@ loop invariant \at(at, Pre) <= at && (at <= len || at == \at(at, Pre));
        loop invariant \forall integer k; \at(at, Pre) <= k < at ==> bytes[k] != 0;
        loop assigns at;
        loop variant len - at; */
    while (at < len && bytes[at] != 0)
        at++;
    return at < len ? at + 1 : len;
}

/* Whether the text at `at`, with its 0, is a word. With `fold` 0x20 its letters may be of either case. */
static int is_word(const uint8_t *bytes, uint32_t len, uint32_t at, const char *word, uint8_t fold)
{
    uint32_t i;
    /*@ loop invariant i <= strlen(word) && at == \at(at, Pre) + i && (i == 0 || at <= len);
        loop invariant \forall integer k; 0 <= k < i ==> (bytes[\at(at, Pre) + k] | fold) == word[k];
        loop assigns i, at;
        loop variant strlen(word) - i; */
    for (i = 0; word[i] != 0 && at < len && (bytes[at] | fold) == word[i]; i++)
        at++;
    return word[i] == 0 && at < len && bytes[at] == 0;
}

/* The number that the text at `at` is, at most NO_NUMBER - 1 in decimal digits, or NO_NUMBER. */
static uint32_t number_of(const uint8_t *bytes, uint32_t len, uint32_t at)
{
    uint32_t value = 0;
    /*@ loop invariant \at(at, Pre) <= at && (at <= len || at == \at(at, Pre)) && value < NO_NUMBER;
        loop invariant value == decimal(bytes, \at(at, Pre), at) && are_digits(bytes, \at(at, Pre), at);
        loop assigns at, value;
        loop variant len - at; */
    for (; at < len && bytes[at] >= '0' && bytes[at] <= '9' && value < NO_NUMBER / 10; at++)
        value = 10 * value + (uint32_t)(bytes[at] - '0');
    return at < len && bytes[at] == 0 ? value : NO_NUMBER;
}

/* An option that isn't known, or has a wrong value, isn't agreed on (RFC 2347). */
static void take_option(struct tftp_transfer *it, const uint8_t *bytes, uint32_t len, uint32_t name, uint32_t value)
{
    const uint32_t number = number_of(bytes, len, value);
    if (is_word(bytes, len, name, "blksize", 0x20) && number >= 8 && number <= 65464) {
        it->options |= BLKSIZE;
        it->size = (uint16_t)(number < TFTP_BLOCK ? number : TFTP_BLOCK);
    } else if (is_word(bytes, len, name, "tsize", 0x20) && number != NO_NUMBER) {
        it->options |= TSIZE;
        it->total = number;
    }
}

/* Reads a request: its file, and what else its transfer will be. Returns NULL if it's refused, and sets the fault. */
static struct tftp_file *read_request(struct tftp *server, struct tftp_transfer *new, uint32_t len, int *fault)
{
    const uint8_t *bytes = server->buffer;
    const uint32_t mode = next_text(bytes, len, 2);
    const int opcode = opcode_of(server, len);
    struct tftp_file *file;
    uint32_t at, value, i;
    *fault = ILLEGAL;
    if ((opcode != RRQ && opcode != WRQ) || !is_word(bytes, len, mode, "octet", 0x20))
        return NULL;
    new->is_write = opcode == WRQ;
    for (at = next_text(bytes, len, mode); at < len; at = next_text(bytes, len, value)) {
        value = next_text(bytes, len, at);
        take_option(new, bytes, len, at, value);
    }
    *fault = NO_FILE;
    for (i = 0; i < server->count && !is_word(bytes, len, 2, server->files[i].name, 0); i++)
        continue;
    if (i == server->count)
        return NULL;
    file = &server->files[i];
    *fault = file->buffer == NULL ? NO_ACCESS : FULL;
    return opcode == WRQ && (file->buffer == NULL || new->total > file->most) ? NULL : file;
}

/* A request came. If its client has a transfer, the network brought the request twice, or late. If no place is free, a
   transfer that only awaits a copy of its last block gives way, and else the client asks again. */
static void begin(struct tftp *server, const struct bsdudp_addr *from, uint32_t len)
{
    struct tftp_transfer new = {.peer = *from, .size = 512}, *place = NULL;
    const int opcode = opcode_of(server, len);
    int fault, fd, i;
    new.file = read_request(server, &new, len, &fault);
    if (new.file == NULL) {
        refuse(server, opcode, server->fd, from, fault);
        return;
    }
    for (i = 0; i < TFTP_TRANSFERS; i++) {
        struct tftp_transfer *it = &server->transfers[i];
        if (it->file != NULL && it->peer.ip == from->ip && it->peer.port == from->port) {
            if (it->is_write && it->block == 0)
                send(server, it);
            if (!it->is_done || (new.is_write && it->file == new.file))
                return;
            end(server, it);
        }
        place = it->file == NULL || (place == NULL && it->is_done) ? it : place;
        if (it->file == new.file && !it->is_done && (new.is_write || it->is_write)) {
            refuse(server, opcode, server->fd, from, IN_USE);
            return;
        }
    }
    if (place == NULL || (fd = bsdudp_socket(server->host)) < 0)
        return;
    if (place->file != NULL)
        end(server, place);
    new.fd = (uint32_t)fd; /* its first message gives it a port */
    new.block = !new.is_write && new.options == 0;
    new.file->len = new.is_write ? 0 : new.file->len;
    bsdudp_setsockopt(server->host, new.fd, BSDUDP_SO_RCVBUF, TFTP_QUEUE);
    send(server, &new);
    *place = new;
}

int tftp_start(struct tftp *server, uint32_t addr)
{
    const struct bsdudp_addr local = {addr, TFTP_PORT}; /* with an address, or requests to everyone came, too */
    const int fd = bsdudp_socket(server->host);
    server->fd = (uint32_t)fd;
    bsdudp_setsockopt(server->host, server->fd, BSDUDP_SO_RCVBUF, TFTP_REQUESTS);
    return fd < 0 ? fd : bsdudp_bind(server->host, server->fd, &local);
}

void tftp_serve(struct tftp *server)
{
    struct bsdudp_addr from = {0, 0};
    int len, i;
    while ((len = bsdudp_recvfrom(server->host, server->fd, server->buffer, TFTP_ROOM, &from)) >= 0)
        begin(server, &from, (uint32_t)len);
    for (i = 0; i < TFTP_TRANSFERS; i++) {
        struct tftp_transfer *it = &server->transfers[i];
        while (it->file != NULL && (len = bsdudp_recvfrom(server->host, it->fd, server->buffer, TFTP_ROOM, &from)) >= 0)
            take(server, it, &from, (uint32_t)len);
    }
}

void tftp_tick(struct tftp *server)
{
    int i;
    for (i = 0; i < TFTP_TRANSFERS; i++) {
        struct tftp_transfer *it = &server->transfers[i];
        if (it->file != NULL && --it->ticks == 0)
            (it->is_once || ++it->tries == TFTP_TRIES ? end : send)(server, it);
    }
}
