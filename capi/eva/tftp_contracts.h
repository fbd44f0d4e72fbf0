/* The contracts of the functions by which tftp.c reads a request and writes a file: any bytes, any lengths. */
#include "eva/copy_contracts.h"
#include "tftp.h"

#include <string.h>

/*@ logic integer decimal{L}(uint8_t *bytes, integer from, integer to) =
        to <= from ? 0 : 10 * decimal(bytes, from, to - 1) + bytes[to - 1] - '0';
    predicate are_digits{L}(uint8_t *bytes, integer from, integer to) =
        \forall integer k; from <= k < to ==> '0' <= bytes[k] <= '9';
    predicate is_text{L}(uint8_t *bytes, integer len, integer at, integer end) =
        at <= end < len && bytes[end] == 0 && \forall integer k; at <= k < end ==> bytes[k] != 0; */

/*@ requires \valid_read(server) && \valid_read(server->buffer + (0 .. len - 1));
    assigns \result \from server->buffer, server->buffer[0 .. 1], len;
    ensures 0 <= \result <= 65535;
    ensures \result == (len < 2 ? 0 : 256 * server->buffer[0] + server->buffer[1]); */
static int opcode_of(const struct tftp *server, uint32_t len);

/*@ requires \valid(file + (0 .. most - 1)) && \valid_read(bytes + (0 .. len - 1)) && at <= most;
    requires \separated(file + (0 .. most - 1), bytes + (0 .. len - 1));
    assigns file[at .. most - 1] \from bytes[0 .. len - 1], len, at, most;
    assigns \result \from len, at, most;
    ensures \result <= most;
    ensures \result == at + \min(len, most - at);
    ensures \forall integer k; 0 <= k < \result - at ==> file[at + k] == bytes[k]; */
static uint32_t write_file(uint8_t *file, uint32_t most, uint32_t at, const uint8_t *bytes, uint32_t len);

/*@ requires \valid_read(bytes + (0 .. len - 1));
    assigns \result \from bytes[0 .. len - 1], len, at;
    ensures \forall integer end; is_text(bytes, len, at, end) ==> \result == end + 1;
    ensures (\forall integer k; at <= k < len ==> bytes[k] != 0) ==> \result == len;
    ensures \result <= len;
    ensures at < len ==> at < \result; */
static uint32_t next_text(const uint8_t *bytes, uint32_t len, uint32_t at);

/*@ requires \valid_read(bytes + (0 .. len - 1)) && valid_read_string(word);
    requires strlen(word) <= 255 && len <= 65535 && at <= 65535;
    assigns \result \from bytes[0 .. len - 1], len, at, word[0 ..], fold;
    ensures \result == 0 || \result == 1;
    ensures \result == 1 <==> at + strlen(word) < len && bytes[at + strlen(word)] == 0 &&
        \forall integer k; 0 <= k < strlen(word) ==> (bytes[at + k] | fold) == word[k]; */
static int is_word(const uint8_t *bytes, uint32_t len, uint32_t at, const char *word, uint8_t fold);

/*@ requires \valid_read(bytes + (0 .. len - 1));
    assigns \result \from bytes[0 .. len - 1], len, at;
    ensures \result <= 1000000000;
    ensures \result < 1000000000 ==>
        \exists integer end; is_text(bytes, len, at, end) && are_digits(bytes, at, end) &&
        \result == decimal(bytes, at, end); */
static uint32_t number_of(const uint8_t *bytes, uint32_t len, uint32_t at);
