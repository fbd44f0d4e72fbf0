/* coap.c, and the contracts of what reads a message and compares paths: any bytes, any lengths. */
#include "eva/copy_contracts.h"
#include "examples/coap.c"

/*@ requires \valid(it) && it->path_len <= PATH + 1 && \valid_read(bytes + (0 .. len - 1)) && len <= 65804;
    requires \separated(it, bytes + (0 .. len - 1));
    assigns it->path_len, it->path[0 .. PATH - 1];
    ensures it->path_len <= PATH + 1; */
static void add_segment(struct request *it, const uint8_t *bytes, uint32_t len);

/*@ requires \valid(it) && it->path_len <= PATH + 1 && \valid_read(bytes + (0 .. len - 1)) && len <= 65804;
    requires \separated(it, bytes + (0 .. len - 1)) && \separated(it, &known[0 .. KNOWN - 1]);
    assigns it->code, it->accept, it->block, it->path_len, it->path[0 .. PATH - 1];
    ensures it->path_len <= PATH + 1; */
static void take_option(struct request *it, uint32_t number, int is_again, const uint8_t *bytes, uint32_t len);

/*@ requires \valid_read(bytes + (0 .. len - 1)) && \valid(at) && \valid(value) && *at <= len && *value <= 15;
    requires \separated(at, value, bytes + (0 .. len - 1));
    assigns *at, *value;
    ensures *at <= len && \old(*at) <= *at && *value <= 65804; */
static int extend(const uint8_t *bytes, uint32_t len, uint32_t *at, uint32_t *value);

/*@ requires \valid(it) && \valid_read(bytes + (0 .. len - 1)) && HEAD <= len <= 65507;
    requires \separated(it, bytes + (0 .. len - 1)) && \separated(it, &known[0 .. KNOWN - 1]) && it->path_len == 0;
    requires it->token <= 8;
    assigns it->code, it->accept, it->block, it->path_len, it->token, it->payload_len \from *it, bytes[0 .. len - 1], len;
    assigns it->path[0 .. PATH - 1] \from it->path[0 .. PATH - 1], bytes[0 .. len - 1], len;
    assigns it->head, it->payload \from it->payload, bytes;
    assigns \result \from bytes[0 .. len - 1], len;
    ensures it->head == bytes && it->path_len <= PATH + 1;
    ensures (\result == 0 || \result == 1) && it->token <= 8;
    ensures \result == 1 ==> HEAD + it->token <= len;
    ensures \result == 1 ==> it->payload == bytes + (len - it->payload_len) && it->payload_len <= len - HEAD; */
static int parse(struct request *it, const uint8_t *bytes, uint32_t len);

/*@ requires \valid_read(it) && valid_read_string(path) && it->path_len <= PATH + 1;
    assigns \result \from *it, path[0 ..];
    ensures \result == 0 || \result == 1;
    ensures \result == 1 <==> it->path_len <= PATH && strlen(path) == it->path_len &&
        \forall integer k; 0 <= k < it->path_len ==> path[k] == it->path[k]; */
static int is_path(const struct request *it, const char *path);
