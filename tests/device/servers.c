/* The servers of CoAP and TFTP, and their client on the same stack: messages that the clients of other tests don't send.
   It prints the line of the first wrong result, and then exits with 1. */
#include "coap.h"
#include "tftp.h"

#include <stdio.h>
#include <string.h>

#define WANT(call, answer) \
    do { \
        long got_ = (long)(call); \
        if (got_ != (long)(answer)) { \
            fprintf(stderr, "tests/device/servers.c:%d: %s: %ld, not %ld\n", __LINE__, #call, got_, (long)(answer)); \
            return 1; \
        } \
    } while (0)

enum { OWN = 0x0a000001, LEN = BSDUDP_MEMORY(64, 16), NOTHING = -BSDUDP_EWOULDBLOCK };

static unsigned char memory[LEN] __attribute__((aligned(BSDUDP_ALIGNMENT)));
static struct bsdudp stack = BSDUDP_NONE;
static uint8_t reply[600];
static uint32_t stored; /* the bytes that the resource got */

static void get(struct coap_content *content)
{
    static const uint8_t byte = 'x';
    content->bytes = &byte;
    content->len = 1;
}

static int put(const uint8_t *bytes, uint32_t len)
{
    (void)bytes;
    stored = len;
    return COAP_CODE(2, 4);
}

/* Sends these bytes to a port, lets the servers run, and returns the length of the reply, or the error if there's none. */
static int reply_to(struct coap *coap, struct tftp *tftp, const void *bytes, size_t len)
{
    const struct bsdudp_addr to = {OWN, coap != NULL ? COAP_PORT : TFTP_PORT};
    const int fd = bsdudp_socket(&stack);
    int came;
    WANT(bsdudp_sendto(&stack, (uint32_t)fd, &to, bytes, len), len);
    if (coap != NULL)
        coap_serve(coap);
    else
        tftp_serve(tftp);
    memset(reply, 0, sizeof reply);
    came = bsdudp_recvfrom(&stack, (uint32_t)fd, reply, sizeof reply, NULL);
    WANT(bsdudp_close(&stack, (uint32_t)fd), 0);
    return came;
}

/* A path of 32 characters is found. One of 33 isn't, and no resource may have it. */
static int paths(void)
{
    static const char request[] = "\x40\x01\x00\x01\xb7sensors\x0btemperature\x07outside\x03no3";
    static const char longer[] = "\x40\x01\x00\x02\xb7sensors\x0btemperature\x07outside\x04wall";
    static struct coap_resource resource = {"/sensors/temperature/outside/no3", COAP_TEXT, get, NULL};
    static uint8_t buffer[128];
    static struct coap coap = {.host = &stack, .resources = &resource, .count = 1, .buffer_len = 128};
    static struct coap other;
    coap.buffer = buffer;
    WANT(strlen(resource.path), COAP_PATH);
    WANT(coap_start(&coap, OWN), 0);
    WANT(reply_to(&coap, NULL, request, sizeof request - 1) > 0 && reply[1] == COAP_CODE(2, 5), 1);
    WANT(reply_to(&coap, NULL, longer, sizeof longer - 1) > 0 && reply[1] == COAP_CODE(4, 4), 1);
    resource.path = "/sensors/temperature/outside/wall";
    other = coap;
    WANT(coap_start(&other, OWN), -BSDUDP_EINVAL);
    coap.now = 2 * COAP_LIFETIME;
    WANT(reply_to(&coap, NULL, longer, sizeof longer - 1) > 0 && reply[1] == COAP_CODE(4, 4), 1);
    return bsdudp_close(&stack, coap.fd);
}

/* A request that's longer than the buffer is refused with 4.13, and stores nothing. */
static int cut(void)
{
    static const struct coap_resource resource = {"/n", COAP_TEXT, get, put};
    static uint8_t buffer[16];
    static struct coap coap = {.host = &stack, .resources = &resource, .count = 1, .buffer_len = sizeof buffer};
    coap.buffer = buffer;
    WANT(coap_start(&coap, OWN), 0);
    WANT(reply_to(&coap, NULL, "\x40\x03\0\1\xb1n\xff" "123456789", 16) == 4 && reply[1] == COAP_CODE(2, 4), 1);
    WANT(stored, 9);
    stored = 0;
    WANT(reply_to(&coap, NULL, "\x40\x03\0\2\xb1n\xff" "1234567890", 17) == 4 && reply[1] == COAP_CODE(4, 13), 1);
    WANT(reply_to(&coap, NULL, "\x50\x03\0\3\xb1n\xff" "1234567890", 17) == 4 && reply[1] == COAP_CODE(4, 13), 1);
    WANT(stored, 0);
    WANT(reply_to(&coap, NULL, "\x40\x03\0\4\xb1n\x0b" "123456789ab\xff" "1", 20), 4); /* its options are cut */
    WANT(reply[0] == 0x70 && reply[1] == 0, 1);
    WANT(reply_to(&coap, NULL, "\x40\x03\0\5\xb1n\xff" "1", 8) == 4 && reply[1] == COAP_CODE(2, 4), 1);
    WANT(stored, 1);
    return bsdudp_close(&stack, coap.fd);
}

static void get_block(struct coap_content *content)
{
    static const uint8_t bytes[16] = "0123456789abcde";
    content->bytes = bytes;
    content->len = sizeof bytes;
}

/* A block that begins at the end of its content, or behind it, is refused with 4.00 (RFC 7959, 2.4). So is size 7. */
static int blocks(void)
{
    static const struct coap_resource resource = {"/n", COAP_TEXT, get_block, NULL};
    static const struct {
        char block;
        int code, len; /* with 4 bytes of head, 4 of options and the value of Block2, a marker and 16 of payload */
    } rows[] = {{0x00, COAP_CODE(2, 5), 25}, {0x10, COAP_CODE(4, 0), 4}, {0x20, COAP_CODE(4, 0), 4},
                {0x01, COAP_CODE(2, 5), 26}, {0x11, COAP_CODE(4, 0), 4}, {0x07, COAP_CODE(4, 0), 4}};
    static uint8_t buffer[64];
    static struct coap coap = {.host = &stack, .resources = &resource, .count = 1, .buffer_len = sizeof buffer};
    unsigned k;
    coap.buffer = buffer;
    WANT(coap_start(&coap, OWN), 0);
    for (k = 0; k < sizeof rows / sizeof rows[0]; k++) {
        char request[] = "\x40\x01\0\0\xb1n\xc1"; /* its last byte is the value of Block2 */
        request[3] = (char)k;
        request[7] = rows[k].block;
        WANT(reply_to(&coap, NULL, request, 8), rows[k].len);
        WANT(reply[1], rows[k].code);
    }
    return bsdudp_close(&stack, coap.fd);
}

/* A client reads a file of `len` bytes to its end, which is a block with fewer than 512 bytes, and then has no transfer. */
static int reads(struct tftp *tftp, uint32_t len)
{
    struct bsdudp_addr to = {OWN, TFTP_PORT};
    const uint32_t fd = (uint32_t)bsdudp_socket(&stack);
    uint32_t block, at = 0;
    int came = 4 + 512;
    tftp->files->len = len;
    WANT(bsdudp_sendto(&stack, fd, &to, "\0\1a\0octet", 10), 10);
    for (block = 1; came == 4 + 512; block++) {
        const uint8_t ack[] = {0, 4, 0, (uint8_t)block};
        tftp_serve(tftp);
        came = bsdudp_recvfrom(&stack, fd, reply, sizeof reply, &to);
        WANT(came >= 4 && reply[1] == 3 && reply[3] == block, 1);
        WANT(memcmp(reply + 4, tftp->files->bytes + at, (size_t)came - 4), 0);
        at += (uint32_t)came - 4;
        WANT(bsdudp_sendto(&stack, fd, &to, ack, sizeof ack), 4);
    }
    WANT(at, len);
    tftp_serve(tftp);
    WANT(bsdudp_recvfrom(&stack, fd, reply, sizeof reply, NULL), NOTHING);
    WANT(tftp->transfers[0].file == NULL, 1);
    return bsdudp_close(&stack, fd);
}

static int whole_files(void)
{
    static uint8_t bytes[1025], buffer[TFTP_ROOM];
    static struct tftp_file file = {"a", bytes, NULL, 0, 0, 0};
    static struct tftp tftp = {.host = &stack, .files = &file, .count = 1, .buffer = buffer};
    static const uint32_t lens[] = {0, 1, 511, 512, 513, 1024, 1025};
    unsigned k;
    for (k = 0; k < sizeof bytes; k++)
        bytes[k] = (uint8_t)(k * 7 + k / 256);
    WANT(tftp_start(&tftp, OWN), 0);
    for (k = 0; k < sizeof lens / sizeof lens[0]; k++)
        WANT(reads(&tftp, lens[k]), 0);
    return bsdudp_close(&stack, tftp.fd);
}

/* A message without an opcode is illegal, whatever came before it. */
static int short_messages(void)
{
    static const uint8_t byte = 'x';
    static struct tftp_file file = {"a", &byte, NULL, 1, 0, 0};
    static uint8_t buffer[TFTP_ROOM];
    static struct tftp tftp = {.host = &stack, .files = &file, .count = 1, .buffer = buffer};
    static const char *const before[] = {"\0\4\0\1", "\0\5\0\0no", "\0\1a\0octet"};
    static const int len[] = {4, 7, 10};
    int k, n;
    WANT(tftp_start(&tftp, OWN), 0);
    for (k = 0; k < 3; k++)
        for (n = 0; n < 2; n++) {
            WANT(reply_to(NULL, &tftp, before[k], (size_t)len[k]), k == 0 ? 12 : k == 1 ? NOTHING : 5);
            WANT(reply_to(NULL, &tftp, "A", (size_t)n), 12);
        }
    return bsdudp_close(&stack, tftp.fd);
}

int main(void)
{
    static const struct bsdudp_config config = {OWN, 0x0a0000ff, 64, 16, 1500, 1};
    WANT(bsdudp_boot_in(&stack, &config, memory, LEN), 0);
    return paths() || cut() || blocks() || whole_files() || short_messages();
}
