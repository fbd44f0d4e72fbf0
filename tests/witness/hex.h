/* Bytes as scripts have them: lower-case hexadecimal digits, or `-` for none. */
#include <stdint.h>
#include <stdio.h>
#include <string.h>

static int digit(char c) { return c >= '0' && c <= '9' ? c - '0' : c >= 'a' && c <= 'f' ? c - 'a' + 10 : -1; }

/* Stores at most `most` bytes, and returns how many there are. */
static int of_hex(const char *text, uint8_t *to, int most)
{
    int n = 0;
    for (; n < most && digit(text[0]) >= 0 && digit(text[1]) >= 0; text += 2)
        to[n++] = (uint8_t)(digit(text[0]) << 4 | digit(text[1]));
    return n;
}

static void print_hex(const uint8_t *bytes, int n)
{
    if (n <= 0) putchar('-');
    for (int i = 0; i < n; i++) putchar("0123456789abcdef"[bytes[i] >> 4]), putchar("0123456789abcdef"[bytes[i] & 15]);
}
