/* portable/tests/run.c on the board. Scripts come from QEMU's standard input and replies go to its standard output, as
   files of the debugger: byte by byte on the serial port they take QEMU a hundred times as long. */
#include "bsdudp.h"
#include "machine.h"
#include "run.h"

enum { READ = 0, WRITE = 4 };

static unsigned char memory[BSDUDP_MEMORY(1024, 64)] __attribute__((aligned(BSDUDP_ALIGNMENT)));

/* Bytes that were read or are to be written. */
struct block {
    uint32_t file, at, len;
    char bytes[65536];
};
static struct block input, output;

int run_get(void)
{
    if (input.at == input.len) {
        input.at = 0;
        input.len = machine_read(input.file, input.bytes, sizeof input.bytes);
    }
    return input.at < input.len ? (unsigned char)input.bytes[input.at++] : -1;
}

void run_put(const char *bytes, size_t len)
{
    size_t i;
    for (i = 0; i < len; i++) {
        output.bytes[output.len++] = bytes[i];
        if (output.len == sizeof output.bytes)
            run_flush();
    }
}

void run_flush(void)
{
    machine_write(output.file, output.bytes, output.len);
    output.len = 0;
}

static void *memory_of(size_t len) { return len <= sizeof memory ? memory : 0; }

int main(void)
{
    input.file = machine_open("/dev/stdin", READ);
    output.file = machine_open("/dev/stdout", WRITE);
    run_scripts(memory_of);
    run_flush();
    return 0;
}
