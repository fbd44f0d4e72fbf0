/* run.c on a host: scripts on standard input, replies on standard output. The memory of each stack is a block of
   malloc's, exactly as large as bsdudp_memory returns, so that a sanitizer sees each access outside of it. */
#define _POSIX_C_SOURCE 200112L
#include "run.h"

#include "bsdudp.h"

#include <stdio.h>
#include <stdlib.h>

int run_get(void) { return getchar(); }

void run_put(const char *bytes, size_t len) { fwrite(bytes, 1, len, stdout); }
void run_flush(void) { fflush(stdout); }

static void *memory_of(size_t len)
{
    static void *memory;
    free(memory);
    if (posix_memalign(&memory, BSDUDP_ALIGNMENT, len) != 0) /* malloc may align to 8 */
        memory = NULL;
    return memory;
}

int main(void)
{
    run_scripts(memory_of);
    memory_of(1);
    return 0;
}
