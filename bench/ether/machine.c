/* The board's calls (portable/board/machine.h) on a host under callgrind: each measured piece becomes a file of its
   own. */
#include "machine.h"

#include <stdio.h>
#include <valgrind/callgrind.h>

/* Prints 1 for each piece if everything got its reply, otherwise 0. callgrind counts the instructions. */
void machine_say(const char *text) { fputs(text, stdout); }
void machine_watch(void) { CALLGRIND_ZERO_STATS; }

uint32_t machine_watched(void)
{
    CALLGRIND_DUMP_STATS;
    return 200 / MACHINE_INSTRUCTIONS;
}

uint32_t machine_stack(void) { return 0; }
