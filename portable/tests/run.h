/* The functions of the machine that run.c runs on. */
#include <stddef.h>

/* The next byte of the input, or -1 at its end. */
int run_get(void);

/* Writes bytes of the replies. */
void run_put(const char *bytes, size_t len);

/* All replies to a script were written. */
void run_flush(void);

/* Plays scripts to the end of the input. `memory_of` returns memory for the next stack, until its next call. */
void run_scripts(void *(*memory_of)(size_t));
