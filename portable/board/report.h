/* The report of the programs in this folder at their end. */
#include "bsdudp.h"

/* Prints how many bytes of the call stack were used, and whether all buffers of the pool are free. */
void report(struct bsdudp *stack);
