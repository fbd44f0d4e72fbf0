/* The part of stdlib.h that capi/src needs, for compilers without a C library. */
#include <stddef.h>

void *malloc(size_t);
void free(void *);
