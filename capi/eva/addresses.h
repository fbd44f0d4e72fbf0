/* What is assumed of addresses: they are numbers, and within an object they count its bytes. */
#include <stdint.h>

/*@ axiomatic Addresses {
        axiom flat{L}: \forall char *p, *q; \valid_read(p) && \valid_read(q) ==> 0 <= (uintptr_t)p <= UINTPTR_MAX &&
            (\base_addr(p) == \base_addr(q) ==> (uintptr_t)p - (uintptr_t)q == p - q);
    } */
