// The memory of the module that becomes bsdudp_portable.c: rattle_alloc, rattle_realloc and rattle_dealloc, which the
// proved code calls. Only boot allocates memory, in consecutive blocks of the memory passed to bsdudp_boot_in. Like
// malloc, it isn't proved.
//
// The start of the memory for the module is agreed with calls.c: first the core's handle, of 16 bytes, then these two.
typedef unsigned long long u64;
typedef unsigned char u8;

// The result of an allocation: whether there was memory, and its address.
typedef struct {
    u64 ok, at;
} Tried;

// The free memory: from `next` to `end`.
typedef struct {
    u64 next, end;
} Arena;

#define ARENA ((Arena *)0x80000010)

// New memory of n bytes, aligned to 16; no caller needs a larger alignment.
Tried rattle_alloc(u64 n, u64 alignment) {
    (void)alignment;
    u64 at = ARENA->next, left = ARENA->end - at;
    u64 size = (n + 15) & ~15ULL;
    if (n > left || size > left) return (Tried){0, (u64)ARENA};
    ARENA->next = at + size;
    return (Tried){1, at};
}

// Memory is freed: it's the caller's again when the stack has ended.
void rattle_dealloc(u8 *at) {
    (void)at;
}

// Memory of n bytes whose first `kept` bytes are those at `at`.
Tried rattle_realloc(u8 *at, u64 kept, u64 n, u64 alignment) {
    Tried got = rattle_alloc(n, alignment);
    if (got.ok) __builtin_memcpy((u8 *)got.at, at, kept);
    return got;
}
