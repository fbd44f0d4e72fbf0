// The heap of a module without a C library: rattle_alloc, rattle_realloc and rattle_dealloc, which the proved code
// calls, and `room` and `give_back`, with which a page allocates and frees memory for its arguments. At the end are the
// three functions on 128-bit numbers that clang calls if a processor has no instruction for them: capture times are
// computed with such numbers. Like malloc, it isn't proved.
//
// The free blocks are a list in the order of their addresses. The first one that is large enough is taken, and split if
// it's much larger. A freed block is merged with its neighbours. Memory grows by pages of 65,536 bytes, and never
// shrinks.
typedef unsigned long long u64;
typedef unsigned char u8;

// The result of an allocation: whether there was memory, and its address.
typedef struct {
    u64 ok, at;
} Tried;

// Before each block: its size with this head, a multiple of 16, and for a free block the next one.
typedef struct Block {
    u64 size;
    struct Block *next;
} Block;

enum { HEAD = sizeof(Block), ALIGNED = 16, PAGE = 65536 };

extern u8 __heap_base;
static Block *first_free;
static u64 top; // the end of all allocated blocks, 0 before the first call

static u64 rounded(u64 n) {
    return (n + (ALIGNED - 1)) & ~(u64)(ALIGNED - 1);
}

// Whether the memory reaches this far, after growing it if necessary.
static int reaches(u64 end) {
    u64 have = (u64)__builtin_wasm_memory_size(0) * PAGE;
    if (end <= have) return 1;
    u64 refused = (__typeof__(__builtin_wasm_memory_size(0)))-1;
    return (u64)__builtin_wasm_memory_grow(0, (end - have + PAGE - 1) / PAGE) != refused;
}

// A block of this size after all others, or 0.
static Block *from_the_top(u64 size) {
    if (top == 0) top = rounded((u64)&__heap_base);
    if (top + size < top || !reaches(top + size)) return 0;
    Block *block = (Block *)top;
    block->size = size;
    top += size;
    return block;
}

// The first free block that is large enough, taken from the list, or 0. The rest stays free.
static Block *from_the_list(u64 size) {
    for (Block **link = &first_free; *link; link = &(*link)->next) {
        Block *block = *link;
        if (block->size < size) continue;
        if (block->size < size + HEAD + ALIGNED) {
            *link = block->next;
            return block;
        }
        Block *rest = (Block *)((u8 *)block + size);
        rest->size = block->size - size;
        rest->next = block->next;
        *link = rest;
        block->size = size;
        return block;
    }
    return 0;
}

// New memory of n bytes, aligned to 16; no caller needs a larger alignment.
Tried rattle_alloc(u64 n, u64 alignment) {
    (void)alignment;
    if (n > (1ULL << 40)) return (Tried){0, 0};
    u64 size = rounded(n) + HEAD;
    Block *block = from_the_list(size);
    if (!block) block = from_the_top(size);
    return block ? (Tried){1, (u64)block + HEAD} : (Tried){0, 0};
}

// Merges a block with the one after it if they touch.
static void merge(Block *block) {
    Block *next = block->next;
    if (next && (u8 *)block + block->size == (u8 *)next) {
        block->size += next->size;
        block->next = next->next;
    }
}

// Frees memory.
void rattle_dealloc(u8 *at) {
    if (!at) return;
    Block *block = (Block *)(at - HEAD), *before = 0, **link = &first_free;
    while (*link && *link < block) {
        before = *link;
        link = &before->next;
    }
    block->next = *link;
    *link = block;
    merge(block);
    if (before) merge(before);
}

// Memory of n bytes whose first `kept` bytes are those at `at`, which is freed if the result is another block.
Tried rattle_realloc(u8 *at, u64 kept, u64 n, u64 alignment) {
    if (at && ((Block *)(at - HEAD))->size - HEAD >= n) return (Tried){1, (u64)at};
    Tried got = rattle_alloc(n, alignment);
    if (got.ok && at) {
        __builtin_memcpy((u8 *)got.at, at, kept);
        rattle_dealloc(at);
    }
    return got;
}

// Memory of n bytes for a page's argument, or 0.
__attribute__((export_name("room"))) u64 room(u64 n) {
    return rattle_alloc(n, ALIGNED).at;
}

// Frees it.
__attribute__((export_name("give_back"))) void give_back(u8 *at) {
    rattle_dealloc(at);
}

// A number of 128 bits, and its halves.
typedef union {
    unsigned __int128 all;
    struct {
        u64 low, high;
    };
} Wide;

// The product, without what goes beyond 128 bits: of the low halves by parts of 32 bits, as it's done by hand.
unsigned __int128 __multi3(unsigned __int128 a, unsigned __int128 b) {
    const u64 half = 0xffffffff;
    Wide x = {.all = a}, y = {.all = b}, product;
    u64 least = (x.low & half) * (y.low & half);
    u64 one = (x.low >> 32) * (y.low & half), other = (x.low & half) * (y.low >> 32);
    u64 middle = (least >> 32) + (one & half) + (other & half);
    product.low = (middle << 32) | (least & half);
    product.high = (x.low >> 32) * (y.low >> 32) + (one >> 32) + (other >> 32) + (middle >> 32);
    product.high += x.high * y.low + x.low * y.high;
    return product.all;
}

// Shifted by 0 to 127 bits to the left.
unsigned __int128 __ashlti3(unsigned __int128 a, int n) {
    Wide from = {.all = a}, to = from;
    if (n >= 64) {
        to.high = from.low << (n - 64);
        to.low = 0;
    } else if (n > 0) {
        to.high = (from.high << n) | (from.low >> (64 - n));
        to.low = from.low << n;
    }
    return to.all;
}

// Shifted by 0 to 127 bits to the right, zeros coming in.
unsigned __int128 __lshrti3(unsigned __int128 a, int n) {
    Wide from = {.all = a}, to = from;
    if (n >= 64) {
        to.low = from.high >> (n - 64);
        to.high = 0;
    } else if (n > 0) {
        to.low = (from.low >> n) | (from.high << (64 - n));
        to.high = from.high >> n;
    }
    return to.all;
}
