// What the allocator of Rattle's library calls, over the module's own memory. Nothing proves it.
//
// Blocks have sizes of powers of two, from 32 bytes. Before each stand 16 bytes with its class, the
// power; a block that was given back goes to the list of its class, and is handed out again first.
typedef unsigned long long u64;
typedef unsigned char u8;

// What a call answers: whether there was memory, and the block's address (16 where there was none).
typedef struct {
    u64 is_ok, address;
} Tried;

enum { PAGE_BITS = 16, HEAD = 16, SMALLEST_CLASS = 5, LARGEST_CLASS = 41, NONE = 16 };

// Memory is asked for in pieces of at least so many bytes.
static const u64 PIECE = 1 << 20;

// The rest of the last piece, and the first block of each class's list.
static u64 next, end, freed[LARGEST_CLASS + 1];

#ifdef REFUSED_AFTER
// For a test: how many calls are still answered.
static u64 left = REFUSED_AFTER;
#endif

// So many bytes, a multiple of 16, that nothing else uses; 0 where there are none.
static u64 take(u64 size) {
    if (size > end - next) {
        u64 pages = ((size > PIECE ? size : PIECE) + (1 << PAGE_BITS) - 1) >> PAGE_BITS;
        u64 had = __builtin_wasm_memory_size(0);
        // What it answers where there is no more depends on the memory's addresses: -1 in 64 or 32 bits.
        if (__builtin_wasm_memory_grow(0, pages) != had) return 0;
        // The page's script grows the memory too, so the piece may not follow the last one.
        if (end != had << PAGE_BITS) next = had << PAGE_BITS;
        end = (had + pages) << PAGE_BITS;
    }
    u64 at = next;
    next += size;
    return at;
}

// The class of the least block that holds so many bytes and its head.
static u64 class_of(u64 size) {
    return size <= HEAD ? SMALLEST_CLASS : 64 - __builtin_clzll(size + HEAD - 1);
}

// The class of a block.
static u64 *class_at(u64 block) { return (u64 *)(block - HEAD); }

// A block of at least so many bytes; 0 where there is none.
static u64 block_of(u64 size) {
#ifdef REFUSED_AFTER
    if (left == 0) return 0;
    left--;
#endif
#ifdef AT_LEAST
    // For a test: no block is smaller.
    if (size < AT_LEAST) size = AT_LEAST;
#endif
    if (size >> (LARGEST_CLASS - 1)) return 0;
    u64 class = class_of(size), block = freed[class];
    if (block) {
        freed[class] = *(u64 *)block;
    } else {
        u64 at = take(1ull << class);
        if (!at) return 0;
        block = at + HEAD;
    }
    *class_at(block) = class;
    return block;
}

// A block of so many bytes; of none, one as large as the alignment, which is at most 16.
Tried rattle_alloc(u64 size, u64 alignment) {
    u64 block = block_of(size ? size : alignment);
    return (Tried){block != 0, block ? block : NONE};
}

// Gives a block back.
void rattle_dealloc(u8 *block) {
    u64 class = *class_at((u64)block);
    *(u64 *)block = freed[class];
    freed[class] = (u64)block;
}

// A block of another size with the first `kept` bytes of this one, which is given back; where there
// is no memory this one stays.
Tried rattle_realloc(u8 *block, u64 kept, u64 size, u64 alignment) {
    u64 wanted = size ? size : alignment;
    if (class_of(wanted) == *class_at((u64)block)) return (Tried){1, (u64)block};
    u64 moved = block_of(wanted);
    if (!moved) return (Tried){0, NONE};
    __builtin_memcpy((u8 *)moved, block, kept < wanted ? kept : wanted);
    rattle_dealloc(block);
    return (Tried){1, moved};
}
