// The heap of the module: the three heap functions of a Rattle program, for WebAssembly with 64-bit addresses, and two functions
// for the page. No proof covers this file.
//
// A block has 2^k bytes, with k from 5 to 32. The first 16 bytes of a block contain k, and the allocation follows. Freed blocks are in a list for each size. A
// new block is allocated at the end of the memory. The memory grows by whole pages. If the memory cannot grow, the allocation fails. The memory has at most 4
// GiB minus 16 MiB (../build).
typedef unsigned long long u64;
typedef struct { u64 ok; char *block; } Tried;

enum { HEAD = 16, PAGE = 65536, LEAST_CLASS = 5, CLASSES = 33, PAGES_AT_ONCE = 16 };
static const u64 MOST = 1ULL << 31;

extern char __heap_base;
static char *top, *end;
static char *freed[CLASSES];

static int class_of(u64 count) {
    int k = LEAST_CLASS;
    while ((1ULL << k) < count + HEAD) k++;
    return k;
}

// Grows the memory by a number of pages. Returns whether this succeeded. (After a failure, the module that wasm-opt lowers to 32 bits returns
// 2^32 - 1.)
static int has_grown(u64 pages) { return (unsigned)__builtin_wasm_memory_grow(0, pages) != ~0U; }

// Grows the memory by at least `bytes` bytes. If possible, grows by PAGES_AT_ONCE pages even if fewer are needed.
static int grow(u64 bytes) {
    u64 needed = (bytes + PAGE - 1) / PAGE;
    u64 wanted = needed < PAGES_AT_ONCE ? PAGES_AT_ONCE : needed;
    if (!has_grown(wanted)) {
        wanted = needed;
        if (!has_grown(wanted)) return 0;
    }
    end += wanted * PAGE;
    return 1;
}

static char *take(int k) {
    u64 size = 1ULL << k;
    char *block = freed[k];
    if (block) {
        freed[k] = *(char **)block;
        return block;
    }
    if (!top) {
        top = (char *)(((u64)&__heap_base + 31) / 32 * 32 + HEAD);
        end = (char *)(__builtin_wasm_memory_size(0) * PAGE);
    }
    if (top + size > end && !grow((u64)(top + size - end))) return 0;
    block = top + HEAD;
    top += size;
    *(u64 *)(block - HEAD) = k;
    return block;
}

Tried rattle_alloc(u64 count, u64 alignment) {
    (void)alignment; // every block begins at a multiple of 32
    if (count > MOST) return (Tried){0, 0};
    char *block = take(class_of(count));
    return (Tried){block != 0, block};
}

void rattle_dealloc(char *block) {
    u64 k = *(u64 *)(block - HEAD);
    *(char **)block = freed[k];
    freed[k] = block;
}

Tried rattle_realloc(char *block, u64 kept, u64 count, u64 alignment) {
    u64 k = *(u64 *)(block - HEAD);
    if (count + HEAD <= 1ULL << k) return (Tried){1, block};
    Tried tried = rattle_alloc(count, alignment);
    if (tried.ok) {
        __builtin_memcpy(tried.block, block, kept);
        rattle_dealloc(block);
    }
    return tried;
}

// Allocates a block for an input or an output of the page. Returns 0 if the allocation fails.
char *page_alloc(u64 count) { return rattle_alloc(count, HEAD).block; }
void page_free(char *block) { if (block) rattle_dealloc(block); }
