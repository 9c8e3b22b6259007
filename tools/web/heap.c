/* The heap of a WebAssembly module, for the three functions that compiled Rattle calls: no host is asked for anything. First fit over one
   list of free blocks by address, neighbours joined; where none fits, the memory grows. Blocks are aligned to 16 bytes. */
typedef __SIZE_TYPE__ size;
typedef __UINT32_TYPE__ u32;

typedef struct block { size bytes; struct block *next; } block; /* bytes counts the header; next is of free blocks alone */
typedef struct { size ok; void *at; } tried;                    /* C's struct { bool ok; void *at; } */

/* No memory of either kind has MOST bytes, so that below it no sum wraps. */
enum { HEADER = 16, PAGE = 65536 };
static const size MOST = (size)1 << 40;

extern char __heap_base;
static block *free_blocks;
static char *top, *end; /* what was never handed out, up to the end of the memory */

static size rounded(size n) { return (n + HEADER + 15) & ~(size)15; }

static block *fresh(size bytes) {
    if (!top) {
        top = (char *)(((size)&__heap_base + 15) & ~(size)15);
        end = (char *)(__builtin_wasm_memory_size(0) * PAGE);
    }
    if (bytes > (size)(end - top)) {
        size pages = (bytes - (size)(end - top) + PAGE - 1) / PAGE;
        /* wasm-opt makes the -1 of a memory of 32 bits a number of 32 bits */
        if ((u32)__builtin_wasm_memory_grow(0, pages) == (u32)-1) return 0;
        end += pages * PAGE;
    }
    block *b = (block *)top;
    b->bytes = bytes;
    top += bytes;
    return b;
}

static block *taken(size bytes) {
    for (block **at = &free_blocks; *at; at = &(*at)->next) {
        block *b = *at;
        if (b->bytes < bytes) continue;
        if (b->bytes - bytes >= 2 * HEADER) {
            block *rest = (block *)((char *)b + bytes);
            rest->bytes = b->bytes - bytes;
            rest->next = b->next;
            b->bytes = bytes;
            *at = rest;
        } else *at = b->next;
        return b;
    }
    return fresh(bytes);
}

static void joined(block *b) {
    if (b->next && (char *)b + b->bytes == (char *)b->next) {
        b->bytes += b->next->bytes;
        b->next = b->next->next;
    }
}

tried rattle_alloc(size n, size align) {
    (void)align; /* it divides 16 */
    block *b = n < MOST ? taken(rounded(n)) : 0;
    return (tried){b != 0, b ? (char *)b + HEADER : 0};
}

void rattle_dealloc(void *p) {
    if (!p) return;
    block *b = (block *)((char *)p - HEADER), *before = 0;
    for (block *at = free_blocks; at && at < b; at = at->next) before = at;
    b->next = before ? before->next : free_blocks;
    if (before) before->next = b; else free_blocks = b;
    joined(b);
    if (before) joined(before);
}

tried rattle_realloc(void *p, size kept, size n, size align) {
    tried got = rattle_alloc(n, align);
    if (got.ok) {
        __builtin_memcpy(got.at, p, kept < n ? kept : n);
        rattle_dealloc(p);
    }
    return got;
}

/* What the host's own buffers are taken from, by addresses below 2^32; 0 where there is no memory. */
u32 tribes_take(u32 n) {
    void *at = rattle_alloc(n, 16).at;
    if ((size)at >> 32) {
        rattle_dealloc(at);
        return 0;
    }
    return (u32)(size)at;
}

void tribes_give(u32 at) { rattle_dealloc((void *)(size)at); }
