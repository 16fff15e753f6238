// The memory under the cache's WebAssembly module: the three functions that the library takes memory by, over a heap that grows the
// module's memory, and the product that the compiler calls. A block has 2^k bytes, a header among them; one that is given back waits
// on the list of its size. Nothing here is proved. tests/viewer.py compares the module with the library for C.
typedef unsigned long long u64;
typedef unsigned char u8;

extern u8 __heap_base;

enum { HEADER = 16, LEAST = 5, MOST = 40, PAGE = 16 }; // blocks have 2^5 to 2^40 bytes, a page of memory 2^16

static u64 front, end, held, free_of[MOST + 1];

typedef struct {
    u64 is_done;
    void *at;
} Tried;

static u64 class_of(u64 bytes) {
    u64 k = LEAST;
    while (((u64)1 << k) < bytes + HEADER) k++;
    return k;
}

// Makes sure that so many bytes are left between `front` and `end`, and returns whether they are.
static int has_room(u64 bytes) {
    if (!front) {
        front = ((u64)&__heap_base + 15) & ~(u64)15;
        end = (u64)__builtin_wasm_memory_size(0) << PAGE;
    }
    if (end - front >= bytes) return 1;
    u64 more = (bytes - (end - front) + ((u64)1 << PAGE) - 1) >> PAGE;
    if (__builtin_wasm_memory_grow(0, more) == (u64)-1) return 0;
    end += more << PAGE;
    return 1;
}

// A block of at least so many bytes, aligned by 16, or a null pointer.
void *vtex_malloc(u64 bytes) {
    if (bytes > ((u64)1 << MOST) - HEADER) return 0;
    u64 k = class_of(bytes), at = free_of[k];
    if (at) {
        free_of[k] = *(u64 *)(at + HEADER);
    } else {
        if (!has_room((u64)1 << k)) return 0;
        at = front;
        front += (u64)1 << k;
        *(u64 *)at = k;
    }
    held += (u64)1 << k;
    return (void *)(at + HEADER);
}

void vtex_free(void *block) {
    if (!block) return;
    u64 at = (u64)block - HEADER, k = *(u64 *)at;
    *(u64 *)block = free_of[k];
    free_of[k] = at;
    held -= (u64)1 << k;
}

// How many bytes are in blocks that were not given back.
u64 vtex_held(void) { return held; }

Tried rattle_alloc(u64 bytes, u64 alignment) {
    void *at = alignment > 16 ? 0 : vtex_malloc(bytes);
    return (Tried){at != 0, at};
}

void rattle_dealloc(void *block) { vtex_free(block); }

Tried rattle_realloc(void *block, u64 kept, u64 bytes, u64 alignment) {
    u64 k = *(u64 *)((u64)block - HEADER);
    if (bytes <= ((u64)1 << MOST) - HEADER && class_of(bytes) == k) return (Tried){1, block};
    Tried other = rattle_alloc(bytes, alignment);
    if (!other.is_done) return (Tried){0, block};
    __builtin_memcpy(other.at, block, kept < bytes ? kept : bytes);
    vtex_free(block);
    return other;
}

// The low 128 bits of a product.
typedef unsigned __int128 u128;
typedef union {
    u128 whole;
    struct {
        u64 low, high;
    } half;
} Halves;

u128 __multi3(u128 x, u128 y) {
    Halves a = {x}, b = {y}, product;
    u64 a0 = (unsigned)a.half.low, a1 = a.half.low >> 32, b0 = (unsigned)b.half.low, b1 = b.half.low >> 32;
    u64 first = a0 * b0, second = a1 * b0 + (first >> 32), third = a0 * b1 + (unsigned)second;
    product.half.low = third << 32 | (unsigned)first;
    product.half.high = a1 * b1 + (second >> 32) + (third >> 32) + a.half.low * b.half.high + a.half.high * b.half.low;
    return product.whole;
}
