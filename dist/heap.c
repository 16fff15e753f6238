/* The heap of libvtex_c.a: the three calls that the proved code makes for memory, by malloc,
 * realloc and free.
 *
 * This file is not proved. It is compiled into the library without any header, so that the same
 * compiler makes the same bytes on every machine. Each call is weak: a program that defines all
 * three itself uses its own heap (see dist/README.md).
 */
typedef __SIZE_TYPE__ size_t;

void *malloc(size_t size);
void *realloc(void *memory, size_t size);
void free(void *memory);

/* What an allocation returns: whether there was memory, and where it is. The address of a refusal
 * is not null either; nobody reads it. */
struct memory {
    _Bool is_given;
    void *at;
};

#define WEAK __attribute__((weak, visibility("hidden")))

static _Alignas(16) char nothing[1];

/* What malloc aligns to. The library asks for no more; if it did, it would be refused memory, and
 * would never have a wrong address. */
enum { ALIGNED = 16 };

static struct memory given(void *at) {
    struct memory memory = { at != 0, at ? at : nothing };
    return memory;
}

/* Returns `size` bytes at a multiple of `alignment`. A size of 0 takes `alignment` bytes. */
WEAK struct memory rattle_alloc(size_t size, size_t alignment) {
    return given(alignment <= ALIGNED ? malloc(size ? size : alignment) : 0);
}

/* Returns the memory `old`, of `old_size` bytes, with `size` bytes. If it is refused, `old` stays
 * as it was. */
WEAK struct memory rattle_realloc(void *old, size_t old_size, size_t size, size_t alignment) {
    (void)old_size;
    return given(alignment <= ALIGNED ? realloc(old, size ? size : alignment) : 0);
}

/* Gives memory back. */
WEAK void rattle_dealloc(void *memory, size_t size, size_t alignment) {
    (void)size;
    (void)alignment;
    free(memory);
}
