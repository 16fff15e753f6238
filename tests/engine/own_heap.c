/* A heap of the program's own in place of the library's: the three functions that docs/ENGINES.md names. Blocks are counted, and each
 * has its size before it, with which the old size of a realloc is compared. */
#include "check.h"

struct block {
    _Bool is_given;
    void *at;
};

static long live, calls;

static struct block given(size_t *front, size_t size) {
    struct block block = {front != NULL, front ? front + 2 : (size_t *)&live};
    if (front) front[0] = size;
    return block;
}

struct block rattle_alloc(size_t size, size_t align) {
    calls++, live++;
    CHECK(align <= 16);
    return given(malloc(16 + (size ? size : align)), size);
}

struct block rattle_realloc(void *at, size_t old_size, size_t size, size_t align) {
    calls++;
    CHECK(((size_t *)at)[-2] == old_size && align <= 16);
    return given(realloc((size_t *)at - 2, 16 + (size ? size : align)), size);
}

void rattle_dealloc(void *at) {
    live--;
    free((size_t *)at - 2);
}

static void cache(void) {
    vtex_cache *cache = malloc(vtex_cache_size());
    const uint32_t wanted[] = {0, 1, VTEX_NO_PAGE, 3};
    vtex_cache_init(cache);
    CHECK(calls == 0);
    CHECK(vtex_cache_open(cache, &four, 4, 1) == VTEX_DONE && live > 0);
    CHECK(vtex_cache_pass_pages(cache, wanted, 4, 4) == VTEX_DONE);
    CHECK(vtex_cache_loads(cache, NULL, 0) == 3);
    const uint8_t came[] = {VTEX_CAME, VTEX_CAME, VTEX_LOST};
    CHECK(vtex_cache_settle(cache, came, 3) == VTEX_DONE);
    CHECK(vtex_cache_close(cache) == VTEX_DONE && live == 0);
    CHECK(vtex_cache_open(cache, &odd, 4, 1) == VTEX_BAD_SHAPE && live == 0);
    free(cache);
}

static void table(void) {
    vtex_table *table = malloc(vtex_table_size());
    vtex_reader *reader = malloc(vtex_reader_size());
    const uint8_t tile[12] = {0};
    vtex_waiting who;
    vtex_table_init(table), vtex_reader_init(reader);
    CHECK(vtex_table_open(table, &four, 1, 3, 2) == VTEX_DONE && live > 0);
    const long then = calls;
    CHECK(vtex_table_map(table, 4, 0, tile, 12, &who) == VTEX_DONE);
    CHECK(vtex_table_admit(table, reader) == VTEX_DONE);
    CHECK(vtex_table_map(table, 0, 1, tile, 12, &who) == VTEX_DONE && vtex_table_unmap(table, 0, &who) == VTEX_DONE);
    CHECK(calls == then);
    CHECK(vtex_table_close(table) == VTEX_DONE && live > 0);
    CHECK(vtex_reader_close(reader) == VTEX_DONE && live == 0);
    free(table), free(reader);
}

int main(void) {
    cache();
    table();
    CHECK(calls > 0);
    return ended("own_heap");
}
