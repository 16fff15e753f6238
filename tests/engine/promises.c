/* What include/vtex.h promises and no clause says: the version, the texts of statuses, NULL with a length of 0, which seats are given out
 * first, and that a lost reader's seat comes back. */
#include "check.h"

static const uint8_t tile[12] = {1, 2, 3, 4, 5, 6, 7, 8, 9, 10, 11, 12};

static void version(void) {
    char text[32];
    snprintf(text, sizeof text, "%d.%d.%d", VTEX_VERSION_MAJOR, VTEX_VERSION_MINOR, VTEX_VERSION_PATCH);
    CHECK(strcmp(text, VTEX_VERSION) == 0);
    CHECK(vtex_version() == 10000 * VTEX_VERSION_MAJOR + 100 * VTEX_VERSION_MINOR + VTEX_VERSION_PATCH);
}

/* Each status has a text of its own, and a number that is none has another. */
static void texts(void) {
    for (uint32_t i = 0; i <= VTEX_NO_SEAT + 1; i++)
        for (uint32_t j = 0; j < i; j++) CHECK(strcmp(vtex_status_text(i), vtex_status_text(j)) != 0);
    CHECK(strcmp(vtex_status_text(UINT32_MAX), vtex_status_text(VTEX_NO_SEAT + 1)) == 0);
}

/* A head of a store that has the constant's length is one, and a shorter one is not. */
static void store_head(void) {
    uint8_t head[VTEX_STORE_HEAD] = {0};
    vtex_store store;
    CHECK(vtex_store_open(head, VTEX_STORE_HEAD, 1000, &store) == VTEX_BAD_STORE);
    CHECK(vtex_store_open(head, VTEX_STORE_HEAD - 1, 1000, &store) == VTEX_BAD_NUMBER);
    CHECK(vtex_store_open(NULL, 0, 0, &store) == VTEX_BAD_STORE);
}

static void null_in_a_cache(void) {
    vtex_cache *cache = malloc(vtex_cache_size());
    vtex_cache_init(cache);
    CHECK(vtex_cache_open(cache, &four, 3, 1) == VTEX_DONE);
    CHECK(vtex_cache_pass_wanted(cache, NULL, 0, 4) == VTEX_DONE);
    CHECK(vtex_cache_pass_pages(cache, NULL, 0, 4) == VTEX_DONE);
    CHECK(vtex_cache_pass_counts(cache, NULL, 0, 4) == VTEX_BAD_NUMBER);
    CHECK(vtex_cache_loads(cache, NULL, 0) == 0);
    CHECK(vtex_cache_changes(cache, NULL, 0) == 1);
    CHECK(vtex_cache_stale_loads(cache, NULL, 0, NULL, 0) == VTEX_DONE);
    CHECK(vtex_cache_settle(cache, NULL, 0) == VTEX_DONE);
    CHECK(vtex_cache_table(cache, 0, NULL, 0) == VTEX_BAD_NUMBER);
    CHECK(vtex_cache_close(cache) == VTEX_DONE);
    free(cache);
}

/* Opens a table with its root mapped. */
static vtex_table *rooted(uint32_t readers) {
    vtex_waiting who;
    vtex_table *table = malloc(vtex_table_size());
    vtex_table_init(table);
    CHECK(vtex_table_open(table, &four, 1, 3, readers) == VTEX_DONE);
    CHECK(vtex_table_map(table, 4, 0, NULL, 0, &who) == VTEX_BAD_NUMBER);
    CHECK(vtex_table_map(table, 4, 0, tile, 12, &who) == VTEX_DONE);
    return table;
}

static void null_in_a_table(void) {
    vtex_table *table = rooted(1);
    vtex_reader *reader = malloc(vtex_reader_size());
    const vtex_span none = {0, 0, 0, 1 << 16, 0, 0};
    vtex_waiting who;
    uint64_t made = 9, held;
    vtex_reader_init(reader);
    CHECK(vtex_table_settle(table, NULL, 0, NULL, 0, &made, &who) == VTEX_DONE && made == 0);
    CHECK(vtex_table_admit(table, reader) == VTEX_DONE);
    CHECK(vtex_reader_hold(reader, &held) == VTEX_DONE && held == 1);
    CHECK(vtex_reader_texels(reader, NULL, 0, NULL, 0) == VTEX_DONE);
    CHECK(vtex_reader_run(reader, &none, NULL, 0, NULL, 0) == VTEX_DONE);
    CHECK(vtex_reader_blended_run(reader, &none, NULL, 0, NULL, 0) == VTEX_DONE);
    CHECK(vtex_table_dismiss(table, reader) == VTEX_DONE);
    CHECK(vtex_table_close(table) == VTEX_DONE);
    free(reader);
    free(table);
}

/* The numbers that so many readers get, one after the other, of a table for `most`; then no seat is left, where they are all. */
static void seats(uint32_t most, uint32_t count, const uint32_t *numbers) {
    vtex_table *table = rooted(most);
    vtex_reader *readers[65];
    for (uint32_t i = 0; i < 65; i++) vtex_reader_init(readers[i] = malloc(vtex_reader_size()));
    uint32_t taken = 0, number = 99;
    for (; taken < most; taken++) {
        CHECK(vtex_table_admit(table, readers[taken]) == VTEX_DONE);
        CHECK(vtex_reader_number(readers[taken], &number) == VTEX_DONE);
        CHECK(taken >= count || number == numbers[taken]);
        for (uint32_t i = 0, other = 99; i < taken; i++) CHECK(vtex_reader_number(readers[i], &other) == VTEX_DONE && other != number);
    }
    CHECK(vtex_table_admit(table, readers[most]) == VTEX_NO_SEAT);
    CHECK(vtex_table_dismiss(table, readers[0]) == VTEX_DONE);
    CHECK(vtex_table_admit(table, readers[most]) == VTEX_DONE);
    CHECK(vtex_reader_number(readers[most], &number) == VTEX_DONE && number == numbers[0]);
    for (uint32_t i = 1; i <= most; i++) CHECK(vtex_table_dismiss(table, readers[i]) == VTEX_DONE);
    CHECK(vtex_table_close(table) == VTEX_DONE);
    for (uint32_t i = 0; i < 65; i++) free(readers[i]);
    free(table);
}

/* A reader that is lost in a hold keeps the writer waiting, and no longer once the writer has dismissed it by its place. */
static void lost(void) {
    vtex_table *table = rooted(1);
    vtex_reader *reader = malloc(vtex_reader_size());
    vtex_waiting who;
    uint64_t held;
    vtex_reader_init(reader);
    CHECK(vtex_table_admit(table, reader) == VTEX_DONE && vtex_reader_hold(reader, &held) == VTEX_DONE && held == 1);
    CHECK(vtex_table_map(table, 0, 1, tile, 12, &who) == VTEX_DONE);
    CHECK(vtex_table_unmap(table, 0, &who) == VTEX_DONE);
    CHECK(vtex_table_map(table, 1, 2, tile, 12, &who) == VTEX_DONE);
    CHECK(vtex_table_map(table, 2, 1, tile, 12, &who) == VTEX_WAITING && who.version == 1);
    CHECK(vtex_table_dismiss(table, reader) == VTEX_DONE);
    CHECK(vtex_table_map(table, 2, 1, tile, 12, &who) == VTEX_DONE);
    CHECK(vtex_table_admit(table, reader) == VTEX_DONE);
    CHECK(vtex_table_dismiss(table, reader) == VTEX_DONE && vtex_table_close(table) == VTEX_DONE);
    free(reader);
    free(table);
}

int main(void) {
    static const uint32_t in_order[] = {0, 1, 2, 3}, on_lines[] = {7, 15, 23, 31, 39, 47, 55, 63, 8, 16};
    version();
    texts();
    store_head();
    null_in_a_cache();
    null_in_a_table();
    seats(4, 4, in_order);
    seats(64, 10, on_lines);
    lost();
    return ended("promises");
}
