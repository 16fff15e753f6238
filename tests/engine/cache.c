/* A cache of 3 frames and one pinned page, pass by pass: what the calls answer, leave and refuse. */
#include "check.h"

static vtex_cache *cache;
static vtex_load loads[8];
static vtex_change changes[8];

static int is_load(uint32_t i, uint32_t page, uint32_t frame, uint32_t victim) {
    return loads[i].page == page && loads[i].frame == frame && loads[i].victim == victim;
}

static int is_change(uint32_t i, uint32_t page, uint32_t frame, uint32_t mapped) {
    return changes[i].page == page && changes[i].frame == frame && changes[i].mapped == mapped;
}

static int is_place(uint32_t page, uint32_t found, uint32_t frame, uint32_t level) {
    vtex_place place = {9, 9, 9};
    return vtex_cache_look_up(cache, page, &place) == VTEX_DONE && place.page == found && place.frame == frame && place.level == level;
}

static int is_info(uint32_t free, uint32_t under_way, uint32_t changed) {
    vtex_info info = {9, 9, 9, 9};
    return vtex_cache_info(cache, &info) == VTEX_DONE && info.pages == 5 && info.free == free && info.loads == under_way && info.changes == changed;
}

/* Every call on a cache that is closed. */
static void closed(void) {
    const uint32_t pixels[5] = {3, 0, 2, 0, 0};
    const uint8_t states[1] = {0};
    uint8_t told[1] = {9};
    const vtex_wanted list[1] = {{0, 1}};
    vtex_place place = {9, 9, 9};
    vtex_info info = {9, 9, 9, 9};
    uint32_t entries[4] = {9, 9, 9, 9};
    loads[0].page = changes[0].page = 9;
    CHECK(vtex_cache_pass_counts(cache, pixels, 5, 8) == VTEX_CLOSED);
    CHECK(vtex_cache_pass_wanted(cache, list, 1, 8) == VTEX_CLOSED);
    CHECK(vtex_cache_pass_pages(cache, pixels, 1, 8) == VTEX_CLOSED);
    CHECK(vtex_cache_settle(cache, states, 0) == VTEX_CLOSED);
    CHECK(vtex_cache_stale_loads(cache, pixels, 1, told, 1) == VTEX_CLOSED && told[0] == 9);
    CHECK(vtex_cache_loads(cache, loads, 8) == 0 && loads[0].page == 9);
    CHECK(vtex_cache_changes(cache, changes, 8) == 0 && changes[0].page == 9);
    CHECK(vtex_cache_look_up(cache, 0, &place) == VTEX_CLOSED && place.page == 9);
    CHECK(vtex_cache_table(cache, 0, entries, 4) == VTEX_CLOSED && entries[0] == 9);
    CHECK(vtex_cache_info(cache, &info) == VTEX_CLOSED && info.pages == 9);
    CHECK(vtex_cache_close(cache) == VTEX_DONE);
}

static void opened(void) {
    CHECK(vtex_cache_open(cache, &odd, 3, 1) == VTEX_BAD_SHAPE);
    CHECK(vtex_cache_open(cache, &four, 3, 0) == VTEX_BAD_NUMBER);
    CHECK(vtex_cache_open(cache, &four, 3, 4) == VTEX_BAD_NUMBER);
    CHECK(vtex_cache_open(cache, &four, 0, 0) == VTEX_BAD_NUMBER);
    CHECK(vtex_cache_open(cache, &four, 65536, 1) == VTEX_BAD_NUMBER);
    CHECK(vtex_cache_open(cache, &four, UINT32_MAX, UINT32_MAX) == VTEX_BAD_NUMBER);
    CHECK(vtex_cache_open(cache, &four, 6, 6) == VTEX_BAD_NUMBER);
    closed();
    CHECK(vtex_cache_open(cache, &four, 3, 1) == VTEX_DONE && is_info(2, 0, 1));
    CHECK(vtex_cache_changes(cache, changes, 8) == 1 && is_change(0, 4, 0, 1));
    /* a refused opening leaves an open cache as it was */
    CHECK(vtex_cache_open(cache, &four, 3, 4) == VTEX_BAD_NUMBER && is_info(2, 0, 1));
}

/* What does not fit an open cache of 5 pages changes nothing. */
static void misused(void) {
    const uint32_t pixels[6] = {3, 0, 2, 0, 0, 0}, past[2] = {0, 5};
    const vtex_wanted beyond[2] = {{0, 1}, {5, 1}}, far = {UINT32_MAX, 1};
    const uint8_t states[9] = {0};
    vtex_place place = {9, 9, 9};
    uint32_t entries[5] = {9, 9, 9, 9, 9};
    CHECK(vtex_cache_pass_counts(cache, pixels, 4, 8) == VTEX_BAD_NUMBER);
    CHECK(vtex_cache_pass_counts(cache, pixels, 6, 8) == VTEX_BAD_NUMBER);
    CHECK(vtex_cache_pass_counts(cache, pixels, 0, 8) == VTEX_BAD_NUMBER);
    CHECK(vtex_cache_pass_wanted(cache, beyond, 2, 8) == VTEX_BAD_NUMBER);
    CHECK(vtex_cache_pass_wanted(cache, &far, 1, 8) == VTEX_BAD_NUMBER);
    CHECK(vtex_cache_pass_pages(cache, past, 2, 8) == VTEX_BAD_NUMBER);
    CHECK(vtex_cache_settle(cache, states, 9) == VTEX_BAD_NUMBER);
    CHECK(vtex_cache_look_up(cache, 5, &place) == VTEX_BAD_NUMBER && place.page == 9);
    CHECK(vtex_cache_look_up(cache, VTEX_NO_PAGE, &place) == VTEX_BAD_NUMBER && place.page == 9);
    CHECK(vtex_cache_table(cache, 0, entries, 3) == VTEX_BAD_NUMBER);
    CHECK(vtex_cache_table(cache, 0, entries, 5) == VTEX_BAD_NUMBER);
    CHECK(vtex_cache_table(cache, 2, entries, 1) == VTEX_BAD_NUMBER);
    CHECK(vtex_cache_table(cache, UINT32_MAX, entries, 1) == VTEX_BAD_NUMBER && entries[0] == 9);
}

/* The three forms of feedback for the same pixels plan the same: each is asked of a cache that was opened anew. */
static void forms(void) {
    const uint32_t pixels[5] = {3, 0, 2, 0, 0}, seen[7] = {2, 0, VTEX_NO_PAGE, 0, 2, 0, VTEX_NO_PAGE};
    const vtex_wanted list[5] = {{2, 1}, {0, 2}, {1, 0}, {2, 1}, {0, 1}};
    for (int form = 0; form < 3; form++) {
        CHECK(vtex_cache_open(cache, &four, 3, 1) == VTEX_DONE);
        if (form == 0) CHECK(vtex_cache_pass_counts(cache, pixels, 5, 8) == VTEX_DONE);
        if (form == 1) CHECK(vtex_cache_pass_wanted(cache, list, 5, 8) == VTEX_DONE);
        if (form == 2) CHECK(vtex_cache_pass_pages(cache, seen, 7, 8) == VTEX_DONE);
        CHECK(vtex_cache_loads(cache, loads, 8) == 2 && is_load(0, 0, 1, VTEX_NO_PAGE) && is_load(1, 2, 2, VTEX_NO_PAGE));
    }
    /* sums stop at the most that a number can be */
    const vtex_wanted many[3] = {{1, UINT32_MAX}, {1, UINT32_MAX}, {0, UINT32_MAX}};
    CHECK(vtex_cache_open(cache, &four, 3, 1) == VTEX_DONE && vtex_cache_pass_wanted(cache, many, 3, 8) == VTEX_DONE);
    CHECK(vtex_cache_loads(cache, loads, 8) == 2 && is_load(0, 0, 1, VTEX_NO_PAGE) && is_load(1, 1, 2, VTEX_NO_PAGE));
    /* no pixel, no page, and no entry */
    CHECK(vtex_cache_open(cache, &four, 3, 1) == VTEX_DONE && vtex_cache_pass_pages(cache, seen, 0, 8) == VTEX_DONE);
    CHECK(vtex_cache_pass_wanted(cache, list, 0, 8) == VTEX_DONE && vtex_cache_loads(cache, loads, 8) == 0);
    CHECK(vtex_cache_pass_counts(cache, pixels, 5, 0) == VTEX_DONE && vtex_cache_loads(cache, loads, 8) == 0);
}

/* The two loads under way, 16 and 17, by what these pages need. */
static int are_states(const uint32_t *list, size_t count, uint8_t one, uint8_t other) {
    uint8_t states[3] = {9, 9, 9};
    return vtex_cache_stale_loads(cache, list, count, states, 2) == VTEX_DONE && states[0] == one && states[1] == other && states[2] == 9;
}

/* Which loads no wanted page needs: over pages 0 to 15 of 8 by 8 texels lie 16 to 19, and the root 20 over those. */
static void stale(void) {
    const vtex_shape eight = {8, 8, 2};
    const uint32_t first[2] = {0, 2}, below[2] = {VTEX_NO_PAGE, 5}, beside[1] = {10}, above[2] = {20, VTEX_NO_PAGE}, own[1] = {17}, past[2] = {0, 21};
    uint8_t states[3] = {9, 9, 9};
    CHECK(vtex_cache_open(cache, &eight, 4, 1) == VTEX_DONE && vtex_cache_stale_loads(cache, first, 2, states, 0) == VTEX_DONE);
    CHECK(vtex_cache_pass_pages(cache, first, 2, 8) == VTEX_DONE && vtex_cache_loads(cache, loads, 8) == 2);
    CHECK(is_load(0, 16, 1, VTEX_NO_PAGE) && is_load(1, 17, 2, VTEX_NO_PAGE));
    CHECK(are_states(first, 2, VTEX_UNDER_WAY, VTEX_UNDER_WAY));
    CHECK(are_states(below, 2, VTEX_UNDER_WAY, VTEX_LOST) && are_states(own, 1, VTEX_LOST, VTEX_UNDER_WAY));
    CHECK(are_states(beside, 1, VTEX_LOST, VTEX_LOST) && are_states(above, 2, VTEX_LOST, VTEX_LOST) && are_states(first, 0, VTEX_LOST, VTEX_LOST));
    CHECK(vtex_cache_stale_loads(cache, past, 2, states, 2) == VTEX_BAD_NUMBER && vtex_cache_stale_loads(cache, first, 2, states, 1) == VTEX_BAD_NUMBER);
    CHECK(vtex_cache_stale_loads(cache, first, 2, states, 3) == VTEX_BAD_NUMBER && states[0] == 9 && vtex_cache_loads(cache, loads, 8) == 2);
    /* what is told may be settled: the first load is forgotten, and the second comes */
    CHECK(vtex_cache_stale_loads(cache, own, 1, states, 2) == VTEX_DONE && vtex_cache_settle(cache, states, 2) == VTEX_DONE);
    CHECK(vtex_cache_loads(cache, loads, 8) == 1 && is_load(0, 17, 2, VTEX_NO_PAGE) && vtex_cache_changes(cache, changes, 8) == 0);
    states[0] = VTEX_CAME;
    CHECK(vtex_cache_settle(cache, states, 1) == VTEX_DONE && is_place(2, 17, 2, 1) && is_place(0, 20, 0, 2));
}

/* Loads that come, are lost and stay under way, over several passes. */
static void passes(void) {
    const uint32_t first[2] = {0, 2}, second[2] = {1, 3};
    const uint8_t none[1] = {0}, came[2] = {VTEX_CAME, VTEX_CAME}, half[2] = {VTEX_CAME, VTEX_UNDER_WAY}, lost[1] = {VTEX_LOST}, other[1] = {200};
    uint32_t entries[4] = {9, 9, 9, 9};
    CHECK(vtex_cache_open(cache, &four, 3, 1) == VTEX_DONE);
    CHECK(vtex_cache_pass_pages(cache, first, 2, 8) == VTEX_DONE && is_info(2, 2, 1));
    loads[0].page = 9;
    CHECK(vtex_cache_loads(cache, loads, 1) == 2 && loads[0].page == 9);
    CHECK(vtex_cache_loads(cache, loads, 2) == 2 && is_load(0, 0, 1, VTEX_NO_PAGE) && is_load(1, 2, 2, VTEX_NO_PAGE));
    CHECK(vtex_cache_settle(cache, came, 1) == VTEX_BAD_NUMBER && is_info(2, 2, 1) && is_place(2, 4, 0, 1));
    /* the first comes and the second is on its way: a pass that wants both and one more plans neither again */
    CHECK(vtex_cache_settle(cache, half, 2) == VTEX_DONE && is_info(1, 1, 1));
    CHECK(vtex_cache_changes(cache, changes, 8) == 1 && is_change(0, 0, 1, 1) && is_place(0, 0, 1, 0) && is_place(2, 4, 0, 1));
    CHECK(vtex_cache_pass_pages(cache, first, 2, 8) == VTEX_DONE && vtex_cache_loads(cache, loads, 8) == 1 && is_load(0, 2, 2, VTEX_NO_PAGE));
    /* pages 1 and 3 are wanted now: the frame under way is left out, and page 0 gives up its own */
    CHECK(vtex_cache_pass_pages(cache, second, 2, 8) == VTEX_DONE && vtex_cache_loads(cache, loads, 8) == 2);
    CHECK(is_load(0, 2, 2, VTEX_NO_PAGE) && is_load(1, 3, 1, 0));
    CHECK(vtex_cache_settle(cache, came, 2) == VTEX_DONE && is_info(0, 0, 3));
    changes[0].page = 9;
    CHECK(vtex_cache_changes(cache, changes, 2) == 3 && changes[0].page == 9);
    CHECK(vtex_cache_changes(cache, changes, 3) == 3 && is_change(0, 2, 2, 1) && is_change(1, 0, 1, 0) && is_change(2, 3, 1, 1));
    CHECK(vtex_cache_table(cache, 0, entries, 4) == VTEX_DONE && entries[0] == 0 && entries[1] == 0 && entries[2] == 3 && entries[3] == 2);
    CHECK(vtex_cache_table(cache, 1, entries, 1) == VTEX_DONE && entries[0] == 1);
    /* a lost load leaves its victim mapped, and is planned again; any other number is lost too */
    CHECK(vtex_cache_pass_pages(cache, second, 2, 8) == VTEX_DONE && vtex_cache_loads(cache, loads, 8) == 1 && is_load(0, 1, 2, 2));
    CHECK(vtex_cache_settle(cache, lost, 1) == VTEX_DONE && is_info(0, 0, 0) && is_place(2, 2, 2, 0) && vtex_cache_changes(cache, changes, 8) == 0);
    CHECK(vtex_cache_pass_pages(cache, second, 2, 8) == VTEX_DONE && vtex_cache_settle(cache, other, 1) == VTEX_DONE && is_info(0, 0, 0));
    CHECK(vtex_cache_pass_pages(cache, second, 2, 8) == VTEX_DONE && vtex_cache_settle(cache, came, 1) == VTEX_DONE && is_place(1, 1, 2, 0));
    CHECK(vtex_cache_settle(cache, none, 0) == VTEX_DONE && is_info(0, 0, 0));
}

int main(void) {
    cache = malloc(vtex_cache_size());
    vtex_cache_init(cache);
    closed();
    opened();
    misused();
    forms();
    stale();
    passes();
    CHECK(vtex_cache_close(cache) == VTEX_DONE);
    closed();
    free(cache);
    return ended("cache");
}
