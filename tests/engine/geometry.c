/* The calls on shapes and stores: what they answer, each status, and that a refusal leaves the result as it was. */
#include "check.h"

static void counts(void) {
    uint32_t n = 77;
    CHECK(vtex_page_count(&four, &n) == VTEX_DONE && n == 5);
    CHECK(vtex_level_count(&four, &n) == VTEX_DONE && n == 2);
    CHECK(vtex_pinned_count(&four, 0, &n) == VTEX_DONE && n == 0);
    CHECK(vtex_pinned_count(&four, 1, &n) == VTEX_DONE && n == 1);
    CHECK(vtex_pinned_count(&four, 2, &n) == VTEX_DONE && n == 5);
    CHECK(vtex_pinned_count(&four, UINT32_MAX, &n) == VTEX_DONE && n == 5);
    n = 77;
    CHECK(vtex_page_count(&odd, &n) == VTEX_BAD_SHAPE && n == 77);
    CHECK(vtex_level_count(&odd, &n) == VTEX_BAD_SHAPE && n == 77);
    CHECK(vtex_pinned_count(&odd, 1, &n) == VTEX_BAD_SHAPE && n == 77);
}

static void shapes(void) {
    const vtex_shape refused[] = {{0, 4, 2}, {4, 0, 2}, {16385, 4, 2}, {4, UINT32_MAX, 2}, {4, 4, 0}, {4, 4, 1}, {4, 4, 256}, {16384, 16384, 16}};
    const vtex_shape largest = {16384, 16384, 64}, smallest = {1, 1, 2}, most = {14176, 14176, 32};
    uint32_t n = 77;
    for (size_t i = 0; i < sizeof refused / sizeof *refused; i++) CHECK(vtex_page_count(&refused[i], &n) == VTEX_BAD_SHAPE && n == 77);
    CHECK(vtex_page_count(&largest, &n) == VTEX_DONE && n == 87381);
    CHECK(vtex_level_count(&largest, &n) == VTEX_DONE && n == 9);
    CHECK(vtex_page_count(&smallest, &n) == VTEX_DONE && n == 1);
    CHECK(vtex_page_count(&most, &n) == VTEX_DONE && n == 262040);
}

static void levels(void) {
    const vtex_shape uneven = {5, 3, 2};
    vtex_level_info at = {9, 9, 9, 9, 9};
    CHECK(vtex_level(&uneven, 0, &at) == VTEX_DONE);
    CHECK(at.width == 5 && at.height == 3 && at.columns == 3 && at.rows == 2 && at.first == 0);
    CHECK(vtex_level(&uneven, 1, &at) == VTEX_DONE);
    CHECK(at.width == 3 && at.height == 2 && at.columns == 2 && at.rows == 1 && at.first == 6);
    CHECK(vtex_level(&uneven, 2, &at) == VTEX_DONE);
    CHECK(at.width == 2 && at.height == 1 && at.columns == 1 && at.rows == 1 && at.first == 8);
    CHECK(vtex_level(&uneven, 3, &at) == VTEX_BAD_NUMBER && at.first == 8);
    CHECK(vtex_level(&uneven, UINT32_MAX, &at) == VTEX_BAD_NUMBER && at.first == 8);
    CHECK(vtex_level(&odd, 0, &at) == VTEX_BAD_SHAPE && at.first == 8);
}

static void pages(void) {
    uint32_t page = 77;
    vtex_name name = {9, 9, 9};
    CHECK(vtex_page_of_texel(&four, 0, 3, 1, &page) == VTEX_DONE && page == 1);
    CHECK(vtex_page_of_texel(&four, 1, 1, 1, &page) == VTEX_DONE && page == 4);
    CHECK(vtex_page_of_texel(&four, 0, 4, 0, &page) == VTEX_BAD_NUMBER && page == 4);
    CHECK(vtex_page_of_texel(&four, 0, 0, 4, &page) == VTEX_BAD_NUMBER && page == 4);
    CHECK(vtex_page_of_texel(&four, 2, 0, 0, &page) == VTEX_BAD_NUMBER && page == 4);
    CHECK(vtex_page_of_texel(&odd, 0, 0, 0, &page) == VTEX_BAD_SHAPE && page == 4);
    CHECK(vtex_parent(&four, 3, &page) == VTEX_DONE && page == 4);
    CHECK(vtex_parent(&four, 4, &page) == VTEX_DONE && page == VTEX_NO_PAGE);
    page = 77;
    CHECK(vtex_parent(&four, 5, &page) == VTEX_BAD_NUMBER && page == 77);
    CHECK(vtex_parent(&odd, 0, &page) == VTEX_BAD_SHAPE && page == 77);
    CHECK(vtex_page_name(&four, 2, &name) == VTEX_DONE && name.level == 0 && name.column == 0 && name.row == 1);
    CHECK(vtex_page_name(&four, 4, &name) == VTEX_DONE && name.level == 1 && name.column == 0 && name.row == 0);
    CHECK(vtex_page_name(&four, 5, &name) == VTEX_BAD_NUMBER && name.level == 1);
    CHECK(vtex_page_name(&odd, 0, &name) == VTEX_BAD_SHAPE && name.level == 1);
    CHECK(vtex_page_at(&four, &name, &page) == VTEX_DONE && page == 4);
    for (uint32_t i = 0; i < 5; i++) CHECK(vtex_page_name(&four, i, &name) == VTEX_DONE && vtex_page_at(&four, &name, &page) == VTEX_DONE && page == i);
    const vtex_name past[] = {{2, 0, 0}, {0, 2, 0}, {0, 0, 2}, {UINT32_MAX, UINT32_MAX, UINT32_MAX}};
    for (size_t i = 0; i < 4; i++) CHECK(vtex_page_at(&four, &past[i], &page) == VTEX_BAD_NUMBER && page == 4);
    CHECK(vtex_page_at(&odd, &past[0], &page) == VTEX_BAD_SHAPE && page == 4);
}

static void stores(void) {
    const uint8_t head[16] = {'V', 'T', 'S', '1', 0, 0, 0, 4, 0, 0, 0, 4, 0, 0, 0, 2}, deep[16] = {'V', 'T', 'S', '2', 0, 0, 0, 4, 0, 0, 0, 4, 0, 0, 0, 2};
    vtex_store store = {{9, 9, 9}, 9};
    vtex_range range = {9, 9};
    CHECK(vtex_store_open(head, 16, 77, &store) == VTEX_BAD_STORE && store.depth == 9);
    CHECK(vtex_store_open(head, 15, 76, &store) == VTEX_BAD_NUMBER && store.depth == 9);
    CHECK(vtex_store_open(head, 16, 3, &store) == VTEX_BAD_NUMBER && store.depth == 9);
    CHECK(vtex_store_open(head, 3, 3, &store) == VTEX_BAD_STORE && store.depth == 9);
    CHECK(vtex_store_open(head, 0, 0, &store) == VTEX_BAD_STORE && store.depth == 9);
    CHECK(vtex_store_open(head, 16, 76, &store) == VTEX_DONE);
    CHECK(store.shape.width == 4 && store.shape.height == 4 && store.shape.tile == 2 && store.depth == 1);
    CHECK(vtex_store_tile(&store, 3, &range) == VTEX_DONE && range.start == 16 + 3 * 12 && range.length == 12);
    CHECK(vtex_store_tile(&store, 5, &range) == VTEX_BAD_NUMBER && range.start == 52);
    CHECK(vtex_store_open(deep, 16, 136, &store) == VTEX_DONE && store.depth == 2);
    CHECK(vtex_store_tile(&store, 4, &range) == VTEX_DONE && range.start == 16 + 4 * 24 && range.length == 24);
    store.depth = 3;
    CHECK(vtex_store_tile(&store, 0, &range) == VTEX_BAD_NUMBER && range.start == 112);
    store.shape = odd;
    CHECK(vtex_store_tile(&store, 0, &range) == VTEX_BAD_SHAPE && range.start == 112);
}

int main(void) {
    counts();
    shapes();
    levels();
    pages();
    stores();
    return ended("geometry");
}
