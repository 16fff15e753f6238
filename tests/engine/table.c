/* A shared table of 4 frames and two readers, call by call: what the calls answer, leave and refuse. */
#include "check.h"

static vtex_table *table;
static vtex_reader *readers[3];
static vtex_waiting who = {9, 9};
static uint8_t tile[12], out[24];
static uint32_t pages[8];

/* The tile of a page: three samples a texel, each of which names the page and the place. */
static const uint8_t *tile_of(uint32_t page) {
    for (uint32_t i = 0; i < 12; i++) tile[i] = (uint8_t)(16 * page + i);
    return tile;
}

static uint32_t map(uint32_t page, uint32_t frame) { return vtex_table_map(table, page, frame, tile_of(page), 12, &who); }

static int is_place(vtex_reader *reader, uint32_t page, uint32_t found, uint32_t frame, uint32_t level) {
    vtex_place place = {9, 9, 9};
    return vtex_reader_look_up(reader, page, &place) == VTEX_DONE && place.page == found && place.frame == frame && place.level == level;
}

/* Holds the newest version, which is this one. */
static int holds(vtex_reader *reader, uint64_t version) {
    uint64_t told = 99;
    return vtex_reader_hold(reader, &told) == VTEX_DONE && told == version;
}

/* Every call on a table and a reader that are closed. */
static void closed(void) {
    vtex_place place = {9, 9, 9};
    const vtex_point point = {0, 0, 0};
    const vtex_span span = {0, 0, 0, 0, 0, 1};
    uint64_t version = 99;
    uint32_t number = 99;
    who.reader = 9, who.version = 9;
    CHECK(map(4, 0) == VTEX_CLOSED && who.reader == 9 && who.version == 9);
    CHECK(vtex_table_unmap(table, 0, &who) == VTEX_CLOSED && who.reader == 9);
    CHECK(vtex_table_admit(table, readers[0]) == VTEX_CLOSED);
    CHECK(vtex_table_dismiss(table, readers[0]) == VTEX_CLOSED);
    CHECK(vtex_reader_number(readers[0], &number) == VTEX_CLOSED && number == 99);
    CHECK(vtex_reader_hold(readers[0], &version) == VTEX_CLOSED && version == 99);
    CHECK(vtex_reader_look_up(readers[0], 0, &place) == VTEX_CLOSED && place.page == 9);
    CHECK(vtex_reader_texels(readers[0], &point, 1, out, 3) == VTEX_CLOSED);
    CHECK(vtex_reader_run(readers[0], &span, out, 3, pages, 1) == VTEX_CLOSED);
    CHECK(vtex_reader_blended_run(readers[0], &span, out, 3, pages, 1) == VTEX_CLOSED);
    CHECK(vtex_reader_release(readers[0]) == VTEX_CLOSED);
    CHECK(vtex_reader_close(readers[0]) == VTEX_DONE);
    CHECK(vtex_table_close(table) == VTEX_DONE);
}

static void opened(void) {
    const vtex_shape wide = {16384, 16384, 128};
    CHECK(vtex_table_open(table, &odd, 1, 4, 2) == VTEX_BAD_SHAPE);
    CHECK(vtex_table_open(table, &four, 0, 4, 2) == VTEX_BAD_NUMBER);
    CHECK(vtex_table_open(table, &four, 3, 4, 2) == VTEX_BAD_NUMBER);
    CHECK(vtex_table_open(table, &four, 1, 0, 2) == VTEX_BAD_NUMBER);
    CHECK(vtex_table_open(table, &four, 1, 65536, 2) == VTEX_BAD_NUMBER);
    CHECK(vtex_table_open(table, &wide, 1, 513, 2) == VTEX_BAD_NUMBER);
    CHECK(vtex_table_open(table, &four, 1, 4, 0) == VTEX_BAD_NUMBER);
    CHECK(vtex_table_open(table, &four, 1, 4, 65) == VTEX_BAD_NUMBER);
    closed();
    CHECK(vtex_table_open(table, &four, 1, 4, 2) == VTEX_DONE);
    CHECK(vtex_table_admit(table, readers[0]) == VTEX_BAD_ORDER); /* the root is not mapped */
    CHECK(map(5, 0) == VTEX_BAD_NUMBER);
    CHECK(map(4, 4) == VTEX_BAD_NUMBER);
    CHECK(vtex_table_map(table, 4, 0, tile_of(4), 11, &who) == VTEX_BAD_NUMBER);
    CHECK(map(4, 0) == VTEX_DONE);
    CHECK(map(4, 1) == VTEX_BAD_NUMBER);
    CHECK(map(0, 0) == VTEX_BAD_NUMBER);
    CHECK(vtex_table_unmap(table, 4, &who) == VTEX_BAD_NUMBER);
    CHECK(vtex_table_unmap(table, 0, &who) == VTEX_BAD_NUMBER);
    CHECK(vtex_table_unmap(table, 5, &who) == VTEX_BAD_NUMBER);
    CHECK(who.reader == 9 && who.version == 9);
}

static void admitted(void) {
    uint32_t number = 99;
    CHECK(vtex_table_admit(table, readers[0]) == VTEX_DONE);
    CHECK(vtex_table_admit(table, readers[0]) == VTEX_BAD_ORDER);
    CHECK(vtex_table_admit(table, readers[1]) == VTEX_DONE);
    CHECK(vtex_table_admit(table, readers[2]) == VTEX_NO_SEAT);
    CHECK(vtex_reader_number(readers[0], &number) == VTEX_DONE && number == 0);
    CHECK(vtex_reader_number(readers[1], &number) == VTEX_DONE && number == 1);
    CHECK(vtex_reader_release(readers[0]) == VTEX_NOT_HELD);
}

/* Texels and runs under a hold, and those that do not fit. */
static void read_on(void) {
    vtex_place place = {9, 9, 9};
    const vtex_point points[2] = {{0, 1, 0}, {0, 3, 3}}, level = {2, 0, 0}, column = {0, 4, 0}, row = {0, 0, 4};
    vtex_span span = {0, 0x18000, 0x8000, 0x10000, 0x8000, 3};
    uint64_t version = 99;
    CHECK(vtex_reader_look_up(readers[0], 0, &place) == VTEX_NOT_HELD && place.page == 9);
    CHECK(vtex_reader_texels(readers[0], points, 2, out, 6) == VTEX_NOT_HELD);
    CHECK(vtex_reader_run(readers[0], &span, out, 9, pages, 3) == VTEX_NOT_HELD);
    CHECK(map(0, 1) == VTEX_DONE);
    CHECK(holds(readers[0], 2));
    CHECK(vtex_reader_hold(readers[0], &version) == VTEX_NOT_HELD && version == 99);
    CHECK(vtex_reader_look_up(readers[0], 5, &place) == VTEX_BAD_NUMBER && place.page == 9);
    CHECK(is_place(readers[0], 0, 0, 1, 0) && is_place(readers[0], 3, 4, 0, 1));
    CHECK(vtex_reader_texels(readers[0], points, 2, out, 5) == VTEX_BAD_NUMBER);
    CHECK(vtex_reader_texels(readers[0], &level, 1, out, 3) == VTEX_BAD_NUMBER);
    CHECK(vtex_reader_texels(readers[0], &column, 1, out, 3) == VTEX_BAD_NUMBER);
    CHECK(vtex_reader_texels(readers[0], &row, 1, out, 3) == VTEX_BAD_NUMBER);
    CHECK(vtex_reader_texels(readers[0], points, 0, out, 0) == VTEX_DONE);
    CHECK(vtex_reader_texels(readers[0], points, 2, out, 6) == VTEX_DONE);
    CHECK(out[0] == 3 && out[1] == 4 && out[2] == 5); /* page 0, place 1 */
    CHECK(out[3] == 73 && out[4] == 74 && out[5] == 75); /* page 4, place 3 */
    out[0] = 99;
    CHECK(vtex_reader_run(readers[0], &span, out, 8, pages, 3) == VTEX_BAD_NUMBER);
    CHECK(vtex_reader_run(readers[0], &span, out, 9, pages, 2) == VTEX_BAD_NUMBER);
    span.count = 4; /* its last place is column 4 */
    CHECK(vtex_reader_run(readers[0], &span, out, 12, pages, 4) == VTEX_BAD_NUMBER && out[0] == 99);
    span.count = 3; /* (1, 0), (2, 1), (3, 1) */
    CHECK(vtex_reader_run(readers[0], &span, out, 9, pages, 3) == VTEX_DONE);
    CHECK(out[0] == 3 && out[3] == 67 && out[6] == 67 && pages[0] == 0 && pages[1] == 1 && pages[2] == 1);
    span.x = 0x38000, span.step_x = -0x10000, span.step_y = 0; /* backwards: (3, 0) to (1, 0) */
    CHECK(vtex_reader_run(readers[0], &span, out, 9, pages, 3) == VTEX_DONE);
    CHECK(out[0] == 67 && out[3] == 67 && out[6] == 3 && pages[0] == 1 && pages[1] == 1 && pages[2] == 0);
    span.count = 5; /* the last two places are left of the texture */
    CHECK(vtex_reader_run(readers[0], &span, out, 15, pages, 5) == VTEX_BAD_NUMBER);
    CHECK(vtex_reader_release(readers[0]) == VTEX_DONE);
}

/* Blended runs, in the version that maps page 0 and the root, and those that do not fit. */
static void blend(void) {
    vtex_span span = {0, 0x8000, 0, 0x10000, 0, 4}; /* between the columns 0 and 1, 1 and 2, 2 and 3, and 3 and 0 of the top row */
    memset(out, 99, sizeof out), memset(pages, 9, sizeof pages);
    CHECK(vtex_reader_blended_run(readers[0], &span, out, 12, pages, 4) == VTEX_NOT_HELD && out[0] == 99 && pages[0] == 0x9090909);
    CHECK(holds(readers[0], 2));
    CHECK(vtex_reader_blended_run(readers[0], &span, out, 11, pages, 4) == VTEX_BAD_NUMBER);
    CHECK(vtex_reader_blended_run(readers[0], &span, out, 12, pages, 5) == VTEX_BAD_NUMBER);
    span.count = 5; /* its last place is right of the texture */
    CHECK(vtex_reader_blended_run(readers[0], &span, out, 15, pages, 5) == VTEX_BAD_NUMBER);
    span.count = 4, span.level = 2;
    CHECK(vtex_reader_blended_run(readers[0], &span, out, 12, pages, 4) == VTEX_BAD_NUMBER && out[0] == 99 && pages[0] == 0x9090909);
    span.level = 0;
    CHECK(vtex_reader_blended_run(readers[0], &span, out, 12, pages, 4) == VTEX_DONE);
    CHECK(out[0] == 2 && out[1] == 3 && out[2] == 4); /* the texels 0 and 3 of page 0, a half up */
    CHECK(out[3] == 35 && out[6] == 67 && out[9] == 34); /* 3 and 67, which the root serves; 67 twice; 67 and 0 */
    CHECK(pages[0] == 0 && pages[1] == 0 && pages[2] == 1 && pages[3] == 1);
    const vtex_span down = {0, 0, 0x4000, 0, 0, 1}, coarse = {1, 0x10000, 0, 0, 0, 1}, none = {9, 1, 1, 1, 1, 0};
    CHECK(vtex_reader_blended_run(readers[0], &down, out, 3, pages, 1) == VTEX_DONE && out[0] == 2 && pages[0] == 0); /* 0 and 6, a quarter */
    CHECK(vtex_reader_blended_run(readers[0], &coarse, out, 3, pages, 1) == VTEX_DONE && out[0] == 66 && pages[0] == 4); /* 64 and 67 */
    CHECK(vtex_reader_blended_run(readers[0], &none, out, 0, pages, 0) == VTEX_DONE);
    CHECK(vtex_reader_release(readers[0]) == VTEX_DONE);
}

/* The writer waits for a reader that holds a version which maps the frame, and for one that is more than two versions behind. */
static void waiting(void) {
    CHECK(holds(readers[1], 2));
    CHECK(vtex_table_unmap(table, 0, &who) == VTEX_DONE); /* version 3 */
    CHECK(map(1, 1) == VTEX_WAITING && who.reader == 1 && who.version == 2);
    CHECK(is_place(readers[1], 0, 0, 1, 0));
    CHECK(holds(readers[0], 3) && is_place(readers[0], 0, 4, 0, 1));
    CHECK(map(1, 2) == VTEX_DONE); /* version 4 */
    CHECK(vtex_table_unmap(table, 1, &who) == VTEX_DONE); /* version 5 */
    who.reader = 9;
    CHECK(map(2, 3) == VTEX_WAITING && who.reader == 1 && who.version == 2);
    CHECK(vtex_reader_release(readers[1]) == VTEX_DONE);
    CHECK(map(2, 3) == VTEX_DONE); /* version 6 */
    CHECK(map(3, 1) == VTEX_WAITING && who.reader == 0 && who.version == 3);
    CHECK(vtex_table_dismiss(table, readers[0]) == VTEX_DONE); /* while it holds */
    CHECK(map(3, 1) == VTEX_DONE); /* version 7 */
    CHECK(vtex_table_dismiss(table, readers[0]) == VTEX_CLOSED);
    CHECK(vtex_table_admit(table, readers[2]) == VTEX_DONE && holds(readers[2], 7));
    CHECK(is_place(readers[2], 3, 3, 1, 0) && is_place(readers[2], 2, 2, 3, 0) && is_place(readers[2], 0, 4, 0, 1));
}

/* A batch of changes is made as far as it can be made at once. */
static void settling(void) {
    vtex_step first[4] = {{4, 0, 1, 2}, {0, 1, 1, 0}, {1, 2, 1, 1}, {0, 1, 0, 9}}, then[3] = {{1, 2, 0, 0}, {0, 2, 1, 0}, {1, 1, 1, 1}};
    const vtex_step elsewhere = {0, 1, 0, 0}, root = {4, 0, 0, 0}, outside = {5, 3, 1, 0}, taken = {2, 2, 1, 0};
    const vtex_point point = {0, 2, 0};
    uint8_t tiles[36];
    uint64_t made = 99;
    for (uint32_t i = 0; i < 36; i++) tiles[i] = (uint8_t)i;
    CHECK(vtex_table_settle(table, first, 1, tiles, 36, &made, &who) == VTEX_CLOSED && made == 99);
    CHECK(vtex_table_open(table, &four, 1, 4, 2) == VTEX_DONE);
    CHECK(vtex_table_settle(table, first, 4, tiles, 35, &made, &who) == VTEX_BAD_NUMBER && made == 0); /* there is no tile 2 */
    CHECK(vtex_table_settle(table, first, 0, tiles, 36, &made, &who) == VTEX_DONE && made == 0);
    CHECK(vtex_table_settle(table, first, 4, tiles, 36, &made, &who) == VTEX_DONE && made == 4);
    CHECK(vtex_table_admit(table, readers[0]) == VTEX_DONE && holds(readers[0], 4));
    CHECK(is_place(readers[0], 1, 1, 2, 0) && is_place(readers[0], 0, 4, 0, 1));
    CHECK(vtex_reader_texels(readers[0], &point, 1, out, 3) == VTEX_DONE && out[0] == 12 && out[2] == 14); /* tile 1 */
    who.reader = 9;
    CHECK(vtex_table_settle(table, then, 3, tiles, 36, &made, &who) == VTEX_WAITING && made == 1 && who.reader == 0 && who.version == 4);
    CHECK(vtex_table_settle(table, then + 1, 2, tiles, 36, &made, &who) == VTEX_WAITING && made == 0);
    CHECK(is_place(readers[0], 1, 1, 2, 0) && vtex_reader_release(readers[0]) == VTEX_DONE);
    CHECK(vtex_table_settle(table, then + 1, 2, tiles, 36, &made, &who) == VTEX_DONE && made == 2);
    CHECK(vtex_table_settle(table, &elsewhere, 1, tiles, 36, &made, &who) == VTEX_BAD_NUMBER && made == 0);
    CHECK(vtex_table_settle(table, &root, 1, tiles, 36, &made, &who) == VTEX_BAD_NUMBER && made == 0);
    CHECK(vtex_table_settle(table, &outside, 1, tiles, 36, &made, &who) == VTEX_BAD_NUMBER && made == 0);
    CHECK(vtex_table_settle(table, &taken, 1, tiles, 36, &made, &who) == VTEX_BAD_NUMBER && made == 0);
    CHECK(holds(readers[0], 7) && is_place(readers[0], 0, 0, 2, 0) && is_place(readers[0], 1, 1, 1, 0));
    CHECK(vtex_table_dismiss(table, readers[0]) == VTEX_DONE);
    CHECK(vtex_table_close(table) == VTEX_DONE);
    closed();
}

/* A table that is closed before its last readers. */
static void ending(void) {
    CHECK(vtex_table_close(table) == VTEX_DONE);
    CHECK(is_place(readers[2], 3, 3, 1, 0));
    CHECK(vtex_table_dismiss(table, readers[2]) == VTEX_CLOSED);
    CHECK(vtex_reader_close(readers[2]) == VTEX_DONE);
    CHECK(holds(readers[1], 7));
    CHECK(vtex_reader_close(readers[1]) == VTEX_DONE);
    closed();
}

int main(void) {
    table = malloc(vtex_table_size());
    vtex_table_init(table);
    for (int i = 0; i < 3; i++) vtex_reader_init(readers[i] = malloc(vtex_reader_size()));
    closed();
    opened();
    admitted();
    read_on();
    blend();
    waiting();
    ending();
    settling();
    free(table);
    for (int i = 0; i < 3; i++) free(readers[i]);
    return ended("table");
}
