/* Each allocation of an opening, two passes and two settlings is refused in turn: what is answered, that the cache goes on or is closed, and that
 * no block is left. So it is with a shared table, where a call that is refused memory changes nothing, and the same call goes through once there
 * is memory; and with its reader, whose calls take none. Linked with --wrap=malloc,--wrap=realloc,--wrap=free. */
#include "check.h"

static long left = -1, live;
void *__real_malloc(size_t);
void *__real_realloc(void *, size_t);
void __real_free(void *);

static int is_refused(void) {
    if (left == 0) return 1;
    if (left > 0) left--;
    return 0;
}

void *__wrap_malloc(size_t n) {
    if (is_refused()) return NULL;
    live++;
    return __real_malloc(n);
}

void *__wrap_realloc(void *p, size_t n) {
    if (is_refused()) return NULL;
    if (!p) live++;
    return __real_realloc(p, n);
}

void __wrap_free(void *p) {
    if (p) live--;
    __real_free(p);
}

static void *room[1024];

/* One run with so many allocations: the statuses of its calls, of which the last may take no memory. */
static void run(long most, uint32_t status[6]) {
    const uint32_t first[2] = {0, 2};
    const vtex_wanted second[2] = {{1, 3}, {3, 2}};
    const uint32_t third[5] = {3, 0, 2, 0, 0};
    const uint8_t states[8] = {VTEX_CAME, VTEX_UNDER_WAY};
    uint8_t told[8];
    vtex_cache *cache = (vtex_cache *)room;
    vtex_load loads[8];
    vtex_info info = {0, 0, 0, 0};
    left = most;
    vtex_cache_init(cache);
    status[0] = vtex_cache_open(cache, &four, 3, 1);
    status[1] = vtex_cache_pass_pages(cache, first, 2, 8);
    status[2] = vtex_cache_settle(cache, states, vtex_cache_loads(cache, loads, 8));
    status[3] = vtex_cache_pass_wanted(cache, second, 2, 8);
    status[4] = vtex_cache_pass_counts(cache, third, 5, 8);
    left = 0;
    status[5] = vtex_cache_stale_loads(cache, first, 2, told, vtex_cache_loads(cache, loads, 8));
    left = -1;
    /* after a refused opening or settling the cache is closed, and after a refused pass it goes on */
    int is_closed = status[0] != VTEX_DONE || status[2] == VTEX_NO_MEMORY;
    CHECK(status[5] == (is_closed ? VTEX_CLOSED : VTEX_DONE));
    CHECK(vtex_cache_info(cache, &info) == (is_closed ? VTEX_CLOSED : VTEX_DONE));
    CHECK(vtex_cache_pass_counts(cache, third, 5, 8) == (is_closed ? VTEX_CLOSED : VTEX_DONE));
    if (status[0] == VTEX_NO_MEMORY) CHECK(status[1] == VTEX_CLOSED && status[2] == VTEX_CLOSED && status[3] == VTEX_CLOSED);
    if (status[2] == VTEX_NO_MEMORY) CHECK(status[3] == VTEX_CLOSED && status[4] == VTEX_CLOSED);
    CHECK(vtex_cache_close(cache) == VTEX_DONE);
    CHECK(live == 0);
}

static void *table_room[256], *reader_room[256];
static vtex_table *const table = (vtex_table *)table_room;
static vtex_reader *const reader = (vtex_reader *)reader_room;
static vtex_waiting who;
static const uint8_t tile[12];

/* Whether the table is closed. */
static int is_closed(void) { return vtex_table_map(table, 4, 0, tile, 12, &who) == VTEX_CLOSED; }

/* Whether this version is the newest, and its look-up of page 0 finds this page. */
static int shows(uint64_t version, uint32_t found) {
    vtex_place place = {9, 9, 9};
    uint64_t told = 99;
    uint32_t status = vtex_reader_hold(reader, &told) | vtex_reader_look_up(reader, 0, &place) | vtex_reader_release(reader);
    return status == VTEX_DONE && told == version && place.page == found;
}

/* Whether the table has one byte a sample and this version, and a reader can be admitted and dismissed. */
static int is_narrow(uint64_t version) {
    const vtex_point point = {0, 0, 0};
    uint8_t out[3];
    uint64_t told = 99;
    if (vtex_table_admit(table, reader) != VTEX_DONE) return 0;
    uint32_t status = vtex_reader_hold(reader, &told) | vtex_reader_texels(reader, &point, 1, out, 3);
    return (status | vtex_table_dismiss(table, reader)) == VTEX_DONE && told == version;
}

/* The calls of a reader, while no memory can be had. */
static void read_without_memory(void) {
    const vtex_point points[2] = {{0, 1, 0}, {0, 3, 3}};
    const vtex_span span = {0, 0x8000, 0x8000, 0x8000, 0x8000, 5};
    const long then = left;
    uint32_t pages[5], number = 9;
    uint8_t out[15];
    uint64_t version;
    left = 0;
    CHECK(vtex_reader_number(reader, &number) == VTEX_DONE && number == 0);
    CHECK(shows(2, 0));
    CHECK(vtex_reader_hold(reader, &version) == VTEX_DONE);
    CHECK(vtex_reader_texels(reader, points, 2, out, 6) == VTEX_DONE);
    CHECK(vtex_reader_run(reader, &span, out, 15, pages, 5) == VTEX_DONE);
    CHECK(vtex_reader_blended_run(reader, &span, out, 15, pages, 5) == VTEX_DONE);
    CHECK(vtex_reader_release(reader) == VTEX_DONE);
    left = then;
}

/* Makes a call. Where it is refused memory, nothing is as it would be after it, and it goes through once there is memory. */
#define ASK(status, call, unchanged) do { \
    status = (call); \
    CHECK(status == VTEX_DONE || status == VTEX_NO_MEMORY); \
    if (status == VTEX_NO_MEMORY) { left = -1; CHECK(unchanged); CHECK((call) == VTEX_DONE); } \
} while (0)

/* One run of a table with so many allocations: the statuses of the calls that take memory. */
static void run_table(long most, uint32_t status[6]) {
    uint32_t number = 9;
    left = most;
    vtex_table_init(table);
    vtex_reader_init(reader);
    ASK(status[0], vtex_table_open(table, &four, 1, 3, 2), is_closed());
    ASK(status[1], vtex_table_map(table, 4, 0, tile, 12, &who), vtex_table_admit(table, reader) == VTEX_BAD_ORDER);
    ASK(status[2], vtex_table_admit(table, reader), vtex_reader_number(reader, &number) == VTEX_CLOSED);
    ASK(status[3], vtex_table_map(table, 0, 1, tile, 12, &who), shows(1, 4));
    read_without_memory();
    ASK(status[4], vtex_table_unmap(table, 0, &who), shows(2, 0));
    CHECK(shows(3, 4));
    CHECK(vtex_table_dismiss(table, reader) == VTEX_DONE);
    /* an opening anew that is refused leaves the table open as it was */
    ASK(status[5], vtex_table_open(table, &four, 2, 2, 1), is_narrow(3));
    CHECK(vtex_table_admit(table, reader) == VTEX_BAD_ORDER);
    CHECK(vtex_table_close(table) == VTEX_DONE);
    CHECK(live == 0);
}

/* The table with each of its allocations refused in turn. */
static void refuse_table(void) {
    int refused[6] = {0, 0, 0, 0, 0, 0}, clean = 0;
    for (long most = 0; most < 500 && !clean && !wrong; most++) {
        uint32_t status[6];
        run_table(most, status);
        clean = 1;
        for (int i = 0; i < 6; i++) {
            refused[i] += status[i] == VTEX_NO_MEMORY;
            if (status[i] != VTEX_DONE) clean = 0;
        }
    }
    CHECK(clean);
    CHECK(refused[0] > 1 && refused[5] > 1);
    left = -1;
}

int main(void) {
    if (vtex_cache_size() > sizeof room || vtex_table_size() > sizeof table_room || vtex_reader_size() > sizeof reader_room) return 1;
    refuse_table();
    int refused[5] = {0, 0, 0, 0, 0}, clean = 0;
    for (long most = 0; most < 500 && !clean && !wrong; most++) {
        uint32_t status[6];
        run(most, status);
        clean = 1;
        for (int i = 0; i < 5; i++) {
            CHECK(status[i] == VTEX_DONE || status[i] == VTEX_NO_MEMORY || status[i] == VTEX_CLOSED);
            refused[i] += status[i] == VTEX_NO_MEMORY;
            if (status[i] != VTEX_DONE) clean = 0;
        }
    }
    CHECK(clean);
    for (int i = 0; i < 5; i++) CHECK(refused[i] > 0);
    return ended("refused");
}
