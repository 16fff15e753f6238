/* The page cache for engines in C and C++.
 *
 * A texture with its mip chain is cut into pages, each of which has a tile in a store. The cache
 * knows which pages have one of F frames, which pages to load next and into which frames, and which
 * frame shows what. It reads no file, starts no thread and draws nothing: the engine reads the
 * tiles and uploads them. Pages are numbered from level 0 on, and in a level row by row, so the
 * root is the last.
 *
 * Every call returns at once. Those on shapes and stores use no memory but what they are given,
 * and may be made from any thread at any time. Those that take a cache are for one thread at a
 * time; a cache may be handed to another thread under a lock. Memory is taken (by malloc and
 * realloc) only in vtex_cache_open, the three passes and vtex_cache_settle, and given back (by
 * free) there and in vtex_cache_close.
 *
 * Each number is tested. Most calls return a status: VTEX_DONE only where each number was inside
 * its bounds, and another one leaves what the call was to write as it was. What cannot be tested,
 * C upholds: a pointer is that of such an object, a length is the true one, what a call writes is
 * no other argument's memory, and the place of a cache is aligned and stays where it is from
 * vtex_cache_init to vtex_cache_close. A length of 0 may come with any pointer, also NULL
 * (tested).
 *
 * `const` means that a call changes nothing, not that two threads may make it at once.
 *
 * A tile has its texels row by row from the top, the samples of a texel red, green, blue, and of
 * two bytes the more significant first. Where a level ends within a tile, its last column and row
 * are repeated.
 */
#ifndef VTEX_H
#define VTEX_H
#include <stddef.h>
#include <stdint.h>
#ifdef __cplusplus
extern "C" {
#endif

/* The version of this header, which is semantic (semver.org). vtex_version() is that of the
 * library: 10000 times the major number, 100 times the minor one, and the patch. */
#define VTEX_VERSION "1.0.0"
#define VTEX_VERSION_MAJOR 1
#define VTEX_VERSION_MINOR 0
#define VTEX_VERSION_PATCH 0
uint32_t vtex_version(void);

/* How many bytes the head of a store has. */
#define VTEX_STORE_HEAD 16

/* Statuses. */
enum {
    VTEX_DONE = 0,       /* what was asked was done */
    VTEX_BAD_SHAPE = 1,  /* the sides or the tile side make no chain of pages */
    VTEX_BAD_NUMBER = 2, /* a number or a length is outside its bounds */
    VTEX_NO_MEMORY = 3,  /* memory was refused */
    VTEX_CLOSED = 4,     /* the cache, the table or the reader is not open */
    VTEX_BAD_STORE = 5,  /* the bytes are no store's */
    VTEX_WAITING = 6,    /* a reader may hold a version that is in the way: make it again later */
    VTEX_NOT_HELD = 7,   /* the reader holds no version, or holds one already */
    VTEX_BAD_ORDER = 8,  /* too early: the root is not mapped, or the reader is open */
    VTEX_NO_SEAT = 9     /* as many readers are open as the table is for */
};

/* What a status means, in a few words of English; of a number that is none "unknown status". */
#if defined(__cplusplus) || (defined(__STDC_VERSION__) && __STDC_VERSION__ >= 199901L)
static inline const char *vtex_status_text(uint32_t status) {
    switch (status) {
    case VTEX_DONE: return "done";
    case VTEX_BAD_SHAPE: return "the sides or the tile side make no chain of pages";
    case VTEX_BAD_NUMBER: return "a number or a length is outside its bounds";
    case VTEX_NO_MEMORY: return "out of memory";
    case VTEX_CLOSED: return "the cache, the table or the reader is not open";
    case VTEX_BAD_STORE: return "the bytes are no store's";
    case VTEX_WAITING: return "a reader may still hold a version that is in the way";
    case VTEX_NOT_HELD: return "the reader holds no version, or holds one already";
    case VTEX_BAD_ORDER: return "the root is not mapped yet, or the reader is open";
    case VTEX_NO_SEAT: return "as many readers are open as the table is for";
    default: return "unknown status";
    }
}
#endif

/* What stands for no page. */
#define VTEX_NO_PAGE UINT32_MAX

/* What became of a load, for vtex_cache_settle. Any other number means lost. */
enum { VTEX_CAME = 0, VTEX_LOST = 1, VTEX_UNDER_WAY = 2 };

/* The sides of a texture, from 1 to 16384 texels, and of a tile, a power of two from 2 to 128. A
 * chain has at most 262144 pages. */
typedef struct vtex_shape { uint32_t width, height, tile; } vtex_shape;
/* A level: its sides in texels, its columns and rows of pages, and the index of its first page. */
typedef struct vtex_level_info { uint32_t width, height, columns, rows, first; } vtex_level_info;
/* The name of a page: its level, 0 the finest, and its column and row there. */
typedef struct vtex_name { uint32_t level, column, row; } vtex_name;
/* The shape of a store's pages, and how many bytes a sample has, 1 or 2 (the more significant
 * first). A texel has three samples. */
typedef struct vtex_store { vtex_shape shape; uint32_t depth; } vtex_store;
/* A run of a file's bytes. */
typedef struct vtex_range { uint64_t start, length; } vtex_range;

/* A wanted page, and how many pixels want it. */
typedef struct vtex_wanted { uint32_t page, pixels; } vtex_wanted;
/* A load: a page, the frame that its tile goes to, and the page that has the frame before, or
 * VTEX_NO_PAGE. */
typedef struct vtex_load { uint32_t page, frame, victim; } vtex_load;
/* A change of the page table: a page was mapped to a frame (mapped is 1), or taken out of it (0).
 */
typedef struct vtex_change { uint32_t page, frame, mapped; } vtex_change;
/* What a look-up finds: a mapped page, its frame and its level. */
typedef struct vtex_place { uint32_t page, frame, level; } vtex_place;
/* The numbers of a cache: its pages, the frames that no page has, the loads under way, and the
 * changes of the last settling. */
typedef struct vtex_info { uint32_t pages, free, loads, changes; } vtex_info;

/* A cache, whose place is the engine's: vtex_cache_size() bytes, aligned as a pointer. */
typedef struct vtex_cache vtex_cache;

/* ---- the geometry of a texture's pages: VTEX_DONE, VTEX_BAD_SHAPE, or VTEX_BAD_NUMBER where
 * there is no such level, texel or page */

/* How many pages the chain has, from 1 to 262144. */
uint32_t vtex_page_count(const vtex_shape *shape, uint32_t *pages);
/* How many levels the chain has, from 1 to 14. */
uint32_t vtex_level_count(const vtex_shape *shape, uint32_t *levels);
/* A level's sides, columns and rows of pages, and first page. */
uint32_t vtex_level(const vtex_shape *shape, uint32_t level, vtex_level_info *told);
/* The page of the texel (x, y) of a level. */
uint32_t vtex_page_of_texel(const vtex_shape *shape, uint32_t level, uint32_t x, uint32_t y,
    uint32_t *page);
/* The level, the column and the row of a page. */
uint32_t vtex_page_name(const vtex_shape *shape, uint32_t page, vtex_name *name);
/* The page at a level, a column and a row. */
uint32_t vtex_page_at(const vtex_shape *shape, const vtex_name *name, uint32_t *page);
/* The page of the next coarser level over a page's place; VTEX_NO_PAGE for the root. */
uint32_t vtex_parent(const vtex_shape *shape, uint32_t page, uint32_t *parent);
/* How many pages the last `levels` levels have, or all levels where there are fewer. Their indexes
 * are the last of the chain. */
uint32_t vtex_pinned_count(const vtex_shape *shape, uint32_t levels, uint32_t *pages);

/* ---- a store, which the engine reads itself */

/* The shape and the depth of a store of `length` bytes, of which `head` is the first
 * VTEX_STORE_HEAD, or all where there are fewer: VTEX_DONE, VTEX_BAD_STORE, or VTEX_BAD_NUMBER
 * where `count` is neither. */
uint32_t vtex_store_open(const uint8_t *head, size_t count, uint64_t length, vtex_store *store);
/* Where a page's tile stands in the file: VTEX_DONE, VTEX_BAD_SHAPE, or VTEX_BAD_NUMBER for
 * another depth or page. */
uint32_t vtex_store_tile(const vtex_store *store, uint32_t page, vtex_range *range);

/* ---- a cache: calls for one thread at a time */

/* How many bytes the place of a cache has. */
size_t vtex_cache_size(void);

/* Makes a closed cache of a place. It takes no memory and cannot fail. A cache that is open there
 * is lost, with its memory: close it first. */
void vtex_cache_init(vtex_cache *at);

/* Opens the cache for so many frames, at most 65535, in which the last `pinned` pages are mapped
 * for good, the first of them to frame 0. `pinned` is at least 1 and at most the frames and the
 * pages. A cache that is open is opened anew. The pinned pages are the changes to be uploaded
 * before the first picture. Takes some 21 bytes a page and 13 a frame. VTEX_DONE, VTEX_BAD_SHAPE,
 * VTEX_BAD_NUMBER, VTEX_NO_MEMORY; on all but the first the cache is as it was. */
uint32_t vtex_cache_open(vtex_cache *at, const vtex_shape *shape, uint32_t frames, uint32_t pinned);

/* The three passes. Each takes what the pixels of a picture want, makes the wanted mapped pages
 * the most recent ones, and plans which pages to load next: the missing page nearest above each
 * wanted one, coarse before fine and many pixels before few, into the free frames and then into
 * those of the least recent pages that no wanted page needs. Of this plan of at most `most`
 * entries those are added to the loads under way that have neither the page nor the frame of one
 * that is under way already. Pixels past 4294967295 for a page count as so many. VTEX_DONE: the
 * feedback fitted; VTEX_BAD_NUMBER: it does not fit, and VTEX_CLOSED: nothing changed;
 * VTEX_NO_MEMORY: the table and the loads are as they were, their order of use may have changed,
 * and the next pass goes on. Takes some 20 to 80 bytes a wanted page and 12 a load while it runs,
 * and keeps 12 a load. */

/* A number of pixels for each page: `pages` numbers. Costs what there is. */
uint32_t vtex_cache_pass_counts(vtex_cache *at, const uint32_t *pixels, size_t pages,
    uint32_t most);
/* A list of wanted pages with their numbers of pixels; those of a page that stands there again are
 * added. Costs what is wanted. */
uint32_t vtex_cache_pass_wanted(vtex_cache *at, const vtex_wanted *list, size_t count,
    uint32_t most);
/* Page indexes as a feedback buffer has them, one a pixel, VTEX_NO_PAGE where a pixel wants none.
 * Costs what is wanted. */
uint32_t vtex_cache_pass_pages(vtex_cache *at, const uint32_t *list, size_t count, uint32_t most);

/* How many loads are under way. If there is room for them all they are written to the front of
 * `out`, the oldest first, so those that the last pass added come last; else `out` is as it was. 0
 * for a closed cache. */
uint32_t vtex_cache_loads(const vtex_cache *at, vtex_load *out, size_t room);

/* Which loads under way no wanted page needs any more. `list` has wanted pages as
 * vtex_cache_pass_pages takes them, those of the last picture or of several. `states` gets a byte
 * for each load, in the order of vtex_cache_loads: VTEX_UNDER_WAY where a page of the list is the
 * load's page or lies below it, else VTEX_LOST. So vtex_cache_settle takes it as it is, or with
 * VTEX_CAME written over those that came. A load that a pass just planned is needed by the pages
 * of that pass. Changes nothing. Costs what is wanted, and a step a load. VTEX_DONE;
 * VTEX_BAD_NUMBER where `list` has another number or `room` is not the number of loads;
 * VTEX_CLOSED. */
uint32_t vtex_cache_stale_loads(const vtex_cache *at, const uint32_t *list, size_t count,
    uint8_t *states, size_t room);

/* Says what became of the loads under way: a byte for each, in the order of vtex_cache_loads. For
 * each that came its victim is unmapped and its page mapped; one that was lost is forgotten; one
 * that is under way stays so. The pages that came are the most recent ones. VTEX_DONE;
 * VTEX_BAD_NUMBER where `count` is another number: nothing changed; VTEX_CLOSED; VTEX_NO_MEMORY:
 * the cache is closed now. Takes some 34 bytes a load while it runs, and keeps some 60 for each
 * page that it maps to a frame that was free. */
uint32_t vtex_cache_settle(vtex_cache *at, const uint8_t *states, size_t count);

/* How many changes the last settling made, or the opening. If there is room for them all they are
 * written to the front of `out`, in an order in which they may be uploaded: a page is taken out of
 * its frame before the next is mapped to it. Else `out` is as it was. 0 for a closed cache. */
uint32_t vtex_cache_changes(const vtex_cache *at, vtex_change *out, size_t room);

/* The first mapped page of a page's line, which has the page itself, its parent and so on to the
 * root: VTEX_DONE, VTEX_BAD_NUMBER, VTEX_CLOSED. */
uint32_t vtex_cache_look_up(const vtex_cache *at, uint32_t page, vtex_place *found);

/* The page table of a level, row by row, as an array for upload: for each page 0 where it has no
 * frame, else its frame and 1. `room` is the level's number of pages: VTEX_DONE, VTEX_BAD_NUMBER,
 * VTEX_CLOSED. */
uint32_t vtex_cache_table(const vtex_cache *at, uint32_t level, uint32_t *out, size_t room);

/* The numbers of the cache: VTEX_DONE, VTEX_CLOSED. */
uint32_t vtex_cache_info(const vtex_cache *at, vtex_info *told);

/* Gives all memory back (tested): VTEX_DONE. The place may then be forgotten, or the cache opened
 * again. */
uint32_t vtex_cache_close(vtex_cache *at);

/* ---- a shared table: one thread changes the page table and fills frames, others look pages up
 * and read texels at the same time
 *
 * A table has versions: version 0 maps nothing, and each vtex_table_map and vtex_table_unmap makes
 * the next one. A reader takes hold of the newest version and reads in it until it releases it.
 * What a held version maps stays as it is; a call that would write over it returns VTEX_WAITING,
 * changes nothing that a reader sees, and is made again later. No call of a reader waits, loops
 * for others or takes memory.
 *
 * The calls on a table are for one thread at a time, those on a reader for one thread at a time,
 * and all of them may run at once. A place passes to another thread by what orders the two: a
 * lock, a thread's start or join, a seq_cst atomic. It stays where it is from init to close or
 * dismiss. Only vtex_table_open may be refused memory, so a table that is open goes on for any
 * number of versions, up to 2^62. */

/* A place of level 0, and the level at which it is wanted. */
typedef struct vtex_point { uint32_t level, x, y; } vtex_point;
/* A run of texels: the level at which they are wanted, the place of level 0 of the first one, the
 * step to the next, and how many they are. Places and steps are in parts of 65536 of a texel; the
 * texel at a place is the one that it lies in. */
typedef struct vtex_span {
    uint32_t level, x, y;
    int32_t step_x, step_y;
    uint32_t count;
} vtex_span;
/* Whom a call waits for: the number of a reader, and the version that it announced. It may hold
 * that one or a later one. */
typedef struct vtex_waiting { uint32_t reader; uint64_t version; } vtex_waiting;
/* A step of vtex_table_settle: the page is mapped to the frame with a tile (mapped is 1), which is
 * the given one of that number, from 0 on; or it is taken out of the frame (0), and `tile` is not
 * read. */
typedef struct vtex_step { uint32_t page, frame, mapped, tile; } vtex_step;

/* A table and a reader, whose places are the engine's: so many bytes, aligned as a pointer. */
typedef struct vtex_table vtex_table;
typedef struct vtex_reader vtex_reader;
size_t vtex_table_size(void);
size_t vtex_reader_size(void);

/* Make a closed table, a closed reader of a place. They take no memory and cannot fail. */
void vtex_table_init(vtex_table *at);
void vtex_reader_init(vtex_reader *at);

/* Opens a table of so many frames, from 1 to 65535 with at most 8388608 texels together, for up to
 * `readers` readers at once, from 1 to 64. `depth` is how many bytes a sample has, 1 or 2. A table
 * that is open is opened anew: its readers of before are no readers of it any more. Takes 36 bytes
 * a page, 12 a frame and 8 a texel of the frames. VTEX_DONE, VTEX_BAD_SHAPE, VTEX_BAD_NUMBER,
 * VTEX_NO_MEMORY; on all but the first the table is as it was. */
uint32_t vtex_table_open(vtex_table *at, const vtex_shape *shape, uint32_t depth, uint32_t frames,
    uint32_t readers);
/* Fills a frame that no page has with the tile of an unmapped page, as a store has it, and maps
 * the page to it in the next version. Never refused memory. VTEX_DONE, VTEX_BAD_NUMBER,
 * VTEX_CLOSED, or VTEX_WAITING where a reader may hold a version that maps the frame, or one more
 * than two before the newest: `waiting` then names it. */
uint32_t vtex_table_map(vtex_table *at, uint32_t page, uint32_t frame, const uint8_t *tile,
    size_t bytes, vtex_waiting *waiting);
/* Takes a mapped page, but not the root, out of its frame in the next version. Never refused
 * memory. Returns as vtex_table_map. */
uint32_t vtex_table_unmap(vtex_table *at, uint32_t page, vtex_waiting *waiting);
/* Makes steps in their order, each in the next version, until one cannot be made at once. `tiles`
 * has whole tiles one after the other, in any order. `made` is the number of steps that were made,
 * so the rest is `steps + made`. Never refused memory. VTEX_DONE where all were made; VTEX_WAITING
 * where the next one waits as in vtex_table_map, for whom `waiting` says; VTEX_BAD_NUMBER where
 * the next one can never be made as the table is: its page, frame or tile is none, the page of a
 * map is mapped or its frame is not free, the page of an unmap is the root or is not in that
 * frame. VTEX_CLOSED: `made` is as it was. */
uint32_t vtex_table_settle(vtex_table *at, const vtex_step *steps, size_t count,
    const uint8_t *tiles, size_t bytes, uint64_t *made,
    vtex_waiting *waiting);
/* Opens a closed reader, where the root is mapped and fewer than `readers` are open; it has one of
 * the seats until it is dismissed. It is a call on the table, so the writer's thread makes it, or
 * another under the same lock. VTEX_DONE; VTEX_BAD_ORDER where the reader is open, or the root is
 * not mapped yet; VTEX_NO_SEAT; VTEX_CLOSED; VTEX_NO_MEMORY only where it could have been opened,
 * which this implementation gives past 2^63 readers. Readers whose announcements lie on cache
 * lines of their own are the fastest: a table opened for 64 readers has eight such seats, and
 * gives them out first. */
uint32_t vtex_table_admit(vtex_table *at, vtex_reader *reader);
/* Closes a reader of this very table; it may hold a version. A reader whose thread was lost is
 * closed so by the writer, with the reader's place, and its seat is free again. VTEX_DONE,
 * VTEX_CLOSED where either is closed. Nothing tests that the reader is this table's: a table that
 * was opened anew is another one, whose readers of before are closed by vtex_reader_close. */
uint32_t vtex_table_dismiss(vtex_table *at, vtex_reader *reader);
/* Closes the table: VTEX_DONE. Readers that are open go on in its newest version; the last of all
 * gives the memory back (tested). */
uint32_t vtex_table_close(vtex_table *at);

/* The number of a reader, from 0 on, by which `waiting` names it: VTEX_DONE, VTEX_CLOSED. */
uint32_t vtex_reader_number(const vtex_reader *at, uint32_t *number);
/* Takes hold of a version that was the newest at some time of the call, and reports it; it is never
 * below one that this reader held before. VTEX_DONE, VTEX_CLOSED, VTEX_NOT_HELD where it holds one
 * already. */
uint32_t vtex_reader_hold(vtex_reader *at, uint64_t *version);
/* The first mapped page of a page's line in the held version: VTEX_DONE, VTEX_BAD_NUMBER,
 * VTEX_CLOSED, VTEX_NOT_HELD. */
uint32_t vtex_reader_look_up(vtex_reader *at, uint32_t page, vtex_place *found);
/* The texels over `count` points, fewer than 2^32, each from the first mapped page of the line of
 * its page. `bytes` is 3 times the depth for each point; a point is one of the texture's.
 * VTEX_DONE, VTEX_BAD_NUMBER, VTEX_CLOSED, VTEX_NOT_HELD. */
uint32_t vtex_reader_texels(vtex_reader *at, const vtex_point *points, size_t count, uint8_t *out,
    size_t bytes);
/* The texels of a run, as those of vtex_reader_texels, and the page that each of them wants, as
 * vtex_cache_pass_pages takes them. `wanted` is the run's count, `bytes` 3 times the depth for
 * each. All places are the texture's. Returns as vtex_reader_texels. */
uint32_t vtex_reader_run(vtex_reader *at, const vtex_span *span, uint8_t *out, size_t bytes,
    uint32_t *pages, size_t wanted);
/* The texels of a run by bilinear filtering, as `vtex walk --filter bilinear` blends them: each is
 * the blend of four of the wanted level, the one that its place lies in and its neighbours to the
 * right and below, the first behind the last, each from the first mapped page of the line of its
 * own page. They weigh by how far the place lies from them, to 1/256 texel: at whole numbers of
 * the level the first is all. The pages are those of vtex_reader_run, and it returns as that. */
uint32_t vtex_reader_blended_run(vtex_reader *at, const vtex_span *span, uint8_t *out, size_t bytes,
    uint32_t *pages, size_t wanted);
/* Holds its version no longer: VTEX_DONE, VTEX_CLOSED, VTEX_NOT_HELD. */
uint32_t vtex_reader_release(vtex_reader *at);
/* Closes a reader whose table is closed: VTEX_DONE. Where the table is open vtex_table_dismiss is
 * the call: after this one the table waits for the version that the reader holds for good. */
uint32_t vtex_reader_close(vtex_reader *at);

#ifdef __cplusplus
}
#endif
#endif
