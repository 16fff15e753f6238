// Random runs of calls of include/vtex.h by the library for C; what they return goes into a hash. trial.mjs makes the same runs by a WebAssembly module.
//
// usage: trial RUNS PASSES
#include "vtex.h"
#include <stdio.h>
#include <stdlib.h>
#include <time.h>

enum { LIST = 4096, LOADS = 65536 };

static uint64_t state, hash;

static uint32_t below(uint32_t bound) {
    state ^= state << 13;
    state ^= state >> 7;
    state ^= state << 17;
    return (uint32_t)((state >> 20) % bound);
}

static void tell(uint64_t it) {
    hash = (hash ^ it) * 0x9e3779b97f4a7c15ull;
    hash ^= hash >> 29;
}

typedef struct {
    vtex_cache *cache;
    vtex_shape shape;
    uint32_t pages, *list, *counts;
    vtex_load *loads;
    vtex_change *changes;
    uint8_t *states;
} Run;

// A pass of one of the three forms over random pages, many of them near each other, some of them amiss.
static void pass(const Run *run) {
    uint32_t n = below(LIST), form = below(3), from = below(run->pages), most = below(200);
    for (uint32_t i = 0; i < n; i++) run->list[i] = below(8) ? (from + below(300)) % run->pages : below(4) ? below(run->pages) : VTEX_NO_PAGE;
    if (form == 0) {
        for (uint32_t i = 0; i < run->pages; i++) run->counts[i] = below(16) ? 0 : below(50);
        tell(vtex_cache_pass_counts(run->cache, run->counts, run->pages - !below(20), most));
    } else if (form == 1) {
        for (uint32_t i = 0; i < n; i++)
            if (run->list[i] == VTEX_NO_PAGE) run->list[i] = below(50) ? 0 : run->pages;
        tell(vtex_cache_pass_wanted(run->cache, (const vtex_wanted *)run->list, n / 2, most));
    } else {
        tell(vtex_cache_pass_pages(run->cache, run->list, n, most));
    }
}

static void settle(const Run *run) {
    uint32_t count = vtex_cache_loads(run->cache, run->loads, LOADS);
    tell(count);
    for (uint32_t i = 0; i < count; i++) {
        tell(run->loads[i].page);
        tell(run->loads[i].frame);
        tell(run->loads[i].victim);
        run->states[i] = (uint8_t)(below(10) ? below(3) : 7);
    }
    tell(vtex_cache_settle(run->cache, run->states, count));
    count = vtex_cache_changes(run->cache, run->changes, 2 * LOADS);
    tell(count);
    for (uint32_t i = 0; i < count; i++) {
        tell(run->changes[i].page);
        tell(run->changes[i].frame);
        tell(run->changes[i].mapped);
    }
}

static void ask(const Run *run) {
    vtex_place place = {0, 0, 0};
    vtex_info info = {0, 0, 0, 0};
    vtex_range range = {0, 0};
    vtex_name name = {0, 0, 0};
    vtex_store store = {run->shape, 1 + below(3)};
    uint32_t parent = 0, levels = 0, page = below(run->pages + 2);
    tell(vtex_cache_look_up(run->cache, page, &place));
    tell(place.page), tell(place.frame), tell(place.level);
    tell(vtex_cache_info(run->cache, &info));
    tell(info.free), tell(info.loads);
    tell(vtex_store_tile(&store, page, &range));
    tell(range.start), tell(range.length);
    tell(vtex_page_name(&run->shape, page, &name));
    tell(name.level), tell(name.column), tell(name.row);
    tell(vtex_parent(&run->shape, page, &parent));
    tell(parent);
    vtex_level_count(&run->shape, &levels);
    vtex_level_info level = {0, 0, 0, 0, 0};
    uint32_t k = below(levels + 1);
    tell(vtex_level(&run->shape, k, &level));
    tell(level.first);
    uint32_t cells = level.columns * level.rows;
    if (cells && cells <= LOADS) {
        tell(vtex_cache_table(run->cache, k, (uint32_t *)run->loads, cells));
        for (uint32_t i = 0; i < cells; i++) tell(((uint32_t *)run->loads)[i]);
    }
}

static uint64_t trial(uint32_t seed, uint32_t passes) {
    Run run = {0};
    state = seed * 0x9e3779b97f4a7c15ull + 1;
    hash = 0;
    run.shape = (vtex_shape){1 + below(9000), 1 + below(9000), (uint32_t)2 << (3 + below(4))};
    uint32_t status = vtex_page_count(&run.shape, &run.pages), pinned = 0;
    tell(status);
    tell(run.pages);
    if (status) return hash;
    vtex_pinned_count(&run.shape, 1 + below(3), &pinned);
    run.cache = malloc(vtex_cache_size());
    run.list = malloc(4 * LIST);
    run.counts = malloc(4 * (size_t)run.pages);
    run.loads = malloc(sizeof *run.loads * LOADS);
    run.changes = malloc(sizeof *run.changes * 2 * LOADS);
    run.states = malloc(LOADS);
    vtex_cache_init(run.cache);
    tell(vtex_cache_open(run.cache, &run.shape, pinned + below(600), pinned));
    for (uint32_t i = 0; i < passes; i++) pass(&run), settle(&run), ask(&run);
    tell(vtex_cache_close(run.cache));
    free(run.cache), free(run.list), free(run.counts), free(run.loads), free(run.changes), free(run.states);
    return hash;
}

// So many passes over one list of page indexes, with nothing to load after the first: the cost of a picture's feedback.
static uint32_t cost(const vtex_shape *shape, uint32_t frames, const uint32_t *list, uint32_t n, uint32_t passes) {
    uint32_t pinned = 0, sum = 0;
    vtex_pinned_count(shape, 1, &pinned);
    vtex_cache *cache = malloc(vtex_cache_size());
    uint8_t *states = malloc(LOADS);
    vtex_cache_init(cache);
    if (vtex_cache_open(cache, shape, frames, pinned)) return 0;
    for (uint32_t i = 0; i < passes; i++) {
        if (vtex_cache_pass_pages(cache, list, n, 65535)) return 0;
        uint32_t count = vtex_cache_loads(cache, (vtex_load *)states, 0);
        sum += count;
        for (uint32_t j = 0; j < count; j++) states[j] = VTEX_CAME;
        if (vtex_cache_settle(cache, states, count)) return 0;
    }
    vtex_cache_close(cache);
    free(cache), free(states);
    return sum + 1;
}

static double now(void) {
    struct timespec t;
    clock_gettime(CLOCK_MONOTONIC, &t);
    return t.tv_sec * 1e3 + t.tv_nsec / 1e6;
}

int main(int count, char **words) {
    if (count != 3) return 2;
    uint32_t runs = (uint32_t)atoi(words[1]), passes = (uint32_t)atoi(words[2]);
    for (uint32_t i = 1; i <= runs; i++) printf("%u %016llx\n", i, (unsigned long long)trial(i, passes));
    vtex_shape shape = {16384, 16384, 64};
    uint32_t n = 480 * 270, *list = malloc(4 * n);
    for (uint32_t i = 0; i < n; i++) list[i] = (i / 480 / 16) % 256 * 256 + (i % 480) / 16 % 256;
    double begun = now();
    cost(&shape, 1024, list, n, 1);
    double one = now() - begun;
    begun = now();
    cost(&shape, 1024, list, n, 201);
    fprintf(stderr, "a pass over %u page ids: %.3f ms\n", n, (now() - begun - one) / 200);
}
