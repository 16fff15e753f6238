// What a frame's calls cost, beside a plain least-recently-used cache of unordered_map and list that does the same for the same pages.
//
//     speed WIDTH HEIGHT TILE FRAMES WANTED MOST
//
// The wanted pages are neighbours of level 0 in a window that stays, moves by a fiftieth of itself, or jumps; each has 1 to 4,000 pixels. The processor time
// of the thread is taken, so that other work on the machine does not count. Medians of 200 frames after 400 that fill the frames.
#include "vtex.h"

#include <algorithm>
#include <cstdio>
#include <cstdlib>
#include <ctime>
#include <list>
#include <unordered_map>
#include <vector>

namespace {

double now() {
    timespec t;
    clock_gettime(CLOCK_THREAD_CPUTIME_ID, &t);
    return static_cast<double>(t.tv_sec) * 1e3 + static_cast<double>(t.tv_nsec) / 1e6;
}

uint64_t seed = 88172645463325252ull;

uint32_t roll() {
    seed ^= seed << 13;
    seed ^= seed >> 7;
    seed ^= seed << 17;
    return static_cast<uint32_t>(seed >> 32);
}

double median(std::vector<double> times) {
    std::sort(times.begin(), times.end());
    return times[times.size() / 2];
}

void done(uint32_t status) {
    if (status != VTEX_DONE) std::abort();
}

// The plain cache: the mapped pages in a list, the most recent first, and a map from each to its place there.
struct Plain {
    struct Held { std::list<uint32_t>::iterator at; uint32_t frame; uint32_t pass; };
    std::vector<uint32_t> parents, levels, free;
    std::list<uint32_t> order;
    std::unordered_map<uint32_t, Held> held;
    uint32_t root, pass = 0;

    Plain(const vtex_shape &shape, uint32_t pages, uint32_t frames) : parents(pages), levels(pages), root(pages - 1) {
        for (uint32_t p = 0; p < pages; p++) {
            vtex_name name;
            done(vtex_parent(&shape, p, &parents[p]));
            done(vtex_page_name(&shape, p, &name));
            levels[p] = name.level;
        }
        for (uint32_t f = frames; f-- > 1;) free.push_back(f);
        held.reserve(frames);
    }

    // Makes the wanted lines the most recent, and plans at most so many loads.
    std::vector<vtex_load> plan(std::vector<vtex_wanted> wanted, uint32_t most) {
        std::vector<vtex_load> loads;
        pass++;
        std::sort(wanted.begin(), wanted.end(), [this](const vtex_wanted &a, const vtex_wanted &b) {
            if (levels[a.page] != levels[b.page]) return levels[a.page] > levels[b.page];
            return a.pixels != b.pixels ? a.pixels > b.pixels : a.page < b.page;
        });
        std::vector<uint32_t> missing;
        std::unordered_map<uint32_t, bool> asked;
        for (size_t i = wanted.size(); i-- > 0;)
            for (uint32_t p = wanted[i].page; p != root; p = parents[p]) {
                auto found = held.find(p);
                if (found == held.end()) continue;
                if (found->second.pass == pass) break;
                order.splice(order.begin(), order, found->second.at);
                found->second.pass = pass;
            }
        for (const vtex_wanted &want : wanted) {
            uint32_t step = VTEX_NO_PAGE;
            for (uint32_t p = want.page; p != root && !held.count(p); p = parents[p]) step = p;
            if (step != VTEX_NO_PAGE && !asked[step]) { asked[step] = true; missing.push_back(step); }
        }
        auto victim = order.rbegin();
        size_t open = free.size();
        for (uint32_t page : missing) {
            if (loads.size() == most) break;
            if (open > 0) { loads.push_back({page, free[--open], VTEX_NO_PAGE}); continue; }
            if (victim == order.rend() || held[*victim].pass == pass) break;
            loads.push_back({page, held[*victim].frame, *victim});
            ++victim;
        }
        return loads;
    }

    void settle(const std::vector<vtex_load> &loads) {
        for (auto load = loads.rbegin(); load != loads.rend(); ++load) {
            if (load->victim != VTEX_NO_PAGE) { order.erase(held[load->victim].at); held.erase(load->victim); }
            else free.pop_back();
            order.push_front(load->page);
            held[load->page] = {order.begin(), load->frame, 0};
        }
    }
};

struct Window {
    uint32_t first, wanted;
    int mode, pass = 0;

    std::vector<vtex_wanted> next() {
        const uint32_t span = first * 3 / 4 - wanted;
        const uint32_t at = mode == 2 ? roll() % span : mode == 1 ? static_cast<uint32_t>(pass++) * (wanted / 50) % span : span / 2;
        std::vector<vtex_wanted> list;
        for (uint32_t i = 0; i < wanted; i++) list.push_back({at + i, 1 + roll() % 4000});
        return list;
    }
};

struct Times { std::vector<double> feedback, pass, settle, loads; };

void show(const char *what, const Times &t) {
    std::printf("  %-22s pass %.3f  settle %.3f  loads a frame %.0f\n", what, median(t.pass), median(t.settle), median(t.loads));
}

constexpr int filling = 400, frames_timed = 200;

void time_library(const vtex_shape &shape, uint32_t pages, uint32_t frames, uint32_t most, int form, Window window) {
    static const char *names[] = {"counts", "wanted pages", "page ids, one a pixel"};
    std::vector<void *> place((vtex_cache_size() + sizeof(void *) - 1) / sizeof(void *));
    vtex_cache *cache = reinterpret_cast<vtex_cache *>(place.data());
    vtex_cache_init(cache);
    done(vtex_cache_open(cache, &shape, frames, 1));
    std::vector<uint32_t> pixels(pages), ids;
    std::vector<vtex_load> loads(most + 1);
    std::vector<vtex_change> changes(2 * most + 1);
    std::vector<uint8_t> states(most + 1);
    Times times;
    for (int pass = 0; pass < filling + frames_timed; pass++) {
        std::vector<vtex_wanted> list = window.next();
        if (form == 0) {
            std::fill(pixels.begin(), pixels.end(), 0);
            for (const vtex_wanted &want : list) pixels[want.page] = want.pixels;
        }
        ids.clear();
        // 64 pixels a page, as of a feedback buffer of a quarter of a million
        if (form == 2) for (const vtex_wanted &want : list) ids.insert(ids.end(), 64, want.page);
        const double a = now();
        done(form == 0 ? vtex_cache_pass_counts(cache, pixels.data(), pages, most)
            : form == 1 ? vtex_cache_pass_wanted(cache, list.data(), list.size(), most) : vtex_cache_pass_pages(cache, ids.data(), ids.size(), most));
        const uint32_t count = vtex_cache_loads(cache, loads.data(), loads.size());
        const double b = now();
        done(vtex_cache_settle(cache, states.data(), count));
        vtex_cache_changes(cache, changes.data(), changes.size());
        const double c = now();
        if (pass < filling) continue;
        times.pass.push_back(b - a);
        times.settle.push_back(c - b);
        times.loads.push_back(count);
    }
    show(names[form], times);
    vtex_cache_close(cache);
}

void time_plain(const vtex_shape &shape, uint32_t pages, uint32_t frames, uint32_t most, Window window) {
    Plain plain(shape, pages, frames);
    Times times;
    for (int pass = 0; pass < filling + frames_timed; pass++) {
        std::vector<vtex_wanted> list = window.next();
        const double a = now();
        std::vector<vtex_load> loads = plain.plan(std::move(list), most);
        const double b = now();
        plain.settle(loads);
        const double c = now();
        if (pass < filling) continue;
        times.pass.push_back(b - a);
        times.settle.push_back(c - b);
        times.loads.push_back(static_cast<double>(loads.size()));
    }
    show("plain C++", times);
}

} // namespace

int main(int count, char **words) {
    if (count != 7) return 2;
    uint32_t n[7] = {};
    for (int i = 1; i < 7; i++) n[i] = static_cast<uint32_t>(std::atol(words[i]));
    const vtex_shape shape = {n[1], n[2], n[3]};
    uint32_t pages = 0;
    vtex_level_info finest;
    done(vtex_page_count(&shape, &pages));
    done(vtex_level(&shape, 0, &finest));
    static const char *modes[] = {"the window stays", "it moves by a fiftieth", "it jumps"};
    std::printf("%u pages, %u frames, %u wanted, at most %u loads; milliseconds\n", pages, n[4], n[5], n[6]);
    for (int mode = 0; mode < 3; mode++) {
        std::printf("%s\n", modes[mode]);
        const Window window = {finest.columns * finest.rows, n[5], mode};
        for (int form = 0; form < 3; form++) time_library(shape, pages, n[4], n[6], form, window);
        time_plain(shape, pages, n[4], n[6], window);
    }
    return 0;
}
