// What the calls on a shared table (include/vtex.h) cost, alone and by several readers beside a writer that publishes without a pause, in turn
// with a table of plain C++ under a std::shared_mutex, and with one that nothing guards and nobody writes. Prints tables for docs/PERFORMANCE.md.
//
//     shared_table calls | rows | pictures [SECONDS]
//
// The texture has 4096 x 4096 texels in pages of 64 x 64; the table has 2,048 frames, of which the writer keeps 64 spare.
#include "vtex.h"

#include <algorithm>
#include <atomic>
#include <chrono>
#include <cstdio>
#include <cstdlib>
#include <cstring>
#include <deque>
#include <mutex>
#include <random>
#include <shared_mutex>
#include <string>
#include <thread>
#include <vector>

namespace {

using Clock = std::chrono::steady_clock;
constexpr uint32_t side = 4096, tile_side = 64, frames = 1984, spares = 64, most_readers = 64;
constexpr size_t tile_bytes = 3 * tile_side * tile_side;

double since(Clock::time_point start) { return std::chrono::duration<double>(Clock::now() - start).count(); }

void done(uint32_t status) {
    if (status != VTEX_DONE) {
        std::fprintf(stderr, "status %u\n", status);
        std::_Exit(1);
    }
}

// The levels of the texture.
struct Chain {
    std::vector<uint32_t> columns, first;
    uint32_t pages = 0;

    Chain() {
        for (uint32_t edge = side;; edge /= 2) {
            first.push_back(pages);
            columns.push_back((edge + tile_side - 1) / tile_side);
            pages += columns.back() * columns.back();
            if (edge <= tile_side) break;
        }
    }
    uint32_t page(uint32_t level, uint32_t x, uint32_t y) const { return first[level] + (y >> level) / tile_side * columns[level] + (x >> level) / tile_side; }
} const chain;

// The memory of a table or a reader.
template <typename T> struct Room {
    std::vector<uint64_t> words;
    explicit Room(size_t size) : words((size + 7) / 8) {}
    T *at() { return reinterpret_cast<T *>(words.data()); }
};

// ---- the tables: each has hands that hold, look up, run and release, and a writer's calls, which answer whether they were made

struct Library {
    static constexpr const char *name = "shared table";
    Room<vtex_table> table{vtex_table_size()};
    std::vector<Room<vtex_reader>> rooms;
    std::vector<uint8_t> tile = std::vector<uint8_t>(tile_bytes, 7);
    vtex_waiting who{};

    explicit Library(uint32_t readers) : rooms(readers, Room<vtex_reader>(vtex_reader_size())) {
        const vtex_shape shape = {side, side, tile_side};
        vtex_table_init(table.at());
        done(vtex_table_open(table.at(), &shape, 1, frames + spares, most_readers));
    }
    ~Library() {
        for (auto &room : rooms) vtex_table_dismiss(table.at(), room.at());
        vtex_table_close(table.at());
    }
    // Once the root is mapped.
    void admit() {
        for (auto &room : rooms) vtex_reader_init(room.at()), done(vtex_table_admit(table.at(), room.at()));
    }
    static bool is_made(uint32_t status) { return status == VTEX_WAITING ? false : (done(status), true); }
    bool map(uint32_t page, uint32_t frame) { return is_made(vtex_table_map(table.at(), page, frame, tile.data(), tile.size(), &who)); }
    bool unmap(uint32_t page) { return is_made(vtex_table_unmap(table.at(), page, &who)); }

    struct Hand {
        vtex_reader *reader;
        uint64_t version = 0;
        void hold() { done(vtex_reader_hold(reader, &version)); }
        void release() { done(vtex_reader_release(reader)); }
        uint32_t find(uint32_t page) {
            vtex_place place;
            done(vtex_reader_look_up(reader, page, &place));
            return place.frame;
        }
        void run(const vtex_span &span, uint8_t *out, uint32_t *pages) { done(vtex_reader_run(reader, &span, out, 3 * span.count, pages, span.count)); }
    };
    Hand hand(uint32_t k) { return {rooms[k].at()}; }
};

// Entries and texels of plain C++, without a guard.
struct Plain {
    static constexpr const char *name = "plain arrays";
    std::vector<uint32_t> entries, parents;
    std::vector<uint8_t> texels, tile = std::vector<uint8_t>(tile_bytes, 7);

    explicit Plain(uint32_t) : entries(chain.pages), parents(chain.pages, UINT32_MAX), texels((frames + spares) * tile_bytes) {
        for (size_t k = 0; k + 1 < chain.columns.size(); k++)
            for (uint32_t i = 0; i < chain.columns[k] * chain.columns[k]; i++)
                parents[chain.first[k] + i] = chain.first[k + 1] + i / chain.columns[k] / 2 * chain.columns[k + 1] + i % chain.columns[k] / 2;
    }
    void admit() {}
    bool map(uint32_t page, uint32_t frame) {
        std::memcpy(&texels[frame * tile_bytes], tile.data(), tile_bytes);
        entries[page] = frame + 1;
        return true;
    }
    bool unmap(uint32_t page) { return entries[page] = 0, true; }
    uint32_t find(uint32_t &page, uint32_t &level) const {
        while (!entries[page]) page = parents[page], level++;
        return entries[page] - 1;
    }
    void run(const vtex_span &span, uint8_t *out, uint32_t *pages) const {
        uint32_t wanted = UINT32_MAX, level = 0, x = span.x, y = span.y;
        const uint8_t *frame = nullptr;
        for (uint32_t i = 0; i < span.count; i++, x += static_cast<uint32_t>(span.step_x), y += static_cast<uint32_t>(span.step_y)) {
            uint32_t page = chain.page(span.level, x >> 16, y >> 16);
            pages[i] = page;
            if (page != wanted) {
                wanted = page;
                level = span.level;
                frame = &texels[find(page, level) * tile_bytes];
            }
            std::memcpy(out + 3 * i, frame + 3 * ((y >> 16 >> level) % tile_side * tile_side + (x >> 16 >> level) % tile_side), 3);
        }
    }

    struct Hand {
        const Plain &table;
        void hold() {}
        void release() {}
        uint32_t find(uint32_t page) {
            uint32_t level = 0;
            return table.find(page, level);
        }
        void run(const vtex_span &span, uint8_t *out, uint32_t *pages) { table.run(span, out, pages); }
    };
    Hand hand(uint32_t) { return {*this}; }
};

// The same under a lock, which readers share.
struct Locked : Plain {
    static constexpr const char *name = "std::shared_mutex";
    std::shared_mutex mutex;

    using Plain::Plain;
    bool map(uint32_t page, uint32_t frame) {
        std::unique_lock<std::shared_mutex> lock(mutex);
        return Plain::map(page, frame);
    }
    bool unmap(uint32_t page) {
        std::unique_lock<std::shared_mutex> lock(mutex);
        return Plain::unmap(page);
    }

    struct Hand : Plain::Hand {
        std::shared_mutex &mutex;
        void hold() { mutex.lock_shared(); }
        void release() { mutex.unlock_shared(); }
    };
    Hand hand(uint32_t) { return {{*this}, mutex}; }
};

// ---- the writer, which maps pages at random into the frame that was unmapped first, and unmaps another page for each

template <typename Table> struct Writer {
    Table &table;
    std::vector<uint32_t> owner = std::vector<uint32_t>(frames + spares, UINT32_MAX);
    std::vector<bool> is_mapped = std::vector<bool>(chain.pages);
    std::deque<uint32_t> spare;
    std::mt19937 random{7};
    uint64_t pages = 0, waits = 0;
    double longest = 0;

    // Fills the frames.
    explicit Writer(Table &t) : table(t) {
        table.map(chain.pages - 1, 0);
        owner[0] = chain.pages - 1;
        is_mapped[owner[0]] = true;
        for (uint32_t frame = 1; frame < frames; frame++) {
            owner[frame] = unmapped();
            table.map(owner[frame], frame);
            is_mapped[owner[frame]] = true;
        }
        for (uint32_t frame = frames; frame < frames + spares; frame++) spare.push_back(frame);
    }
    uint32_t unmapped() {
        uint32_t page;
        do page = random() % (chain.pages - 1);
        while (is_mapped[page]);
        return page;
    }
    uint32_t victim() {
        uint32_t frame;
        do frame = 1 + random() % (frames + spares - 1);
        while (owner[frame] == UINT32_MAX);
        return frame;
    }
    // Tries a step until it was made; false where the time is up.
    template <typename Step> bool until(const std::atomic<bool> &stop, Step step) {
        const Clock::time_point start = Clock::now();
        bool is_made = step();
        for (; !is_made && !stop; is_made = step()) {
            waits++;
            std::this_thread::yield();
        }
        longest = std::max(longest, since(start));
        return is_made;
    }
    void go_on(const std::atomic<bool> &stop) {
        while (!stop) {
            const uint32_t page = unmapped(), frame = spare.front(), old = victim();
            if (!until(stop, [&] { return table.map(page, frame); })) return;
            spare.pop_front();
            owner[frame] = page;
            is_mapped[page] = true;
            pages++;
            if (!until(stop, [&] { return table.unmap(owner[old]); })) return;
            is_mapped[owner[old]] = false;
            owner[old] = UINT32_MAX;
            spare.push_back(old);
        }
    }
};

// The same by batches of vtex_table_settle, of so many pages each.
struct Settler : Writer<Library> {
    static constexpr size_t batch = 8;
    using Writer<Library>::Writer;

    void go_on(const std::atomic<bool> &stop) {
        while (!stop) {
            std::vector<vtex_step> steps;
            for (size_t i = 0; i < batch; i++) {
                const uint32_t page = unmapped(), frame = spare.front(), old = victim();
                spare.pop_front();
                steps.push_back({page, frame, 1, 0});
                steps.push_back({owner[old], old, 0, 0});
                is_mapped[page] = true;
                is_mapped[owner[old]] = false;
                owner[frame] = page;
                owner[old] = UINT32_MAX;
                spare.push_back(old);
            }
            size_t next = 0;
            const bool all = until(stop, [&] {
                uint64_t made = 0;
                const uint32_t status = vtex_table_settle(table.table.at(), &steps[next], steps.size() - next, table.tile.data(), tile_bytes, &made, &table.who);
                for (; made > 0; made--) pages += steps[next++].mapped;
                return Library::is_made(status);
            });
            if (!all) return;
        }
    }
};

// A row of so many texels of one of the first levels.
vtex_span row(std::mt19937 &random, uint32_t count, uint32_t levels = 3) {
    uint32_t level = static_cast<uint32_t>(random() % levels);
    if (count << level > side) level = 0;
    const uint32_t x = static_cast<uint32_t>(random() % (side - (count << level) + 1)), y = static_cast<uint32_t>(random() % side);
    return {level, x << 16, y << 16, 1 << 16 << level, 0, count};
}

// ---- the calls alone, on one thread

template <typename Call> double nanoseconds(double seconds, Call call) {
    const Clock::time_point start = Clock::now();
    uint64_t count = 0;
    do
        for (int i = 0; i < 100; i++, count++) call();
    while (since(start) < seconds);
    return since(start) * 1e9 / static_cast<double>(count);
}

template <typename Table> std::vector<double> calls(double seconds) {
    Table table(1);
    Writer<Table> writer(table);
    table.admit();
    auto hand = table.hand(0);
    std::vector<double> costs;
    std::mt19937 random(5);
    costs.push_back(nanoseconds(seconds, [&] { hand.hold(), hand.release(); }));
    hand.hold();
    uint64_t sum = 0;
    for (bool is_mapped : {true, false}) {
        std::vector<uint32_t> pages;
        for (uint32_t page = 0; page < chain.first[1]; page++)
            if (writer.is_mapped[page] == is_mapped) pages.push_back(page);
        size_t i = 0;
        costs.push_back(nanoseconds(seconds, [&] { sum += hand.find(pages[i++ % pages.size()]); }));
    }
    std::vector<uint8_t> out(3 * 4096);
    std::vector<uint32_t> pages(4096);
    for (uint32_t count : {1u, 16u, 256u, 4096u}) {
        std::vector<vtex_span> spans(1000);
        for (vtex_span &span : spans) span = row(random, count, 1);
        size_t i = 0;
        costs.push_back(nanoseconds(seconds, [&] { hand.run(spans[i++ % spans.size()], out.data(), pages.data()); }) / count);
    }
    hand.release();
    costs.push_back(nanoseconds(seconds, [&] {
        const uint32_t page = writer.unmapped();
        table.map(page, writer.spare.front()), table.unmap(page);
        writer.spare.push_back(writer.spare.front()), writer.spare.pop_front();
    }));
    if (sum == 1) std::puts("");
    return costs;
}

void print_calls(double seconds) {
    const char *names[] = {"hold and release", "look up a mapped page", "look up a missing page", "a texel, 1 a run", "a texel, 16 a run", "a texel, 256 a run",
        "a texel, 4,096 a run", "map and unmap a page"};
    const std::vector<double> a = calls<Library>(seconds), b = calls<Locked>(seconds), c = calls<Plain>(seconds);
    std::printf("| nanoseconds, nothing else at work | %s | %s | %s |\n|---|---|---|---|\n", Library::name, Locked::name, Plain::name);
    for (size_t i = 0; i < a.size(); i++) std::printf("| %s | %.1f | %.1f | %.1f |\n", names[i], a[i], b[i], c[i]);
}

// ---- readers beside a writer

struct Figures { double texels = 0, longest = 0, pages = 0, wait = 0; };

// So many readers hold, read so many runs, and release, without a pause; `Write` is the writer, if there is one.
template <typename Table, typename Write> Figures beside(double seconds, uint32_t readers, uint32_t count, uint32_t runs) {
    Table table(readers);
    Write writer(table);
    table.admit();
    std::atomic<bool> stop{false};
    std::vector<Figures> each(readers);
    std::vector<std::thread> threads;
    for (uint32_t k = 0; k < readers; k++) {
        threads.emplace_back([&, k] {
            auto hand = table.hand(k);
            std::mt19937 random(k);
            std::vector<uint8_t> out(3 * count);
            std::vector<uint32_t> pages(count);
            Figures own;
            Clock::time_point start = Clock::now();
            while (!stop) {
                hand.hold();
                for (uint32_t i = 0; i < runs; i++) {
                    const vtex_span span = row(random, count);
                    hand.run(span, out.data(), pages.data());
                    own.texels += span.count;
                }
                hand.release();
                const Clock::time_point end = Clock::now();
                own.longest = std::max(own.longest, std::chrono::duration<double>(end - start).count());
                start = end;
            }
            each[k] = own;
        });
    }
    const Clock::time_point start = Clock::now();
    std::thread writing([&] { writer.go_on(stop); });
    std::this_thread::sleep_for(std::chrono::duration<double>(seconds));
    const double took = since(start);
    stop = true;
    for (std::thread &thread : threads) thread.join();
    writing.join();
    Figures all;
    for (const Figures &own : each) all.texels += own.texels / took / readers, all.longest = std::max(all.longest, own.longest);
    all.pages = static_cast<double>(writer.pages) / took;
    all.wait = writer.longest;
    return all;
}

struct NoWriter : Writer<Plain> {
    using Writer<Plain>::Writer;
    void go_on(const std::atomic<bool> &) {}
};

void print_figures(const char *name, uint32_t readers, uint32_t count, const Figures &f) {
    std::printf("| %u | %u | %s | %.1f | %.3f | %.0f | %.3f |\n", readers, count, name, f.texels / 1e6, f.longest * 1e3, f.pages, f.wait * 1e3);
    std::fflush(stdout);
}

const char *const heading = "| readers | texels a run | table | million texels a second and reader | longest hold, ms | pages a second | longest wait of the writer, ms |\n"
                            "|---|---|---|---|---|---|---|\n";

void print_rows(double seconds) {
    std::fputs(heading, stdout);
    for (uint32_t readers : {1u, 3u, 4u, 16u})
        for (uint32_t count : {16u, 256u, 4096u}) {
            print_figures(Library::name, readers, count, beside<Library, Writer<Library>>(seconds, readers, count, 1));
            print_figures("shared table, by settle", readers, count, beside<Library, Settler>(seconds, readers, count, 1));
            print_figures(Locked::name, readers, count, beside<Locked, Writer<Locked>>(seconds, readers, count, 1));
            print_figures("plain arrays, no writer", readers, count, beside<Plain, NoWriter>(seconds, readers, count, 1));
        }
}

// A hold for a picture of 200 rows of 320 texels.
void print_pictures(double seconds) {
    std::fputs(heading, stdout);
    for (uint32_t readers : {1u, 3u, 4u, 16u}) {
        print_figures(Library::name, readers, 320, beside<Library, Writer<Library>>(seconds, readers, 320, 200));
        print_figures("shared table, by settle", readers, 320, beside<Library, Settler>(seconds, readers, 320, 200));
        print_figures(Locked::name, readers, 320, beside<Locked, Writer<Locked>>(seconds, readers, 320, 200));
    }
}

} // namespace

int main(int count, char **words) {
    const std::string what = count > 1 ? words[1] : "";
    const double seconds = count > 2 ? std::atof(words[2]) : 1;
    if (what == "calls") print_calls(seconds);
    else if (what == "rows") print_rows(seconds);
    else if (what == "pictures") print_pictures(seconds);
    else return 2;
    return 0;
}
