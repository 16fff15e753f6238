// Readers and one writer of a shared table in threads. Each texel that a reader gets is compared with the tile of the page that it finds
// under the same hold, and each blend with that of four texels of such pages, computed here. Some readers stall within a hold, and readers
// are dismissed and admitted while the others read.
//
// usage: shared [READERS [MILLISECONDS [WIDTH HEIGHT TILE FRAMES DEPTH]]]
#include "check.h"
#include <atomic>
#include <chrono>
#include <random>
#include <thread>
#include <vector>

using Clock = std::chrono::steady_clock;

// The chain of pages, made anew here.
struct Chain {
    vtex_shape shape;
    uint32_t depth, levels = 0, pages = 0;
    std::vector<uint32_t> columns, first, wide, high;

    Chain(vtex_shape s, uint32_t d) : shape(s), depth(d) {
        for (uint32_t w = s.width, h = s.height;; w = (w + 1) / 2, h = (h + 1) / 2, levels++) {
            columns.push_back((w + s.tile - 1) / s.tile), first.push_back(pages), wide.push_back(w), high.push_back(h);
            pages += columns.back() * ((h + s.tile - 1) / s.tile);
            if (w <= s.tile && h <= s.tile) break;
        }
        levels++;
    }
    uint32_t page(uint32_t level, uint32_t x, uint32_t y) const {
        return first[level] + (y >> level) / shape.tile * columns[level] + (x >> level) / shape.tile;
    }
    uint32_t place(uint32_t level, uint32_t x, uint32_t y) const {
        return (y >> level) % shape.tile * shape.tile + (x >> level) % shape.tile;
    }
    size_t texel() const { return 3 * depth; }
};

static uint8_t byte_of(uint32_t page, uint32_t place, uint32_t i) {
    uint64_t h = page * 0x9E3779B97F4A7C15ull + place * 0xBF58476D1CE4E5B9ull + i * 0x94D049BB133111EBull;
    h = (h ^ h >> 29) * 0xD6E8FEB86659FD93ull;
    return uint8_t(h >> 40);
}

// Sample i of a texel of a page.
static uint32_t sample_of(const Chain &chain, uint32_t page, uint32_t place, uint32_t i) {
    if (chain.depth == 1) return byte_of(page, place, i);
    return 256u * byte_of(page, place, 2 * i) + byte_of(page, place, 2 * i + 1);
}

// The memory of a table or a reader.
struct Room {
    std::vector<uint64_t> words;
    explicit Room(size_t size) : words((size + 7) / 8) {}
    vtex_table *table() { return reinterpret_cast<vtex_table *>(words.data()); }
    vtex_reader *reader() { return reinterpret_cast<vtex_reader *>(words.data()); }
};

struct Count { uint64_t holds = 0, texels = 0, wrong = 0, back = 0, refused = 0; };

// What one reader does until it is told to stop.
struct Reading {
    const Chain &chain;
    vtex_reader *reader;
    std::mt19937 random;
    Count count;
    std::vector<uint8_t> bytes = std::vector<uint8_t>(256 * chain.texel());
    std::vector<uint32_t> pages = std::vector<uint32_t>(256);
    uint64_t last = 0;

    bool good(uint32_t status) { return count.refused += status != VTEX_DONE, status == VTEX_DONE; }

    // Compares a texel with that of the page that a look-up finds.
    void compare(const uint8_t *texel, uint32_t page, uint32_t level, uint32_t x, uint32_t y, vtex_place &found, uint32_t &known) {
        if (page != chain.page(level, x, y)) count.wrong++;
        if (page != known && good(vtex_reader_look_up(reader, page, &found))) known = page;
        if (found.page != chain.page(found.level, x, y)) count.wrong++;
        for (uint32_t i = 0; i < chain.texel(); i++) {
            if (texel[i] != byte_of(found.page, chain.place(found.level, x, y), i)) {
                count.wrong++;
                return;
            }
        }
    }

    // A row from one side to the other, by a run or by points.
    void row() {
        uint32_t level = random() % chain.levels, y = random() % chain.shape.height, known = UINT32_MAX;
        bool back = random() % 2, as_run = random() % 2;
        uint32_t most = chain.shape.width - 1, from = back ? most : 0;
        int32_t step = int32_t((uint64_t(most) << 16) / 255) * (back ? -1 : 1);
        vtex_span span = {level, from << 16, y << 16, step, 0, 256};
        std::vector<vtex_point> points(256);
        for (uint32_t i = 0; i < 256; i++) points[i] = {level, (span.x + uint32_t(step) * i) >> 16, y};
        if (as_run) {
            if (!good(vtex_reader_run(reader, &span, bytes.data(), bytes.size(), pages.data(), 256))) return;
        } else {
            if (!good(vtex_reader_texels(reader, points.data(), 256, bytes.data(), bytes.size()))) return;
            for (uint32_t i = 0; i < 256; i++) pages[i] = chain.page(level, points[i].x, y);
        }
        vtex_place found = {};
        for (uint32_t i = 0; i < 256; i++) compare(&bytes[i * chain.texel()], pages[i], level, points[i].x, y, found, known);
        count.texels += 256;
    }

    // The sample of a texel of a level that the page serves which a look-up finds.
    uint32_t served(uint32_t level, uint32_t column, uint32_t line, uint32_t i) {
        vtex_place found = {};
        if (!good(vtex_reader_look_up(reader, chain.page(level, column << level, line << level), &found))) return 0;
        return sample_of(chain, found.page, chain.place(found.level, column << level, line << level), i);
    }

    // Compares a blended texel, and its page, with the blend of the four about a place of level 0 in parts of 65536.
    void compare_blend(const uint8_t *texel, uint32_t page, uint32_t level, uint32_t x, uint32_t y) {
        const uint32_t a = x >> 8 >> level, b = y >> 8 >> level, wide = chain.wide[level], high = chain.high[level];
        const uint32_t column = a / 256, line = b / 256, next = (column + 1) % wide, below = (line + 1) % high, right = a % 256, down = b % 256;
        count.wrong += page != chain.page(level, x >> 16, y >> 16);
        for (uint32_t i = 0; i < 3; i++) {
            const uint32_t top = (256 - right) * served(level, column, line, i) + right * served(level, next, line, i);
            const uint32_t bottom = (256 - right) * served(level, column, below, i) + right * served(level, next, below, i);
            const uint64_t want = (uint64_t(256 - down) * top + uint64_t(down) * bottom + 32768) / 65536;
            const uint64_t is = chain.depth == 1 ? texel[i] : 256u * texel[2 * i] + texel[2 * i + 1];
            count.wrong += is != want;
        }
    }

    // A run at a slant by bilinear filtering, from one place to another.
    void blend() {
        const uint32_t level = random() % chain.levels, most = 64, wide = chain.shape.width << 16, high = chain.shape.height << 16;
        const uint32_t x = random() % wide, y = random() % high, to_x = random() % wide, to_y = random() % high;
        const vtex_span span = {level, x, y, int32_t((int64_t(to_x) - x) / most), int32_t((int64_t(to_y) - y) / most), most};
        if (!good(vtex_reader_blended_run(reader, &span, bytes.data(), most * chain.texel(), pages.data(), most))) return;
        for (uint32_t i = 0; i < most; i++)
            compare_blend(&bytes[i * chain.texel()], pages[i], level, x + uint32_t(span.step_x) * i, y + uint32_t(span.step_y) * i);
        count.texels += most;
    }

    void go_on(const std::atomic<bool> &stop, bool stalls) {
        while (!stop) {
            uint64_t version = 0;
            if (!good(vtex_reader_hold(reader, &version))) return;
            count.holds++, count.back += version < last, last = version;
            for (uint32_t rows = random() % 3; rows < 3; rows++) row();
            if (random() % 4 == 0) blend();
            if (stalls) std::this_thread::sleep_for(std::chrono::milliseconds(1 + random() % 4));
            if (stalls) row();
            if (!good(vtex_reader_release(reader))) return;
        }
    }
};

// The writer: it maps pages to frames at random, as fast as the readers let it.
struct Writing {
    const Chain &chain;
    vtex_table *table;
    std::vector<uint32_t> owner, frame_of;
    std::mt19937 random = std::mt19937(7);
    uint64_t maps = 0, waits = 0;

    Writing(const Chain &c, vtex_table *t, uint32_t frames) : chain(c), table(t), owner(frames, UINT32_MAX), frame_of(c.pages, UINT32_MAX) {}

    // Makes a step until no reader is waited for, or time is up.
    template <class Step> bool done(Clock::time_point end, Step step) {
        vtex_waiting who = {};
        uint32_t status;
        while ((status = step(&who)) == VTEX_WAITING) {
            CHECK(who.reader < 64);
            waits++;
            if (Clock::now() > end) return false;
            std::this_thread::yield();
        }
        CHECK(status == VTEX_DONE);
        return status == VTEX_DONE;
    }

    size_t tile_bytes() const { return chain.texel() * chain.shape.tile * chain.shape.tile; }

    // Adds the tile of a page.
    void add_tile(std::vector<uint8_t> &tiles, uint32_t page) const {
        for (size_t i = 0; i < tile_bytes(); i++) tiles.push_back(byte_of(page, uint32_t(i / chain.texel()), uint32_t(i % chain.texel())));
    }

    bool map(Clock::time_point end, uint32_t page, uint32_t frame) {
        std::vector<uint8_t> tile;
        add_tile(tile, page);
        bool is = done(end, [&](vtex_waiting *who) { return vtex_table_map(table, page, frame, tile.data(), tile.size(), who); });
        if (is) frame_of[page] = frame, owner[frame] = page, maps++;
        return is;
    }

    bool unmap(Clock::time_point end, uint32_t frame) {
        uint32_t page = owner[frame];
        bool is = done(end, [&](vtex_waiting *who) { return vtex_table_unmap(table, page, who); });
        if (is) frame_of[page] = owner[frame] = UINT32_MAX;
        return is;
    }

    void note(const vtex_step &step) {
        if (step.mapped) frame_of[step.page] = step.frame, owner[step.frame] = step.page, maps++;
        else frame_of[step.page] = owner[step.frame] = UINT32_MAX;
    }

    // Some changes in one batch, whose rest is made again until time is up.
    bool settle(Clock::time_point end) {
        std::vector<vtex_step> steps;
        std::vector<uint8_t> tiles;
        std::vector<bool> taken(owner.size());
        for (uint32_t i = 0; i < 4; i++) {
            uint32_t page = random() % (chain.pages - 1), frame = 1 + random() % (owner.size() - 1);
            bool again = false;
            for (const vtex_step &step : steps) again = again || step.page == page;
            if (frame_of[page] != UINT32_MAX || taken[frame] || again) continue;
            taken[frame] = true;
            if (owner[frame] != UINT32_MAX) steps.push_back({owner[frame], frame, 0, 0});
            steps.push_back({page, frame, 1, uint32_t(tiles.size() / tile_bytes())});
            add_tile(tiles, page);
        }
        for (size_t next = 0; next < steps.size();) {
            uint64_t made = 0;
            vtex_waiting who = {};
            uint32_t status = vtex_table_settle(table, &steps[next], steps.size() - next, tiles.data(), tiles.size(), &made, &who);
            CHECK(made <= steps.size() - next && (status == VTEX_DONE) == (made == steps.size() - next));
            for (; made > 0; made--) note(steps[next++]);
            if (status == VTEX_DONE) break;
            CHECK(status == VTEX_WAITING && who.reader < 64);
            waits++;
            if (status != VTEX_WAITING || Clock::now() > end) return false;
            std::this_thread::yield();
        }
        return true;
    }

    void go_on(Clock::time_point end) {
        while (Clock::now() < end) {
            if (random() % 2) {
                if (!settle(end)) return;
                continue;
            }
            uint32_t page = random() % (chain.pages - 1), frame = 1 + random() % (owner.size() - 1);
            if (frame_of[page] != UINT32_MAX) continue;
            if (owner[frame] != UINT32_MAX && !unmap(end, frame)) return;
            if (!map(end, page, frame)) return;
        }
    }
};

// Readers and the writer for a while. Half of the readers stall within their holds.
static void beside(const Chain &chain, Writing &writing, std::vector<Room> &rooms, uint32_t round, int milliseconds, Count &all) {
    std::atomic<bool> stop{false};
    std::vector<Reading> readings;
    for (uint32_t k = 0; k < rooms.size(); k++) readings.push_back({chain, rooms[k].reader(), std::mt19937(100 * round + k), {}});
    std::vector<std::thread> threads;
    for (uint32_t k = 0; k < rooms.size(); k++) threads.emplace_back([&, k] { readings[k].go_on(stop, round % 2 && k % 2); });
    writing.go_on(Clock::now() + std::chrono::milliseconds(milliseconds));
    stop = true;
    for (std::thread &thread : threads) thread.join();
    for (Reading &r : readings) {
        all.holds += r.count.holds, all.texels += r.count.texels, all.wrong += r.count.wrong, all.back += r.count.back, all.refused += r.count.refused;
    }
}

// A reader is dismissed while it holds and another admitted, beside the rest, which read on.
static void come_and_go(const Chain &chain, Writing &writing, std::vector<Room> &rooms, Count &all) {
    std::atomic<bool> stop{false};
    Reading rest = {chain, rooms[1].reader(), std::mt19937(5), {}};
    std::thread thread([&] { rest.go_on(stop, false); });
    for (int i = 0; i < 200; i++) {
        uint64_t version = 0;
        CHECK(vtex_reader_hold(rooms[0].reader(), &version) == VTEX_DONE);
        CHECK(vtex_table_dismiss(writing.table, rooms[0].reader()) == VTEX_DONE);
        writing.go_on(Clock::now() + std::chrono::microseconds(200));
        CHECK(vtex_table_admit(writing.table, rooms[0].reader()) == VTEX_DONE);
    }
    stop = true;
    thread.join();
    all.holds += rest.count.holds, all.texels += rest.count.texels, all.wrong += rest.count.wrong, all.back += rest.count.back, all.refused += rest.count.refused;
}

int main(int count, char **words) {
    auto number = [&](int i, uint32_t other) { return count > i ? uint32_t(std::atoi(words[i])) : other; };
    uint32_t readers = number(1, 3), milliseconds = number(2, 400), frames = number(6, 60);
    const Chain chain({number(3, 1000), number(4, 700), number(5, 16)}, number(7, 1));
    Room table(vtex_table_size());
    std::vector<Room> rooms(readers, Room(vtex_reader_size()));
    vtex_table_init(table.table());
    CHECK(vtex_table_open(table.table(), &chain.shape, chain.depth, frames, readers) == VTEX_DONE);
    Writing writing(chain, table.table(), frames);
    CHECK(writing.map(Clock::now(), chain.pages - 1, 0));
    for (Room &room : rooms) {
        vtex_reader_init(room.reader());
        CHECK(vtex_table_admit(table.table(), room.reader()) == VTEX_DONE);
    }
    Count all;
    beside(chain, writing, rooms, 0, int(milliseconds), all);
    beside(chain, writing, rooms, 1, int(milliseconds), all);
    if (readers > 1) come_and_go(chain, writing, rooms, all);
    // the table is closed while a reader holds
    uint64_t version = 0;
    CHECK(vtex_reader_hold(rooms[0].reader(), &version) == VTEX_DONE);
    CHECK(vtex_table_close(table.table()) == VTEX_DONE);
    std::thread last([&] { Reading{chain, rooms[0].reader(), std::mt19937(9), {}}.row(); });
    last.join();
    for (Room &room : rooms) CHECK(vtex_reader_close(room.reader()) == VTEX_DONE);
    std::printf("%u readers: %llu maps, %llu waits, %llu holds, %llu texels\n", readers, (unsigned long long)writing.maps,
        (unsigned long long)writing.waits, (unsigned long long)all.holds, (unsigned long long)all.texels);
    CHECK(all.wrong == 0 && all.back == 0 && all.refused == 0 && writing.maps > 0);
    return ended("shared");
}
