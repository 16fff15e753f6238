// An engine that draws a path's pictures from a tile store by the cache for engines (include/vtex.h).
//
// It has what an engine with a GPU has: feedback of what the pixels want, threads of its own that read tiles, a physical texture of frames,
// and an indirection table with the frame of each page. It writes the pictures, and a journal as `vtex walk` does with one sampler and one
// loader whose rows are drawn at the start of their pass (docs/FORMATS.md).
//
//     engine STORE PATH PREFIX [OPTIONS]
//         --frames F --batch Q --pinned N --journal NAME    as for vtex walk
//         --readers N         threads that read tiles: 2
//         --feedback FORM     counts, wanted or pages: pages
//         --lose N            the read of that number fails, counted from 0
//         --slow N            each tile of an odd page comes N passes late: 0
#include "vtex.h"

#include <condition_variable>
#include <cstdio>
#include <cstdlib>
#include <cstring>
#include <deque>
#include <fcntl.h>
#include <fstream>
#include <memory>
#include <mutex>
#include <sstream>
#include <string>
#include <sys/stat.h>
#include <thread>
#include <unistd.h>
#include <utility>
#include <vector>

namespace {

[[noreturn]] void fail(const std::string &what) {
    std::fprintf(stderr, "engine: %s\n", what.c_str());
    std::exit(1);
}

void done(uint32_t status, const char *what) {
    if (status != VTEX_DONE) fail(std::string(what) + ": status " + std::to_string(status));
}

// The elements of a list for the library, which takes no null pointer, also where there are none.
template <typename T> T *front_of(std::vector<T> &list) {
    static T none;
    return list.empty() ? &none : list.data();
}

int64_t floor_div(int64_t a, int64_t b) { return a / b - (a % b < 0); }

// ---- the options and the path

struct Options {
    std::string store, path, prefix, journal = "journal.txt", feedback = "pages";
    uint32_t frames = 64, batch = 64, pinned = 1, readers = 2, slow = 0;
    int64_t lose = -1;
};

Options options_of(int count, char **words) {
    Options o;
    std::vector<std::string> names;
    for (int i = 1; i < count; i++) {
        std::string word = words[i];
        if (word.rfind("--", 0) != 0) { names.push_back(word); continue; }
        if (++i == count) fail(word + " wants a value");
        std::string value = words[i];
        if (word == "--journal") o.journal = value;
        else if (word == "--feedback" && (value == "counts" || value == "wanted" || value == "pages")) o.feedback = value;
        else if (word == "--lose") o.lose = std::stoll(value);
        else {
            uint32_t n = static_cast<uint32_t>(std::stoul(value));
            if (word == "--frames") o.frames = n;
            else if (word == "--batch") o.batch = n;
            else if (word == "--pinned") o.pinned = n;
            else if (word == "--readers" && n > 0) o.readers = n;
            else if (word == "--slow") o.slow = n;
            else fail("no option " + word + " " + value);
        }
    }
    if (names.size() != 3) fail("usage: engine STORE PATH PREFIX [OPTIONS]");
    o.store = names[0];
    o.path = names[1];
    o.prefix = names[2];
    return o;
}

struct Camera { int64_t u, v, h, c, s; };

struct Path {
    int64_t width = 0, height = 0, focal = 0;
    std::vector<Camera> cameras;
};

Path path_of(const std::string &name) {
    std::ifstream file(name);
    Path path;
    std::string line, word;
    while (std::getline(file, line)) {
        std::istringstream fields(line);
        fields >> word;
        if (word == "size") fields >> path.width >> path.height;
        else if (word == "focal") fields >> path.focal;
        else {
            int64_t steps = 1;
            Camera b;
            if (word == "to") fields >> steps;
            fields >> b.u >> b.v >> b.h >> b.c >> b.s;
            Camera a = path.cameras.empty() ? b : path.cameras.back();
            auto way = [&](int64_t from, int64_t to, int64_t i) { return from + floor_div((to - from) * i, steps); };
            for (int64_t i = 1; i <= steps; i++)
                path.cameras.push_back({way(a.u, b.u, i), way(a.v, b.v, i), way(a.h, b.h, i), way(a.c, b.c, i), way(a.s, b.s, i)});
        }
        if (!fields) fail(name + ": bad line " + line);
    }
    if (path.width == 0 || path.focal == 0) fail(name + ": no path");
    return path;
}

// ---- the store, and the threads that read it

// A tile that a thread reads: where it stands, and what came.
struct Read {
    vtex_range range{};
    std::vector<uint8_t> bytes;
    uint32_t due = 0; // the pass at whose end it comes
    bool is_lost = false, is_over = false;
};

class Readers {
  public:
    Readers(int file, uint32_t count) : file(file) {
        for (uint32_t i = 0; i < count; i++) threads.emplace_back([this] { work(); });
    }

    ~Readers() {
        { std::lock_guard<std::mutex> hold(lock); is_over = true; }
        asked.notify_all();
        for (auto &thread : threads) thread.join();
    }

    void ask(const std::shared_ptr<Read> &read) {
        { std::lock_guard<std::mutex> hold(lock); queue.push_back(read); }
        asked.notify_one();
    }

    void wait_for(const Read &read) {
        std::unique_lock<std::mutex> hold(lock);
        answered.wait(hold, [&] { return read.is_over; });
    }

  private:
    void work() {
        std::unique_lock<std::mutex> hold(lock);
        for (;;) {
            asked.wait(hold, [this] { return is_over || !queue.empty(); });
            if (queue.empty()) return;
            std::shared_ptr<Read> read = queue.front();
            queue.pop_front();
            hold.unlock();
            std::vector<uint8_t> bytes(read->range.length);
            bool is_read = pread(file, bytes.data(), bytes.size(), static_cast<off_t>(read->range.start)) == static_cast<ssize_t>(bytes.size());
            hold.lock();
            read->bytes = std::move(bytes);
            read->is_lost = read->is_lost || !is_read;
            read->is_over = true;
            answered.notify_all();
        }
    }

    int file;
    std::mutex lock;
    std::condition_variable asked, answered;
    std::deque<std::shared_ptr<Read>> queue;
    bool is_over = false;
    std::vector<std::thread> threads;
};

// ---- the engine

class Engine {
  public:
    explicit Engine(const Options &o) : options(o), path(path_of(o.path)) {
        open_store();
        done(vtex_page_count(&store.shape, &pages), "pages");
        uint32_t count = 0;
        done(vtex_level_count(&store.shape, &count), "levels");
        levels.resize(count);
        for (uint32_t k = 0; k < count; k++) done(vtex_level(&store.shape, k, &levels[k]), "level");
        done(vtex_pinned_count(&store.shape, o.pinned, &pinned), "pinned pages");
        // the place of the cache is the engine's own memory
        place.resize((vtex_cache_size() + sizeof(void *) - 1) / sizeof(void *));
        cache = reinterpret_cast<vtex_cache *>(place.data());
        vtex_cache_init(cache);
        done(vtex_cache_open(cache, &store.shape, o.frames, pinned), "opening");
        texture.resize(o.frames * tile_bytes);
        table.resize(pages);
        readers = std::make_unique<Readers>(file, o.readers);
    }

    ~Engine() {
        readers.reset();
        vtex_cache_close(cache);
        close(file);
    }

    void run() {
        std::ofstream journal(options.journal, std::ios::binary);
        journal << head();
        for (uint32_t i = 0; i < path.cameras.size(); i++) {
            uint64_t start = version;
            draw(i);
            journal << "pass " << i + 1 << " picture " << i << " start " << start << '\n' << settle(i + 1);
            for (int64_t y = 0; y < path.height; y++) journal << "row " << y << " 0 " << start << '\n';
            plan(i + 1);
            std::printf("picture %u passes 1 wanted %zu loaded %u lost %u evicted %u\n", i, wanted.size(), loaded, lost, evicted);
        }
        if (!journal.flush()) fail("the journal was not written");
        std::printf("end pictures %zu reads %llu\n", path.cameras.size(), static_cast<unsigned long long>(pinned + taken));
    }

  private:
    void open_store() {
        file = open(options.store.c_str(), O_RDONLY);
        struct stat about;
        uint8_t front[16];
        if (file < 0 || fstat(file, &about) != 0) fail("no store " + options.store);
        ssize_t have = pread(file, front, sizeof front, 0);
        if (have < 0) fail("no store " + options.store);
        done(vtex_store_open(front, static_cast<size_t>(have), static_cast<uint64_t>(about.st_size), &store), "the store");
        tile_bytes = size_t{3} * store.depth * store.shape.tile * store.shape.tile;
    }

    std::string name_of(uint32_t page) const {
        vtex_name name;
        done(vtex_page_name(&store.shape, page, &name), "a name");
        return std::to_string(name.level) + ' ' + std::to_string(name.column) + ' ' + std::to_string(name.row);
    }

    std::shared_ptr<Read> read_of(uint32_t page, bool is_lost = false) {
        auto read = std::make_shared<Read>();
        read->is_lost = is_lost;
        done(vtex_store_tile(&store, page, &read->range), "a tile");
        readers->ask(read);
        return read;
    }

    // Takes a change over: what a GPU has of it is the frame's tile, and the page's entry.
    std::string upload(const vtex_change &change, const Read *tile) {
        if (change.mapped) {
            if (table[change.page] != 0) fail("a page was mapped twice");
            std::memcpy(&texture[change.frame * tile_bytes], tile->bytes.data(), tile_bytes);
            table[change.page] = change.frame + 1;
        } else {
            if (table[change.page] != change.frame + 1) fail("a page was taken out of a frame that it has not");
            table[change.page] = 0;
        }
        return (change.mapped ? "map " : "unmap ") + std::to_string(++version) + ' ' + name_of(change.page) + ' ' + std::to_string(change.frame) + '\n';
    }

    std::vector<vtex_change> changes_of() {
        vtex_info info;
        done(vtex_cache_info(cache, &info), "the numbers");
        std::vector<vtex_change> changes(info.changes);
        vtex_cache_changes(cache, front_of(changes), changes.size());
        return changes;
    }

    // Reads and uploads the pinned pages, which are the changes of the opening.
    std::string head() {
        std::string text;
        for (const vtex_change &change : changes_of()) {
            std::shared_ptr<Read> read = read_of(change.page);
            readers->wait_for(*read);
            if (read->is_lost) fail("a pinned page cannot be read");
            text += upload(change, read.get());
        }
        return text;
    }

    // Draws a picture as the indirection table is, and notes which page each pixel wants.
    void draw(uint32_t picture) {
        const Camera &at = path.cameras[picture];
        const int64_t tile = store.shape.tile;
        std::string name = std::to_string(picture);
        std::ofstream out(options.prefix + std::string(4 - std::min<size_t>(4, name.size()), '0') + name + ".ppm", std::ios::binary);
        out << "P6\n" << path.width << ' ' << path.height << '\n' << (store.depth == 1 ? 255 : 65535) << '\n';
        seen.clear();
        std::vector<char> row;
        for (int64_t y = 0; y < path.height; y++) {
            const int64_t z = floor_div(at.h * path.focal, y + 1), p = floor_div(at.h, y + 1);
            uint32_t k = 0;
            while (k + 1 < levels.size() && (int64_t{256} << (k + 1)) <= p) k++;
            row.clear();
            for (int64_t x = 0; x < path.width; x++) {
                const int64_t a = (2 * x + 1 - path.width) * p;
                const int64_t u = at.u + floor_div(z * at.c, 16384) - floor_div(a * at.s, 32768);
                const int64_t v = at.v + floor_div(z * at.s, 16384) + floor_div(a * at.c, 32768);
                const int64_t w = store.shape.width, h = store.shape.height, tx = floor_div(u, 256), ty = floor_div(v, 256);
                const int64_t column = tx - floor_div(tx, w) * w, line = ty - floor_div(ty, h) * h;
                seen.push_back(page_of(k, column, line));
                uint32_t j = k;
                while (table[page_of(j, column, line)] == 0) j++; // the root is pinned
                const size_t frame = table[page_of(j, column, line)] - 1;
                const size_t texel = static_cast<size_t>((line >> j) % tile * tile + (column >> j) % tile);
                const char *from = reinterpret_cast<const char *>(&texture[frame * tile_bytes + 3 * store.depth * texel]);
                row.insert(row.end(), from, from + 3 * store.depth);
            }
            out.write(row.data(), static_cast<std::streamsize>(row.size()));
        }
        if (!out.flush()) fail("a picture was not written");
    }

    uint32_t page_of(uint32_t k, int64_t column, int64_t line) const {
        const vtex_level_info &at = levels[k];
        return at.first + static_cast<uint32_t>((line >> k) / store.shape.tile) * at.columns + static_cast<uint32_t>((column >> k) / store.shape.tile);
    }

    // Settles the loads that have come by the end of a pass, uploads the changes, and tells them.
    std::string settle(uint32_t pass) {
        std::vector<uint8_t> states;
        for (size_t i = 0; i < loads.size(); i++) {
            const Read &read = *reads[i];
            if (read.due > pass) { states.push_back(VTEX_UNDER_WAY); continue; }
            readers->wait_for(read);
            states.push_back(read.is_lost ? VTEX_LOST : VTEX_CAME);
        }
        done(vtex_cache_settle(cache, front_of(states), states.size()), "settling");
        std::vector<vtex_change> changes = changes_of();
        std::string text;
        size_t next = 0, left = 0;
        loaded = lost = evicted = 0;
        for (size_t i = 0; i < loads.size(); i++) {
            if (states[i] == VTEX_LOST) { text += "lost " + name_of(loads[i].page) + '\n'; lost++; }
            if (states[i] == VTEX_CAME && loads[i].victim != VTEX_NO_PAGE) { text += upload(changes.at(next++), nullptr); evicted++; }
            if (states[i] == VTEX_CAME) { text += upload(changes.at(next++), reads[i].get()); loaded++; }
            if (states[i] == VTEX_UNDER_WAY) { loads[left] = loads[i]; reads[left++] = reads[i]; }
        }
        loads.resize(left);
        reads.resize(left);
        taken += loaded + lost;
        if (next != changes.size()) fail("there are changes that no load made");
        check_table();
        return text;
    }

    // The engine's own table, made of the changes alone, is the cache's.
    void check_table() {
        for (uint32_t k = 0; k < levels.size(); k++) {
            std::vector<uint32_t> entries(size_t{levels[k].columns} * levels[k].rows);
            done(vtex_cache_table(cache, k, front_of(entries), entries.size()), "a level's table");
            if (std::memcmp(entries.data(), &table[levels[k].first], 4 * entries.size()) != 0) fail("the tables differ");
        }
    }

    // Hands the feedback over, and has the added loads read.
    void plan(uint32_t pass) {
        std::vector<uint32_t> pixels(pages);
        wanted.clear();
        for (uint32_t page : seen) if (pixels[page]++ == 0) wanted.push_back({page, 0});
        for (vtex_wanted &want : wanted) want.pixels = pixels[want.page];
        uint32_t status = options.feedback == "counts" ? vtex_cache_pass_counts(cache, front_of(pixels), pixels.size(), options.batch)
            : options.feedback == "wanted" ? vtex_cache_pass_wanted(cache, front_of(wanted), wanted.size(), options.batch)
            : vtex_cache_pass_pages(cache, front_of(seen), seen.size(), options.batch);
        done(status, "a pass");
        vtex_info info;
        done(vtex_cache_info(cache, &info), "the numbers");
        loads.resize(info.loads);
        vtex_cache_loads(cache, front_of(loads), loads.size());
        for (size_t i = reads.size(); i < loads.size(); i++) {
            reads.push_back(read_of(loads[i].page, static_cast<int64_t>(asked++) == options.lose));
            reads[i]->due = pass + 1 + (loads[i].page % 2 == 1 ? options.slow : 0);
        }
    }

    Options options;
    Path path;
    int file = -1;
    vtex_store store{};
    size_t tile_bytes = 0;
    uint32_t pages = 0, pinned = 0, loaded = 0, lost = 0, evicted = 0;
    uint64_t version = 0, asked = 0, taken = 0;
    std::vector<vtex_level_info> levels;
    std::vector<void *> place;
    vtex_cache *cache = nullptr;
    std::vector<uint8_t> texture;                 // F frames, each a tile: the physical texture
    std::vector<uint32_t> table;                  // for each page its frame and 1, or 0: the indirection table
    std::vector<uint32_t> seen;                   // the page that each pixel of the picture wants: the feedback buffer
    std::vector<vtex_wanted> wanted;
    std::vector<vtex_load> loads;                 // the loads under way, in the cache's order,
    std::vector<std::shared_ptr<Read>> reads;     // and their reads
    std::unique_ptr<Readers> readers;
};

} // namespace

int main(int count, char **words) {
    Engine engine(options_of(count, words));
    engine.run();
    return 0;
}
