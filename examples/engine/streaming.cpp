// An engine that streams while it draws: drawing threads, threads that read tiles, and one writer, over the cache and the shared table of
// include/vtex.h. Each drawing thread has a reader of the table and takes the next row of the picture: it holds the newest version, reads the
// row's texels, and releases. Meanwhile the writer settles the tiles that have come and makes the cache's changes in the table, which has more
// frames than the cache: a page is mapped to the frame that has been free for longest, so that no reader is left that needs it. It writes the
// pictures and a journal of its versions, of which `vtex replay` makes the same pictures (docs/FORMATS.md).
//
//     streaming STORE PATH PREFIX [--frames F] [--spare S] [--batch Q] [--pinned N] [--journal NAME] [--drawing N] [--loading N]
#include "vtex.h"

#include <atomic>
#include <condition_variable>
#include <cstdio>
#include <cstdlib>
#include <deque>
#include <fcntl.h>
#include <fstream>
#include <map>
#include <memory>
#include <mutex>
#include <sstream>
#include <string>
#include <sys/stat.h>
#include <thread>
#include <unistd.h>
#include <vector>

namespace {

[[noreturn]] void fail(const std::string &what) {
    std::fprintf(stderr, "streaming: %s\n", what.c_str());
    std::_Exit(1);
}

void done(uint32_t status, const char *what) {
    if (status != VTEX_DONE) fail(std::string(what) + ": status " + std::to_string(status));
}

// The elements of a list for the library, which takes no null pointer, also where there are none.
template <typename T> T *front_of(std::vector<T> &list) {
    static T none;
    return list.empty() ? &none : list.data();
}

int64_t floor_div(int64_t a, int64_t b) { return a / b - (a % b < 0); }

struct Camera { int64_t u, v, h, c, s; };

struct Path {
    int64_t width = 0, height = 0, focal = 0;
    std::vector<Camera> cameras;
};

Path path_of(const std::string &name) {
    std::ifstream file(name);
    Path path;
    std::string line, word;
    while (std::getline(file, line)) {
        std::istringstream fields(line);
        fields >> word;
        if (word == "size") fields >> path.width >> path.height;
        else if (word == "focal") fields >> path.focal;
        else {
            int64_t steps = 1;
            Camera b;
            if (word == "to") fields >> steps;
            fields >> b.u >> b.v >> b.h >> b.c >> b.s;
            Camera a = path.cameras.empty() ? b : path.cameras.back();
            auto way = [&](int64_t from, int64_t to, int64_t i) { return from + floor_div((to - from) * i, steps); };
            for (int64_t i = 1; i <= steps; i++)
                path.cameras.push_back({way(a.u, b.u, i), way(a.v, b.v, i), way(a.h, b.h, i), way(a.c, b.c, i), way(a.s, b.s, i)});
        }
        if (!fields) fail(name + ": bad line " + line);
    }
    if (path.width == 0 || path.focal == 0) fail(name + ": no path");
    return path;
}

// ---- the store, and the threads that read it

// A tile that a thread reads; `is_over` is said under the loaders' lock.
struct Read {
    vtex_range range{};
    std::vector<uint8_t> bytes;
    bool is_over = false;
};

class Loaders {
  public:
    Loaders(int file, uint32_t count) : file(file) {
        for (uint32_t i = 0; i < count; i++) threads.emplace_back([this] { work(); });
    }

    ~Loaders() {
        { std::lock_guard<std::mutex> hold(lock); is_over = true; }
        asked.notify_all();
        for (auto &thread : threads) thread.join();
    }

    void ask(const std::shared_ptr<Read> &read) {
        { std::lock_guard<std::mutex> hold(lock); queue.push_back(read); }
        asked.notify_one();
    }

    bool has_come(const Read &read) {
        std::lock_guard<std::mutex> hold(lock);
        return read.is_over;
    }

    void wait_for(const Read &read) {
        std::unique_lock<std::mutex> hold(lock);
        answered.wait(hold, [&] { return read.is_over; });
    }

  private:
    void work() {
        std::unique_lock<std::mutex> hold(lock);
        for (;;) {
            asked.wait(hold, [this] { return is_over || !queue.empty(); });
            if (queue.empty()) return;
            std::shared_ptr<Read> read = queue.front();
            queue.pop_front();
            hold.unlock();
            read->bytes.resize(read->range.length);
            if (pread(file, read->bytes.data(), read->bytes.size(), static_cast<off_t>(read->range.start)) != static_cast<ssize_t>(read->bytes.size()))
                fail("a tile cannot be read");
            hold.lock();
            read->is_over = true;
            answered.notify_all();
        }
    }

    int file;
    std::mutex lock;
    std::condition_variable asked, answered;
    std::deque<std::shared_ptr<Read>> queue;
    bool is_over = false;
    std::vector<std::thread> threads;
};

// ---- what is drawn

// The memory of a cache, a table or a reader.
template <typename T> struct Room {
    std::vector<uint64_t> words;
    explicit Room(size_t size) : words((size + 7) / 8) {}
    T *at() { return reinterpret_cast<T *>(words.data()); }
};

struct Picture {
    std::vector<uint8_t> bytes;         // three samples a pixel, row by row
    std::vector<uint32_t> pages;        // the page that each pixel wants
    std::vector<uint64_t> versions;     // the version in which each row was drawn,
    std::vector<uint32_t> samplers;     // and the number of the reader that drew it
    std::atomic<uint32_t> next{0}, drawn{0};
};

class Engine {
  public:
    Engine(const std::vector<std::string> &names, std::map<std::string, uint32_t> &numbers, const std::string &journal)
        : prefix(names[2]), path(path_of(names[1])), cache(vtex_cache_size()), table(vtex_table_size()), batch(numbers["--batch"]), journal(journal, std::ios::binary) {
        open_store(names[0]);
        vtex_cache_init(cache.at());
        vtex_table_init(table.at());
        done(vtex_pinned_count(&store.shape, numbers["--pinned"], &pinned), "pinned pages");
        done(vtex_cache_open(cache.at(), &store.shape, numbers["--frames"], pinned), "opening the cache");
        done(vtex_table_open(table.at(), &store.shape, store.depth, numbers["--frames"] + numbers["--spare"], numbers["--drawing"]), "opening the table");
        for (uint32_t frame = 0; frame < numbers["--frames"] + numbers["--spare"]; frame++) free.push_back(frame);
        uint32_t count = 0;
        done(vtex_level_count(&store.shape, &count), "levels");
        levels.resize(count);
        for (uint32_t k = 0; k < count; k++) done(vtex_level(&store.shape, k, &levels[k]), "level");
        loaders = std::make_unique<Loaders>(file, numbers["--loading"]);
        head();
        for (uint32_t k = 0; k < numbers["--drawing"]; k++) {
            readers.emplace_back(vtex_reader_size());
            vtex_reader_init(readers.back().at());
        }
        for (auto &reader : readers) done(vtex_table_admit(table.at(), reader.at()), "a reader");
    }

    ~Engine() {
        loaders.reset();
        for (auto &reader : readers) vtex_table_dismiss(table.at(), reader.at());
        vtex_table_close(table.at());
        vtex_cache_close(cache.at());
        close(file);
    }

    void run() {
        for (uint32_t i = 0; i < path.cameras.size(); i++) {
            Picture picture;
            picture.bytes.resize(row_bytes() * static_cast<size_t>(path.height));
            picture.pages.resize(static_cast<size_t>(path.width * path.height));
            picture.versions.resize(static_cast<size_t>(path.height));
            picture.samplers.resize(picture.versions.size());
            journal << "pass " << i + 1 << " picture " << i << " start " << version << '\n';
            std::vector<std::thread> drawing;
            for (auto &reader : readers) drawing.emplace_back([&] { draw(picture, path.cameras[i], reader.at()); });
            stream(picture);
            for (auto &thread : drawing) thread.join();
            for (size_t y = 0; y < picture.versions.size(); y++) journal << "row " << y << ' ' << picture.samplers[y] << ' ' << picture.versions[y] << '\n';
            write(picture, i);
            done(vtex_cache_pass_pages(cache.at(), front_of(picture.pages), picture.pages.size(), batch), "a pass");
            ask();
        }
        if (!journal.flush()) fail("the journal was not written");
        std::printf("end pictures %zu changes %llu waits %llu\n", path.cameras.size(), static_cast<unsigned long long>(version), static_cast<unsigned long long>(waits));
    }

  private:
    size_t row_bytes() const { return static_cast<size_t>(path.width) * 3 * store.depth; }

    void open_store(const std::string &name) {
        file = open(name.c_str(), O_RDONLY);
        struct stat about;
        uint8_t front[16];
        if (file < 0 || fstat(file, &about) != 0) fail("no store " + name);
        ssize_t have = pread(file, front, sizeof front, 0);
        if (have < 0) fail("no store " + name);
        done(vtex_store_open(front, static_cast<size_t>(have), static_cast<uint64_t>(about.st_size), &store), "the store");
    }

    std::shared_ptr<Read> read_of(uint32_t page) {
        auto read = std::make_shared<Read>();
        done(vtex_store_tile(&store, page, &read->range), "a tile");
        loaders->ask(read);
        return read;
    }

    // ---- the writer

    // Makes the cache's changes in the table, in their order, each as soon as no reader stands in its way. A map takes the frame that was
    // unmapped first.
    void change(const std::vector<vtex_change> &changes, const std::map<uint32_t, std::shared_ptr<Read>> &came) {
        std::vector<vtex_step> steps;
        std::vector<uint8_t> tiles;
        for (const vtex_change &change : changes) {
            if (!change.mapped) {
                steps.push_back({change.page, frame_of.at(change.page), 0, 0});
                free.push_back(frame_of.at(change.page));
                frame_of.erase(change.page);
                continue;
            }
            const std::vector<uint8_t> &bytes = came.at(change.page)->bytes;
            steps.push_back({change.page, free.front(), 1, static_cast<uint32_t>(tiles.size() / bytes.size())});
            tiles.insert(tiles.end(), bytes.begin(), bytes.end());
            frame_of[change.page] = free.front();
            free.pop_front();
        }
        for (size_t next = 0; next < steps.size();) {
            uint64_t made = 0;
            vtex_waiting who;
            const uint32_t status = vtex_table_settle(table.at(), &steps[next], steps.size() - next, front_of(tiles), tiles.size(), &made, &who);
            for (; made > 0; made--) note(steps[next++]);
            if (status != VTEX_WAITING) done(status, "changes");
            else waits++, std::this_thread::yield();
        }
    }

    // Writes a change into the journal.
    void note(const vtex_step &step) {
        vtex_name name;
        done(vtex_page_name(&store.shape, step.page, &name), "a name");
        journal << (step.mapped ? "map " : "unmap ") << ++version << ' ' << name.level << ' ' << name.column << ' ' << name.row << ' ' << step.frame << '\n';
    }

    std::vector<vtex_change> changes_of() {
        vtex_info info;
        done(vtex_cache_info(cache.at(), &info), "the numbers");
        std::vector<vtex_change> changes(info.changes);
        vtex_cache_changes(cache.at(), front_of(changes), changes.size());
        return changes;
    }

    // The pinned pages, which are the changes of the opening.
    void head() {
        const std::vector<vtex_change> changes = changes_of();
        std::map<uint32_t, std::shared_ptr<Read>> came;
        for (const vtex_change &pinned_page : changes) {
            came[pinned_page.page] = read_of(pinned_page.page);
            loaders->wait_for(*came[pinned_page.page]);
        }
        change(changes, came);
    }

    // Settles what comes, again and again, until the picture is drawn.
    void stream(const Picture &picture) {
        do settle();
        while (picture.drawn < picture.versions.size());
    }

    void settle() {
        std::vector<uint8_t> states;
        std::map<uint32_t, std::shared_ptr<Read>> came;
        size_t left = 0;
        for (size_t i = 0; i < loads.size(); i++) {
            bool is = loaders->has_come(*reads[i]);
            states.push_back(is ? VTEX_CAME : VTEX_UNDER_WAY);
            if (is) came[loads[i].page] = reads[i];
            else loads[left] = loads[i], reads[left++] = reads[i];
        }
        loads.resize(left);
        reads.resize(left);
        if (came.empty()) return std::this_thread::yield();
        done(vtex_cache_settle(cache.at(), front_of(states), states.size()), "settling");
        change(changes_of(), came);
    }

    // Has the loads read that the last pass added.
    void ask() {
        vtex_info info;
        done(vtex_cache_info(cache.at(), &info), "the numbers");
        loads.resize(info.loads);
        vtex_cache_loads(cache.at(), front_of(loads), loads.size());
        while (reads.size() < loads.size()) reads.push_back(read_of(loads[reads.size()].page));
    }

    // ---- the drawing threads

    void draw(Picture &picture, const Camera &camera, vtex_reader *reader) {
        std::vector<vtex_point> points(static_cast<size_t>(path.width));
        for (uint32_t y; (y = picture.next++) < picture.versions.size(); picture.drawn++) {
            row_of(camera, y, points, &picture.pages[y * points.size()]);
            done(vtex_reader_number(reader, &picture.samplers[y]), "a number");
            done(vtex_reader_hold(reader, &picture.versions[y]), "a hold");
            done(vtex_reader_texels(reader, points.data(), points.size(), &picture.bytes[y * row_bytes()], row_bytes()), "texels");
            done(vtex_reader_release(reader), "a release");
        }
    }

    // The place of level 0 and the level of each pixel of a row, and the pages that they want.
    void row_of(const Camera &at, int64_t y, std::vector<vtex_point> &points, uint32_t *pages) const {
        const int64_t z = floor_div(at.h * path.focal, y + 1), p = floor_div(at.h, y + 1), w = store.shape.width, h = store.shape.height;
        uint32_t k = 0;
        while (k + 1 < levels.size() && (int64_t{256} << (k + 1)) <= p) k++;
        for (int64_t x = 0; x < path.width; x++) {
            const int64_t a = (2 * x + 1 - path.width) * p;
            const int64_t tx = floor_div(at.u + floor_div(z * at.c, 16384) - floor_div(a * at.s, 32768), 256);
            const int64_t ty = floor_div(at.v + floor_div(z * at.s, 16384) + floor_div(a * at.c, 32768), 256);
            const vtex_point point = {k, static_cast<uint32_t>(tx - floor_div(tx, w) * w), static_cast<uint32_t>(ty - floor_div(ty, h) * h)};
            points[static_cast<size_t>(x)] = point;
            pages[x] = levels[k].first + (point.y >> k) / store.shape.tile * levels[k].columns + (point.x >> k) / store.shape.tile;
        }
    }

    void write(const Picture &picture, uint32_t i) const {
        std::string name = std::to_string(i);
        std::ofstream out(prefix + std::string(4 - std::min<size_t>(4, name.size()), '0') + name + ".ppm", std::ios::binary);
        out << "P6\n" << path.width << ' ' << path.height << '\n' << (store.depth == 1 ? 255 : 65535) << '\n';
        out.write(reinterpret_cast<const char *>(picture.bytes.data()), static_cast<std::streamsize>(picture.bytes.size()));
        if (!out.flush()) fail("a picture was not written");
    }

    std::string prefix;
    Path path;
    Room<vtex_cache> cache;
    Room<vtex_table> table;
    uint32_t batch, pinned = 0;
    std::ofstream journal;
    int file = -1;
    vtex_store store{};
    std::vector<vtex_level_info> levels;
    std::vector<Room<vtex_reader>> readers;     // one for each drawing thread
    std::vector<vtex_load> loads;               // the loads under way, in the cache's order,
    std::vector<std::shared_ptr<Read>> reads;   // and their reads
    std::unique_ptr<Loaders> loaders;
    std::deque<uint32_t> free;                  // the table's frames that no page has, the one that was unmapped first in front,
    std::map<uint32_t, uint32_t> frame_of;      // and those of the mapped pages
    uint64_t version = 0, waits = 0;
};

} // namespace

int main(int count, char **words) {
    std::map<std::string, uint32_t> numbers = {{"--frames", 64}, {"--spare", 16}, {"--batch", 64}, {"--pinned", 1}, {"--drawing", 3}, {"--loading", 2}};
    std::vector<std::string> names;
    std::string journal = "journal.txt";
    for (int i = 1; i < count; i++) {
        std::string word = words[i];
        if (word.rfind("--", 0) != 0) names.push_back(word);
        else if (i + 1 < count && word == "--journal") journal = words[++i];
        else if (i + 1 < count && numbers.count(word)) numbers[word] = static_cast<uint32_t>(std::stoul(words[++i]));
        else fail("no option " + word);
    }
    if (names.size() != 3) fail("usage: streaming STORE PATH PREFIX [OPTIONS]");
    Engine engine(names, numbers, journal);
    engine.run();
    return 0;
}
