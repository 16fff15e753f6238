// usage: image_cache TEXTURE PATH PREFIX THREADS MEBIBYTES FIGURES
// Draws the pictures of a path with OpenImageIO's ImageCache, as `vtex walk --settled` leaves them: each pixel is the nearest texel of its row's level.
// TEXTURE is a tiled image with mip levels. PATH, rows and places are those of docs/FORMATS.md. Rows are dealt to the threads; each reads tiles through
// the cache, which keeps at most so many mebibytes of them, and holds the tile of its last texel. A picture is written while the next one is drawn.
// Prints what the cache allowed and read, and how many pictures there are. Writes to FIGURES its seconds and its processors' seconds since `main` began,
// for to load the libraries before takes longer than a small walk. The status is 1 where anything fails.
#include <OpenImageIO/imagecache.h>

#include <barrier>
#include <cstdint>
#include <cstdio>
#include <cstdlib>
#include <cstring>
#include <fstream>
#include <iterator>
#include <sstream>
#include <string>
#include <sys/resource.h>
#include <thread>
#include <time.h>
#include <vector>

[[noreturn]] static void fail(const std::string &why) {
    std::fprintf(stderr, "image_cache: %s\n", why.c_str());
    std::exit(1);
}

static int64_t floor_div(int64_t a, int64_t b) { return a / b - (a % b < 0); }

struct Camera {
    int64_t number[5]; // u, v, h, c and s
};

struct Path {
    int width = 0, height = 0, focal = 0;
    std::vector<Camera> cameras;
};

static Path read_path(const char *name) {
    std::ifstream file(name);
    std::string line, word;
    Path path;
    while (std::getline(file, line)) {
        std::istringstream fields(line);
        fields >> word;
        if (word == "size") {
            fields >> path.width >> path.height;
        } else if (word == "focal") {
            fields >> path.focal;
        } else if (word == "at" || word == "to") {
            int64_t count = 1;
            if (word == "to") fields >> count;
            Camera key{};
            for (int64_t &number : key.number) fields >> number;
            Camera before = word == "to" && !path.cameras.empty() ? path.cameras.back() : key;
            for (int64_t i = 1; i <= count; i++) {
                Camera camera{};
                for (int j = 0; j < 5; j++) {
                    camera.number[j] = before.number[j] + floor_div((key.number[j] - before.number[j]) * i, count);
                }
                path.cameras.push_back(camera);
            }
        }
        if (!fields) fail(std::string("bad line in ") + name);
    }
    if (path.width < 1 || path.height < 1 || path.focal < 1) fail(std::string("no path in ") + name);
    return path;
}

struct Texture {
    OIIO::ImageCache *cache;
    OIIO::ImageCache::ImageHandle *handle;
    int64_t width, height, tile;
    int levels, shift;
};

static Texture open_texture(const char *name, float mebibytes) {
    OIIO::ImageCache *cache = OIIO::ImageCache::create(false);
    cache->attribute("max_memory_MB", mebibytes);
    OIIO::ImageCache::ImageHandle *handle = cache->get_image_handle(OIIO::ustring(name));
    const OIIO::ImageSpec *spec = handle ? cache->imagespec(handle, nullptr) : nullptr;
    if (!spec) fail(cache->geterror());
    Texture found{cache, handle, spec->width, spec->height, spec->tile_width, 1, 0};
    bool is_power = found.tile > 0 && (found.tile & (found.tile - 1)) == 0;
    if (!is_power || spec->tile_height != found.tile || spec->nchannels != 3 || spec->format != OIIO::TypeDesc::UINT8) {
        fail("wanted three channels of a byte in square tiles");
    }
    while ((int64_t{1} << found.shift) < found.tile) found.shift++;
    for (int64_t w = found.width, h = found.height; w > found.tile || h > found.tile; w = (w + 1) / 2, h = (h + 1) / 2) {
        const OIIO::ImageSpec *next = cache->imagespec(handle, nullptr, 0, found.levels);
        if (!next || next->width != (w + 1) / 2 || next->height != (h + 1) / 2) fail("its levels are not halves");
        found.levels++;
    }
    return found;
}

// The tile of the last texel, which one thread holds.
class Reader {
  public:
    explicit Reader(const Texture &texture) : texture(texture), thread(texture.cache->get_perthread_info()) {}
    ~Reader() { release(); }
    Reader(const Reader &) = delete;
    Reader &operator=(const Reader &) = delete;

    const unsigned char *texel(int level, int64_t x, int64_t y) {
        if (level != at_level || x >> texture.shift != column || y >> texture.shift != row) turn(level, x, y);
        int64_t mask = texture.tile - 1;
        return pixels + 3 * (((y & mask) << texture.shift) + (x & mask));
    }

  private:
    void release() {
        if (tile) texture.cache->release_tile(tile);
    }
    void turn(int level, int64_t x, int64_t y) {
        release();
        tile = texture.cache->get_tile(texture.handle, thread, 0, level, (int)x, (int)y, 0);
        if (!tile) fail(texture.cache->geterror());
        OIIO::TypeDesc format;
        pixels = (const unsigned char *)texture.cache->tile_pixels(tile, format);
        at_level = level, column = x >> texture.shift, row = y >> texture.shift;
    }

    const Texture &texture;
    OIIO::ImageCache::Perthread *thread;
    OIIO::ImageCache::Tile *tile = nullptr;
    const unsigned char *pixels = nullptr;
    int at_level = -1;
    int64_t column = 0, row = 0;
};

static void draw_row(const Texture &texture, Reader &reader, const Path &path, const Camera &camera, int y, unsigned char *out) {
    auto [u, v, h, c, s] = camera.number;
    int64_t z = h * path.focal / (y + 1), p = h / (y + 1);
    int level = 0;
    while (level + 1 < texture.levels && (int64_t{256} << (level + 1)) <= p) level++;
    int64_t left = u + ((z * c) >> 14), top = v + ((z * s) >> 14);
    int64_t across = (1 - path.width) * p * s, down = (1 - path.width) * p * c;
    bool are_powers = (texture.width & (texture.width - 1)) == 0 && (texture.height & (texture.height - 1)) == 0;
    for (int x = 0; x < path.width; x++, out += 3, across += 2 * p * s, down += 2 * p * c) {
        int64_t a = (left - (across >> 15)) >> 8, b = (top + (down >> 15)) >> 8;
        if (are_powers) {
            a &= texture.width - 1, b &= texture.height - 1;
        } else {
            a -= floor_div(a, texture.width) * texture.width, b -= floor_div(b, texture.height) * texture.height;
        }
        std::memcpy(out, reader.texel(level, a >> level, b >> level), 3);
    }
}

static void write_picture(const std::string &name, const Path &path, const std::vector<unsigned char> &samples) {
    std::FILE *file = std::fopen(name.c_str(), "wb");
    if (!file) fail("no file " + name);
    std::fprintf(file, "P6\n%d %d\n255\n", path.width, path.height);
    bool is_whole = std::fwrite(samples.data(), 1, samples.size(), file) == samples.size();
    if (std::fclose(file) != 0 || !is_whole) fail("no room for " + name);
}

static void draw(const Texture &texture, const Path &path, const std::string &prefix, int threads) {
    std::vector<unsigned char> rooms[2];
    for (auto &room : rooms) room.resize(3 * (size_t)path.width * path.height);
    std::barrier turn(threads + 1);
    std::vector<std::thread> workers;
    for (int first = 0; first < threads; first++) {
        workers.emplace_back([&, first] {
            Reader reader(texture);
            for (size_t picture = 0; picture < path.cameras.size(); picture++) {
                unsigned char *out = rooms[picture % 2].data();
                for (int y = first; y < path.height; y += threads) {
                    draw_row(texture, reader, path, path.cameras[picture], y, out + 3 * (size_t)path.width * y);
                }
                turn.arrive_and_wait();
            }
        });
    }
    for (size_t picture = 0; picture < path.cameras.size(); picture++) {
        turn.arrive_and_wait();
        char number[32];
        std::snprintf(number, sizeof number, "%04zu.ppm", picture);
        write_picture(prefix + number, path, rooms[picture % 2]);
    }
    for (std::thread &worker : workers) worker.join();
}

struct Times {
    double wall, busy;
};

static Times times() {
    timespec now{};
    rusage used{};
    clock_gettime(CLOCK_MONOTONIC, &now);
    getrusage(RUSAGE_SELF, &used);
    auto seconds = [](timeval t) { return (double)t.tv_sec + (double)t.tv_usec / 1e6; };
    return {(double)now.tv_sec + (double)now.tv_nsec / 1e9, seconds(used.ru_utime) + seconds(used.ru_stime)};
}

int main(int count, char **words) {
    Times begin = times();
    if (count != 7 || std::atoi(words[4]) < 1) fail("usage: image_cache TEXTURE PATH PREFIX THREADS MEBIBYTES FIGURES");
    Path path = read_path(words[2]);
    Texture texture = open_texture(words[1], std::strtof(words[5], nullptr));
    draw(texture, path, words[3], std::atoi(words[4]));
    float allowed = 0;
    int made = 0, peak = 0;
    texture.cache->getattribute("max_memory_MB", allowed);
    texture.cache->getattribute("stat:tiles_created", made);
    texture.cache->getattribute("stat:tiles_peak", peak);
    std::printf("cache of %.1f MiB, tiles %d, at most %d at a time\nend pictures %zu\n", (double)allowed, made, peak, path.cameras.size());
    OIIO::ImageCache::destroy(texture.cache);
    Times end = times();
    std::ofstream figures(words[6]);
    figures << end.wall - begin.wall << ' ' << end.busy - begin.busy << '\n';
    return figures.flush() ? 0 : 1;
}
