// An engine on the graphics card over the residency of vtex.h: OpenGL 3.3 core, in a window or
// without.
//
// The frames of the cache lie in one atlas texture, each a tile with a border of one texel, so that
// the card's bilinear filter never reads another tile. A page table texture has an entry for each
// page: 0, or its frame and 1. Where a page has none the shader goes to the coarser level. A
// feedback pass at a quarter of the resolution writes which page each pixel wants; two pixel
// buffers in turn bring it to the processor a picture later without a wait. Threads read the tiles.
// Where the frames are too few for what the pictures want, a bias raises the level until they fit.
//
// Without a window (EGL; Mesa's llvmpipe will do), for servers and tests:
//     g++ -std=c++17 -O2 -Iinclude examples/engine/gpu.cpp libvtex_c.a -lEGL -lGL -pthread -o gpu
// In a window (SDL2):
//     g++ -std=c++17 -O2 -DVTEX_WINDOW -Iinclude examples/engine/gpu.cpp libvtex_c.a
//         $(sdl2-config --cflags --libs) -lGL -pthread -o gpu
#include "vtex.h"

#define GL_GLEXT_PROTOTYPES
#ifdef VTEX_WINDOW
#include <SDL.h>
#else
#include <EGL/egl.h>
#include <EGL/eglext.h>
#endif
#include <GL/glcorearb.h>

#include <algorithm>
#include <atomic>
#include <chrono>
#include <cmath>
#include <condition_variable>
#include <cstdio>
#include <cstdlib>
#include <deque>
#include <fcntl.h>
#include <memory>
#include <mutex>
#include <string>
#include <sys/stat.h>
#include <thread>
#include <unistd.h>
#include <vector>

namespace {

const char *const USAGE = R"(usage: gpu STORE [options]
  --frames F      frames of the atlas, 1 to 65535 (256)
  --batch Q       new loads a picture, 1 to 4096 (32)
  --loaders N     threads that read tiles, 1 to 64 (2)
  --slow MS       milliseconds that each read takes besides, 0 to 10000 (0)
  --size W H      of the picture, 8 to 8192 a side (640 400)
  --pictures N    pictures of the flight, 0 to 1000000 (120)
  --still N       pictures standing at its end, 0 to 1000000 (60)
  --wait S        seconds that it stands on there while tiles are read, 0 to 3600 (0)
  --filter F      nearest or linear (linear)
  --every N       write out each Nth picture and the last one, 1 to 1000000 (the last one alone)
  --out PREFIX    where to: PREFIX0000.ppm and, without a window, PREFIX0000.told
In a window the flight is by hand, unless --pictures or --still is given:
  W A S D move, E Q rise and sink, mouse with a button down looks, wheel changes the speed,
  F changes the filter, Escape ends.
)";

using Clock = std::chrono::steady_clock;

double milliseconds_since(Clock::time_point start) {
    return std::chrono::duration<double, std::milli>(Clock::now() - start).count();
}

// Ends the program, also while threads read.
[[noreturn]] void fail(const std::string &what) {
    std::fflush(stdout);
    std::fprintf(stderr, "gpu: %s\n", what.c_str());
    std::_Exit(1);
}

void need(uint32_t status, const std::string &what) {
    if (status != VTEX_DONE) fail(what + ": status " + std::to_string(status));
}

// ---- the words of the command

struct Options {
    std::string store, out;
    uint32_t frames = 256, batch = 32, loaders = 2, slow = 0;
    int width = 640, height = 400, pictures = 120, still = 60, every = 0, wait = 0;
    bool linear = true, by_hand = true;
};

Options options_of(int count, char **words) {
    Options options;
    int at = 1;
    auto word = [&](const std::string &name) -> std::string {
        if (at == count) fail(name + ": needs a value");
        return words[at++];
    };
    auto number = [&](const std::string &name, long least, long most) {
        const std::string text = word(name);
        char *end = nullptr;
        const long value = std::strtol(text.c_str(), &end, 10);
        if (text.empty() || *end || value < least || value > most) {
            fail(name + " " + text + ": wanted a number from " + std::to_string(least) + " to " +
                 std::to_string(most));
        }
        return value;
    };
    while (at < count) {
        const std::string name = words[at++];
        if (name == "--frames") options.frames = uint32_t(number(name, 1, 65535));
        else if (name == "--batch") options.batch = uint32_t(number(name, 1, 4096));
        else if (name == "--loaders") options.loaders = uint32_t(number(name, 1, 64));
        else if (name == "--slow") options.slow = uint32_t(number(name, 0, 10000));
        else if (name == "--every") options.every = int(number(name, 1, 1000000));
        else if (name == "--out") options.out = word(name);
        else if (name == "--size") {
            options.width = int(number(name, 8, 8192));
            options.height = int(number(name, 8, 8192));
        } else if (name == "--wait") {
            options.wait = int(number(name, 0, 3600));
        } else if (name == "--pictures" || name == "--still") {
            (name == "--still" ? options.still : options.pictures) = int(number(name, 0, 1000000));
            options.by_hand = false;
        } else if (name == "--filter") {
            const std::string filter = word(name);
            if (filter != "nearest" && filter != "linear") {
                fail("--filter " + filter + ": wanted nearest or linear");
            }
            options.linear = filter == "linear";
        } else if (name.compare(0, 1, "-") == 0) fail("unknown option " + name);
        else if (options.store.empty()) options.store = name;
        else fail("one store is drawn, not " + name + " besides");
    }
    if (options.store.empty()) {
        std::fputs(USAGE, stderr);
        std::exit(2);
    }
    if (options.pictures + options.still < 1) fail("--pictures 0 --still 0: wanted a picture");
    return options;
}

// ---- the store, and the threads that read it

struct Store {
    std::string name;
    int file = -1;
    vtex_store head{};
    uint32_t tile = 0, pages = 0;
    size_t texel = 0; // bytes
    std::vector<vtex_level_info> levels;

    explicit Store(const std::string &path) : name(path), file(open(path.c_str(), O_RDONLY)) {
        struct stat about;
        if (file < 0 || fstat(file, &about) != 0) fail(name + ": cannot be opened");
        uint8_t first[16];
        const ssize_t have = pread(file, first, sizeof first, 0);
        if (have < 0) fail(name + ": cannot be read");
        if (vtex_store_open(first, size_t(have), uint64_t(about.st_size), &head) != VTEX_DONE) {
            fail(name + ": is no tile store, or not a whole one");
        }
        tile = head.shape.tile;
        texel = 3 * size_t(head.depth);
        uint32_t count = 0;
        need(vtex_page_count(&head.shape, &pages), "page count");
        need(vtex_level_count(&head.shape, &count), "level count");
        levels.resize(count);
        for (uint32_t k = 0; k < count; k++) need(vtex_level(&head.shape, k, &levels[k]), "level");
    }
    Store(const Store &) = delete;
    Store &operator=(const Store &) = delete;
    ~Store() { close(file); }

    // Reads a block of texels that lies in one tile, from (x, y) of the level on, and puts its rows
    // into `to`, `stride` bytes apart. Reads all from its first to its last texel in one call.
    void read_block(uint32_t level, uint32_t x, uint32_t y, uint32_t columns, uint32_t rows,
                    uint8_t *to, size_t stride, std::vector<uint8_t> &bytes) const {
        uint32_t page = 0;
        vtex_range range{};
        need(vtex_page_of_texel(&head.shape, level, x, y, &page), "page of a texel");
        need(vtex_store_tile(&head, page, &range), "tile of a page");
        const size_t row = texel * tile;
        bytes.resize((rows - 1) * row + columns * texel);
        const uint64_t start = range.start + y % tile * row + x % tile * texel;
        if (pread(file, bytes.data(), bytes.size(), off_t(start)) != ssize_t(bytes.size())) {
            fail(name + ": the tile of page " + std::to_string(page) + " cannot be read");
        }
        for (uint32_t r = 0; r < rows; r++) {
            std::copy_n(&bytes[r * row], columns * texel, to + r * stride);
        }
    }

    // Reads a page with its border of one texel: a square of tile + 2 texels a side, of the page
    // and its up to eight neighbours in the level. The level's first texels are behind its last
    // ones, as the ground repeats. What lies beyond the border of a page at the level's edge is
    // left.
    void read_bordered(uint32_t page, std::vector<uint8_t> &square) const {
        struct Stretch { uint32_t to, from, count; };
        auto stretches = [&](uint32_t index, uint32_t side, Stretch (&made)[3]) {
            const uint32_t from = index * tile, count = std::min(tile, side - from);
            made[0] = {0, (from + side - 1) % side, 1};
            made[1] = {1, from, count};
            made[2] = {count + 1, (from + count) % side, 1};
        };
        vtex_name at{};
        need(vtex_page_name(&head.shape, page, &at), "name of a page");
        Stretch across[3], down[3];
        stretches(at.column, levels[at.level].width, across);
        stretches(at.row, levels[at.level].height, down);
        const size_t stride = texel * (tile + 2);
        std::vector<uint8_t> bytes;
        square.assign(stride * (tile + 2), 0);
        for (const Stretch &d : down) {
            for (const Stretch &a : across) {
                read_block(at.level, a.from, d.from, a.count, d.count,
                           &square[d.to * stride + a.to * texel], stride, bytes);
            }
        }
    }
};

struct Read {
    uint32_t page = 0;
    std::vector<uint8_t> square;
    std::atomic<bool> came{false};
};

class Loaders {
  public:
    Loaders(const Store &store, uint32_t count, uint32_t slow) : store_(store), slow_(slow) {
        for (uint32_t i = 0; i < count; i++) threads_.emplace_back([this] { work(); });
    }
    Loaders(const Loaders &) = delete;
    Loaders &operator=(const Loaders &) = delete;
    ~Loaders() {
        {
            std::lock_guard<std::mutex> hold(lock_);
            stop_ = true;
        }
        asked_.notify_all();
        for (auto &thread : threads_) thread.join();
    }
    std::shared_ptr<Read> ask(uint32_t page) {
        auto read = std::make_shared<Read>();
        read->page = page;
        {
            std::lock_guard<std::mutex> hold(lock_);
            queue_.push_back(read);
        }
        asked_.notify_one();
        return read;
    }

  private:
    void work() {
        for (;;) {
            std::unique_lock<std::mutex> hold(lock_);
            asked_.wait(hold, [&] { return stop_ || !queue_.empty(); });
            if (stop_) return;
            const auto read = queue_.front();
            queue_.pop_front();
            hold.unlock();
            if (slow_) std::this_thread::sleep_for(std::chrono::milliseconds(slow_));
            store_.read_bordered(read->page, read->square);
            read->came = true;
        }
    }

    const Store &store_;
    const uint32_t slow_;
    std::mutex lock_;
    std::condition_variable asked_;
    std::deque<std::shared_ptr<Read>> queue_;
    bool stop_ = false;
    std::vector<std::thread> threads_;
};

// ---- the shaders

const char *const VERTEX = R"(#version 330 core
void main() {
    vec2 corner = vec2(gl_VertexID == 1 ? 3.0 : -1.0, gl_VertexID == 2 ? 3.0 : -1.0);
    gl_Position = vec4(corner, 0.0, 1.0);
})";

// What both fragment shaders share: the place on the ground, the level, the page.
const char *const COMMON = R"(#version 330 core
uniform vec2 size;                    // of the picture
uniform vec3 eye, ahead, right, up;
uniform float bias;                   // added to the level
uniform ivec3 shape;                  // width, height, tile
uniform int levels;
uniform ivec4 level_info[14];         // width, height, columns, first page
bool ground(vec2 at, out vec2 place) {
    vec2 ndc = (at * 2.0 - size) / size.y;
    vec3 ray = ahead + ndc.x * right + ndc.y * up;
    place = vec2(0);
    if (ray.z > -0.01) return false;
    place = eye.xy + ray.xy * (eye.z / -ray.z);
    return true;
}
int wanted_level(vec2 at, vec2 place) {
    vec2 x, y;
    if (!ground(at + vec2(1, 0), x)) x = place;
    if (!ground(at - vec2(0, 1), y)) y = place;
    float step = max(length(x - place), length(y - place));
    return clamp(int(floor(log2(max(step, 1e-6)) + bias)), 0, levels - 1);
}
vec2 wrapped(vec2 place) {
    vec2 s = vec2(shape.xy);
    return clamp(place - floor(place / s) * s, vec2(0), s - 1.0 / 256.0);
}
int page_of(int level, ivec2 texel) { // of level 0
    ivec2 at = (texel >> level) / shape.z;
    return level_info[level].w + at.y * level_info[level].z + at.x;
}
)";

// The place in the found level is cut to 1/256 texel, the least that cards weigh by. A quarter of
// that is added where the card filters: so one that cuts and one that rounds have the same weights.
const char *const DRAW = R"(
uniform usampler2D table;             // an entry for each page: 0, or its frame and 1
uniform sampler2D atlas;
uniform int atlas_columns;
uniform bool is_linear;
layout(location = 0) out vec4 colour;
layout(location = 1) out uvec4 told;  // place in the found level in 1/256, found page, wanted page
uint entry_of(int page) { return texelFetch(table, ivec2(page & 511, page >> 9), 0).r; }
void main() {
    vec2 place;
    colour = vec4(0.5, 0.7, 0.9, 1);
    told = uvec4(0xffffffffu);
    if (!ground(gl_FragCoord.xy, place)) return;
    int level = wanted_level(gl_FragCoord.xy, place);
    vec2 at = wrapped(place);
    ivec2 texel = ivec2(at);
    int wanted = page_of(level, texel), page = wanted;
    uint entry = entry_of(page);
    while (entry == 0u && level < levels - 1) {
        page = page_of(++level, texel);
        entry = entry_of(page);
    }
    int frame = int(entry) - 1, square = shape.z + 2;
    ivec2 fine = ivec2(floor(at * (256.0 / float(1 << level))));
    ivec2 origin = ivec2(frame % atlas_columns, frame / atlas_columns) * square + 1;
    ivec2 inside = fine - ((fine >> 8) / shape.z) * (shape.z * 256);
    if (is_linear) {
        vec2 where = vec2(origin) + (vec2(inside) + 0.25) / 256.0;
        colour = textureLod(atlas, where / vec2(textureSize(atlas, 0)), 0.0);
    } else {
        colour = texelFetch(atlas, origin + (inside >> 8), 0);
    }
    told = uvec4(uvec2(fine), uint(page), uint(wanted));
})";

const char *const FEEDBACK = R"(
uniform vec2 jitter;                  // which of 4 x 4 pixels a feedback pixel stands for
layout(location = 0) out uint wanted;
void main() {
    vec2 place, at = floor(gl_FragCoord.xy) * 4.0 + jitter + 0.5;
    wanted = 0xffffffffu;             // VTEX_NO_PAGE
    if (ground(at, place)) wanted = uint(page_of(wanted_level(at, place), ivec2(wrapped(place))));
})";

GLuint shader_of(GLenum kind, const std::string &text) {
    const GLuint shader = glCreateShader(kind);
    const char *start = text.c_str();
    glShaderSource(shader, 1, &start, nullptr);
    glCompileShader(shader);
    GLint good = 0;
    char log[4096] = "";
    glGetShaderiv(shader, GL_COMPILE_STATUS, &good);
    glGetShaderInfoLog(shader, sizeof log, nullptr, log);
    if (!good) fail(std::string("a shader: ") + log);
    return shader;
}

GLuint program_of(const std::string &fragment) {
    const GLuint program = glCreateProgram();
    for (GLuint shader : {shader_of(GL_VERTEX_SHADER, VERTEX),
                          shader_of(GL_FRAGMENT_SHADER, COMMON + fragment)}) {
        glAttachShader(program, shader);
        glDeleteShader(shader);
    }
    glLinkProgram(program);
    GLint good = 0;
    char log[4096] = "";
    glGetProgramiv(program, GL_LINK_STATUS, &good);
    glGetProgramInfoLog(program, sizeof log, nullptr, log);
    if (!good) fail(std::string("the shaders: ") + log);
    return program;
}

GLuint texture_of(GLenum format, GLenum pixel, GLenum type, int width, int height, GLint filter) {
    GLuint texture = 0;
    glGenTextures(1, &texture);
    glBindTexture(GL_TEXTURE_2D, texture);
    glTexImage2D(GL_TEXTURE_2D, 0, GLint(format), width, height, 0, pixel, type, nullptr);
    glTexParameteri(GL_TEXTURE_2D, GL_TEXTURE_MIN_FILTER, filter);
    glTexParameteri(GL_TEXTURE_2D, GL_TEXTURE_MAG_FILTER, filter);
    glTexParameteri(GL_TEXTURE_2D, GL_TEXTURE_MAX_LEVEL, 0);
    return texture;
}

// ---- where the pictures go: a window, or a context without one

struct Camera {
    double eye[3] = {}, heading = 0, pitch = 0;
};

#ifdef VTEX_WINDOW
class Screen {
  public:
    Screen(int width, int height) : width_(width), height_(height) {
        if (SDL_Init(SDL_INIT_VIDEO) != 0) fail(std::string("SDL2: ") + SDL_GetError());
        SDL_GL_SetAttribute(SDL_GL_CONTEXT_MAJOR_VERSION, 3);
        SDL_GL_SetAttribute(SDL_GL_CONTEXT_MINOR_VERSION, 3);
        SDL_GL_SetAttribute(SDL_GL_CONTEXT_PROFILE_MASK, SDL_GL_CONTEXT_PROFILE_CORE);
        window_ = SDL_CreateWindow("vtex", SDL_WINDOWPOS_CENTERED, SDL_WINDOWPOS_CENTERED, width,
                                   height, SDL_WINDOW_OPENGL);
        context_ = window_ ? SDL_GL_CreateContext(window_) : nullptr;
        if (!context_) fail(std::string("no window of OpenGL 3.3: ") + SDL_GetError());
        SDL_GL_SetSwapInterval(1);
    }
    Screen(const Screen &) = delete;
    Screen &operator=(const Screen &) = delete;
    ~Screen() {
        SDL_GL_DeleteContext(context_);
        SDL_DestroyWindow(window_);
        SDL_Quit();
    }
    // Moves the camera by what the keys and the mouse did. Returns false at the end.
    bool move(Camera &camera, bool &linear) {
        SDL_Event event;
        while (SDL_PollEvent(&event)) {
            if (event.type == SDL_QUIT) return false;
            if (event.type == SDL_KEYDOWN && event.key.keysym.sym == SDLK_ESCAPE) return false;
            if (event.type == SDL_KEYDOWN && event.key.keysym.sym == SDLK_f) linear = !linear;
            if (event.type == SDL_MOUSEWHEEL) speed_ *= std::pow(1.25, event.wheel.y);
            if (event.type == SDL_MOUSEMOTION && event.motion.state != 0) {
                camera.heading += 0.004 * event.motion.xrel;
                camera.pitch = std::clamp(camera.pitch - 0.004 * event.motion.yrel, -1.5, 0.3);
            }
        }
        const double step = speed_ * milliseconds_since(last_);
        last_ = Clock::now();
        const Uint8 *keys = SDL_GetKeyboardState(nullptr);
        auto both = [&](SDL_Scancode on, SDL_Scancode back) {
            return step * (int(keys[on]) - int(keys[back]));
        };
        const double on = both(SDL_SCANCODE_W, SDL_SCANCODE_S);
        const double aside = both(SDL_SCANCODE_D, SDL_SCANCODE_A);
        const double c = std::cos(camera.heading), s = std::sin(camera.heading);
        camera.eye[0] += on * c - aside * s;
        camera.eye[1] += on * s + aside * c;
        camera.eye[2] = std::max(2.0, camera.eye[2] + both(SDL_SCANCODE_E, SDL_SCANCODE_Q));
        return true;
    }
    void show(GLuint from) {
        glBindFramebuffer(GL_READ_FRAMEBUFFER, from);
        glReadBuffer(GL_COLOR_ATTACHMENT0);
        glBindFramebuffer(GL_DRAW_FRAMEBUFFER, 0);
        glBlitFramebuffer(0, 0, width_, height_, 0, 0, width_, height_, GL_COLOR_BUFFER_BIT,
                          GL_NEAREST);
        SDL_GL_SwapWindow(window_);
    }
    static constexpr bool IS_WINDOW = true;

  private:
    int width_, height_;
    SDL_Window *window_ = nullptr;
    SDL_GLContext context_ = nullptr;
    double speed_ = 0.3; // texels a millisecond
    Clock::time_point last_ = Clock::now();
};
#else
class Screen {
  public:
    Screen(int, int) {
        const auto platform = reinterpret_cast<PFNEGLGETPLATFORMDISPLAYEXTPROC>(
            eglGetProcAddress("eglGetPlatformDisplayEXT"));
        if (platform) {
            display_ = platform(EGL_PLATFORM_SURFACELESS_MESA, EGL_DEFAULT_DISPLAY, nullptr);
        }
        if (!display_) display_ = eglGetDisplay(EGL_DEFAULT_DISPLAY);
        if (!display_ || !eglInitialize(display_, nullptr, nullptr)) fail("EGL has no display");
        eglBindAPI(EGL_OPENGL_API);
        const EGLint kind[] = {EGL_SURFACE_TYPE, EGL_PBUFFER_BIT, EGL_RENDERABLE_TYPE,
                               EGL_OPENGL_BIT, EGL_NONE};
        EGLConfig config = nullptr;
        EGLint found = 0;
        eglChooseConfig(display_, kind, &config, 1, &found);
        const EGLint version[] = {EGL_CONTEXT_MAJOR_VERSION, 3, EGL_CONTEXT_MINOR_VERSION, 3,
                                  EGL_CONTEXT_OPENGL_PROFILE_MASK,
                                  EGL_CONTEXT_OPENGL_CORE_PROFILE_BIT, EGL_NONE};
        context_ = eglCreateContext(display_, found ? config : nullptr, EGL_NO_CONTEXT, version);
        if (!context_ || !eglMakeCurrent(display_, EGL_NO_SURFACE, EGL_NO_SURFACE, context_)) {
            fail("EGL has no context of OpenGL 3.3 without a surface");
        }
    }
    Screen(const Screen &) = delete;
    Screen &operator=(const Screen &) = delete;
    ~Screen() {
        eglMakeCurrent(display_, EGL_NO_SURFACE, EGL_NO_SURFACE, EGL_NO_CONTEXT);
        eglDestroyContext(display_, context_);
        eglTerminate(display_);
    }
    bool move(Camera &, bool &) { return true; }
    void show(GLuint) {}
    static constexpr bool IS_WINDOW = false;

  private:
    EGLDisplay display_ = EGL_NO_DISPLAY;
    EGLContext context_ = EGL_NO_CONTEXT;
};
#endif

// ---- the level bias

// Raises the level by a quarter where the pages that a round of the feedback's jitter wants, but
// for the pinned ones, are more than the other frames, and lowers it so where they are less than a
// fifth of those. A level has four times the pages of the next one, so what was lowered fits, and
// neither calls for the other.
class Bias {
  public:
    // For so many pages and frames beside the pinned ones, which are the last by index.
    Bias(uint32_t pages, uint32_t frames, uint32_t levels)
        : seen_(pages, 0), frames_(frames), most_(double(levels)) {}
    double level() const { return level_; }
    void take(const uint32_t *list, size_t count) {
        if (skipped_ > 0) { // drawn before the last change
            skipped_--;
            return;
        }
        for (size_t i = 0; i < count; i++) {
            if (list[i] >= seen_.size() || seen_[list[i]] == round_) continue; // none, or pinned
            seen_[list[i]] = round_;
            wanted_++;
        }
        pictures_++;
        if (wanted_ > frames_ && level_ < most_) change(0.25);
        else if (pictures_ == 16) change(wanted_ < frames_ / 5 && level_ > 0 ? -0.25 : 0);
    }

  private:
    void change(double by) {
        level_ += by;
        skipped_ = by == 0 ? 0 : 2;
        round_++;
        wanted_ = 0;
        pictures_ = 0;
    }
    std::vector<uint32_t> seen_; // the round that last wanted a page
    uint32_t frames_, wanted_ = 0, round_ = 1;
    int pictures_ = 0, skipped_ = 0;
    double level_ = 0, most_;
};

// ---- the engine

class Engine {
  public:
    Engine(const Options &options, const Store &store)
        : options_(options), store_(store), square_(store.tile + 2),
          cache_(static_cast<vtex_cache *>(std::malloc(vtex_cache_size())), std::free),
          loaders_(store, options.loaders, options.slow) {
        if (!cache_) fail("out of memory");
        vtex_cache_init(cache_.get());
        need(vtex_pinned_count(&store.head.shape, 2, &pinned_), "pinned pages");
        pinned_ = std::min(pinned_, options.frames);
        need(vtex_cache_open(cache_.get(), &store.head.shape, options.frames, pinned_), "cache");
        bias_ = std::make_unique<Bias>(store.pages - pinned_, options.frames - pinned_,
                                       uint32_t(store.levels.size()));
        make_textures();
        make_targets();
        make_programs();
        load_pinned();
    }
    Engine(const Engine &) = delete;
    Engine &operator=(const Engine &) = delete;
    ~Engine() { vtex_cache_close(cache_.get()); }

    // Settles what came, draws the picture, and plans by the feedback of the picture before.
    void draw(const Camera &camera, bool linear) {
        settle();
        draw_feedback(camera);
        use(draw_, camera, options_.width, options_.height);
        glUniform1i(glGetUniformLocation(draw_, "is_linear"), linear);
        glActiveTexture(GL_TEXTURE0);
        glBindTexture(GL_TEXTURE_2D, table_);
        glActiveTexture(GL_TEXTURE1);
        glBindTexture(GL_TEXTURE_2D, atlas_);
        glBindFramebuffer(GL_FRAMEBUFFER, targets_[0]);
        glDrawArrays(GL_TRIANGLES, 0, 3);
        glFlush();
        drawn_bias_ = bias_->level();
        if (pictures_ > 0) plan();
        pictures_++;
    }
    GLuint target() const { return targets_[0]; }
    // Whether tiles were being read when the last picture was planned.
    bool is_reading() const { return !reads_.empty(); }

    // Writes the last picture as PREFIX0000.ppm, and what its pixels were told as PREFIX0000.told:
    // four numbers a pixel, as the card has them. Rows go from the top. Prints a line.
    void write(bool with_told) {
        const size_t width = size_t(options_.width), height = size_t(options_.height);
        const size_t depth = store_.head.depth;
        std::vector<uint8_t> pixels(width * height * 3 * depth);
        std::vector<uint32_t> told(width * height * 4);
        glBindFramebuffer(GL_FRAMEBUFFER, targets_[0]);
        glReadBuffer(GL_COLOR_ATTACHMENT0);
        swap_bytes(GL_PACK_SWAP_BYTES, true);
        glReadPixels(0, 0, options_.width, options_.height, GL_RGB, sample_, pixels.data());
        swap_bytes(GL_PACK_SWAP_BYTES, false);
        glReadBuffer(GL_COLOR_ATTACHMENT1);
        glReadPixels(0, 0, options_.width, options_.height, GL_RGBA_INTEGER, GL_UNSIGNED_INT,
                     told.data());
        char number[16];
        std::snprintf(number, sizeof number, "%04d", pictures_ - 1);
        const std::string name = options_.out + number;
        const std::string head = "P6\n" + std::to_string(width) + " " + std::to_string(height) +
                                 (depth == 1 ? "\n255\n" : "\n65535\n");
        write_rows(name + ".ppm", head, pixels.data(), width * 3 * depth, height);
        if (with_told) {
            write_rows(name + ".told", "", reinterpret_cast<uint8_t *>(told.data()), width * 16,
                       height);
        }
        size_t ground = 0, coarser = 0;
        for (size_t i = 0; i < told.size(); i += 4) {
            ground += told[i + 2] != VTEX_NO_PAGE;
            coarser += told[i + 2] != told[i + 3];
        }
        std::printf("picture %d ground %zu coarser %zu bias %.3f loads %zu\n", pictures_ - 1,
                    ground, coarser, drawn_bias_, reads_.size());
    }

    void print_times() const {
        const double n = std::max(1, pictures_);
        std::printf("a picture, milliseconds: settle %.4f plan %.4f upload %.4f\n", settling_ / n,
                    planning_ / n, uploading_ / n);
    }

  private:
    static void write_rows(const std::string &name, const std::string &head, const uint8_t *rows,
                           size_t row, size_t height) {
        FILE *file = std::fopen(name.c_str(), "wb");
        if (!file) fail(name + ": cannot be created");
        bool good = std::fwrite(head.data(), 1, head.size(), file) == head.size();
        for (size_t y = height; y-- > 0;) {
            good = good && std::fwrite(rows + y * row, 1, row, file) == row;
        }
        if (std::fclose(file) != 0 || !good) fail(name + ": cannot be written");
    }

    // The store's and a picture file's samples of two bytes have the most significant first.
    void swap_bytes(GLenum which, bool on) const {
        if (store_.head.depth == 2) glPixelStorei(which, on);
    }

    void make_textures() {
        GLint most = 0;
        glGetIntegerv(GL_MAX_TEXTURE_SIZE, &most);
        columns_ = uint32_t(std::ceil(std::sqrt(double(options_.frames))));
        const int side = int(columns_ * square_);
        if (side > most) {
            fail("--frames " + std::to_string(options_.frames) + ": the atlas has " +
                 std::to_string(side) + " texels a side, the card's textures at most " +
                 std::to_string(most));
        }
        glPixelStorei(GL_UNPACK_ALIGNMENT, 1);
        glPixelStorei(GL_PACK_ALIGNMENT, 1);
        sample_ = store_.head.depth == 1 ? GL_UNSIGNED_BYTE : GL_UNSIGNED_SHORT;
        atlas_ = texture_of(store_.head.depth == 1 ? GL_RGB8 : GL_RGB16, GL_RGB, sample_, side,
                            side, GL_LINEAR);
        rows_ = (store_.pages + ROW - 1) / ROW;
        entries_.assign(rows_ * ROW, 0);
        table_ = texture_of(GL_R16UI, GL_RED_INTEGER, GL_UNSIGNED_SHORT, ROW, int(rows_),
                            GL_NEAREST);
    }

    void make_targets() {
        const int width = options_.width, height = options_.height;
        const GLuint colour = texture_of(store_.head.depth == 1 ? GL_RGBA8 : GL_RGBA16, GL_RGBA,
                                         sample_, width, height, GL_NEAREST);
        const GLuint told = texture_of(GL_RGBA32UI, GL_RGBA_INTEGER, GL_UNSIGNED_INT, width, height,
                                       GL_NEAREST);
        const GLuint wants = texture_of(GL_R32UI, GL_RED_INTEGER, GL_UNSIGNED_INT, quarter(width),
                                        quarter(height), GL_NEAREST);
        auto attach = [](GLenum place, GLuint texture) {
            glFramebufferTexture2D(GL_FRAMEBUFFER, place, GL_TEXTURE_2D, texture, 0);
        };
        glGenFramebuffers(2, targets_);
        glBindFramebuffer(GL_FRAMEBUFFER, targets_[1]);
        attach(GL_COLOR_ATTACHMENT0, wants);
        const bool good = glCheckFramebufferStatus(GL_FRAMEBUFFER) == GL_FRAMEBUFFER_COMPLETE;
        glBindFramebuffer(GL_FRAMEBUFFER, targets_[0]);
        attach(GL_COLOR_ATTACHMENT0, colour);
        attach(GL_COLOR_ATTACHMENT1, told);
        const GLenum both[] = {GL_COLOR_ATTACHMENT0, GL_COLOR_ATTACHMENT1};
        glDrawBuffers(2, both);
        if (!good || glCheckFramebufferStatus(GL_FRAMEBUFFER) != GL_FRAMEBUFFER_COMPLETE) {
            fail("the card cannot draw into the textures of the pictures");
        }
        glGenBuffers(2, buffers_);
        for (GLuint buffer : buffers_) {
            glBindBuffer(GL_PIXEL_PACK_BUFFER, buffer);
            glBufferData(GL_PIXEL_PACK_BUFFER, GLsizeiptr(wants_bytes()), nullptr, GL_STREAM_READ);
        }
        glBindBuffer(GL_PIXEL_PACK_BUFFER, 0);
        GLuint none = 0;
        glGenVertexArrays(1, &none);
        glBindVertexArray(none);
    }

    void make_programs() {
        draw_ = program_of(DRAW);
        feedback_ = program_of(FEEDBACK);
        std::vector<GLint> info;
        for (const auto &level : store_.levels) {
            info.insert(info.end(), {GLint(level.width), GLint(level.height), GLint(level.columns),
                                     GLint(level.first)});
        }
        for (GLuint program : {draw_, feedback_}) {
            glUseProgram(program);
            glUniform3i(glGetUniformLocation(program, "shape"), GLint(store_.head.shape.width),
                        GLint(store_.head.shape.height), GLint(store_.tile));
            glUniform1i(glGetUniformLocation(program, "levels"), GLint(store_.levels.size()));
            glUniform4iv(glGetUniformLocation(program, "level_info"), GLsizei(store_.levels.size()),
                         info.data());
        }
        glUseProgram(draw_);
        glUniform1i(glGetUniformLocation(draw_, "table"), 0);
        glUniform1i(glGetUniformLocation(draw_, "atlas"), 1);
        glUniform1i(glGetUniformLocation(draw_, "atlas_columns"), GLint(columns_));
    }

    // Waits for the pinned pages, so that each pixel finds a page from the first picture on.
    void load_pinned() {
        glActiveTexture(GL_TEXTURE0);
        glBindTexture(GL_TEXTURE_2D, table_);
        glTexSubImage2D(GL_TEXTURE_2D, 0, 0, 0, ROW, GLsizei(rows_), GL_RED_INTEGER,
                        GL_UNSIGNED_SHORT, entries_.data());
        std::vector<std::shared_ptr<Read>> came;
        for (const auto &change : changes()) came.push_back(loaders_.ask(change.page));
        for (const auto &read : came) {
            while (!read->came) std::this_thread::yield();
        }
        upload(came);
    }

    std::vector<vtex_change> changes() {
        vtex_info info{};
        need(vtex_cache_info(cache_.get(), &info), "numbers of the cache");
        std::vector<vtex_change> list(info.changes + 1); // never empty: no length 0 by NULL
        list.resize(vtex_cache_changes(cache_.get(), list.data(), list.size()));
        return list;
    }

    void settle() {
        const auto start = Clock::now();
        std::vector<std::shared_ptr<Read>> came, left;
        std::vector<uint8_t> states;
        states.reserve(reads_.size() + 1); // never without memory: no length 0 by NULL
        for (const auto &read : reads_) {
            const bool here = read->came;
            states.push_back(here ? VTEX_CAME : VTEX_UNDER_WAY);
            (here ? came : left).push_back(read);
        }
        need(vtex_cache_settle(cache_.get(), states.data(), states.size()), "settling");
        reads_ = left;
        settling_ += milliseconds_since(start);
        upload(came);
    }

    // Puts the changes into the textures in their order, and the rows of the page table that
    // changed.
    void upload(const std::vector<std::shared_ptr<Read>> &came) {
        const auto start = Clock::now();
        std::vector<bool> is_changed(rows_, false);
        glActiveTexture(GL_TEXTURE1);
        glBindTexture(GL_TEXTURE_2D, atlas_);
        swap_bytes(GL_UNPACK_SWAP_BYTES, true);
        for (const auto &change : changes()) {
            entries_[change.page] = uint16_t(change.mapped ? change.frame + 1 : 0);
            is_changed[change.page / ROW] = true;
            if (!change.mapped) continue;
            for (const auto &read : came) {
                if (read->page != change.page) continue;
                glTexSubImage2D(GL_TEXTURE_2D, 0, GLint(change.frame % columns_ * square_),
                                GLint(change.frame / columns_ * square_), GLsizei(square_),
                                GLsizei(square_), GL_RGB, sample_, read->square.data());
            }
        }
        swap_bytes(GL_UNPACK_SWAP_BYTES, false);
        glActiveTexture(GL_TEXTURE0);
        glBindTexture(GL_TEXTURE_2D, table_);
        for (uint32_t row = 0; row < rows_; row++) {
            if (!is_changed[row]) continue;
            glTexSubImage2D(GL_TEXTURE_2D, 0, 0, GLint(row), ROW, 1, GL_RED_INTEGER,
                            GL_UNSIGNED_SHORT, &entries_[row * ROW]);
        }
        uploading_ += milliseconds_since(start);
    }

    void use(GLuint program, const Camera &camera, int width, int height) const {
        const double c = std::cos(camera.heading), s = std::sin(camera.heading);
        const double cp = std::cos(camera.pitch), sp = std::sin(camera.pitch);
        const double focal = 1.6;
        auto vector = [&](const char *name, double x, double y, double z) {
            glUniform3f(glGetUniformLocation(program, name), float(x), float(y), float(z));
        };
        glUseProgram(program);
        glViewport(0, 0, width, height);
        glUniform2f(glGetUniformLocation(program, "size"), float(options_.width),
                    float(options_.height));
        vector("eye", camera.eye[0], camera.eye[1], camera.eye[2]);
        vector("ahead", c * cp * focal, s * cp * focal, sp * focal);
        vector("right", -s, c, 0);
        vector("up", -c * sp, -s * sp, cp);
        glUniform1f(glGetUniformLocation(program, "bias"), float(bias_->level()));
    }

    void draw_feedback(const Camera &camera) {
        static const int ORDER[16] = {0, 10, 2, 8, 5, 15, 7, 13, 1, 11, 3, 9, 4, 14, 6, 12};
        const int at = ORDER[pictures_ % 16];
        const int width = quarter(options_.width), height = quarter(options_.height);
        use(feedback_, camera, width, height);
        glUniform2f(glGetUniformLocation(feedback_, "jitter"), float(at % 4), float(at / 4));
        glBindFramebuffer(GL_FRAMEBUFFER, targets_[1]);
        glDrawArrays(GL_TRIANGLES, 0, 3);
        glBindBuffer(GL_PIXEL_PACK_BUFFER, buffers_[pictures_ % 2]);
        glReadBuffer(GL_COLOR_ATTACHMENT0);
        glReadPixels(0, 0, width, height, GL_RED_INTEGER, GL_UNSIGNED_INT, nullptr);
        glBindBuffer(GL_PIXEL_PACK_BUFFER, 0);
    }

    // Takes the feedback of the picture before straight from its buffer, and asks for what is
    // planned.
    void plan() {
        glBindBuffer(GL_PIXEL_PACK_BUFFER, buffers_[(pictures_ + 1) % 2]);
        const auto *list = static_cast<const uint32_t *>(glMapBufferRange(
            GL_PIXEL_PACK_BUFFER, 0, GLsizeiptr(wants_bytes()), GL_MAP_READ_BIT));
        if (!list) fail("the card does not give its feedback");
        const size_t count = wants_bytes() / sizeof *list;
        const auto start = Clock::now();
        need(vtex_cache_pass_pages(cache_.get(), list, count,
                                   options_.batch + uint32_t(reads_.size())), "pass");
        vtex_info info{};
        need(vtex_cache_info(cache_.get(), &info), "numbers of the cache");
        std::vector<vtex_load> loads(info.loads + 1);
        loads.resize(vtex_cache_loads(cache_.get(), loads.data(), loads.size()));
        planning_ += milliseconds_since(start);
        bias_->take(list, count);
        glUnmapBuffer(GL_PIXEL_PACK_BUFFER);
        glBindBuffer(GL_PIXEL_PACK_BUFFER, 0);
        for (size_t k = reads_.size(); k < loads.size(); k++) {
            reads_.push_back(loaders_.ask(loads[k].page));
        }
    }

    static int quarter(int side) { return (side + 3) / 4; }
    size_t wants_bytes() const {
        return size_t(quarter(options_.width)) * size_t(quarter(options_.height)) * 4;
    }

    static constexpr uint32_t ROW = 512; // entries in a row of the page table
    const Options &options_;
    const Store &store_;
    const uint32_t square_; // a tile's side with its border
    std::unique_ptr<vtex_cache, void (*)(void *)> cache_;
    Loaders loaders_;
    std::unique_ptr<Bias> bias_;
    std::vector<std::shared_ptr<Read>> reads_; // one for each load under way, in the cache's order
    std::vector<uint16_t> entries_;
    uint32_t pinned_ = 0, columns_ = 0, rows_ = 0;
    GLenum sample_ = GL_UNSIGNED_BYTE;
    GLuint atlas_ = 0, table_ = 0, draw_ = 0, feedback_ = 0;
    GLuint targets_[2] = {}, buffers_[2] = {};
    int pictures_ = 0;
    double drawn_bias_ = 0, settling_ = 0, planning_ = 0, uploading_ = 0;
};

// A flight in a curve over the whole texture; `t` goes from 0 to 1.
Camera flight(const vtex_shape &shape, double t) {
    const double turn = 6.28318530717958648;
    Camera camera;
    camera.heading = 0.6 + 1.2 * std::sin(turn * t);
    camera.pitch = -0.35 - 0.2 * std::sin(9 * t);
    camera.eye[0] = shape.width * (0.1 + 0.8 * t);
    camera.eye[1] = shape.height * (0.3 + 0.25 * std::sin(5 * t));
    camera.eye[2] = 40 + 300 * (0.5 + 0.5 * std::cos(2 * turn * t));
    return camera;
}

} // namespace

int main(int count, char **words) {
    const Options options = options_of(count, words);
    const Store store(options.store);
    Screen screen(options.width, options.height);
    std::printf("%s, OpenGL %s\n", reinterpret_cast<const char *>(glGetString(GL_RENDERER)),
                reinterpret_cast<const char *>(glGetString(GL_VERSION)));
    Engine engine(options, store);
    const bool by_hand = Screen::IS_WINDOW && options.by_hand;
    const int pictures = options.pictures + options.still;
    bool linear = options.linear;
    Camera camera = flight(store.head.shape, 0);
    // Two rounds of feedback without a read: nothing more is wanted where the camera stands.
    const int quiet_enough = 32;
    int quiet = 0;
    Clock::time_point standing;
    for (int i = 0; by_hand || i < pictures; i++) {
        if (!screen.move(camera, linear)) break;
        if (!by_hand) {
            const int at = std::min(i, options.pictures);
            camera = flight(store.head.shape, options.pictures ? double(at) / options.pictures : 0);
        }
        engine.draw(camera, linear);
        screen.show(engine.target());
        const bool is_last = !by_hand && i == pictures - 1;
        quiet = engine.is_reading() ? 0 : quiet + 1;
        if (is_last && options.wait > 0 && quiet < quiet_enough) {
            const auto now = Clock::now();
            if (standing == Clock::time_point()) standing = now;
            if (now - standing < std::chrono::seconds(options.wait)) {
                i--;
                continue;
            }
        }
        if (!options.out.empty() && (is_last || (options.every && i % options.every == 0))) {
            engine.write(!Screen::IS_WINDOW);
        }
    }
    engine.print_times();
    const GLenum error = glGetError();
    if (error != GL_NO_ERROR) fail("OpenGL error " + std::to_string(error));
    return 0;
}
