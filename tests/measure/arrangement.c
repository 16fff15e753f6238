// usage: arrangement plain TEXTURE PATH PREFIX [keep] [FORM] | arrangement tile TEXTURE STORE [FORM [REST [ROOMS]]]
// (cc -O3 -pthread arrangement.c -o arrangement)
//
// What `plain` and `tile` take in C where they arrange their work as the program may: threads are forked and joined, one of them reads the
// texture, one writes files in their order, and room is written before it is read into. A strip is read while the one before it is halved, and
// added while the next one is. `plain` keeps level 0 only by `keep`, for a path that sees it. The files are those of the program.
//
// A form is another arrangement. Of `tile` it is `now`, the program's own, or stages of rounds, as `r,h,c,a`: those for level 0, and in REST, without
// `r`, for the levels behind it, with so many rooms between them. `r` reads strips, `h` halves them, `c` cuts them, and `a` adds their tiles. A comma
// begins a stage, which has a thread of its own. In the first one `f` has it fork and join threads for its strip, and `x` has two threads do it in
// turn. Of the whole, `k` has each strip carry its tiles, and `!` gives the last stage a new thread. Of `plain` a form is how many threads draw, and
// how many rooms each has, as `32`; `lr,h` behind it reads and halves the texture in rounds. Rounds end: `take` looks a bounded number of times.
//
// It takes what tests/measure/run.py makes: one byte a sample, the maximum 255, one flight along the columns, a tile side of 64.
#include <arpa/inet.h>
#include <fcntl.h>
#include <pthread.h>
#include <sched.h>
#include <stdatomic.h>
#include <stdint.h>
#include <stdio.h>
#include <stdlib.h>
#include <string.h>
#include <unistd.h>

enum { THREADS = 4, ROWS = 128, SIDE = 64, TILE = 3 * SIDE * SIDE, GROUP_PIXELS = 1048576, THREAD_PIXELS = 100000, MOST_JOBS = 8, WORTH = 200000 };

typedef struct {
    void (*run)(void *);
    void *with;
} Job;

static void *run_job(void *given) {
    Job *job = given;
    job->run(job->with);
    return NULL;
}

// Runs the first job in this thread, and each other one in a thread of its own.
static void fork_join(Job *jobs, int count) {
    pthread_t threads[MOST_JOBS];
    for (int i = 1; i < count; i++) pthread_create(&threads[i], NULL, run_job, &jobs[i]);
    jobs[0].run(jobs[0].with);
    for (int i = 1; i < count; i++) pthread_join(threads[i], NULL);
}

static uint8_t *room_of(size_t size) {
    uint8_t *room = malloc(size);
    if (!room) exit(3);
    return memset(room, 0, size);
}

static int least(int a, int b) { return a < b ? a : b; }

// The texture, and the sides and samples of its levels.
static int texture, levels, width[16], height[16];
static off_t raster;
static uint8_t *samples[16];

static size_t row_size(int level) { return 3 * (size_t)width[level]; }

static void open_texture(const char *name) {
    char head[64] = {0};
    int length = 0;
    texture = open(name, O_RDONLY);
    if (pread(texture, head, 63, 0) < 0 || sscanf(head, "P6 %d %d 255%n", &width[0], &height[0], &length) != 2) exit(4);
    raster = length + 1;
    for (levels = 1; width[levels - 1] > SIDE || height[levels - 1] > SIDE; levels++) {
        width[levels] = (width[levels - 1] + 1) / 2;
        height[levels] = (height[levels - 1] + 1) / 2;
    }
}

static void write_all(int file, const uint8_t *bytes, size_t size) {
    while (size) {
        ssize_t part = write(file, bytes, size);
        if (part <= 0) exit(3);
        bytes += part;
        size -= (size_t)part;
    }
}

// So many rows of a level, from one on.
typedef struct {
    int level, first, count, threads;
    uint8_t *rows, *out;
} Rows;

static void read_rows(void *given) {
    Rows *it = given;
    size_t size = row_size(0) * it->count, done = 0;
    while (done < size) {
        ssize_t part = pread(texture, it->rows + done, size - done, raster + (off_t)(row_size(0) * it->first + done));
        if (part <= 0) exit(3);
        done += (size_t)part;
    }
}

static void keep_rows(void *given) {
    Rows *it = given;
    memcpy(it->out, it->rows, row_size(0) * it->count);
}

// Halves rows, of which the first is even; an odd last row or column counts twice.
static void halve_rows(void *given) {
    Rows *it = given;
    size_t size = row_size(it->level), half = row_size(it->level + 1);
    int columns = width[it->level];
    for (int y = 0; y < it->count; y += 2) {
        const uint8_t *top = it->rows + size * y, *bottom = it->rows + size * least(y + 1, it->count - 1);
        uint8_t *out = it->out + half * (y / 2);
        for (int x = 0; x < columns / 2; x++)
            for (int c = 0; c < 3; c++)
                out[3 * x + c] = (uint8_t)((top[6 * x + c] + top[6 * x + 3 + c] + bottom[6 * x + c] + bottom[6 * x + 3 + c] + 2) >> 2);
        if (columns % 2)
            for (int c = 0, last = 3 * (columns - 1); c < 3; c++) out[last / 2 + c] = (uint8_t)((2 * top[last + c] + 2 * bottom[last + c] + 2) >> 2);
    }
}

// Writes the room for their half first, and then halves them in so many threads.
static void halve_in_threads(void *given) {
    Rows *it = given, parts[MOST_JOBS];
    Job jobs[MOST_JOBS];
    int pairs = (it->count + 1) / 2, threads = least(it->threads, pairs);
    memset(it->out, 0, row_size(it->level + 1) * pairs);
    for (int i = 0; i < threads; i++) {
        int from = pairs * i / threads, to = pairs * (i + 1) / threads;
        parts[i] = (Rows){it->level, 0, least(2 * (to - from), it->count - 2 * from), 1, it->rows + row_size(it->level) * 2 * from,
                          it->out + row_size(it->level + 1) * from};
        jobs[i] = (Job){halve_rows, &parts[i]};
    }
    fork_join(jobs, threads);
}

// Reads the texture by strips, and makes its levels.
static void read_levels(int keep) {
    int strips = (height[0] + ROWS - 1) / ROWS;
    uint8_t *front = room_of(row_size(0) * ROWS), *back = room_of(row_size(0) * ROWS);
    if (keep) samples[0] = malloc(row_size(0) * height[0]);
    samples[1] = malloc(row_size(1) * height[1]);
    Rows read = {0, 0, least(ROWS, height[0]), 1, front, NULL};
    read_rows(&read);
    for (int strip = 0; strip < strips; strip++) {
        int first = strip * ROWS, count = least(ROWS, height[0] - first), next = first + ROWS, used = 0;
        Rows half = {0, first, count, THREADS - 1 - keep, front, samples[1] + row_size(1) * (first / 2)};
        Rows kept = {0, first, count, 1, front, samples[0] + (keep ? row_size(0) * first : 0)};
        Job jobs[MOST_JOBS];
        if (next < height[0]) {
            read = (Rows){0, next, least(ROWS, height[0] - next), 1, back, NULL};
            jobs[used++] = (Job){read_rows, &read};
        }
        jobs[used++] = (Job){halve_in_threads, &half};
        if (keep) jobs[used++] = (Job){keep_rows, &kept};
        fork_join(jobs, used);
        uint8_t *other = front;
        front = back;
        back = other;
    }
    for (int level = 2; level < levels; level++) {
        int worth = 3 * width[level] * height[level] / 100000;
        samples[level] = malloc(row_size(level) * height[level]);
        Rows half = {level - 1, 0, height[level - 1], worth < 2 ? 1 : least(worth, THREADS), samples[level - 1], samples[level]};
        halve_in_threads(&half);
    }
}

// The flight, and the files of its pictures.
static int columns, lines, pictures = 1, focal, header_size;
static int64_t begin_u, end_u, v, h, c, s;
static char header[64];
static size_t file_size;
static const char *prefix;

static void read_path(const char *name) {
    FILE *file = fopen(name, "r");
    if (!file || fscanf(file, "size %d %d focal %d at %ld %ld %ld %ld %ld ", &columns, &lines, &focal, &begin_u, &v, &h, &c, &s) != 8) exit(4);
    if (fscanf(file, "to %d %ld", &pictures, &end_u) == 2) pictures++;
    fclose(file);
    header_size = sprintf(header, "P6\n%d %d\n255\n", columns, lines);
    file_size = (size_t)header_size + 3 * (size_t)columns * lines;
}

// Whole turns of a ring of texels that outweigh each place of the ground; and a ring as the program finds places on it.
static int64_t turns(int64_t side) { return (1073741824 / side + 1) * 256 * side; }

typedef struct {
    int64_t middle, across;
    uint64_t part, turn;
} Ring;

static Ring ring_of(int64_t middle, int64_t across, int side, int level) {
    return (Ring){middle, across, UINT64_MAX / (256 * (uint64_t)side) + 1, (uint64_t)side << (16 - level)};
}

static uint64_t place_on(const Ring *ring, int64_t off) {
    return (uint64_t)(((unsigned __int128)(((uint64_t)(ring->middle + off * ring->across) >> 15) * ring->part) * ring->turn) >> 80);
}

static void draw_row(int64_t u, int y, uint8_t *out) {
    int64_t distance = h * focal / (y + 1), span = h / (y + 1);
    int level = span < 256 ? 0 : least(63 - __builtin_clzll((uint64_t)span / 256), levels - 1), last = columns - 1;
    const Ring across = ring_of((u + ((distance * c) >> 14) + turns(width[0])) * 32768 + 32767, -span * s, width[0], level);
    const Ring along = ring_of((v + ((distance * s) >> 14) + turns(height[0])) * 32768, span * c, height[0], level);
    const uint8_t *from = samples[level];
    size_t size = row_size(level);
    for (int x = 0; x <= last; x++) {
        const uint8_t *texel = from + size * place_on(&along, 2 * x - last) + 3 * place_on(&across, 2 * x - last);
        for (int i = 0; i < 3; i++) out[3 * x + i] = texel[i];
    }
}

// Pictures from one on to another, or rows of one.
typedef struct {
    int first, end, top, bottom, threads;
    uint8_t *room;
} Pictures;

static void draw(void *given) {
    Pictures *it = given;
    for (int picture = it->first; picture < it->end; picture++) {
        uint8_t *file = it->room + file_size * (picture - it->first);
        int64_t u = pictures < 2 ? begin_u : begin_u + (end_u - begin_u) * picture / (pictures - 1);
        memcpy(file, header, (size_t)header_size);
        for (int y = it->top; y < it->bottom; y++) draw_row(u, y, file + header_size + 3 * (size_t)columns * y);
    }
}

static void draw_in_threads(void *given) {
    Pictures *it = given, parts[MOST_JOBS];
    Job jobs[MOST_JOBS] = {{NULL, NULL}};
    int count = it->end - it->first, threads = count == 1 ? it->threads : least(it->threads, count);
    for (int i = 0; i < threads; i++) {
        int from = count * i / threads, to = count * (i + 1) / threads;
        parts[i] = count == 1 ? (Pictures){it->first, it->end, lines * i / threads, lines * (i + 1) / threads, 1, it->room}
                              : (Pictures){it->first + from, it->first + to, 0, lines, 1, it->room + file_size * from};
        jobs[i] = (Job){draw, &parts[i]};
    }
    fork_join(jobs, threads);
}

static void write_pictures(void *given) {
    Pictures *it = given;
    char name[256];
    for (int picture = it->first; picture < it->end; picture++) {
        snprintf(name, sizeof name, "%s%04d.ppm", prefix, picture);
        int file = open(name, O_WRONLY | O_CREAT | O_TRUNC, 0666);
        write_all(file, it->room + file_size * (picture - it->first), file_size);
        close(file);
    }
}

// Some pictures are written while the next ones are drawn.
static void plain(void) {
    int pixels = columns * lines, most = GROUP_PIXELS / pixels, group = 1;
    if (most > 1 && pictures > 1) group = least(least((THREADS - 1) * (THREAD_PIXELS / pixels + 1), most), pictures);
    uint8_t *front = room_of(file_size * group), *back = room_of(group < pictures && group > 1 ? file_size * group : 0);
    Pictures drawn = {0, least(group, pictures), 0, lines, THREADS, front};
    draw_in_threads(&drawn);
    while (drawn.first < pictures) {
        Pictures next = {drawn.end, least(drawn.end + group, pictures), 0, lines, THREADS - 1, back};
        Job jobs[] = {{write_pictures, &drawn}, {draw_in_threads, &next}};
        if (next.first == next.end) {
            write_pictures(&drawn);
        } else if (group == 1) {
            write_pictures(&drawn);
            next.room = front;
            next.threads = THREADS;
            draw_in_threads(&next);
        } else {
            fork_join(jobs, 2);
            back = drawn.room;
        }
        drawn = next;
    }
}

static int store;

static void cut_rows(void *given) {
    Rows *it = given;
    size_t size = row_size(it->level);
    for (int line = 0; line < SIDE; line++) {
        const uint8_t *row = it->rows + size * least(line, it->count - 1);
        for (int from = 0; from < width[it->level]; from += SIDE) {
            uint8_t *out = it->out + (size_t)from / SIDE * TILE + 3 * SIDE * line;
            int inside = least(SIDE, width[it->level] - from);
            memcpy(out, row + 3 * from, 3 * (size_t)inside);
            for (int x = inside; x < SIDE; x++) memcpy(out + 3 * x, out + 3 * (inside - 1), 3);
        }
    }
}

static size_t tiles_size(int level) { return (size_t)(width[level] + SIDE - 1) / SIDE * TILE; }

static void add_tiles(void *given) {
    Rows *it = given;
    write_all(store, it->out, tiles_size(it->level));
}

// Each row of tiles of a level is made while the one before it is added. Of level 0 the next strip is read meanwhile.
static void tile_level(int level, uint8_t *front, uint8_t *back, uint8_t *tiles, uint8_t *others) {
    Rows added = {level, 0, 0, 1, NULL, NULL};
    if (level + 1 < levels) samples[level + 1] = malloc(row_size(level + 1) * height[level + 1]);
    for (int first = 0; first < height[level]; first += SIDE) {
        int count = least(SIDE, height[level] - first), next = first + SIDE, used = 0;
        uint8_t *rows = level ? samples[level] + row_size(level) * first : front;
        Rows read = {0, next, least(SIDE, height[0] - next), 1, back, NULL}, cut = {level, first, count, 1, rows, tiles};
        Rows half = {level, first, count, 1, rows, level + 1 < levels ? samples[level + 1] + row_size(level + 1) * (first / 2) : NULL};
        Job jobs[MOST_JOBS];
        if (added.out) jobs[used++] = (Job){add_tiles, &added};
        jobs[used++] = (Job){cut_rows, &cut};
        if (!level && next < height[0]) jobs[used++] = (Job){read_rows, &read};
        if (half.out) jobs[used++] = (Job){halve_in_threads, &half};
        fork_join(jobs, used);
        added = cut;
        uint8_t *other = tiles;
        tiles = others;
        others = other;
        if (!level) {
            other = front;
            front = back;
            back = other;
        }
    }
    add_tiles(&added);
}

// The program's own arrangement: a row of tiles is added while the next strip is read and room for its half is written; then it is halved beside
// being cut. Behind level 0 a row of tiles is cut, and added while its rows are halved, into the room of their own level.
static void make_half_room(void *given) {
    Rows *it = given;
    memset(it->out, 0, row_size(it->level + 1) * ((it->count + 1) / 2));
}

static void tile_as_the_program(uint8_t *rows, uint8_t *front, uint8_t *back) {
    Rows added = {0, 0, 0, 1, NULL, NULL};
    samples[1] = malloc(row_size(1) * height[1]);
    for (int first = 0; first < height[0]; first += SIDE) {
        int count = least(SIDE, height[0] - first);
        Rows read = {0, first, count, 1, rows, NULL}, half = {0, first, count, 1, rows, samples[1] + row_size(1) * (first / 2)};
        Rows cut = {0, first, count, 1, rows, front};
        Job reading[] = {{add_tiles, &added}, {read_rows, &read}, {make_half_room, &half}}, making[] = {{cut_rows, &cut}, {halve_rows, &half}};
        if (added.out) fork_join(reading, 3);
        else make_half_room(&half), read_rows(&read);
        fork_join(making, 2);
        added = cut;
        uint8_t *other = front;
        front = back;
        back = other;
    }
    add_tiles(&added);
    for (int level = 1; level < levels; level++) {
        samples[level] = samples[1];
        for (int first = 0; first < height[level]; first += SIDE) {
            uint8_t *from = samples[level] + row_size(level) * first;
            Rows cut = {level, first, least(SIDE, height[level] - first), 1, from, front};
            Rows half = {level, first, cut.count, 1, from, level + 1 < levels ? samples[1] + row_size(level + 1) * (first / 2) : NULL};
            Job jobs[] = {{add_tiles, &cut}, {halve_rows, &half}};
            cut_rows(&cut);
            fork_join(jobs, half.out && tiles_size(level) > WORTH ? 2 : 1);
            if (half.out && tiles_size(level) <= WORTH) halve_rows(&half);
        }
    }
}

// Rounds: stages are forked and joined, and hand strips and rows of tiles on by queues with one thread at each end. A stage looks a bounded number
// of times for what it needs, and then ends its part of the round. It keeps what it has, and goes on in the next round.
enum { ROOMS = 8, SPINS = 200, YIELDS = 1000000, MOST_STAGES = 5 };

typedef struct {
    uint8_t *items[ROOMS];
    _Alignas(128) atomic_uint put;
    _Alignas(128) atomic_uint taken;
} Queue;

static void put(Queue *queue, uint8_t *item) {
    unsigned at = atomic_load_explicit(&queue->put, memory_order_relaxed);
    queue->items[at % ROOMS] = item;
    atomic_store_explicit(&queue->put, at + 1, memory_order_release);
}

static uint8_t *take(Queue *queue) {
    unsigned at = atomic_load_explicit(&queue->taken, memory_order_relaxed);
    for (int look = 0; look < SPINS + YIELDS; look++) {
        if (atomic_load_explicit(&queue->put, memory_order_acquire) != at) {
            uint8_t *item = queue->items[at % ROOMS];
            atomic_store_explicit(&queue->taken, at + 1, memory_order_release);
            return item;
        }
        if (look < SPINS) __builtin_ia32_pause();
        else sched_yield();
    }
    return NULL;
}

// A stage reads strips (r), halves them (h), cuts them (c) or adds their tiles (a), or some of these. Where a stage stands several times, each does
// every so many strips.
typedef struct {
    int reads, halves, cuts, adds, forks, carries, every, twins, strip;
    Queue *strips_from, *strips_to, *tiles_from, *tiles_to;
    uint8_t *rows, *tiles, *ahead;
} Stage;

static int stage_level;

static int strips_of(int level) { return (height[level] + SIDE - 1) / SIDE; }

static void halve_with_room(void *given) {
    make_half_room(given);
    halve_rows(given);
}

// Cuts and halves a strip and reads the next one, in threads that are joined.
static void make_and_read(Stage *it, Rows *work) {
    if (!it->ahead) it->ahead = room_of(row_size(0) * SIDE), read_rows(work);
    int next = work->first + SIDE;
    Rows cut = {0, work->first, work->count, 1, work->rows, it->tiles}, read = {0, next, least(SIDE, height[0] - next), 1, it->ahead, NULL};
    Rows half = {0, work->first, work->count, 1, work->rows, samples[1] + row_size(1) * (work->first / 2)};
    Job jobs[] = {{cut_rows, &cut}, {halve_with_room, &half}, {read_rows, &read}};
    fork_join(jobs, next < height[0] ? 3 : 2);
    it->ahead = work->rows;
    it->rows = read.rows;
    put(it->tiles_to, it->tiles);
    it->tiles = NULL;
}

static void run_stage(void *given) {
    Stage *it = given;
    int level = stage_level;
    for (; it->strip < strips_of(level); it->strip += it->every) {
        int first = it->strip * SIDE, count = least(SIDE, height[level] - first);
        if (it->strips_from && !it->rows && !(it->rows = take(it->strips_from))) return;
        if (it->tiles_from && !it->tiles && !(it->tiles = take(it->tiles_from + it->strip % it->twins))) return;
        if (it->carries) it->tiles = it->rows + row_size(0) * SIDE;
        uint8_t *rows = level ? samples[level] + row_size(level) * first : it->rows;
        Rows work = {level, first, count, 1, rows, NULL};
        if (it->forks) {
            make_and_read(it, &work);
            continue;
        }
        if (it->reads && !level) read_rows(&work);
        work.out = it->tiles;
        if (it->cuts) cut_rows(&work);
        if (it->adds) add_tiles(&work);
        work.out = level + 1 < levels ? samples[level + 1] + row_size(level + 1) * (first / 2) : NULL;
        if (it->halves && work.out) {
            if (!level) make_half_room(&work);
            halve_rows(&work);
        }
        if (it->strips_from) put(it->strips_to, it->rows), it->rows = NULL;
        if (it->tiles_from) put(it->tiles_to + it->strip % it->twins, it->tiles), it->tiles = NULL;
    }
}

// Tiles a level by rounds of the stages of a form. The last stage is this thread's.
static void tile_in_rounds(int level, const char *form, int room_count, uint8_t **rooms, uint8_t **tile_rooms) {
    static Queue queues[16];
    Stage stages[MOST_STAGES] = {{0}};
    Job jobs[MOST_JOBS];
    Queue *free_tiles = &queues[8], *full_tiles = &queues[10];
    int count = 0, strip_stages[MOST_STAGES], strips = 0, cutter = -1, adder = -1, twins = 1, turned = 0, carries = 0;
    memset(queues, 0, sizeof queues);
    for (const char *at = form; *at; at++) {
        Stage *it = &stages[count];
        it->every = it->twins = 1;
        if (*at == 'r') it->reads = 1;
        if (*at == 'h') it->halves = 1;
        if (*at == 'c') it->cuts = 1, cutter = count;
        if (*at == 'a') it->adds = 1, adder = count;
        if (*at == 'x') twins = 2;
        if (*at == 'f') it->forks = 1;
        if (*at == 'k') carries = 1;
        if (*at == '!') turned = 1;
        if (*at == ',') count++;
    }
    count++;
    for (int i = 0; i < count; i++)
        if (carries || stages[i].reads || stages[i].halves || stages[i].cuts) strip_stages[strips++] = i;
    for (int i = 0; i < count; i++) stages[i].carries = carries;
    // Strips go round: from each stage to the next one, and back to the first.
    for (int i = 0; i < strips; i++) {
        stages[strip_stages[i]].strips_from = &queues[i];
        stages[strip_stages[i]].strips_to = &queues[(i + 1) % strips];
    }
    if (carries) cutter = adder = -1;
    if (cutter >= 0) stages[cutter].tiles_from = free_tiles, stages[cutter].tiles_to = cutter == adder ? free_tiles : full_tiles;
    if (adder >= 0 && cutter != adder) stages[adder].tiles_from = full_tiles, stages[adder].tiles_to = free_tiles;
    if (twins == 2) {
        stages[2] = stages[1];
        stages[2].twins = 2;
        stages[1] = stages[0];
        stages[0].every = stages[1].every = 2;
        stages[1].strip = 1;
        stages[1].strips_from = stages[1].strips_to = &queues[1];
        stages[1].tiles_from = &free_tiles[1];
        stages[1].tiles_to = &full_tiles[1];
        count = 3;
    }
    for (int i = 0; i < room_count * twins; i++) {
        put(&queues[i % twins], rooms[i]);
        put(&free_tiles[i % twins], tile_rooms[i]);
    }
    stage_level = level;
    for (int left = 1; left;) {
        for (int i = 0; i < count; i++) jobs[i] = (Job){run_stage, &stages[turned ? i : count - 1 - i]};
        fork_join(jobs, count);
        left = 0;
        for (int i = 0; i < count; i++) left |= stages[i].strip < strips_of(level);
    }
}

static void tile(const char *name, const char *form, const char *rest, int room_count) {
    uint8_t *front = room_of(row_size(0) * SIDE), *back = room_of(row_size(0) * SIDE);
    uint8_t *tiles = room_of(tiles_size(0)), *others = room_of(tiles_size(0));
    Rows read = {0, 0, least(SIDE, height[0]), 1, front, NULL};
    uint32_t sides[] = {htonl((uint32_t)width[0]), htonl((uint32_t)height[0]), htonl(SIDE)};
    store = open(name, O_WRONLY | O_CREAT | O_TRUNC, 0666);
    write_all(store, (const uint8_t *)"VTS1", 4);
    write_all(store, (const uint8_t *)sides, sizeof sides);
    if (!form) {
        read_rows(&read);
        for (int level = 0; level < levels; level++) tile_level(level, front, back, tiles, others);
    } else if (!strcmp(form, "now")) {
        tile_as_the_program(front, tiles, others);
    } else {
        uint8_t *rooms[2 * ROOMS], *tile_rooms[2 * ROOMS];
        for (int i = 0; i < 2 * room_count; i++) rooms[i] = malloc(row_size(0) * SIDE + tiles_size(0)), tile_rooms[i] = malloc(tiles_size(0));
        samples[1] = malloc(row_size(1) * height[1]);
        for (int level = 2; level < levels; level++) samples[level] = samples[1];
        for (int level = 0; level < levels; level++) {
            tile_in_rounds(level, level ? tiles_size(level) > WORTH ? rest : "cah" : form, room_count, rooms, tile_rooms);
        }
    }
    close(store);
}

// Pictures, or bands of one, are drawn by some threads in turn, each into rooms of its own, while the first thread writes what is drawn, in order.
enum { BAND = 64 };

typedef struct {
    int first, every, bands;
    Queue *from, *to;
    uint8_t *room;
} Drawer;

static int band_line(int band, int bands) { return bands == 1 ? band * lines : least(band * BAND, lines); }

static void draw_turn(void *given) {
    Drawer *it = given;
    for (; it->first < pictures * it->bands; it->first += it->every) {
        int picture = it->first / it->bands, band = it->first % it->bands;
        int64_t u = pictures < 2 ? begin_u : begin_u + (end_u - begin_u) * picture / (pictures - 1);
        if (!it->room && !(it->room = take(it->from))) return;
        uint8_t *out = it->room;
        if (band == 0) memcpy(out, header, (size_t)header_size), out += header_size;
        for (int y = band_line(band, it->bands); y < band_line(band + 1, it->bands); y++, out += 3 * (size_t)columns) draw_row(u, y, out);
        put(it->to, it->room);
        it->room = NULL;
    }
}

static void write_turn(void *given) {
    Drawer *it = given;
    static int file;
    char name[256];
    for (; it->first < pictures * it->bands; it->first++) {
        int picture = it->first / it->bands, band = it->first % it->bands, drawer = it->first % it->every;
        uint8_t *room = take(it->from + drawer);
        if (!room) return;
        if (band == 0) {
            snprintf(name, sizeof name, "%s%04d.ppm", prefix, picture);
            file = open(name, O_WRONLY | O_CREAT | O_TRUNC, 0666);
        }
        write_all(file, room, 3 * (size_t)columns * (band_line(band + 1, it->bands) - band_line(band, it->bands)) + (band == 0 ? header_size : 0));
        if (band + 1 == it->bands) close(file);
        put(it->to + drawer, room);
    }
}

// The form says how many threads draw, and in how many rooms each.
static void plain_in_rounds(const char *form) {
    static Queue empty[MOST_JOBS], full[MOST_JOBS];
    int drawers = form[0] - '0', room_count = form[1] - '0', bands = file_size < 3 * GROUP_PIXELS ? 1 : (lines + BAND - 1) / BAND;
    Drawer stages[MOST_JOBS], writer = {0, drawers, bands, full, empty, NULL};
    Job jobs[MOST_JOBS] = {{write_turn, &writer}};
    for (int i = 0; i < drawers; i++) {
        stages[i] = (Drawer){i, drawers, bands, &empty[i], &full[i], NULL};
        jobs[i + 1] = (Job){draw_turn, &stages[i]};
        for (int k = 0; k < room_count; k++) put(&empty[i], malloc(bands == 1 ? file_size : (size_t)header_size + 3 * (size_t)columns * BAND));
    }
    for (; writer.first < pictures * bands;) fork_join(jobs, drawers + 1);
}

// Makes the levels from 1 on: strips are read and halved in rounds.
static void read_levels_in_rounds(const char *form) {
    uint8_t *rooms[2 * ROOMS], *none[2 * ROOMS] = {NULL};
    for (int i = 0; i < 2 * ROOMS; i++) rooms[i] = malloc(row_size(0) * SIDE);
    samples[1] = malloc(row_size(1) * height[1]);
    tile_in_rounds(0, form, ROOMS, rooms, none);
    for (int level = 2; level < levels; level++) {
        int worth = 3 * width[level] * height[level] / 100000;
        samples[level] = malloc(row_size(level) * height[level]);
        Rows half = {level - 1, 0, height[level - 1], worth < 2 ? 1 : least(worth, THREADS), samples[level - 1], samples[level]};
        halve_in_threads(&half);
    }
}

int main(int count, char **words) {
    if (count < 4 || (strcmp(words[1], "tile") && (strcmp(words[1], "plain") || count < 5))) return 2;
    open_texture(words[2]);
    if (!strcmp(words[1], "tile")) {
        tile(words[3], count > 4 ? words[4] : NULL, count > 5 ? words[5] : "ch,a", count > 6 ? atoi(words[6]) : 3);
        return 0;
    }
    read_path(words[3]);
    prefix = words[4];
    int keep = count > 5 && !strcmp(words[5], "keep");
    if (count > 5 + keep && strchr(words[5 + keep], 'l')) read_levels_in_rounds(strchr(words[5 + keep], 'l') + 1);
    else read_levels(keep);
    if (count > 5 + keep) plain_in_rounds(words[5 + keep]);
    else plain();
    return 0;
}
