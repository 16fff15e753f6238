// Writes the tile store of a texture by the rules of docs/FORMATS.md, level by level and sample by sample, apart from the program: for
// textures that are too large for reference.py. It checks its input less than the program does: the number of pages is not limited.
//
// usage: tiles TEXTURE STORE TILE
#include <ctype.h>
#include <errno.h>
#include <stdio.h>
#include <stdlib.h>
#include <string.h>

typedef struct {
    long width, height;
    unsigned char *bytes;
} Level;

enum { MOST_SIDE = 16384, MOST_MAXIMUM = 65535 };

static long depth, tile;

static void end(const char *name, const char *flaw) {
    fprintf(stderr, "tiles: %s: %s\n", name, flaw);
    exit(1);
}

static int is_space(int byte) { return byte == ' ' || byte == '\t' || byte == '\n' || byte == '\r'; }

// Reads a gap, which is white space and then white space and comments, and the number behind it, and leaves what follows.
static long number_of(FILE *file, const char *name) {
    int byte = fgetc(file);
    if (!is_space(byte)) end(name, "the header is not P6 and three numbers with white space before each");
    while (is_space(byte) || byte == '#') {
        if (byte == '#') do byte = fgetc(file); while (byte != EOF && byte != '\n' && byte != '\r');
        else byte = fgetc(file);
    }
    long number = 0, digits = 0;
    for (; isdigit(byte); byte = fgetc(file)) {
        if (++digits > 10) end(name, "a number of the header has more than 10 digits");
        number = 10 * number + byte - '0';
    }
    if (!digits) end(name, "the header is not P6 and three numbers with white space before each");
    ungetc(byte, file);
    return number;
}

static unsigned char *place(const Level *level, long x, long y, long channel) {
    if (x >= level->width) x = level->width - 1;
    if (y >= level->height) y = level->height - 1;
    return level->bytes + depth * (3 * (y * level->width + x) + channel);
}

static long sample(const unsigned char *at) { return depth == 1 ? at[0] : 256 * at[0] + at[1]; }

static void put(unsigned char *at, long value) {
    if (depth == 2) *at++ = value / 256;
    *at = value % 256;
}

static Level level_of(long width, long height) {
    Level level = {width, height, malloc(3 * depth * width * height)};
    if (!level.bytes) end("level", "out of memory");
    return level;
}

static Level halve(const Level *fine) {
    Level level = level_of((fine->width + 1) / 2, (fine->height + 1) / 2);
    for (long y = 0; y < level.height; y++)
        for (long x = 0; x < level.width; x++)
            for (long c = 0; c < 3; c++) {
                long sum = sample(place(fine, 2 * x, 2 * y, c)) + sample(place(fine, 2 * x + 1, 2 * y, c));
                sum += sample(place(fine, 2 * x, 2 * y + 1, c)) + sample(place(fine, 2 * x + 1, 2 * y + 1, c));
                put(place(&level, x, y, c), (sum + 2) / 4);
            }
    return level;
}

static Level texture_of(const char *name) {
    FILE *file = fopen(name, "rb");
    if (!file) end(name, strerror(errno));
    if (fgetc(file) != 'P' || fgetc(file) != '6') end(name, "it is no raw PPM texture, which begins with P6");
    long width = number_of(file, name), height = number_of(file, name), most = number_of(file, name);
    if (!is_space(fgetc(file))) end(name, "there is no white space behind the header");
    if (width < 1 || width > MOST_SIDE || height < 1 || height > MOST_SIDE) end(name, "its sides are not from 1 to 16384");
    if (most < 1 || most > MOST_MAXIMUM) end(name, "its maximum is not from 1 to 65535");
    depth = most < 256 ? 1 : 2;
    Level level = level_of(width, height);
    size_t length = 3 * depth * width * height;
    if (fread(level.bytes, 1, length, file) != length) end(name, "its raster is cut off");
    fclose(file);
    long top = depth == 1 ? 255 : 65535;
    for (unsigned char *at = level.bytes; at < level.bytes + length; at += depth) {
        if (sample(at) > most) end(name, "it has a sample over its maximum");
        put(at, (sample(at) * top + most / 2) / most);
    }
    return level;
}

static void put_number(FILE *file, long number) {
    for (int shift = 24; shift >= 0; shift -= 8) fputc(number >> shift & 255, file);
}

static void put_tiles(FILE *file, const Level *level) {
    for (long top = 0; top < level->height; top += tile)
        for (long left = 0; left < level->width; left += tile)
            for (long y = top; y < top + tile; y++)
                for (long x = left; x < left + tile; x++)
                    for (long i = 0; i < 3 * depth; i++) putc_unlocked(place(level, x, y, 0)[i], file);
}

int main(int count, char **words) {
    if (count == 4) tile = atol(words[3]);
    if (tile < 2 || tile > 128 || tile & (tile - 1)) {
        fprintf(stderr, "usage: tiles TEXTURE STORE TILE    (TILE is 2, 4, 8, 16, 32, 64 or 128)\n");
        return 2;
    }
    Level level = texture_of(words[1]);
    FILE *file = fopen(words[2], "wb");
    if (!file) end(words[2], strerror(errno));
    fprintf(file, "VTS%ld", depth);
    put_number(file, level.width);
    put_number(file, level.height);
    put_number(file, tile);
    put_tiles(file, &level);
    while (level.width > tile || level.height > tile) {
        Level coarse = halve(&level);
        free(level.bytes);
        level = coarse;
        put_tiles(file, &level);
    }
    if (ferror(file) | fclose(file)) end(words[2], "it could not be written whole");
    return 0;
}
