/* What the tests of the cache for engines share. */
#ifndef CHECK_H
#define CHECK_H
#include "vtex.h"
#include <stdio.h>
#include <stdlib.h>
#include <string.h>

static int wrong;

/* Tells a line whose condition does not hold. */
#define CHECK(c) do { if (!(c)) { printf("%s:%d: %s\n", __FILE__, __LINE__, #c); wrong = 1; } } while (0)

/* A texture of 4 by 4 texels in pages of 2 by 2: pages 0 to 3 over the root 4. */
static const vtex_shape four = {4, 4, 2};
/* Tile sides are powers of two. */
static const vtex_shape odd = {4, 4, 3};

static inline int ended(const char *name) {
    printf("%s: %s\n", name, wrong ? "WRONG" : "as expected");
    return wrong;
}
#endif
