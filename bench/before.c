/* Times of `spline_filter`, `shift` and `zoom` in two libraries, turn by turn, the best of each. */
#define _POSIX_C_SOURCE 200809L
#include <dlfcn.h>
#include <math.h>
#include <stdio.h>
#include <stdlib.h>
#include <string.h>
#include <time.h>

#include "../host/vurelika/common/resampler.h"
#include "vurelika.h"

typedef uint32_t filter(size_t, size_t, size_t, size_t, uint32_t, double, const double *, size_t, double *,
                        size_t);

struct library {
    filter *spline_filter;
    resampler *shift, *zoom;
    size_t counts_len; /* places of counts that it asks for */
};

enum { MOST = 96, VOXELS = MOST * MOST * MOST };

static double input[VOXELS];
static double output[2][VOXELS];
static uint8_t coverage[VOXELS];

static void find(void *opened, const char *name, void *function)
{
    void *symbol = opened != NULL ? dlsym(opened, name) : NULL;

    if (symbol == NULL) {
        fprintf(stderr, "%s\n", dlerror());
        exit(1);
    }
    memcpy(function, &symbol, sizeof symbol);
}

/* Without prefilter, so that no work is needed. */
static uint32_t resample(const struct library *of, resampler *function, size_t order, uint32_t mode,
                         size_t side, const double factors[3], double *to, size_t places)
{
    uint64_t counts[VURELIKA_CODES];

    return function(side, side, side, factors[0], factors[1], factors[2], order, 0, mode, 0.0, input,
                    side * side * side, to, places, coverage, places, NULL, 0, counts,
                    of->counts_len);
}

static struct library open_library(const char *path)
{
    static const double still[3];
    void *opened = dlopen(path, RTLD_NOW | RTLD_LOCAL);
    struct library found = {.counts_len = VURELIKA_CODES};

    find(opened, "vurelika_spline_filter", &found.spline_filter);
    find(opened, "vurelika_shift", &found.shift);
    find(opened, "vurelika_zoom", &found.zoom);
    /* before document 02's #103 counts had three places */
    if (resample(&found, found.shift, 1, VURELIKA_MIRROR, 2, still, output[0], 8) == VURELIKA_BUFFER)
        found.counts_len = 3;
    return found;
}

/* What is measured, on a cube. */
typedef uint32_t call(const struct library *of, size_t order, size_t side, double *to);

static uint32_t spline_filter(const struct library *of, size_t order, size_t side, double *to)
{
    size_t voxels = side * side * side;

    return of->spline_filter(side, side, side, order, VURELIKA_MIRROR, 0.0, input, voxels, to, voxels);
}

static uint32_t shift(const struct library *of, size_t order, size_t side, double *to)
{
    static const double by[3] = {0.3, 0.3, 0.3};

    return resample(of, of->shift, order, VURELIKA_MIRROR, side, by, to, side * side * side);
}

/* In Constant, by so much that of a side of 96 three quarters are filled. */
static uint32_t fill(const struct library *of, size_t order, size_t side, double *to)
{
    static const double by[3] = {0.0, 0.0, 72.0};

    return resample(of, of->shift, order, VURELIKA_CONSTANT, side, by, to, side * side * side);
}

/* To 98 by 95 by 94, from a side of 96. */
static uint32_t zoom(const struct library *of, size_t order, size_t side, double *to)
{
    static const double by[3] = {1.02, 0.99, 0.98};

    return resample(of, of->zoom, order, VURELIKA_MIRROR, side, by, to, 98 * 95 * 94);
}

/* A column: its title, what is called, and how often in a turn. */
struct column {
    const char *title;
    call *make;
    size_t side, calls;
};

/* A turn's nanoseconds for one call. */
static double turn(const struct library *of, const struct column *column, size_t order, double *to)
{
    struct timespec began, ended;

    clock_gettime(CLOCK_MONOTONIC, &began);
    for (size_t i = 0; i < column->calls; i++)
        if (column->make(of, order, column->side, to) != VURELIKA_DONE) {
            fprintf(stderr, "\n%s is refused\n", column->title);
            exit(1);
        }
    clock_gettime(CLOCK_MONOTONIC, &ended);
    return (1e9 * (double)(ended.tv_sec - began.tv_sec) + (double)(ended.tv_nsec - began.tv_nsec))
           / (double)column->calls;
}

/* Prints the best time of each library, and their ratio. */
static void compare(const struct library libraries[2], const struct column *column, size_t order, size_t turns)
{
    double best[2] = {INFINITY, INFINITY};

    for (size_t i = 0; i < turns; i++)
        for (size_t k = 0; k < 2; k++)
            best[k] = fmin(best[k], turn(&libraries[k], column, order, output[k]));
    if (memcmp(output[0], output[1], sizeof output[0]) != 0) {
        fprintf(stderr, "\nthe values differ\n");
        exit(1);
    }
    printf("%11.0f%11.0f%7.3f", best[0], best[1], best[1] / best[0]);
    fflush(stdout);
}

static void print_table(const struct library libraries[2], const struct column *columns, size_t count,
                        size_t first_order, size_t turns)
{
    printf("\norder");
    for (size_t c = 0; c < count; c++)
        printf("%29s", columns[c].title);
    for (size_t order = first_order; order <= 5; order++) {
        printf("\n%5zu", order);
        for (size_t c = 0; c < count; c++)
            compare(libraries, &columns[c], order, turns);
    }
    printf("\n");
}

int main(int words, char **word)
{
    static const struct column filters[] = {
        {"spline_filter, 2^3", spline_filter, 2, 100},
        {"spline_filter, 8^3", spline_filter, 8, 20},
        {"spline_filter, 24^3", spline_filter, 24, 2},
        {"spline_filter, 96^3", spline_filter, MOST, 1},
    };
    static const struct column resamplers[] = {
        {"shift, 96^3", shift, MOST, 1},
        {"zoom, 96^3", zoom, MOST, 1},
        {"3/4 filled, 96^3", fill, MOST, 1},
    };

    if (words != 3)
        return 64;
    struct library libraries[2] = {open_library(word[1]), open_library(word[2])};

    srand(1);
    for (size_t i = 0; i < VOXELS; i++)
        input[i] = rand() % 2048 - 1024;
    print_table(libraries, filters, sizeof filters / sizeof filters[0], 2, 200);
    print_table(libraries, resamplers, sizeof resamplers / sizeof resamplers[0], 0, 100);
    return 0;
}
