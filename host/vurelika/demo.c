/* Resamples the small volume of document 01 in eleven ways: values, codes, counts.
 * usage: vurelika demo */
#include <inttypes.h>
#include <stdio.h>
#include <string.h>

#include "common/refusal.h"
#include "common/resampler.h"
#include "vurelika.h"

enum { PLANES = 2, ROWS = 2, LENGTH = 4, VOXELS = PLANES * ROWS * LENGTH };
enum { LONGEST = 7, ROOM = PLANES * ROWS * LONGEST }; /* the longest lane that comes out: zoom's */
enum { WIDTH = LONGEST * 25 + 1 }; /* such a lane in print: a number takes at most 24 signs and a space */

/* A request, named as the document names its own. */
struct request {
    const char *name;
    resampler *resample;
    double factors[3];
    size_t order;
    uint32_t mode;
    int then;      /* the input is what came out last */
    size_t length; /* of a lane that comes out */
};

static const struct request requests[] = {
    {"Constant -1, 1", vurelika_shift, {0, 0, 1}, 1, VURELIKA_CONSTANT, 0, LENGTH},
    {"that, then -1", vurelika_shift, {0, 0, -1}, 1, VURELIKA_CONSTANT, 1, LENGTH},
    {"Constant -1, -0.5", vurelika_shift, {0, 0, -0.5}, 1, VURELIKA_CONSTANT, 0, LENGTH},
    {"Constant -1, 0.5, order 0", vurelika_shift, {0, 0, 0.5}, 0, VURELIKA_CONSTANT, 0, LENGTH},
    {"Constant -1, -0.5, order 0", vurelika_shift, {0, 0, -0.5}, 0, VURELIKA_CONSTANT, 0, LENGTH},
    {"Nearest, 2", vurelika_shift, {0, 0, 2}, 1, VURELIKA_NEAREST, 0, LENGTH},
    {"Nearest, -2", vurelika_shift, {0, 0, -2}, 1, VURELIKA_NEAREST, 0, LENGTH},
    {"Replicate, 2", vurelika_shift, {0, 0, 2}, 1, VURELIKA_REPLICATE, 0, LENGTH},
    {"Replicate, -2", vurelika_shift, {0, 0, -2}, 1, VURELIKA_REPLICATE, 0, LENGTH},
    {"zoom 1, 1, 1.75, Mirror", vurelika_zoom, {1, 1, 1.75}, 1, VURELIKA_MIRROR, 0, LONGEST},
    {"Reflect, shift 8, 0, 0", vurelika_shift, {8, 0, 0}, 1, VURELIKA_REFLECT, 0, LENGTH},
};

/* A line of the table, with counts or without. No two numbers print alike. */
static void say_line(const char *name, const double *values, const uint8_t *codes, size_t length,
                     const uint64_t *counts)
{
    char numbers[WIDTH] = "", marks[WIDTH] = "";

    for (size_t i = 0, at = 0, mark = 0; i < length; i++) {
        at += (size_t)snprintf(numbers + at, WIDTH - at, " %.17g", values[i]);
        mark += (size_t)snprintf(marks + mark, WIDTH - mark, " %u", codes[i]);
    }
    if (counts == NULL)
        printf("%-27s%-22s%s\n", name, numbers, marks);
    else
        printf("%-27s%-22s%-15s%9" PRIu64 "%8" PRIu64 "%11" PRIu64 "%8" PRIu64 "\n", name, numbers, marks,
               counts[VURELIKA_COMPUTED], counts[VURELIKA_FILLED], counts[VURELIKA_DEFAULTED],
               counts[VURELIKA_FOLDED]);
}

/* The first lane with the counts, then each lane that is not like the one before it. */
static void say_volume(const char *name, const double *values, const uint8_t *codes, size_t length,
                       const uint64_t *counts)
{
    say_line(name, values, codes, length, counts);
    for (size_t lane = 1; lane < PLANES * ROWS; lane++) {
        const double *here = values + lane * length;
        const uint8_t *marks = codes + lane * length;
        char from[WIDTH];

        if (memcmp(here, here - length, length * sizeof *here) == 0
            && memcmp(marks, marks - length, length) == 0)
            continue;
        snprintf(from, sizeof from, "  from plane %zu, row %zu on", lane / ROWS, lane % ROWS);
        say_line(from, here, marks, length, NULL);
    }
}

int main(void)
{
    double volume[VOXELS], output[ROOM];
    uint8_t coverage[ROOM];
    uint64_t counts[VURELIKA_CODES];

    for (size_t i = 0; i < VOXELS; i++)
        volume[i] = 10.0 * (double)(i % LENGTH + 1);

    puts("A volume of 2 by 2 by 4 voxels, each lane of the last axis 10 20 30 40, is resampled: at order 1\n"
         "unless said, and shifted on the last axis where there is one number. All lanes that come out are\n"
         "alike, unless a second line says from where on they differ.\n"
         "Codes: 0 computed, 1 filled, 2 defaulted to 0.0, 3 computed with a neighbour that lay outside and\n"
         "was folded back.\n");
    printf("%-28s%-22s%-15s%8s%8s%11s%8s\n", "request", "lane", "codes", "computed", "filled", "defaulted",
           "folded");
    for (size_t i = 0; i < sizeof requests / sizeof requests[0]; i++) {
        const struct request *r = &requests[i];
        size_t places = PLANES * ROWS * r->length;
        double input[VOXELS];

        memcpy(input, r->then ? output : volume, sizeof input);
        /* orders 0 and 1 need no work */
        uint32_t refusal = r->resample(PLANES, ROWS, LENGTH, r->factors[0], r->factors[1], r->factors[2],
                                       r->order, 0, r->mode, -1.0, input, VOXELS, output, places,
                                       coverage, places, NULL, 0, counts, VURELIKA_CODES);
        if (refusal == VURELIKA_DONE)
            say_volume(r->name, output, coverage, r->length, counts);
        else
            printf("%-27s refusal %" PRIu32 ": %s\n", r->name, refusal, refusal_meaning(refusal));
    }
    return 0;
}
