/* Times of one voxel asked for alone, beside the volume engine's time a voxel. A voxel's own time is that of a
   call that is answered, less that of one whose index lies outside: both look at the whole request and scan the
   input, and the second ends there. Fails if a value or a code differs from the volume's. */
#define _POSIX_C_SOURCE 200809L
#include <math.h>
#include <stdio.h>
#include <stdlib.h>
#include <string.h>
#include <time.h>

#include "vurelika.h"

enum { SMALL = 8, LARGE = 96, VOXELS = LARGE * LARGE * LARGE };
enum { TURNS = 31, CALLS = 2000 };

static double input[VOXELS], output[VOXELS], work[VOXELS];
static uint8_t coverage[VOXELS];

struct request {
    size_t order;
    uint32_t prefilter;
};

/* An index on each axis of the small volume, another one from call to call. */
struct indices {
    size_t low, high;
    uint32_t answer;
};

/* Neighbours of the first all lie inside at every order, those of the second are folded above order 1. */
static const struct indices inside = {3, 4, VURELIKA_DONE};
static const struct indices corner = {0, SMALL - 1, VURELIKA_DONE};
static const struct indices outside = {SMALL, SMALL + 1, VURELIKA_INDEX};

static const double by = 0.3;

static void stop(const char *reason)
{
    fprintf(stderr, "voxel: %s\n", reason);
    exit(1);
}

static void shift_volume(const struct request *request, size_t side)
{
    uint64_t counts[VURELIKA_CODES];
    size_t voxels = side * side * side;

    if (vurelika_shift(side, side, side, by, by, by, request->order, request->prefilter, VURELIKA_MIRROR, 0.0,
                       input, voxels, output, voxels, coverage, voxels, work, voxels, counts, VURELIKA_CODES)
        != VURELIKA_DONE)
        stop("the shift is refused");
}

/* The call number i; its index takes each corner of a cube in turn. */
static uint32_t shift_voxel(const struct request *request, const struct indices *at, size_t i, size_t place[1],
                            double value[1], uint8_t code[1])
{
    enum { PLACES = SMALL * SMALL * SMALL };
    size_t x = i & 1 ? at->high : at->low;
    size_t y = i & 2 ? at->high : at->low;
    size_t z = i & 4 ? at->high : at->low;

    place[0] = (x * SMALL + y) * SMALL + z;
    return vurelika_shift_voxel(SMALL, SMALL, SMALL, by, by, by, request->order, request->prefilter,
                                VURELIKA_MIRROR, 0.0, input, PLACES, work, PLACES, x, y, z, value, 1, code, 1);
}

/* What is left by a shift of the small volume before. */
static void check_voxels(const struct request *request, const struct indices *at)
{
    for (size_t i = 0; i < 8; i++) {
        size_t place;
        double value;
        uint8_t code;

        if (shift_voxel(request, at, i, &place, &value, &code) != at->answer)
            stop("a voxel has another answer");
        if (at->answer == VURELIKA_DONE
            && (memcmp(&value, &output[place], sizeof value) != 0 || code != coverage[place]))
            stop("a voxel differs from the volume's");
    }
}

/* Of the processor: the time of a volume is long enough for other programs to come between. */
static double nanoseconds(void)
{
    struct timespec now;

    clock_gettime(CLOCK_PROCESS_CPUTIME_ID, &now);
    return 1e9 * (double)now.tv_sec + (double)now.tv_nsec;
}

/* A turn's nanoseconds for one voxel alone. */
static double time_alone(const struct request *request, const struct indices *at)
{
    double began = nanoseconds();

    for (size_t i = 0; i < CALLS; i++) {
        size_t place;
        double value;
        uint8_t code;

        shift_voxel(request, at, i, &place, &value, &code);
    }
    return (nanoseconds() - began) / CALLS;
}

/* A turn's nanoseconds for one voxel of the large volume. */
static double time_volume(const struct request *request)
{
    double began = nanoseconds();

    shift_volume(request, LARGE);
    return (nanoseconds() - began) / VOXELS;
}

static void print_row(const struct request *request)
{
    const struct indices *at[] = {&inside, &corner, &outside};
    double alone[] = {INFINITY, INFINITY, INFINITY}, volume = INFINITY;

    for (size_t turn = 0; turn < TURNS; turn++) {
        volume = fmin(volume, time_volume(request));
        shift_volume(request, SMALL);
        for (size_t k = 0; k < 3; k++) {
            check_voxels(request, at[k]);
            alone[k] = fmin(alone[k], time_alone(request, at[k]));
        }
    }

    double own = alone[0] - alone[2];
    printf("%5zu  %-9s%8.0f%8.0f%8.0f%13.0f%10.1f%8.1f\n", request->order, request->prefilter ? "on" : "off",
           alone[0], alone[2], own, alone[1] - alone[2], volume, own / volume);
}

int main(void)
{
    static const struct request requests[] = {{0, 0}, {1, 0}, {2, 0}, {3, 0}, {4, 0}, {5, 0}, {3, 1}};

    srand(1);
    for (size_t i = 0; i < VOXELS; i++)
        input[i] = rand() % 2048 - 1024;
    printf("\nShift, Mirror: ns of one voxel of %d^3 alone, and of one in a volume of %d^3, best of %d\n",
           SMALL, LARGE, TURNS);
    printf("order  prefilter    call  checks     own  at a corner    volume   ratio\n");
    for (size_t i = 0; i < sizeof requests / sizeof requests[0]; i++)
        print_row(&requests[i]);
    return 0;
}
