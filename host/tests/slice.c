/* What vurelika.h says of an axis of length 1: the shifts and factors that it takes, where its refusal stands in the
 * order and what it leaves, its work and its record, and that the filters copy along it. */
#include <stdint.h>
#include <string.h>

#include "hold.h"
#include "vurelika.h"

enum { D1 = 2, D2 = 4, VOXELS = D1 * D2, ROOM = VOXELS * 4, PAINT = 77 };

/* The numbers next to 0, 0.5 and 1.5. */
static const double least = 0x1p-1074, above_half = 0x1.0000000000001p-1, below_three_halves = 0x1.7ffffffffffffp0;

/* A radiograph of 1 by 2 by 4; its first lane is one of 1 by 1 by 4, and its first voxel one of 1 by 1 by 1. */
static const double slice[VOXELS] = {10, 20, 30, 40, 10, 20, 30, 40};

static double output[ROOM];
static uint8_t coverage[ROOM];
static uint64_t counts[VURELIKA_CODES];

/* ---- calls */

static void paint(void)
{
    for (size_t i = 0; i < ROOM; i++) {
        output[i] = PAINT;
        coverage[i] = PAINT;
    }
    for (size_t i = 0; i < VURELIKA_CODES; i++)
        counts[i] = PAINT;
}

/* A request that needs no work: lengths, factors, order and mode, -1 outside. */
struct asked {
    size_t d[3];
    double f[3];
    size_t order;
    uint32_t mode;
};

static uint32_t shift(struct asked a)
{
    size_t voxels = a.d[0] * a.d[1] * a.d[2];

    paint();
    return vurelika_shift(a.d[0], a.d[1], a.d[2], a.f[0], a.f[1], a.f[2], a.order, 0, a.mode, -1.0, slice, voxels,
                          output, voxels, coverage, voxels, NULL, 0, counts, VURELIKA_CODES);
}

static uint32_t zoom(struct asked a)
{
    size_t voxels = a.d[0] * a.d[1] * a.d[2], out = 1;

    for (size_t axis = 0; axis < 3; axis++)
        out *= vurelika_zoom_length(a.d[axis], a.f[axis]);
    paint();
    return vurelika_zoom(a.d[0], a.d[1], a.d[2], a.f[0], a.f[1], a.f[2], a.order, 0, a.mode, -1.0, slice, voxels,
                         output, out, coverage, out, NULL, 0, counts, VURELIKA_CODES);
}

/* The radiograph, by these factors at order 1 in Constant. */
static struct asked by(double f0, double f1, double f2)
{
    return (struct asked){{1, D1, D2}, {f0, f1, f2}, 1, VURELIKA_CONSTANT};
}

/* A refusal, which writes nothing but zeros to counts. */
static int refuses(uint32_t answer, uint32_t refusal)
{
    for (size_t i = 0; i < ROOM; i++)
        if (output[i] != PAINT || coverage[i] != PAINT)
            return 0;
    return answer == refusal && counts[0] == 0 && counts[1] == 0 && counts[2] == 0 && counts[3] == 0;
}

/* Success, and what came out begins with these voxels and codes. */
static int gives(uint32_t answer, size_t length, const double *lane, const char *codes)
{
    if (answer != VURELIKA_DONE)
        return 0;
    for (size_t i = 0; i < length; i++)
        if (output[i] != lane[i] || coverage[i] != codes[i] - '0')
            return 0;
    return 1;
}

/* ---- what must hold */

static void hold_lengths(void)
{
    static const double still[VOXELS] = {10, 20, 30, 40, 10, 20, 30, 40};
    static const size_t shapes[][3] = {{1, 2, 4}, {2, 1, 4}, {2, 4, 1}, {1, 1, 4}, {1, 4, 1}, {4, 1, 1}, {1, 1, 1}};

    for (size_t i = 0; i < sizeof shapes / sizeof shapes[0]; i++)
        for (uint32_t mode = VURELIKA_CONSTANT; mode <= VURELIKA_REPLICATE; mode++)
            for (size_t order = 0; order < 2; order++) {
                struct asked a = {.order = order, .mode = mode};
                size_t voxels = shapes[i][0] * shapes[i][1] * shapes[i][2];

                memcpy(a.d, shapes[i], sizeof a.d);
                hold(gives(shift(a), voxels, still, "00000000") && counts[0] == voxels,
                     "a shift by nothing gives every voxel back, with code 0");
                a.f[0] = a.f[1] = a.f[2] = 1.0;
                hold(gives(zoom(a), voxels, still, "00000000") && counts[0] == voxels, "and so does a zoom by 1");
            }
    for (size_t axis = 0; axis < 3; axis++) {
        struct asked a = by(1.0, 1.0, 1.0);
        size_t *d = a.d;

        d[axis] = 0;
        hold(refuses(shift(a), VURELIKA_LENGTH) && refuses(zoom(a), VURELIKA_LENGTH)
                 && vurelika_spline_filter(d[0], d[1], d[2], 3, VURELIKA_MIRROR, 0.0, NULL, 0, NULL, 0)
                        == VURELIKA_LENGTH
                 && vurelika_spline_filter1d(d[0], d[1], d[2], 3, 0, VURELIKA_MIRROR, 0.0, NULL, 0, NULL, 0)
                        == VURELIKA_LENGTH,
             "length 0 is refusal 3");
    }
}

static void hold_lanes(void)
{
    struct asked a = {{1, 1, D2}, {0.0, 0.0, -0.5}, 1, VURELIKA_CONSTANT};

    hold(gives(shift(a), D2, (double[]){15, 25, 35, 35}, "0003"), "Constant -1, -0.5");
    a = (struct asked){{1, 1, D2}, {0.0, 0.0, 0.0}, 2, VURELIKA_MIRROR};
    hold(gives(shift(a), D2, (double[]){12.5, 20, 30, 37.5}, "3003"), "Mirror, order 2, no prefilter");
    a.mode = VURELIKA_REFLECT;
    hold(gives(shift(a), D2, (double[]){11.25, 20, 30, 38.75}, "3003"), "Reflect, order 2, no prefilter");
    hold(gives(shift(by(0.0, 0.0, 1.0)), VOXELS, (double[]){-1, 10, 20, 30, -1, 10, 20, 30}, "10001000"),
         "a radiograph shifted by a column");
    hold(gives(shift(by(0.0, 1.0, 0.0)), VOXELS, (double[]){-1, -1, -1, -1, 10, 20, 30, 40}, "11110000"),
         "and by a row");
    hold(gives(zoom(by(1.25, 1.0, 1.75)), 14, (double[]){10, 15, 20, 25, 30, 35, 40, 10, 15, 20, 25, 30, 35, 40},
               "00000000000000"),
         "a radiograph zoomed");
}

static void hold_factors(void)
{
    hold(shift(by(0.0, 0.0, 0.0)) == VURELIKA_DONE && shift(by(-0.0, 0.0, 0.0)) == VURELIKA_DONE,
         "either zero is taken");
    hold(refuses(shift(by(least, 0.0, 0.0)), VURELIKA_SLICE) && refuses(shift(by(-least, 0.0, 0.0)), VURELIKA_SLICE)
             && refuses(shift(by(1.0, 0.0, 0.0)), VURELIKA_SLICE),
         "another shift is refusal 12, the least number too");
    hold(zoom(by(above_half, 1.0, 1.0)) == VURELIKA_DONE && zoom(by(below_three_halves, 1.0, 1.0)) == VURELIKA_DONE,
         "factors between 0.5 and 1.5 are taken");
    hold(refuses(zoom(by(0.5, 1.0, 1.0)), VURELIKA_SLICE) && refuses(zoom(by(1.5, 1.0, 1.0)), VURELIKA_SLICE)
             && refuses(zoom(by(least, 1.0, 1.0)), VURELIKA_SLICE)
             && refuses(zoom(by(4096.0, 1.0, 1.0)), VURELIKA_SLICE),
         "0.5 and 1.5 are refusal 12, and what lies beyond them");
    hold(refuses(zoom(by(1.0, 0.5, 1.0)), VURELIKA_OUTPUT_LENGTH), "a longer axis zoomed to 1 is refusal 5");

    hold(refuses(shift(by(1.0, 0.0, 0x1p20)), VURELIKA_FACTOR) && refuses(zoom(by(0.5, 1.0, 0.0)), VURELIKA_FACTOR),
         "4 of any axis comes before 12");
    hold(refuses(zoom(by(0.5, 0.5, 1.0)), VURELIKA_SLICE), "12 of any axis comes before 5");
    struct asked a = {{2, 2, 1}, {0.5, 1.0, 1.5}, 1, VURELIKA_CONSTANT};

    hold(refuses(zoom(a), VURELIKA_SLICE), "an earlier axis's 5 too");
    a = by(1.0, 0.0, -0.5);
    a.order = 0;
    hold(refuses(shift(a), VURELIKA_SLICE), "and before 9");
    a.f[0] = 0.0;
    hold(refuses(shift(a), VURELIKA_BESIDE), "which another axis meets");
    a.order = 6;
    hold(refuses(shift(a), VURELIKA_ORDER), "1 comes before it");

    double value = PAINT;
    uint8_t code = PAINT;

    hold(vurelika_shift_voxel(1, D1, D2, least, 0.0, 0.0, 1, 0, VURELIKA_WRAP, 0.0, NULL, 0, NULL, 0, 9, 9, 9, &value,
                              1, &code, 1) == VURELIKA_SLICE
             && vurelika_zoom_voxel(1, D1, D2, 1.5, 0.25, 1.0, 1, 0, VURELIKA_WRAP, 0.0, NULL, 0, NULL, 0, 9, 9, 9,
                                    &value, 1, &code, 1) == VURELIKA_SLICE
             && value == PAINT && code == PAINT,
         "of one voxel 12 is given in its place, and writes nothing");
}

static void hold_sizes(void)
{
    static const struct {
        size_t d[3], padded, plain;
    } of[] = {{{1, 2, 4}, 728, 8}, {{2, 1, 4}, 728, 8}, {{1, 1, 4}, 28, 4}, {{1, 1, 1}, 1, 1}};

    for (size_t i = 0; i < sizeof of / sizeof of[0]; i++) {
        const size_t *d = of[i].d;

        hold(vurelika_work_count(d[0], d[1], d[2], 2, 1, VURELIKA_NEAREST) == of[i].padded
                 && vurelika_work_count(d[0], d[1], d[2], 5, 1, VURELIKA_REPLICATE) == of[i].padded
                 && vurelika_work_count(d[0], d[1], d[2], 3, 1, VURELIKA_WRAP) == of[i].plain,
             "the work has no 24 more on an axis of length 1");
    }
    hold(vurelika_zoom_length(1, above_half) == 1 && vurelika_zoom_length(1, 1.0) == 1
             && vurelika_zoom_length(1, below_three_halves) == 1 && vurelika_zoom_length(1, 0.5) == 0
             && vurelika_zoom_length(1, 1.5) == 0 && vurelika_zoom_length(1, 2.0) == 0
             && vurelika_zoom_length(1, 0.0) == 0 && vurelika_zoom_length(2, 0.5) == 0,
         "a zoomed length is 1 where it was 1, and the factor lies between 0.5 and 1.5");
}

/* Whether the record of an axis of length 1 is its one voxel, of weight 1, by shift and by zoom. */
static int is_single(double by, double factor, size_t order, uint32_t prefilter, uint32_t mode)
{
    double coordinate[2], weights[2][VURELIKA_NEIGHBOURS];
    size_t neighbours[2][VURELIKA_NEIGHBOURS];

    if (vurelika_shift_point(1, by, order, prefilter, mode, 0, &coordinate[0], 1, neighbours[0], VURELIKA_NEIGHBOURS,
                             weights[0], VURELIKA_NEIGHBOURS) != VURELIKA_DONE
        || vurelika_zoom_point(1, factor, order, prefilter, mode, 0, &coordinate[1], 1, neighbours[1],
                               VURELIKA_NEIGHBOURS, weights[1], VURELIKA_NEIGHBOURS) != VURELIKA_DONE)
        return 0;
    for (size_t entry = 0; entry < 2; entry++)
        for (size_t i = 0; i < VURELIKA_NEIGHBOURS; i++)
            if (coordinate[entry] != 0.0 || neighbours[entry][i] != 0 || weights[entry][i] != (i == 0 ? 1.0 : 0.0))
                return 0;
    return 1;
}

static void hold_records(void)
{
    for (uint32_t mode = VURELIKA_CONSTANT; mode <= VURELIKA_REPLICATE; mode++)
        for (size_t order = 0; order <= 5; order++)
            for (uint32_t prefilter = 0; prefilter < 2; prefilter++)
                hold(is_single(0.0, above_half, order, prefilter, mode)
                         && is_single(-0.0, below_three_halves, order, prefilter, mode),
                     "coordinate 0, one neighbour, of weight 1");
}

/* Numbers that a filter would change, the sign of a zero among them. */
static void hold_copies(void)
{
    static const double odd[VOXELS] = {-0.0, 0.0, 0x1p-1074, -0x1p-1074, 0x1p100, 0.1, -3.5, 1e-310};
    double copy[VOXELS];

    for (uint32_t mode = VURELIKA_CONSTANT; mode <= VURELIKA_REPLICATE; mode++)
        for (size_t order = 0; order <= 5; order++) {
            memset(copy, 255, sizeof copy);
            hold(vurelika_spline_filter1d(1, D1, D2, order, 0, mode, 0.0, odd, VOXELS, copy, VOXELS) == VURELIKA_DONE
                     && memcmp(copy, odd, sizeof odd) == 0,
                 "along an axis of length 1 a filter copies, bit for bit");
            for (size_t i = 0; i < VOXELS && order > 1; i++)
                hold(vurelika_spline_filter(1, 1, 1, order, mode, 0.0, &odd[i], 1, copy, 1) == VURELIKA_DONE
                         && memcmp(copy, &odd[i], sizeof *odd) == 0,
                     "and of 1 by 1 by 1 voxels along all three");
        }
}

static void hold_files(void)
{
    uint8_t file[128 + VOXELS * sizeof(double)];
    double read[VOXELS];
    size_t dims[3];

    hold(vurelika_npy_size(1, D1, D2) == sizeof file && vurelika_npy_size(1, 1, 1) == 136
             && vurelika_npy_size(1, 0, 1) == 0,
         "a file may have axes of length 1, and none of length 0");
    hold(vurelika_npy_write(1, D1, D2, slice, VOXELS, file, sizeof file) == VURELIKA_DONE
             && vurelika_npy_dims(file, sizeof file, dims, 3) == VURELIKA_DONE && dims[0] == 1 && dims[1] == D1
             && dims[2] == D2 && vurelika_npy_read(file, sizeof file, read, VOXELS) == VURELIKA_DONE
             && memcmp(read, slice, sizeof slice) == 0,
         "a radiograph is written and read");
}

int main(void)
{
    hold_lengths();
    hold_lanes();
    hold_factors();
    hold_sizes();
    hold_records();
    hold_copies();
    hold_files();
    return wrong;
}
