/* What vurelika.h says of one voxel and of one axis: document 01's lanes, the refusals in their order, and what
 * they leave. */
#include <stdint.h>
#include <string.h>

#include "hold.h"
#include "vurelika.h"

enum { D0 = 2, D1 = 2, D2 = 4, VOXELS = D0 * D1 * D2, ROOM = VOXELS * 2, NO_MODE = 6, PAINT = 77 };
enum { PADDED = (D0 + 24) * (D1 + 24) * (D2 + 24) };
enum { FEWER = VURELIKA_NEIGHBOURS - 1, MORE = VURELIKA_NEIGHBOURS + 1 };

/* Document 01's volume. */
static const double input[VOXELS] = {10, 20, 30, 40, 10, 20, 30, 40, 10, 20, 30, 40, 10, 20, 30, 40};
static double work[PADDED];

/* ---- one voxel */

/* What is asked, along the last axis; all else is as it should be, and is changed to try a refusal. */
struct asked {
    double by;
    size_t order;
    uint32_t prefilter, mode;
    size_t x, y, z, value_len, code_len, work_len, input_len;
};

/* Room for a place more than there should be. */
static double value[2];
static uint8_t code[2];

static struct asked at(size_t z, double by, size_t order, uint32_t mode)
{
    return (struct asked){by, order, 0, mode, 0, 0, z, 1, 1, 0, VOXELS};
}

static uint32_t shift(struct asked a)
{
    value[0] = value[1] = PAINT;
    code[0] = code[1] = PAINT;
    return vurelika_shift_voxel(D0, D1, D2, 0.0, 0.0, a.by, a.order, a.prefilter, a.mode, -1.0, input, a.input_len,
                                work, a.work_len, a.x, a.y, a.z, value, a.value_len, code, a.code_len);
}

static uint32_t zoom(struct asked a)
{
    value[0] = value[1] = PAINT;
    code[0] = code[1] = PAINT;
    return vurelika_zoom_voxel(D0, D1, D2, 1.0, 1.0, a.by, a.order, a.prefilter, a.mode, -1.0, input, a.input_len,
                               work, a.work_len, a.x, a.y, a.z, value, a.value_len, code, a.code_len);
}

static int holds(double number, uint8_t mark)
{
    return value[0] == number && code[0] == mark && value[1] == PAINT && code[1] == PAINT;
}

/* A refusal, which writes nothing. */
static int refuses(uint32_t answer, uint32_t refusal)
{
    return answer == refusal && holds(PAINT, PAINT);
}

/* Whether a lane of what comes out is this one with these codes. */
static int is_lane(uint32_t (*ask)(struct asked), double by, size_t order, uint32_t mode, size_t length,
                   const double *lane, const char *codes)
{
    for (size_t x = 0; x < D0; x++)
        for (size_t y = 0; y < D1; y++)
            for (size_t z = 0; z < length; z++) {
                struct asked a = at(z, by, order, mode);

                a.x = x;
                a.y = y;
                if (ask(a) != VURELIKA_DONE || !holds(lane[z], (uint8_t)(codes[z] - '0')))
                    return 0;
            }
    return 1;
}

static void hold_lanes(void)
{
    hold(is_lane(shift, 1.0, 1, VURELIKA_CONSTANT, D2, (double[]){-1, 10, 20, 30}, "1000"), "Constant -1, 1");
    hold(is_lane(shift, -0.5, 1, VURELIKA_CONSTANT, D2, (double[]){15, 25, 35, 35}, "0003"),
         "Constant -1, -0.5");
    hold(is_lane(shift, 0.5, 0, VURELIKA_CONSTANT, D2, (double[]){-1, 20, 30, 40}, "1000"),
         "Constant -1, 0.5, order 0");
    hold(is_lane(shift, 2.0, 1, VURELIKA_NEAREST, D2, (double[]){0, 0, 10, 20}, "2200"), "Nearest, 2");
    hold(is_lane(shift, -2.0, 1, VURELIKA_NEAREST, D2, (double[]){30, 40, 40, 40}, "0033"), "Nearest, -2");
    hold(is_lane(shift, 2.0, 1, VURELIKA_REPLICATE, D2, (double[]){10, 10, 10, 20}, "0000"), "Replicate, 2");
    hold(is_lane(shift, -3.0, 2, VURELIKA_REPLICATE, D2, (double[]){38.75, 38.75, 38.75, 38.75}, "3333"),
         "Replicate, -3, order 2 without prefilter");
    hold(is_lane(zoom, 1.75, 1, VURELIKA_MIRROR, 7, (double[]){10, 15, 20, 25, 30, 35, 40}, "0000000"),
         "zoom 1, 1, 1.75, Mirror");
}

static void hold_refusals(void)
{
    struct asked a = at(D2, 0.0, 1, VURELIKA_MIRROR);

    hold(refuses(shift(a), VURELIKA_INDEX) && shift(at(D2 - 1, 0.0, 1, VURELIKA_MIRROR)) == VURELIKA_DONE,
         "an index equal to the length is refusal 11, one less is taken");
    a = at(0, 0.0, 1, VURELIKA_MIRROR);
    a.x = D0;
    hold(refuses(shift(a), VURELIKA_INDEX), "11 on axis 0");
    a.x = 0;
    a.y = SIZE_MAX;
    hold(refuses(shift(a), VURELIKA_INDEX), "11 on axis 1");
    hold(refuses(zoom(at(7, 1.75, 1, VURELIKA_MIRROR)), VURELIKA_INDEX)
             && zoom(at(6, 1.75, 1, VURELIKA_MIRROR)) == VURELIKA_DONE,
         "zoom's index is held to the output length");
    hold(refuses(shift(at(D2, -0.5, 0, VURELIKA_CONSTANT)), VURELIKA_BESIDE)
             && refuses(shift(at(0, -0.5, 0, VURELIKA_CONSTANT)), VURELIKA_BESIDE),
         "9 comes before 11, and looks at every index");

    a = at(D2, -0.5, 0, VURELIKA_CONSTANT);
    a.value_len = 2;
    hold(refuses(shift(a), VURELIKA_BUFFER), "value of two places is refusal 7, before 9 and 11");
    a.value_len = 1;
    a.code_len = 2;
    hold(refuses(shift(a), VURELIKA_BUFFER), "and code of two");
    a.code_len = 0;
    hold(refuses(shift(a), VURELIKA_BUFFER), "and of none");
    a.code_len = 1;
    a.input_len = VOXELS - 1;
    hold(refuses(shift(a), VURELIKA_BUFFER), "and an input that is too short");
    a = at(0, 0.0, 3, VURELIKA_MIRROR);
    a.prefilter = 1;
    a.work_len = VOXELS - 1;
    hold(refuses(shift(a), VURELIKA_BUFFER), "and work that is too short");
    a.order = 6;
    hold(refuses(shift(a), VURELIKA_ORDER), "1 comes before 7");
    a.mode = NO_MODE;
    hold(refuses(shift(a), VURELIKA_MODE) && refuses(zoom(a), VURELIKA_MODE), "255 comes first");
}

/* With prefilter every voxel is the volume's, over the coefficients that it leaves; and over other numbers the sum
 * is that over those. */
static void hold_filtered(uint32_t mode)
{
    double output[ROOM];
    uint8_t coverage[ROOM];
    uint64_t counts[VURELIKA_CODES];
    size_t needed = vurelika_work_count(D0, D1, D2, 3, 1, mode);
    struct asked a = at(0, 0.5, 3, mode);

    a.prefilter = 1;
    a.work_len = needed;
    hold(vurelika_shift(D0, D1, D2, 0.0, 0.0, 0.5, 3, 1, mode, -1.0, input, VOXELS, output, VOXELS, coverage, VOXELS,
                        work, needed, counts, VURELIKA_CODES) == VURELIKA_DONE,
         "the volume is shifted");
    for (a.z = 0; a.z < D2; a.z++)
        hold(shift(a) == VURELIKA_DONE && memcmp(value, &output[a.z], sizeof *value) == 0 && code[0] == coverage[a.z],
             "a voxel has the volume's bits and code");

    a.by = 1.75;
    hold(vurelika_zoom(D0, D1, D2, 1.0, 1.0, 1.75, 3, 1, mode, -1.0, input, VOXELS, output, D0 * D1 * 7, coverage,
                       D0 * D1 * 7, work, needed, counts, VURELIKA_CODES) == VURELIKA_DONE,
         "the volume is zoomed");
    for (a.z = 0; a.z < 7; a.z++)
        hold(zoom(a) == VURELIKA_DONE && memcmp(value, &output[a.z], sizeof *value) == 0 && code[0] == coverage[a.z],
             "a zoomed one too");

    memset(work, 0, sizeof work);
    a.z = 1;
    hold(zoom(a) == VURELIKA_DONE && value[0] == 0.0 && code[0] == coverage[1],
         "work is read and not the input: over zeros the sum is 0.0, and the code is what it was");
}

/* ---- one axis */

static double coordinate[2], weights[MORE];
static size_t neighbours[MORE];

static void paint_point(void)
{
    coordinate[0] = coordinate[1] = PAINT;
    for (size_t i = 0; i < MORE; i++) {
        neighbours[i] = PAINT;
        weights[i] = PAINT;
    }
}

static uint32_t point_lent(double by, size_t order, uint32_t prefilter, uint32_t mode, size_t index,
                           size_t coordinate_len, size_t neighbours_len, size_t weights_len)
{
    paint_point();
    return vurelika_shift_point(D2, by, order, prefilter, mode, index, coordinate, coordinate_len, neighbours,
                                neighbours_len, weights, weights_len);
}

static uint32_t point(double by, size_t order, uint32_t prefilter, uint32_t mode, size_t index)
{
    return point_lent(by, order, prefilter, mode, index, 1, VURELIKA_NEIGHBOURS, VURELIKA_NEIGHBOURS);
}

static uint32_t zoom_point(size_t length, double factor, size_t order, uint32_t mode, size_t index)
{
    paint_point();
    return vurelika_zoom_point(length, factor, order, 0, mode, index, coordinate, 1, neighbours,
                               VURELIKA_NEIGHBOURS, weights, VURELIKA_NEIGHBOURS);
}

/* Whether all of it is this, and what lies behind is left alone. */
static int gives(double to, const size_t at[VURELIKA_NEIGHBOURS], const double weight[VURELIKA_NEIGHBOURS])
{
    for (size_t i = 0; i < VURELIKA_NEIGHBOURS; i++)
        if (neighbours[i] != at[i] || weights[i] != weight[i])
            return 0;
    return coordinate[0] == to && coordinate[1] == PAINT && neighbours[VURELIKA_NEIGHBOURS] == PAINT
           && weights[VURELIKA_NEIGHBOURS] == PAINT;
}

static int left_alone(void)
{
    for (size_t i = 0; i < MORE; i++)
        if (neighbours[i] != PAINT || weights[i] != PAINT)
            return 0;
    return coordinate[0] == PAINT && coordinate[1] == PAINT;
}

static void hold_points(void)
{
    static const size_t none[VURELIKA_NEIGHBOURS];
    static const double no_weight[VURELIKA_NEIGHBOURS], halves[VURELIKA_NEIGHBOURS] = {0.5, 0.5},
                        one[VURELIKA_NEIGHBOURS] = {1.0}, eighths[VURELIKA_NEIGHBOURS] = {0.125, 0.75, 0.125};

    hold(point(-0.5, 1, 0, VURELIKA_CONSTANT, 3) == VURELIKA_DONE
             && gives(3.5, (size_t[VURELIKA_NEIGHBOURS]){3, 2}, halves),
         "Constant, -0.5: the last index reads 30 in the stead of a voxel outside");
    hold(point(1.0, 1, 0, VURELIKA_CONSTANT, 0) == VURELIKA_DONE && gives(-1.0, none, no_weight)
             && point(2.0, 1, 0, VURELIKA_NEAREST, 0) == VURELIKA_DONE && gives(-2.0, none, no_weight),
         "of a dropped index all are 0");
    hold(point(0.5, 0, 0, VURELIKA_CONSTANT, 1) == VURELIKA_DONE
             && gives(0.5, (size_t[VURELIKA_NEIGHBOURS]){1}, one),
         "order 0 has one neighbour, of weight 1");
    hold(point(4.0, 1, 0, VURELIKA_MIRROR, 0) == VURELIKA_DONE
             && gives(2.0, (size_t[VURELIKA_NEIGHBOURS]){2, 3}, one),
         "the coordinate is folded: Mirror -4 to 2");
    hold(point(-3.0, 2, 0, VURELIKA_REPLICATE, 0) == VURELIKA_DONE
             && gives(3.0, (size_t[VURELIKA_NEIGHBOURS]){2, 3, 3}, eighths),
         "Replicate, -3, order 2: the neighbours are clamped");
    hold(point(2.0, 2, 1, VURELIKA_NEAREST, 0) == VURELIKA_DONE
             && gives(10.0, (size_t[VURELIKA_NEIGHBOURS]){9, 10, 11}, eighths),
         "with prefilter Nearest's coordinate has the pad of 12 added");
    hold(point(2.0, 2, 1, VURELIKA_REPLICATE, 0) == VURELIKA_DONE
             && gives(12.0, (size_t[VURELIKA_NEIGHBOURS]){11, 12, 13}, eighths),
         "and Replicate's, which was clamped before");
    hold(point(2.0, 1, 1, VURELIKA_NEAREST, 0) == VURELIKA_DONE && gives(-2.0, none, no_weight),
         "below order 2 nothing is padded");
    hold(zoom_point(D2, 1.75, 1, VURELIKA_MIRROR, 3) == VURELIKA_DONE
             && gives(1.5, (size_t[VURELIKA_NEIGHBOURS]){1, 2}, halves),
         "zoom by 1.75: index 3 of 7 is 1.5");
}

static void hold_point_refusals(void)
{
    hold(point_lent(0.0, 6, 0, NO_MODE, D2, 0, 0, 0) == VURELIKA_MODE && left_alone(), "255 comes first");
    hold(point_lent(0x1p20, 6, 0, VURELIKA_WRAP, D2, 0, 0, 0) == VURELIKA_ORDER && left_alone(), "then 1");
    hold(zoom_point(0, 0.0, 1, VURELIKA_WRAP, D2) == VURELIKA_LENGTH && left_alone(), "then 3");
    hold(point_lent(0x1p20, 0, 0, VURELIKA_WRAP, D2, 0, 0, 0) == VURELIKA_FACTOR && left_alone()
             && zoom_point(1, 0.0, 1, VURELIKA_WRAP, D2) == VURELIKA_FACTOR && left_alone(),
         "then 4");
    hold(zoom_point(1, 0.25, 1, VURELIKA_WRAP, D2) == VURELIKA_SLICE && left_alone(), "then 12");
    hold(zoom_point(D2, 0.25, 1, VURELIKA_WRAP, D2) == VURELIKA_OUTPUT_LENGTH && left_alone(), "then 5 in zoom");
    for (size_t wrong_len = FEWER; wrong_len <= MORE; wrong_len += 2)
        hold(point_lent(-0.5, 0, 0, VURELIKA_WRAP, D2, 1, wrong_len, VURELIKA_NEIGHBOURS) == VURELIKA_BUFFER
                 && left_alone()
                 && point_lent(-0.5, 0, 0, VURELIKA_WRAP, D2, 1, VURELIKA_NEIGHBOURS, wrong_len) == VURELIKA_BUFFER
                 && left_alone(),
             "then 7: neighbours and weights have six places");
    hold(point_lent(-0.5, 0, 0, VURELIKA_WRAP, D2, 0, VURELIKA_NEIGHBOURS, VURELIKA_NEIGHBOURS) == VURELIKA_BUFFER
             && left_alone()
             && point_lent(-0.5, 0, 0, VURELIKA_WRAP, D2, 2, VURELIKA_NEIGHBOURS, VURELIKA_NEIGHBOURS)
                    == VURELIKA_BUFFER
             && left_alone(),
         "and the coordinate has one");
    hold(point(-0.5, 0, 0, VURELIKA_WRAP, D2) == VURELIKA_BESIDE && left_alone()
             && point(-0.5, 0, 0, VURELIKA_WRAP, 0) == VURELIKA_BESIDE && left_alone(),
         "then 9, at whatever index");
    hold(point(-0.5, 1, 0, VURELIKA_WRAP, D2) == VURELIKA_INDEX && left_alone()
             && zoom_point(D2, 1.75, 1, VURELIKA_WRAP, 7) == VURELIKA_INDEX && left_alone()
             && zoom_point(D2, 1.75, 1, VURELIKA_WRAP, 6) == VURELIKA_DONE,
         "and last 11");
}

int main(void)
{
    hold_lanes();
    hold_refusals();
    for (uint32_t mode = VURELIKA_CONSTANT; mode <= VURELIKA_REPLICATE; mode++)
        hold_filtered(mode);
    hold_points();
    hold_point_refusals();
    return wrong;
}
