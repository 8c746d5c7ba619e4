/* What vurelika.h says of modes that are none, of Replicate, of counts, and of the two functions of sizes. */
#include <stdint.h>

#include "hold.h"
#include "vurelika.h"

enum { D = 2, VOXELS = D * D * D, NO_MODE = 6, PAINT = 77, FAR = (1 << 20) - 1 };
enum { FEWER = VURELIKA_CODES - 1, MORE = VURELIKA_CODES + 1 };

static const double input[VOXELS];
static double output[VOXELS];
static uint8_t coverage[VOXELS];
static uint64_t counts[MORE];

/* A shift of a small volume with so many places of counts, which are painted before. */
static uint32_t shift_by(double by, size_t order, uint32_t mode, size_t counts_len)
{
    for (size_t i = 0; i < MORE; i++)
        counts[i] = PAINT;
    return vurelika_shift(D, D, D, by, by, by, order, 0, mode, 0.0, input, VOXELS, output, VOXELS,
                          coverage, VOXELS, NULL, 0, counts, counts_len);
}

static uint32_t shift(size_t order, uint32_t mode, size_t counts_len)
{
    return shift_by(0.0, order, mode, counts_len);
}

/* Whether counts begins with these four and is left alone after them. */
static int has(uint64_t computed, uint64_t filled, uint64_t defaulted, uint64_t folded)
{
    return counts[VURELIKA_COMPUTED] == computed && counts[VURELIKA_FILLED] == filled
           && counts[VURELIKA_DEFAULTED] == defaulted && counts[VURELIKA_FOLDED] == folded
           && counts[VURELIKA_CODES] == PAINT;
}

static int left_alone(void)
{
    return has(PAINT, PAINT, PAINT, PAINT);
}

/* Whether every voxel bears the code. */
static int all_bear(uint8_t code)
{
    for (size_t i = 0; i < VOXELS; i++)
        if (coverage[i] != code)
            return 0;
    return 1;
}

int main(void)
{
    hold(shift(1, VURELIKA_MIRROR, VURELIKA_CODES) == VURELIKA_DONE && has(VOXELS, 0, 0, 0)
             && all_bear(VURELIKA_COMPUTED),
         "counts has four places; at order 1 the neighbour outside has weight 0");
    hold(shift(2, VURELIKA_MIRROR, VURELIKA_CODES) == VURELIKA_DONE && has(0, 0, 0, VOXELS)
             && all_bear(VURELIKA_FOLDED),
         "at order 2 every voxel of 2 by 2 by 2 has a folded neighbour");
    hold(shift(9, VURELIKA_MIRROR, VURELIKA_CODES) == VURELIKA_ORDER && has(0, 0, 0, 0),
         "a refusal makes counts 0, 0, 0, 0");
    hold(shift(1, VURELIKA_MIRROR, FEWER) == VURELIKA_BUFFER && left_alone()
             && shift(1, VURELIKA_MIRROR, MORE) == VURELIKA_BUFFER && left_alone(),
         "counts of another length is refusal 7, and left alone");
    hold(shift(9, VURELIKA_MIRROR, FEWER) == VURELIKA_ORDER && left_alone(),
         "which an earlier refusal comes before");
    hold(shift(9, NO_MODE, VURELIKA_CODES) == VURELIKA_MODE && has(0, 0, 0, 0),
         "255 comes first, and makes counts 0, 0, 0, 0");
    hold(shift(9, NO_MODE, FEWER) == VURELIKA_MODE && left_alone()
             && shift(9, NO_MODE, MORE) == VURELIKA_MODE && left_alone(),
         "with 255 counts of another length is left alone");
    hold(vurelika_spline_filter(0, 0, 0, 9, NO_MODE, 0.0, NULL, 0, NULL, 0) == VURELIKA_MODE
             && vurelika_spline_filter1d(0, 0, 0, 9, 3, NO_MODE, 0.0, NULL, 0, NULL, 0) == VURELIKA_MODE,
         "255 comes first in the filters");

    for (uint32_t mode = VURELIKA_CONSTANT; mode < VURELIKA_REPLICATE; mode++)
        hold(shift_by(-0.5, 0, mode, VURELIKA_CODES) == VURELIKA_BESIDE,
             "half a voxel at order 0 is refusal 9 in the other five modes");
    hold(shift_by(-0.5, 0, VURELIKA_REPLICATE, VURELIKA_CODES) == VURELIKA_DONE && has(VOXELS, 0, 0, 0),
         "Replicate gives no refusal 9");
    hold(shift_by(FAR, 1, VURELIKA_REPLICATE, VURELIKA_CODES) == VURELIKA_DONE && has(VOXELS, 0, 0, 0)
             && shift_by(-FAR, 1, VURELIKA_REPLICATE, VURELIKA_CODES) == VURELIKA_DONE
             && has(VOXELS, 0, 0, 0),
         "nor does it drop a voxel, however far the shift");
    hold(vurelika_work_count(D, D, D, 3, 1, VURELIKA_REPLICATE) == 26 * 26 * 26
             && vurelika_work_count(D, D, D, 3, 1, VURELIKA_NEAREST) == 26 * 26 * 26,
         "Replicate needs the work of Nearest, 24 more on each axis");

    hold(vurelika_work_count(4096, 4096, 4096, 3, 1, VURELIKA_MIRROR) == (size_t)1 << 36
             && vurelika_shift(4096, 4096, 4096, 0.0, 0.0, 0.0, 3, 1, VURELIKA_MIRROR, 0.0, NULL, 0, NULL, 0,
                               NULL, 0, NULL, 0, counts, VURELIKA_CODES) == VURELIKA_COUNT,
         "the work of 4,096^3 is 2^36 places, and its call refusal 6");
    hold(vurelika_work_count(D, D, D, 1, 1, VURELIKA_MIRROR) == 0
             && vurelika_work_count(D, D, D, 3, 0, VURELIKA_MIRROR) == 0,
         "no work is needed below order 2, or without prefilter");
    hold(vurelika_work_count(D, D, D, 6, 1, VURELIKA_MIRROR) == 0
             && vurelika_work_count(D, D, 0, 3, 1, VURELIKA_MIRROR) == 0
             && vurelika_work_count(D, D, 4097, 3, 1, VURELIKA_MIRROR) == 0
             && vurelika_work_count(D, D, D, 3, 1, NO_MODE) == 0,
         "work is 0 too at refusals 1 and 3 and at 255");
    hold(vurelika_zoom_length(4, 1.75) == 7 && vurelika_zoom_length(0, 1.0) == 0
             && vurelika_zoom_length(4097, 1.0) == 0 && vurelika_zoom_length(4, 0.0) == 0
             && vurelika_zoom_length(1, 2.0) == 0 && vurelika_zoom_length(4, 0.25) == 0,
         "a zoomed length is 0 at refusals 3, 4, 12 and 5");
    return wrong;
}
