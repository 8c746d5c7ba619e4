/* A first program over the library: shifts a small volume, and says of each voxel that comes out
 * whether it was computed from the input, blends in a folded neighbour, or was filled. host/build-c builds
 * it. */
#include <inttypes.h>
#include <stdio.h>

#include "vurelika.h"

/* A volume of 2 by 3 by 4 voxels, in one buffer: the voxel x, y, z stands at (x * 3 + y) * 4 + z. */
enum { D0 = 2, D1 = 3, D2 = 4, VOXELS = D0 * D1 * D2 };

static const double input[VOXELS] = {
    11, 12, 13, 14,  21, 22, 23, 24,  31, 32, 33, 34,
    41, 42, 43, 44,  51, 52, 53, 54,  61, 62, 63, 64,
};

/* All that a call writes is lent to it, and it allocates nothing. */
static double output[VOXELS];
static uint8_t coverage[VOXELS];
static uint64_t counts[VURELIKA_CODES];

/* Shifts the volume along its last axis, order 1; what comes from outside is filled with -1. Gives 0,
 * or the number of a refusal, which vurelika.h explains. */
static uint32_t shift(double by)
{
    const size_t order = 1;
    const uint32_t prefilter = 0;
    const double fill = -1.0;

    /* without prefilter no work is needed: vurelika_work_count says how much otherwise */
    return vurelika_shift(D0, D1, D2, 0.0, 0.0, by, order, prefilter, VURELIKA_CONSTANT, fill,
                          input, VOXELS, output, VOXELS, coverage, VOXELS, NULL, 0, counts,
                          VURELIKA_CODES);
}

/* Lane by lane: four values, and their codes (0 computed, 1 filled, 3 computed with a folded neighbour). */
static void print_volume(void)
{
    for (size_t i = 0; i < VOXELS; i += D2) {
        for (size_t z = 0; z < D2; z++)
            printf("%6g", output[i + z]);
        printf("    codes");
        for (size_t z = 0; z < D2; z++)
            printf(" %u", coverage[i + z]);
        putchar('\n');
    }
    printf("computed %" PRIu64 ", filled %" PRIu64 ", defaulted %" PRIu64 ", folded %" PRIu64 "\n",
           counts[VURELIKA_COMPUTED], counts[VURELIKA_FILLED], counts[VURELIKA_DEFAULTED],
           counts[VURELIKA_FOLDED]);
}

int main(void)
{
    const double shifts[] = {1.0, -0.5, 1048576.0};

    for (size_t i = 0; i < sizeof shifts / sizeof shifts[0]; i++) {
        uint32_t refusal = shift(shifts[i]);

        printf("shift by %.10g\n", shifts[i]);
        if (refusal == VURELIKA_DONE)
            print_volume();
        else if (refusal == VURELIKA_FACTOR)
            puts("refused: a shift must be finite and smaller than 2^20 voxels");
        else
            printf("refused, number %" PRIu32 "\n", refusal);
    }
    return 0;
}
