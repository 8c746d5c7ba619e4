/* A radiograph is a volume with an axis of length 1. It is shifted along its rows and columns; along that axis
 * there is nothing to shift. host/build-c builds this. */
#include <inttypes.h>
#include <stdio.h>

#include "vurelika.h"

/* 1 by 3 by 4 voxels. */
enum { ROWS = 3, COLUMNS = 4, VOXELS = ROWS * COLUMNS };

static const double input[VOXELS] = {
    11, 12, 13, 14,
    21, 22, 23, 24,
    31, 32, 33, 34,
};
static double output[VOXELS];
static uint8_t coverage[VOXELS];
static uint64_t counts[VURELIKA_CODES];

/* Shifts it, order 1; what comes from outside is filled with -1. */
static uint32_t shift(const double by[3])
{
    return vurelika_shift(1, ROWS, COLUMNS, by[0], by[1], by[2], 1, 0, VURELIKA_CONSTANT, -1.0, input, VOXELS,
                          output, VOXELS, coverage, VOXELS, NULL, 0, counts, VURELIKA_CODES);
}

static void print_rows(void)
{
    for (size_t row = 0; row < ROWS; row++) {
        for (size_t column = 0; column < COLUMNS; column++)
            printf("%6g", output[row * COLUMNS + column]);
        printf("    codes");
        for (size_t column = 0; column < COLUMNS; column++)
            printf(" %u", coverage[row * COLUMNS + column]);
        putchar('\n');
    }
}

int main(void)
{
    static const double shifts[][3] = {{0.0, 1.0, 0.0}, {0.0, 0.0, -0.5}, {1.0, 0.0, 0.0}};

    for (size_t i = 0; i < sizeof shifts / sizeof shifts[0]; i++) {
        uint32_t refusal = shift(shifts[i]);

        printf("shift by %g, %g, %g\n", shifts[i][0], shifts[i][1], shifts[i][2]);
        if (refusal == VURELIKA_DONE)
            print_rows();
        else if (refusal == VURELIKA_SLICE)
            puts("refused: an axis of length 1 takes the shift 0 alone");
        else
            printf("refused, number %" PRIu32 "\n", refusal);
    }
    /* 12 edge copies stand on each side of the rows and of the columns: 1 * 27 * 28 */
    printf("work for order 3 in Replicate: %zu places\n",
           vurelika_work_count(1, ROWS, COLUMNS, 3, 1, VURELIKA_REPLICATE));
    return 0;
}
