/* The mean density of a volume after a shift, and what the codes say in each mode. The scan has 20
 * planes, of densities 0, 10 ... 190, and is shifted by 13.5 planes: 14 of the 20 that come out lie
 * before its first plane. host/build-c builds this. */
#include <inttypes.h>
#include <stdio.h>

#include "vurelika.h"

enum { D0 = 20, D1 = 30, D2 = 40, VOXELS = D0 * D1 * D2 };

static double input[VOXELS], output[VOXELS];
static uint8_t coverage[VOXELS];
static uint64_t counts[VURELIKA_CODES];

static const char *const modes[] = {"Constant", "Mirror", "Nearest", "Reflect", "Wrap", "Replicate"};

/* The mean of the voxels of code 0. There must be one. */
static double mean_density(void)
{
    double sum = 0.0;

    for (size_t i = 0; i < VOXELS; i++)
        if (coverage[i] == VURELIKA_COMPUTED)
            sum += output[i];
    return sum / (double)counts[VURELIKA_COMPUTED];
}

/* The same without the codes: a fill counts as bone. */
static double mean_of_all(void)
{
    double sum = 0.0;

    for (size_t i = 0; i < VOXELS; i++)
        sum += output[i];
    return sum / VOXELS;
}

int main(void)
{
    for (size_t i = 0; i < VOXELS; i++)
        input[i] = 10.0 * (double)(i / (D1 * D2));

    puts("mode      computed  filled  defaulted  folded  mean of code 0  mean of all");
    for (uint32_t mode = VURELIKA_CONSTANT; mode <= VURELIKA_REPLICATE; mode++) {
        uint32_t refusal = vurelika_shift(D0, D1, D2, 13.5, 0.0, 0.0, 1, 0, mode, 0.0, input, VOXELS,
                                          output, VOXELS, coverage, VOXELS, NULL, 0, counts,
                                          VURELIKA_CODES);

        if (refusal != VURELIKA_DONE)
            return 1;
        printf("%-9s%9" PRIu64 "%8" PRIu64 "%11" PRIu64 "%8" PRIu64 "%16g%13g\n", modes[mode],
               counts[VURELIKA_COMPUTED], counts[VURELIKA_FILLED], counts[VURELIKA_DEFAULTED],
               counts[VURELIKA_FOLDED], mean_density(), mean_of_all());
    }
    return 0;
}
