/* The floating-point environment that vurelika.h asks for: rounding to nearest, and subnormal numbers
 * kept. Looks for it in arithmetic and in what the library gives, and ends with 1 where it is not so.
 * With the word "flush" or "upward" it first spoils the environment, which must be noticed. */
#include <stdint.h>
#include <string.h>

#include "hold.h"
#include "vurelika.h"

enum { D0 = 4, D1 = 3, D2 = 4, VOXELS = D0 * D1 * D2, PLANE = D1 * D2 };

static const double least = 0x1p-1074; /* the smallest number above 0 */

/* Sets flags of MXCSR, the register of x86-64 that says how numbers are rounded and flushed. */
static void spoil(uint32_t flags)
{
    uint32_t mxcsr;

    __asm__ volatile("stmxcsr %0" : "=m"(mxcsr));
    mxcsr |= flags;
    __asm__ volatile("ldmxcsr %0" : : "m"(mxcsr));
}

static void hold_arithmetic(void)
{
    volatile double one = 1.0, small = least, tiny = 0x1p-60;

    hold(one + tiny == one && -one - tiny == -one && one - tiny == one, "numbers are rounded to nearest");
    hold(small + small == 2 * small && small + small > 0.0, "a sum may be subnormal");
    hold(small * one > 0.0 && 0x1p-1022 * (one / 2) > 0.0, "a product may be subnormal");
}

/* Shifts a volume of subnormal voxels, no two alike, along its first axis, order 1. So many planes are
 * filled; after them stand those of the input from plane `first` on, bit for bit. */
static void hold_shift(double by, size_t filled, size_t first, const char *what)
{
    static double input[VOXELS], output[VOXELS];
    static uint8_t coverage[VOXELS];
    uint64_t counts[VURELIKA_CODES];

    for (uint64_t bits = 1; bits <= VOXELS; bits++)
        memcpy(&input[bits - 1], &bits, sizeof bits);
    uint32_t answer = vurelika_shift(D0, D1, D2, by, 0.0, 0.0, 1, 0, VURELIKA_CONSTANT, -1.0, input, VOXELS,
                                     output, VOXELS, coverage, VOXELS, NULL, 0, counts, VURELIKA_CODES);
    size_t kept = VOXELS - filled * PLANE;

    hold(answer == VURELIKA_DONE && counts[0] == kept && counts[1] == filled * PLANE
             && memcmp(output + filled * PLANE, input + first * PLANE, kept * sizeof *output) == 0, what);
}

int main(int argc, char **argv)
{
    if (argc > 1 && strcmp(argv[1], "flush") == 0)
        spoil(0x8040); /* results and operands that are subnormal become 0 */
    if (argc > 1 && strcmp(argv[1], "upward") == 0)
        spoil(0x4000);
    hold_arithmetic();
    hold_shift(0.0, 0, 0, "a shift by 0 leaves every voxel");
    hold_shift(1.0, 1, 0, "a shift by 1 moves three planes and fills one");
    hold_shift(least, 1, 1, "a shift by 2^-1074 fills the first plane alone, and leaves the others");
    hold_shift(-0x1p-60, 0, 0, "a shift by -2^-60 leaves every voxel");
    return wrong;
}
