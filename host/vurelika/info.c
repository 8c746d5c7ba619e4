/* Says what a .npy file holds: lengths, finite or not, least and largest, the first wild voxel.
 * usage: vurelika info FILE
 *
 * Lengths from 1 to 4,096 are taken (else refusal 3). One of 1 is a single slice, as a radiograph has it: shift
 * takes 0 there, and zoom factors above 0.5 and below 1.5.
 * A voxel is wild where it is not finite, or its size exceeds 2^100: shift and zoom refuse it (refusal 8). */
#include <math.h>
#include <stdio.h>

#include "common/ending.h"
#include "common/input.h"
#include "common/number.h"
#include "common/volume.h"

/* The finite voxels: how many there are, and between which numbers. */
struct range {
    size_t count;
    double least, largest;
};

static struct range range_of(const double *voxels, size_t count)
{
    struct range range = {0, INFINITY, -INFINITY};

    for (size_t i = 0; i < count; i++) {
        if (!isfinite(voxels[i]))
            continue;
        range.count++;
        if (voxels[i] < range.least)
            range.least = voxels[i];
        if (voxels[i] > range.largest)
            range.largest = voxels[i];
    }
    return range;
}

static void say_range(const struct range *range, size_t count)
{
    printf("finite: %zu of %zu voxels\n", range->count, count);
    if (range->count > 0)
        printf("least: %s\nlargest: %s\n", number(range->least).text, number(range->largest).text);
}

static void say_first_wild(const double *voxels, size_t count, const size_t lengths[3])
{
    size_t at = first_wild(voxels, count);
    struct place place = place_of(at, lengths);

    if (at == count)
        puts("first wild voxel: none");
    else
        printf("first wild voxel: x %zu, y %zu, z %zu is %s\n", place.x, place.y, place.z,
               number(voxels[at]).text);
}

int main(int argc, char **argv)
{
    const char *path = argv[argc - 1];
    struct bytes file = read_file(path);
    size_t lengths[3], count;

    read_lengths(path, &file, lengths);
    printf("lengths: %zu by %zu by %zu\n", lengths[0], lengths[1], lengths[2]);
    double *voxels = read_voxels(path, &file, lengths);

    count = voxels_of(lengths);
    struct range range = range_of(voxels, count);

    say_range(&range, count);
    say_first_wild(voxels, count, lengths);
    return finish();
}
