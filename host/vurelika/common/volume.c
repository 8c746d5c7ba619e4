#include "volume.h"

#include <math.h>

size_t voxels_of(const size_t lengths[3])
{
    return lengths[0] * lengths[1] * lengths[2];
}

int is_wild(double value)
{
    return !isfinite(value) || fabs(value) > 0x1p100;
}

size_t first_wild(const double *voxels, size_t count)
{
    size_t at = 0;

    while (at < count && !is_wild(voxels[at]))
        at++;
    return at;
}

struct place place_of(size_t at, const size_t lengths[3])
{
    size_t row = at / lengths[2];

    return (struct place){row / lengths[1], row % lengths[1], at % lengths[2]};
}
