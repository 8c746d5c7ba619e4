/* What can be said of a volume without the library. */
#ifndef VURELIKA_VOLUME_H
#define VURELIKA_VOLUME_H

#include <stddef.h>

/* How many voxels a volume of these lengths has. */
size_t voxels_of(const size_t lengths[3]);

/* Whether refusal 8 is given for a voxel, or a fill. */
int is_wild(double value);

/* The place of the first wild voxel; the number of voxels where none is. */
size_t first_wild(const double *voxels, size_t count);

/* The x, y, z of a place in the flat buffer. */
struct place {
    size_t x, y, z;
};
struct place place_of(size_t at, const size_t lengths[3]);

#endif
