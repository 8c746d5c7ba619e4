/* The two ways to resample, and in what they differ. */
#ifndef VURELIKA_ENTRY_H
#define VURELIKA_ENTRY_H

#include "resampler.h"

/* The type of vurelika_shift_voxel and vurelika_zoom_voxel. */
typedef uint32_t voxel_engine(size_t, size_t, size_t, double, double, double, size_t, uint32_t, uint32_t,
                              double, const double *, size_t, const double *, size_t, size_t, size_t, size_t,
                              double *, size_t, uint8_t *, size_t);

/* The type of vurelika_shift_point and vurelika_zoom_point. */
typedef uint32_t point_engine(size_t, double, size_t, uint32_t, uint32_t, size_t, double *, size_t, size_t *,
                              size_t, double *, size_t);

struct entry {
    resampler *resample;
    voxel_engine *voxel;
    point_engine *point;
    size_t (*length)(size_t length, double factor); /* of an axis that comes out; 0 where it is refused */
    const char *option; /* which has the factors */
    const char *factor; /* what one is called */
    const char *taken;  /* which are taken */
    const char *single; /* which of an axis of one voxel */
};

extern const struct entry shift_entry, zoom_entry;

#endif
