/* The type of vurelika_shift and vurelika_zoom. */
#ifndef VURELIKA_RESAMPLER_H
#define VURELIKA_RESAMPLER_H

#include <stddef.h>
#include <stdint.h>

typedef uint32_t resampler(size_t, size_t, size_t, double, double, double, size_t, uint32_t, uint32_t,
                           double, const double *, size_t, double *, size_t, uint8_t *, size_t, double *,
                           size_t, uint64_t *, size_t);

#endif
