/* The commands that resample a file. */
#ifndef VURELIKA_RESAMPLING_H
#define VURELIKA_RESAMPLING_H

#include "call.h"

/* The voxels of the input, once the library, asked with nothing lent, refuses none of the request's numbers. */
double *admitted_voxels(asking *ask, const struct request *r, size_t lengths[3]);

/* Resamples the voxels into a volume of the lengths `out`, in memory; gives what was lent. */
struct lent resample(const struct request *r, const size_t lengths[3], const size_t out[3],
                     const double *voxels);

/* From file to file, by the entry and the command's words; gives the command's status. */
int resample_file(const struct entry *entry, int argc, char **argv);

#endif
