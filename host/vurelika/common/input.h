/* Files that a command reads. */
#ifndef VURELIKA_INPUT_H
#define VURELIKA_INPUT_H

#include "memory.h"

/* All bytes of a file. */
struct bytes read_file(const char *path);

/* The lengths of the axes of a .npy file. */
void read_lengths(const char *path, const struct bytes *file, size_t lengths[3]);

/* The voxels of a .npy file that has these lengths; its bytes are given back. */
double *read_voxels(const char *path, struct bytes *file, const size_t lengths[3]);

#endif
