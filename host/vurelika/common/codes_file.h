/* Coverage as a file of NumPy. */
#ifndef VURELIKA_CODES_FILE_H
#define VURELIKA_CODES_FILE_H

#include "memory.h"

/* A .npy file of version 1.0 that holds the codes as bytes ('|u1'), in C order. Its header is padded as
 * vurelika_npy_write does. */
struct bytes codes_file(const size_t lengths[3], const uint8_t *codes);

#endif
