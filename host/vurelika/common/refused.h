/* A refusal in words: the command ends with its number, after a line on stderr that says what was wrong and
 * where. Which axis it was is asked of the library, so that its rules are not written again. */
#ifndef VURELIKA_REFUSED_H
#define VURELIKA_REFUSED_H

#include "memory.h"
#include "request.h"

/* The bytes are no .npy file that is taken. */
_Noreturn void refuse_file(const char *path, const struct bytes *file);

/* A length of an input axis. */
_Noreturn void refuse_lengths(const char *path, const size_t lengths[3]);

/* The number of places of what is named. */
_Noreturn void refuse_count(const char *name, size_t places);

/* Any refusal of a request for a volume of these lengths. Its voxels are looked at for refusal 8 alone. */
_Noreturn void refuse_request(const struct request *r, const size_t lengths[3], const double *voxels,
                              uint32_t refusal);

/* An answer to what was found admitted before: nothing happens, unless it is a refusal all the same. */
void expect_done(uint32_t answer);

#endif
