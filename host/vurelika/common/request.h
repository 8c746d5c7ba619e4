/* What a command that resamples is asked to do. */
#ifndef VURELIKA_REQUEST_H
#define VURELIKA_REQUEST_H

#include "entry.h"

struct request {
    const struct entry *entry;
    const char *input;
    const char *output;   /* NULL where one voxel is asked for */
    const char *coverage; /* NULL where the codes are not asked for */
    double factors[3];
    size_t order;
    const char *order_word; /* as it was given: it may be too large a number */
    uint32_t prefilter, mode;
    double fill;
    int dry_run, force;
    size_t at[3];           /* the voxel that is asked for */
    const char *at_word[3]; /* its indices as they were given, up to a comma or the end */
};

/* The request of a command's words, from file to file. The launcher has held them to the usage (host/words);
 * what is no number, no mode, or the same file twice ends the command here. */
struct request request_of(const struct entry *entry, int argc, char **argv);

/* The request for one voxel, whose entry is that of the option given. */
struct request voxel_request_of(int argc, char **argv);

#endif
