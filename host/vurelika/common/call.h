/* A request, put to the library. */
#ifndef VURELIKA_CALL_H
#define VURELIKA_CALL_H

#include "request.h"
#include "vurelika.h"

/* What is lent to a call; all empty, the answer is VURELIKA_BUFFER, or a refusal that comes before it. */
struct lent {
    const double *input;
    size_t input_len;
    double *output;
    uint8_t *coverage;
    size_t output_len; /* of both */
    double *work;
    size_t work_len;
    uint64_t counts[VURELIKA_CODES];
};

/* What is put to the library for a volume of these lengths, and its answer. */
typedef uint32_t asking(const struct request *r, const size_t lengths[3], struct lent *lent);

/* The whole output. */
asking call;

/* One voxel of it: output and coverage have one place, work is read, and counts is left alone. */
asking call_voxel;

/* What an axis gives to the index that is asked for. */
struct point {
    double coordinate;
    size_t neighbours[VURELIKA_NEIGHBOURS];
    double weights[VURELIKA_NEIGHBOURS];
};
uint32_t call_point(const struct request *r, const size_t lengths[3], size_t axis, struct point *point);

/* The lengths of the volume that comes out; a 0 where an axis is refused. */
void output_lengths(const struct request *r, const size_t lengths[3], size_t out[3]);

/* The places of work that the request needs. */
size_t work_of(const struct request *r, const size_t lengths[3]);

/* The first axis that meets the refusal by itself, which must be one that an axis meets: 4, 12, 5, 9 or 11. */
size_t refused_axis(const struct request *r, const size_t lengths[3], uint32_t refusal);

#endif
