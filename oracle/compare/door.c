/* The library's door, opened to another process: reads requests from standard input, makes the calls,
 * and writes back what they returned and every place of every buffer. `piped.rs` is the other side.
 * Numbers are eight bytes, the low one first, as the processor keeps them; floats come as their bits. */
#include <stdint.h>
#include <stdio.h>
#include <stdlib.h>

#include "vurelika.h"

enum function { SHIFT, ZOOM, SPLINE_FILTER, SPLINE_FILTER1D, SHIFT_VOXEL, ZOOM_VOXEL };
enum buffer { INPUT, OUTPUT, COVERAGE, WORK, COUNTS, BUFFERS };

static const size_t sizes[BUFFERS] = {8, 8, 1, 8, 8};

struct request {
    uint64_t function, dims[3];
    double factors[3];
    uint64_t order, axis, prefilter, mode;
    double fill;
    uint64_t at[3]; /* of one voxel, whose value goes to OUTPUT and its code to COVERAGE */
    uint64_t guard, lengths[BUFFERS]; /* places around what is lent, and places lent */
};

struct reply {
    uint64_t status, zoom_lengths[3], work_count;
};

static size_t bytes_of(const struct request *r, int which)
{
    return (r->lengths[which] + 2 * r->guard) * sizes[which];
}

static uint32_t answer(const struct request *r, unsigned char *const whole[BUFFERS])
{
    const uint64_t *d = r->dims, *n = r->lengths;
    const double *f = r->factors;
    void *lent[BUFFERS];
    for (int which = 0; which < BUFFERS; which++)
        lent[which] = whole[which] + r->guard * sizes[which];

    switch (r->function) {
    case SHIFT:
    case ZOOM:
        return (r->function == SHIFT ? vurelika_shift : vurelika_zoom)(
            d[0], d[1], d[2], f[0], f[1], f[2], r->order, r->prefilter, r->mode, r->fill,
            lent[INPUT], n[INPUT], lent[OUTPUT], n[OUTPUT], lent[COVERAGE], n[COVERAGE],
            lent[WORK], n[WORK], lent[COUNTS], n[COUNTS]);
    case SHIFT_VOXEL:
    case ZOOM_VOXEL:
        return (r->function == SHIFT_VOXEL ? vurelika_shift_voxel : vurelika_zoom_voxel)(
            d[0], d[1], d[2], f[0], f[1], f[2], r->order, r->prefilter, r->mode, r->fill,
            lent[INPUT], n[INPUT], lent[WORK], n[WORK], r->at[0], r->at[1], r->at[2],
            lent[OUTPUT], n[OUTPUT], lent[COVERAGE], n[COVERAGE]);
    case SPLINE_FILTER:
        return vurelika_spline_filter(d[0], d[1], d[2], r->order, r->mode, r->fill,
                                      lent[INPUT], n[INPUT], lent[OUTPUT], n[OUTPUT]);
    default:
        return vurelika_spline_filter1d(d[0], d[1], d[2], r->order, r->axis, r->mode, r->fill,
                                        lent[INPUT], n[INPUT], lent[OUTPUT], n[OUTPUT]);
    }
}

static void stop(const char *reason)
{
    fprintf(stderr, "door: %s\n", reason);
    exit(2);
}

int main(void)
{
    struct request r;
    while (fread(&r, sizeof r, 1, stdin) == 1) {
        unsigned char *whole[BUFFERS];
        for (int which = 0; which < BUFFERS; which++) {
            whole[which] = malloc(bytes_of(&r, which));
            if (!whole[which])
                stop("no memory for a request");
            if (fread(whole[which], bytes_of(&r, which), 1, stdin) != 1)
                stop("a request breaks off");
        }

        struct reply reply = {.status = answer(&r, whole)};
        for (int axis = 0; axis < 3; axis++)
            reply.zoom_lengths[axis] = vurelika_zoom_length(r.dims[axis], r.factors[axis]);
        reply.work_count = vurelika_work_count(r.dims[0], r.dims[1], r.dims[2], r.order, r.prefilter, r.mode);

        fwrite(&reply, sizeof reply, 1, stdout);
        for (int which = 0; which < BUFFERS; which++) {
            fwrite(whole[which], bytes_of(&r, which), 1, stdout);
            free(whole[which]);
        }
        if (fflush(stdout))
            stop("an answer cannot be written");
    }
    return 0;
}
