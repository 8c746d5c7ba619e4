#include "call.h"

uint32_t call(const struct request *r, const size_t lengths[3], struct lent *lent)
{
    return r->entry->resample(lengths[0], lengths[1], lengths[2], r->factors[0], r->factors[1], r->factors[2],
                              r->order, r->prefilter, r->mode, r->fill, lent->input, lent->input_len,
                              lent->output, lent->output_len, lent->coverage, lent->output_len, lent->work,
                              lent->work_len, lent->counts, VURELIKA_CODES);
}

uint32_t call_voxel(const struct request *r, const size_t lengths[3], struct lent *lent)
{
    return r->entry->voxel(lengths[0], lengths[1], lengths[2], r->factors[0], r->factors[1], r->factors[2],
                           r->order, r->prefilter, r->mode, r->fill, lent->input, lent->input_len, lent->work,
                           lent->work_len, r->at[0], r->at[1], r->at[2], lent->output, lent->output_len,
                           lent->coverage, lent->output_len);
}

uint32_t call_point(const struct request *r, const size_t lengths[3], size_t axis, struct point *point)
{
    return r->entry->point(lengths[axis], r->factors[axis], r->order, r->prefilter, r->mode, r->at[axis],
                           &point->coordinate, 1, point->neighbours, VURELIKA_NEIGHBOURS, point->weights,
                           VURELIKA_NEIGHBOURS);
}

void output_lengths(const struct request *r, const size_t lengths[3], size_t out[3])
{
    for (size_t axis = 0; axis < 3; axis++)
        out[axis] = r->entry->length(lengths[axis], r->factors[axis]);
}

size_t work_of(const struct request *r, const size_t lengths[3])
{
    return vurelika_work_count(lengths[0], lengths[1], lengths[2], r->order, r->prefilter, r->mode);
}

size_t refused_axis(const struct request *r, const size_t lengths[3], uint32_t refusal)
{
    struct point point;
    size_t axis = 0;

    while (axis < 2 && call_point(r, lengths, axis, &point) != refusal)
        axis++;
    return axis;
}
