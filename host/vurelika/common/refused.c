#include "refused.h"

#include <string.h>

#include "call.h"
#include "ending.h"
#include "number.h"
#include "refusal.h"
#include "volume.h"
#include "vurelika.h"

/* The most places of a buffer. */
static const size_t most = (size_t)1 << 27;

void refuse_lengths(const char *path, const size_t lengths[3])
{
    size_t axis = 0;

    while (axis < 2 && vurelika_npy_size(lengths[axis], 1, 1) != 0)
        axis++;
    refuse(VURELIKA_LENGTH, "axis %zu of %s has %zu voxels; 1 to 4,096 are taken", axis, path, lengths[axis]);
}

void refuse_count(const char *name, size_t places)
{
    refuse(VURELIKA_COUNT, "%s needs %zu places; at most 2^27 = 134,217,728 are taken", name, places);
}

static _Noreturn void refuse_counts(const struct request *r, const size_t lengths[3])
{
    size_t out[3];

    if (voxels_of(lengths) > most)
        refuse_count(r->input, voxels_of(lengths));
    output_lengths(r, lengths, out);
    if (voxels_of(out) > most)
        refuse_count(r->output != NULL ? r->output : "the output", voxels_of(out));
    refuse_count("the work", work_of(r, lengths));
}

/* A factor, what it makes of a length, or where its coordinates fall. */
static _Noreturn void refuse_axis(const struct request *r, const size_t lengths[3], uint32_t refusal)
{
    size_t axis = refused_axis(r, lengths, refusal), length = lengths[axis];
    struct number factor = number(r->factors[axis]);

    if (refusal == VURELIKA_FACTOR)
        refuse(refusal, "the %s of axis %zu is %s; it must be %s", r->entry->factor, axis, factor.text,
               r->entry->taken);
    if (refusal == VURELIKA_SLICE)
        refuse(refusal, "axis %zu of %s has 1 voxel and the %s %s; of such an axis it must be %s", axis, r->input,
               r->entry->factor, factor.text, r->entry->single);
    if (refusal == VURELIKA_OUTPUT_LENGTH)
        refuse(refusal,
               "axis %zu would have %zu times %s = %s voxels, rounded; an axis longer than 1 must have 2 to 4,096",
               axis, length, factor.text, number((double)length * r->factors[axis]).text);
    refuse(refusal,
           "axis %zu has %zu voxels and the %s %s: at order 0 a coordinate is kept, but its nearest voxel "
           "lies outside",
           axis, length, r->entry->factor, factor.text);
}

static _Noreturn void refuse_value(const struct request *r, const size_t lengths[3], const double *voxels)
{
    static const char taken[] = "it must be finite and of a size up to 2^100";

    if (r->mode == VURELIKA_CONSTANT && is_wild(r->fill))
        refuse(VURELIKA_VALUE, "the fill is %s; %s", number(r->fill).text, taken);
    size_t at = first_wild(voxels, voxels_of(lengths));
    struct place place = place_of(at, lengths);

    refuse(VURELIKA_VALUE, "the voxel x %zu, y %zu, z %zu of %s is %s; %s", place.x, place.y, place.z, r->input,
           number(voxels[at]).text, taken);
}

static _Noreturn void refuse_index(const struct request *r, const size_t lengths[3])
{
    size_t axis = refused_axis(r, lengths, VURELIKA_INDEX), out[3];
    const char *word = r->at_word[axis];

    int digits = (int)strcspn(word, ",");

    output_lengths(r, lengths, out);
    if (out[axis] == 1)
        refuse(VURELIKA_INDEX, "the index of axis %zu is %.*s; the output has 1 voxel there, 0", axis, digits, word);
    refuse(VURELIKA_INDEX, "the index of axis %zu is %.*s; the output has %zu voxels there, 0 to %zu", axis, digits,
           word, out[axis], out[axis] - 1);
}

void refuse_request(const struct request *r, const size_t lengths[3], const double *voxels, uint32_t refusal)
{
    switch (refusal) {
    case VURELIKA_ORDER:
        refuse(refusal, "the order is %s; 0 to 5 are taken", r->order_word);
    case VURELIKA_LENGTH:
        refuse_lengths(r->input, lengths);
    case VURELIKA_FACTOR:
    case VURELIKA_SLICE:
    case VURELIKA_OUTPUT_LENGTH:
    case VURELIKA_BESIDE:
        refuse_axis(r, lengths, refusal);
    case VURELIKA_COUNT:
        refuse_counts(r, lengths);
    case VURELIKA_VALUE:
        refuse_value(r, lengths, voxels);
    case VURELIKA_INDEX:
        refuse_index(r, lengths);
    default:
        refuse(refusal, "%s", refusal_meaning(refusal));
    }
}

void expect_done(uint32_t answer)
{
    if (answer != VURELIKA_DONE)
        refuse(answer, "%s", refusal_meaning(answer));
}
