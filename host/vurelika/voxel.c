/* Works out one output voxel of a .npy file afresh: its value, its code, and what they are made of.
 * usage: vurelika voxel IN.npy [--shift X,Y,Z] [--zoom X,Y,Z] --at X,Y,Z --order N --mode NAME [--fill F]
 *     [--no-prefilter]
 *
 * --shift X,Y,Z          the voxel is one of those that shift writes; or
 * --zoom X,Y,Z           one of those that zoom writes. One of the two must be given
 * --at X,Y,Z             its index on each axis of the volume that comes out
 * The other options are those of shift: vurelika help shift.
 *
 * Value, bits and code are those that shift or zoom writes there. Then come the coordinate of each axis, its
 * neighbours and their weights, and the numbers that the sum reads, in its order: the voxels, or, where orders 2
 * to 5 prefilter, the coefficients. So the sum can be checked on paper: all numbers have as many digits as it
 * takes to read them again. An axis of 1 voxel has one neighbour, with a weight of exactly 1. */
#include <inttypes.h>
#include <stdio.h>
#include <stdlib.h>
#include <string.h>

#include "common/ending.h"
#include "common/number.h"
#include "common/refused.h"
#include "common/report.h"
#include "common/resampling.h"
#include "common/volume.h"

enum { PAD = 12 }; /* edge copies on each side of an axis that is padded */

/* What the sum reads. */
struct source {
    const char *name;
    const double *numbers;
    size_t pads[3];    /* of each axis; 0 where there is none */
    size_t lengths[3]; /* of the axes as padded */
    size_t counts[3];  /* how many neighbours are read on each */
};

/* All that the library says of the voxel. */
struct answer {
    double value;
    uint8_t code;
    struct point points[3];
};

/* ---- what is asked of the library */

/* The coefficients depend on no factor: a shift by nothing leaves them in work. */
static double *coefficients_of(const struct request *r, const size_t lengths[3], const double *voxels)
{
    struct request still = *r;

    still.entry = &shift_entry;
    memset(still.factors, 0, sizeof still.factors);
    struct lent lent = resample(&still, lengths, lengths, voxels);

    free(lent.output);
    free(lent.coverage);
    return lent.work;
}

static struct answer answer_of(const struct request *r, const size_t lengths[3], const double *voxels,
                               double *work, size_t work_len)
{
    struct answer answer;
    struct lent lent = {voxels, voxels_of(lengths), &answer.value, &answer.code, 1, work, work_len, {0}};
    uint32_t refusal = call_voxel(r, lengths, &lent);

    if (refusal != VURELIKA_DONE)
        refuse_request(r, lengths, voxels, refusal);
    for (size_t axis = 0; axis < 3; axis++)
        expect_done(call_point(r, lengths, axis, &answer.points[axis]));
    return answer;
}

/* Work is needed for coefficients alone, and for more of them than there are voxels where axes are padded. An axis
 * of one voxel never is, and has one neighbour: the places behind it in its record weigh nothing. */
static struct source source_of(const struct request *r, const size_t lengths[3], const double *voxels,
                               const double *work, size_t work_len)
{
    struct source source = {.name = "the input", .numbers = voxels};
    size_t pad = work_len > voxels_of(lengths) ? PAD : 0;

    if (work_len > 0) {
        source.name = "the coefficients of the input";
        source.numbers = work;
    }
    for (size_t axis = 0; axis < 3; axis++) {
        source.pads[axis] = lengths[axis] > 1 ? pad : 0;
        source.lengths[axis] = lengths[axis] + 2 * source.pads[axis];
        source.counts[axis] = lengths[axis] > 1 ? r->order + 1 : 1;
    }
    return source;
}

/* ---- tables */

/* A row of numbers, of which as many count as its axis has neighbours; the others are those of index 0. */
struct row {
    double at[VURELIKA_NEIGHBOURS];
};

static struct row neighbours_row(const struct point *point)
{
    struct row row;

    for (size_t i = 0; i < VURELIKA_NEIGHBOURS; i++)
        row.at[i] = (double)point->neighbours[i];
    return row;
}

static struct row weights_row(const struct point *point)
{
    struct row row;

    memcpy(row.at, point->weights, sizeof row.at);
    return row;
}

/* The numbers that x runs through, at neighbour j of y and k of z. */
static struct row read_row(const struct source *source, const struct point points[3], size_t j, size_t k)
{
    struct row row;

    for (size_t i = 0; i < VURELIKA_NEIGHBOURS; i++) {
        size_t lane = points[0].neighbours[i] * source->lengths[1] + points[1].neighbours[j];

        row.at[i] = source->numbers[lane * source->lengths[2] + points[2].neighbours[k]];
    }
    return row;
}

/* The width of a column that has room for the row too. */
static int widened(int width, struct row row, size_t count)
{
    for (size_t i = 0; i < count; i++) {
        int own = (int)strlen(number(row.at[i]).text);

        width = own > width ? own : width;
    }
    return width;
}

static void say_row(const char *name, int width, struct row row, size_t count)
{
    printf("  %-14s", name);
    for (size_t i = 0; i < count; i++)
        printf("  %*s", width, number(row.at[i]).text);
    putchar('\n');
}

/* ---- what is said */

static void say_voxel(const struct request *r, const size_t lengths[3], const struct answer *answer)
{
    size_t out[3];
    uint64_t bits;

    output_lengths(r, lengths, out);
    memcpy(&bits, &answer->value, sizeof bits);
    printf("read %s: %zu by %zu by %zu voxels\n", r->input, lengths[0], lengths[1], lengths[2]);
    printf("voxel: x %zu, y %zu, z %zu of %zu by %zu by %zu that come out\n", r->at[0], r->at[1], r->at[2], out[0],
           out[1], out[2]);
    printf("value: %s\nbits: 0x%016" PRIx64 "\n", number(answer->value).text, bits);
    printf("code: %u, %s\n", answer->code, code_name(answer->code));
}

static int is_kept(const struct point *point)
{
    return point->coordinate > -1.0;
}

static void say_axis(const struct request *r, const struct source *source, size_t axis, const struct point *point)
{
    struct row neighbours = neighbours_row(point), weights = weights_row(point);
    size_t count = source->counts[axis], pad = source->pads[axis];
    int width = widened(widened(0, neighbours, count), weights, count);

    printf("axis %zu: index %zu, coordinate %s", axis, r->at[axis], number(point->coordinate).text);
    if (pad > 0)
        printf(" with the pad of %zu", pad);
    printf(", %s%s\n", is_kept(point) ? "kept" : "dropped",
           source->lengths[axis] == 1 ? "; of length 1, so its one voxel has a weight of exactly 1" : "");
    if (!is_kept(point))
        return;
    say_row("neighbours", width, neighbours, count);
    say_row("weights", width, weights, count);
}

/* A line for each pair of neighbours of z and y, z outermost: the sum goes through them as one reads. */
static void say_source(const struct source *source, const struct point points[3])
{
    struct row x = neighbours_row(&points[0]);
    size_t count = source->counts[0], y_count = source->counts[1], lines = y_count * source->counts[2];
    int width = widened(0, x, count);

    printf("reads: %s, %zu by %zu by %zu\n", source->name, source->lengths[0], source->lengths[1],
           source->lengths[2]);
    for (size_t line = 0; line < lines; line++)
        width = widened(width, read_row(source, points, line % y_count, line / y_count), count);
    say_row("x", width, x, count);
    for (size_t line = 0; line < lines; line++) {
        size_t j = line % y_count, k = line / y_count;
        char name[48];

        snprintf(name, sizeof name, "z %zu, y %zu", points[2].neighbours[k], points[1].neighbours[j]);
        say_row(name, width, read_row(source, points, j, k), count);
    }
}

static void say_rule(const struct request *r, const struct source *source, const struct point points[3])
{
    if (!is_kept(&points[0]) || !is_kept(&points[1]) || !is_kept(&points[2])) {
        printf("rule: an axis drops the voxel, so it is %s\n", r->mode == VURELIKA_CONSTANT ? "the fill" : "0.0");
        return;
    }
    if (r->order == 0)
        puts("rule: the one number that is read is copied");
    else
        puts("rule: from 0.0 on add number * (x weight * (y weight * z weight)), line by line and from left to\n"
             "      right; each operation is rounded once");
    say_source(source, points);
}

int main(int argc, char **argv)
{
    struct request r = voxel_request_of(argc, argv);
    size_t lengths[3];
    double *voxels = admitted_voxels(call_voxel, &r, lengths);
    size_t work_len = work_of(&r, lengths);
    double *work = work_len > 0 ? coefficients_of(&r, lengths, voxels) : NULL;
    struct answer answer = answer_of(&r, lengths, voxels, work, work_len);
    struct source source = source_of(&r, lengths, voxels, work, work_len);

    say_voxel(&r, lengths, &answer);
    for (size_t axis = 0; axis < 3; axis++)
        say_axis(&r, &source, axis, &answer.points[axis]);
    say_rule(&r, &source, answer.points);
    return finish();
}
