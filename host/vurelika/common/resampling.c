#include "resampling.h"

#include <stdlib.h>

#include "codes_file.h"
#include "ending.h"
#include "input.h"
#include "output.h"
#include "progress.h"
#include "refused.h"
#include "report.h"
#include "volume.h"
#include "vurelika.h"

double *admitted_voxels(asking *ask, const struct request *r, size_t lengths[3])
{
    struct bytes file = read_file(r->input);
    struct lent nothing = {0};

    read_lengths(r->input, &file, lengths);
    uint32_t refusal = ask(r, lengths, &nothing);

    if (refusal != VURELIKA_BUFFER)
        refuse_request(r, lengths, NULL, refusal);
    return read_voxels(r->input, &file, lengths);
}

struct lent resample(const struct request *r, const size_t lengths[3], const size_t out[3],
                     const double *voxels)
{
    size_t count = voxels_of(out), work = work_of(r, lengths);
    struct lent lent = {
        .input = voxels,
        .input_len = voxels_of(lengths),
        .output = room(count, sizeof *lent.output),
        .coverage = room(count, sizeof *lent.coverage),
        .output_len = count,
        .work = room(work, sizeof *lent.work),
        .work_len = work,
    };

    progress("resampling %zu by %zu by %zu voxels", lengths[0], lengths[1], lengths[2]);
    uint32_t refusal = call(r, lengths, &lent);

    if (refusal != VURELIKA_DONE)
        refuse_request(r, lengths, voxels, refusal);
    return lent;
}

static struct bytes volume_file(const size_t lengths[3], const double *voxels)
{
    size_t size = vurelika_npy_size(lengths[0], lengths[1], lengths[2]);
    struct bytes file = {room(size, 1), size};

    expect_done(vurelika_npy_write(lengths[0], lengths[1], lengths[2], voxels, voxels_of(lengths), file.at,
                                   file.length));
    return file;
}

/* Writes a file, but on a dry run, and gives its size. */
static size_t put(const struct request *r, const char *path, struct bytes file)
{
    if (!r->dry_run)
        write_output(path, &file);
    free(file.at);
    return file.length;
}

int resample_file(const struct entry *entry, int argc, char **argv)
{
    struct request r = request_of(entry, argc, argv);
    struct report report = {.request = &r};

    expect_output(r.output, r.force);
    if (r.coverage != NULL)
        expect_output(r.coverage, r.force);

    double *voxels = admitted_voxels(call, &r, report.lengths);

    output_lengths(&r, report.lengths, report.out);
    struct lent lent = resample(&r, report.lengths, report.out, voxels);

    free(voxels);
    free(lent.work);
    report.volume_bytes = put(&r, r.output, volume_file(report.out, lent.output));
    if (r.coverage != NULL)
        report.codes_bytes = put(&r, r.coverage, codes_file(report.out, lent.coverage));
    publish_outputs(r.force);

    report.work_bytes = lent.work_len * sizeof *lent.work;
    report.counts = lent.counts;
    say_report(&report);
    return finish();
}
