#include "report.h"

#include <inttypes.h>
#include <stdio.h>

#include "vurelika.h"

static const char *const names[VURELIKA_CODES] = {
    [VURELIKA_COMPUTED] = "computed",
    [VURELIKA_FILLED] = "filled",
    [VURELIKA_DEFAULTED] = "defaulted",
    [VURELIKA_FOLDED] = "folded",
};

const char *code_name(size_t code)
{
    return names[code];
}

static void say_file(const struct report *report, const char *path, const char *things, size_t bytes)
{
    printf("%s %s: %zu by %zu by %zu %s, %zu bytes\n", report->request->dry_run ? "would write" : "wrote", path,
           report->out[0], report->out[1], report->out[2], things, bytes);
}

/* A line for each code, with its share of all voxels. */
static void say_counts(const uint64_t counts[VURELIKA_CODES])
{
    uint64_t all = 0;

    for (size_t code = 0; code < VURELIKA_CODES; code++)
        all += counts[code];
    for (size_t code = 0; code < VURELIKA_CODES; code++)
        printf("code %zu, %s: %" PRIu64 " voxels, %.1f %%\n", code, code_name(code), counts[code],
               100.0 * (double)counts[code] / (double)all);
}

void say_report(const struct report *report)
{
    const struct request *r = report->request;

    printf("read %s: %zu by %zu by %zu voxels\n", r->input, report->lengths[0], report->lengths[1],
           report->lengths[2]);
    say_file(report, r->output, "voxels", report->volume_bytes);
    if (r->coverage != NULL)
        say_file(report, r->coverage, "codes", report->codes_bytes);
    if (r->dry_run)
        printf("resampled in memory, with %zu bytes of work; nothing is written\n", report->work_bytes);
    say_counts(report->counts);
}
