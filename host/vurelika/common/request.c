#define _DEFAULT_SOURCE /* realpath */
#include "request.h"

#include <stdlib.h>
#include <string.h>
#include <sysexits.h>

#include "ending.h"
#include "vurelika.h"
#include "words.h"

static const char *const modes[] = {
    [VURELIKA_CONSTANT] = "constant", [VURELIKA_MIRROR] = "mirror", [VURELIKA_NEAREST] = "nearest",
    [VURELIKA_REFLECT] = "reflect",   [VURELIKA_WRAP] = "wrap",     [VURELIKA_REPLICATE] = "replicate",
};

static uint32_t mode_of(const char *word)
{
    for (uint32_t mode = 0; mode < sizeof modes / sizeof modes[0]; mode++)
        if (strcmp(word, modes[mode]) == 0)
            return mode;
    fail(EX_USAGE, "--mode is constant, mirror, nearest, reflect, wrap or replicate, not '%s'", word);
}

static size_t order_of(const char *word)
{
    if (*word == '\0' || word[strspn(word, "0123456789")] != '\0')
        fail(EX_USAGE, "--order must be a whole number, not '%s'", word);
    return strtoull(word, NULL, 10); /* the largest there is where it is larger: refused all the same */
}

static double fill_of(const char *word)
{
    char *end;
    double fill = strtod(word, &end);

    if (end == word || *end != '\0')
        fail(EX_USAGE, "--fill must be a number, not '%s'", word);
    return fill;
}

/* What stands behind the number of an axis. */
static char after(size_t axis)
{
    return axis < 2 ? ',' : '\0';
}

/* Three numbers with commas between them. */
static void read_factors(const char *option, const char *word, double factors[3])
{
    const char *at = word;

    for (size_t axis = 0; axis < 3; axis++) {
        char *end;

        factors[axis] = strtod(at, &end);
        if (end == at || *end != after(axis))
            fail(EX_USAGE, "%s must be three numbers as 0,-1.5,2, not '%s'", option, word);
        at = end + 1;
    }
}

/* Three whole numbers with commas between them. Too large a one is the largest there is. */
static void read_at(const char *word, struct request *r)
{
    const char *at = word;

    for (size_t axis = 0; axis < 3; axis++) {
        size_t digits = strspn(at, "0123456789");

        if (digits == 0 || at[digits] != after(axis))
            fail(EX_USAGE, "--at must be three whole numbers as 0,1,2, not '%s'", word);
        r->at[axis] = strtoull(at, NULL, 10);
        r->at_word[axis] = at;
        at += digits + 1;
    }
}

/* Whether two paths lead to one file; one that is not there yet is known by its name alone. */
static int same_file(const char *path, const char *other)
{
    char *real = realpath(path, NULL), *other_real = realpath(other, NULL);
    int same = strcmp(real != NULL ? real : path, other_real != NULL ? other_real : other) == 0;

    free(real);
    free(other_real);
    return same;
}

/* With --force the input may be replaced by the volume that comes out, never by codes. */
static void hold_paths(const struct request *r)
{
    if (!r->force && same_file(r->output, r->input))
        fail(EX_USAGE, "the output %s is the input too", r->output);
    if (r->coverage == NULL)
        return;
    if (same_file(r->coverage, r->input))
        fail(EX_USAGE, "the coverage %s is the input too", r->coverage);
    if (same_file(r->coverage, r->output))
        fail(EX_USAGE, "the coverage %s is the output too", r->coverage);
}

static void need(const char *word)
{
    if (word == NULL)
        fail(EX_USAGE, "a word is missing that must be given");
}

/* What every request has: the input, and how it is resampled. */
static struct request resampling_of(const struct entry *entry, const struct words *w)
{
    const char *factors = entry == &zoom_entry ? w->zoom : w->shift;

    need(w->input);
    need(factors);
    need(w->order);
    need(w->mode);
    struct request r = {
        .entry = entry,
        .input = w->input,
        .order = order_of(w->order),
        .order_word = w->order,
        .prefilter = !w->no_prefilter,
        .mode = mode_of(w->mode),
        .fill = w->fill != NULL ? fill_of(w->fill) : 0.0,
    };

    read_factors(entry->option, factors, r.factors);
    if (w->fill != NULL && r.mode != VURELIKA_CONSTANT)
        fail(EX_USAGE, "--fill is for mode constant, not %s", w->mode);
    return r;
}

struct request request_of(const struct entry *entry, int argc, char **argv)
{
    struct words w = words_of(argc, argv);
    struct request r = resampling_of(entry, &w);

    need(w.output);
    r.output = w.output;
    r.coverage = w.coverage;
    r.dry_run = w.dry_run;
    r.force = w.force;
    hold_paths(&r);
    return r;
}

struct request voxel_request_of(int argc, char **argv)
{
    struct words w = words_of(argc, argv);

    if ((w.shift != NULL) == (w.zoom != NULL))
        fail(EX_USAGE, "one of --shift and --zoom must be given, not %s", w.shift != NULL ? "both" : "none");
    struct request r = resampling_of(w.zoom != NULL ? &zoom_entry : &shift_entry, &w);

    need(w.at);
    read_at(w.at, &r);
    return r;
}
