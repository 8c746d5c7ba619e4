/* The words of a command that resamples. */
#ifndef VURELIKA_WORDS_H
#define VURELIKA_WORDS_H

/* Each word where it belongs; NULL and 0 where it is not given. */
struct words {
    const char *input, *output, *shift, *zoom, *at, *order, *mode, *fill, *coverage;
    int no_prefilter, dry_run, force;
};

struct words words_of(int argc, char **argv);

#endif
