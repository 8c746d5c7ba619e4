/* What a command that resamples says when it is done, and what a code is called. */
#ifndef VURELIKA_REPORT_H
#define VURELIKA_REPORT_H

#include "request.h"

struct report {
    const struct request *request;
    size_t lengths[3], out[3]; /* of the volume that was read, and of the one that came out */
    size_t volume_bytes, codes_bytes, work_bytes;
    const uint64_t *counts;
};

const char *code_name(size_t code);

void say_report(const struct report *report);

#endif
