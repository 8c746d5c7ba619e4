#include "ending.h"

#include <errno.h>
#include <inttypes.h>
#include <stdarg.h>
#include <stdio.h>
#include <stdlib.h>
#include <string.h>
#include <sysexits.h>

static void say(const char *format, va_list words)
{
    vfprintf(stderr, format, words);
    fputc('\n', stderr);
}

void fail(int status, const char *format, ...)
{
    va_list words;

    fputs("vurelika: ", stderr);
    va_start(words, format);
    say(format, words);
    va_end(words);
    exit(status);
}

void refuse(uint32_t refusal, const char *format, ...)
{
    va_list words;

    fprintf(stderr, "vurelika: refusal %" PRIu32 ": ", refusal);
    va_start(words, format);
    say(format, words);
    va_end(words);
    exit((int)refusal);
}

int finish(void)
{
    if (fflush(stdout) != 0 || ferror(stdout))
        fail(EX_IOERR, "stdout cannot be written: %s", strerror(errno));
    return EX_OK;
}
