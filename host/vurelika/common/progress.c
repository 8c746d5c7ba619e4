#define _DEFAULT_SOURCE /* signal: a read that was interrupted goes on */
#include "progress.h"

#include <errno.h>
#include <signal.h>
#include <stdarg.h>
#include <stdio.h>
#include <string.h>
#include <unistd.h>

enum { PATIENCE = 2, WIDTH = 200 };

/* The step that runs, and room to write the next one while the alarm may say this one. */
static char steps[2][WIDTH];
static volatile sig_atomic_t running, late;

static void say_step(void)
{
    const char *step = steps[running];

    /* no stdio: the alarm may ring in the midst of it. What stderr does not take is lost. */
    if (write(STDERR_FILENO, step, strlen(step)) < 0)
        return;
}

static void on_alarm(int number)
{
    int interrupted = errno;

    (void)number;
    late = 1;
    say_step();
    errno = interrupted;
}

void progress(const char *format, ...)
{
    static int begun;
    int next = 1 - running, was_late = late;
    va_list words;

    if (!isatty(STDERR_FILENO))
        return;
    va_start(words, format);
    vsnprintf(steps[next], WIDTH - sizeof " ...\n", format, words);
    va_end(words);
    strcat(steps[next], " ...\n");
    running = next;
    if (was_late)
        say_step();
    if (!begun) {
        begun = 1;
        signal(SIGALRM, on_alarm);
        alarm(PATIENCE);
    }
}
