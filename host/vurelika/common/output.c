#define _DEFAULT_SOURCE /* access, link, unlink, getpid */
#include "output.h"

#include <errno.h>
#include <signal.h>
#include <stdio.h>
#include <stdlib.h>
#include <string.h>
#include <sysexits.h>
#include <unistd.h>

#include "ending.h"
#include "progress.h"

enum { MOST = 2 };

static struct output {
    const char *path;
    char *own; /* the name under which it is written */
} outputs[MOST];
static volatile sig_atomic_t begun;

static _Noreturn void fail_to_create(const char *path)
{
    fail(EX_CANTCREAT, "%s cannot be created: %s", path, strerror(errno));
}

static int is_there(const char *path)
{
    return access(path, F_OK) == 0;
}

void expect_output(const char *path, int replace)
{
    const char *slash = strrchr(path, '/');
    size_t before = slash != NULL ? (size_t)(slash - path) + 1 : 0;
    char *folder = room(before + sizeof ".", 1);

    if (!replace && is_there(path))
        fail(EX_CANTCREAT, "%s is there already; --force replaces it", path);
    memcpy(folder, path, before);
    strcpy(folder + before, ".");
    if (access(folder, W_OK | X_OK) != 0)
        fail_to_create(path);
    free(folder);
}

static void remove_unfinished(void)
{
    for (int i = 0; i < begun; i++)
        unlink(outputs[i].own);
}

static void on_signal(int number)
{
    remove_unfinished();
    signal(number, SIG_DFL);
    raise(number);
}

/* Has the files removed when the command ends, or is ended. */
static void guard(void)
{
    static const int numbers[] = {SIGHUP, SIGINT, SIGTERM};

    atexit(remove_unfinished);
    for (size_t i = 0; i < sizeof numbers / sizeof numbers[0]; i++)
        if (signal(numbers[i], SIG_IGN) != SIG_IGN)
            signal(numbers[i], on_signal);
}

/* Opens a file that was not there. */
static FILE *begin(const char *path)
{
    struct output *output = &outputs[begun];
    size_t length = strlen(path) + sizeof ".part." + 3 * sizeof(long);

    if (begun == 0)
        guard();
    *output = (struct output){path, room(length, 1)};
    snprintf(output->own, length, "%s.part.%ld", path, (long)getpid());
    FILE *to = fopen(output->own, "wbx");

    if (to == NULL)
        fail_to_create(path);
    begun++;
    return to;
}

void write_output(const char *path, const struct bytes *file)
{
    progress("writing %s", path);
    FILE *to = begin(path);
    size_t written = fwrite(file->at, 1, file->length, to);

    if (fclose(to) != 0 || written != file->length)
        fail(EX_IOERR, "writing %s failed: %s", path, strerror(errno));
}

/* A link is never made over a file, not even over one that came in between. Where the file system has no
 * links, the path is looked at once more. */
static int publish(const struct output *output, int replace)
{
    if (!replace) {
        if (link(output->own, output->path) == 0)
            return 1;
        if (errno == EEXIST || is_there(output->path)) {
            errno = EEXIST;
            return 0;
        }
    }
    return rename(output->own, output->path) == 0;
}

/* What was put where nothing was is taken away again where a later one fails. */
void publish_outputs(int replace)
{
    for (int i = 0; i < begun; i++) {
        if (publish(&outputs[i], replace))
            continue;
        int why = errno;

        for (int before = 0; before < i && !replace; before++)
            unlink(outputs[before].path);
        errno = why;
        fail_to_create(outputs[i].path);
    }
}
