#include "input.h"

#include <errno.h>
#include <stdio.h>
#include <stdlib.h>
#include <string.h>
#include <sysexits.h>

#include "ending.h"
#include "progress.h"
#include "refused.h"
#include "volume.h"
#include "vurelika.h"

enum { FIRST_ROOM = 1 << 16 };

/* The length of a pipe is not known before its end, so room is doubled where it is full. */
struct bytes read_file(const char *path)
{
    size_t space = FIRST_ROOM;
    struct bytes file = {room(space, 1), 0};

    progress("reading %s", path);
    FILE *from = fopen(path, "rb");

    if (from == NULL)
        fail(EX_NOINPUT, "%s cannot be read: %s", path, strerror(errno));
    for (;;) {
        file.length += fread(file.at + file.length, 1, space - file.length, from);
        if (file.length < space)
            break;
        space *= 2;
        file.at = more_room(file.at, space);
    }
    if (ferror(from))
        fail(EX_IOERR, "reading %s failed: %s", path, strerror(errno));
    fclose(from);
    return file;
}

void read_lengths(const char *path, const struct bytes *file, size_t lengths[3])
{
    if (vurelika_npy_dims(file->at, file->length, lengths, 3) != VURELIKA_DONE)
        refuse_file(path, file);
}

double *read_voxels(const char *path, struct bytes *file, const size_t lengths[3])
{
    size_t count = voxels_of(lengths);
    uint32_t refusal = vurelika_npy_read(file->at, file->length, NULL, 0);

    if (refusal == VURELIKA_LENGTH)
        refuse_lengths(path, lengths);
    if (refusal == VURELIKA_COUNT)
        refuse_count(path, count);
    double *voxels = room(count, sizeof *voxels);

    expect_done(vurelika_npy_read(file->at, file->length, voxels, count));
    free(file->at);
    *file = (struct bytes){NULL, 0};
    return voxels;
}
