/* The library's functions for .npy, opened to another process: reads files from standard input, makes the
 * calls, and writes back what they returned and left. `door.py` is the other side. Numbers are eight bytes,
 * the low one first, as x86-64 keeps them.
 *
 * What is lent stands between two pages that cannot be touched: a byte read or written there ends the
 * program. Each file is answered twice, with every buffer against the page before it, and against the page
 * after it. What a function may only read cannot be written. */
#define _GNU_SOURCE
#include <stdint.h>
#include <stdio.h>
#include <stdlib.h>
#include <string.h>
#include <sys/mman.h>
#include <unistd.h>

#include "vurelika.h"

enum side { AFTER_A_PAGE, BEFORE_A_PAGE };

static const unsigned char paint = 0xA5;
static size_t page;

struct request {
    uint64_t size, dims_places, places; /* bytes of the file, places of dims and of the volume */
};

struct reply {
    uint64_t dims_status, dims[3], read_status, written; /* bytes of the file written back, or 0 */
};

/* `size` bytes at `start`, in pages that are painted. */
struct lent {
    unsigned char *pages, *start;
    size_t length, size;
};

static void stop(const char *reason)
{
    fprintf(stderr, "door: %s\n", reason);
    exit(2);
}

static void protect(struct lent lent, int protection)
{
    if (mprotect(lent.pages, lent.length, protection))
        stop("pages cannot be protected");
}

static struct lent lend(size_t size, enum side side)
{
    struct lent lent = {.length = (size / page + 1) * page, .size = size};
    unsigned char *all = mmap(NULL, lent.length + 2 * page, PROT_NONE, MAP_PRIVATE | MAP_ANONYMOUS, -1, 0);
    if (all == MAP_FAILED)
        stop("no memory for a request");
    lent.pages = all + page;
    lent.start = lent.pages + (side == BEFORE_A_PAGE ? lent.length - size : 0);
    protect(lent, PROT_READ | PROT_WRITE);
    memset(lent.pages, paint, lent.length);
    return lent;
}

static void take_back(struct lent lent)
{
    munmap(lent.pages - page, lent.length + 2 * page);
}

/* On success only what was lent may have been written, on refusal nothing. */
static void hold_paint(struct lent lent, uint32_t status)
{
    unsigned char *end = lent.start + lent.size;
    for (unsigned char *at = lent.pages; at < lent.pages + lent.length; at++)
        if (*at != paint && (status != VURELIKA_DONE || at < lent.start || at >= end))
            stop(status ? "a refused call has written" : "a call has written beside what it was lent");
}

static void put(const void *from, size_t size)
{
    if (size && fwrite(from, size, 1, stdout) != 1)
        stop("an answer cannot be written");
}

/* The volume that was read, and its file. */
static void answer_volume(struct reply reply, struct lent volume, enum side side)
{
    const uint64_t *d = reply.dims;
    if (reply.dims_status == VURELIKA_DONE)
        reply.written = vurelika_npy_size(d[0], d[1], d[2]);
    struct lent file = lend(reply.written, side);
    if (reply.written) {
        protect(volume, PROT_READ);
        uint32_t status = vurelika_npy_write(d[0], d[1], d[2], (double *)volume.start,
                                             volume.size / sizeof(double), file.start, file.size);
        if (status != VURELIKA_DONE)
            stop("what was read is not written");
        hold_paint(file, status);
    }
    put(&reply, sizeof reply);
    put(volume.start, volume.size);
    put(file.start, file.size);
    take_back(file);
}

static void answer(const struct request *r, const unsigned char *bytes, enum side side)
{
    struct lent file = lend(r->size, side);
    struct lent dims = lend(r->dims_places * sizeof(size_t), side);
    struct lent volume = lend(r->places * sizeof(double), side);
    memcpy(file.start, bytes, r->size);
    protect(file, PROT_READ);

    struct reply reply = {
        .dims_status = vurelika_npy_dims(file.start, file.size, (size_t *)dims.start, r->dims_places),
        .read_status = vurelika_npy_read(file.start, file.size, (double *)volume.start, r->places),
    };
    hold_paint(dims, reply.dims_status);
    hold_paint(volume, reply.read_status);
    if (reply.dims_status == VURELIKA_DONE)
        memcpy(reply.dims, dims.start, sizeof reply.dims);
    if (reply.read_status == VURELIKA_DONE)
        answer_volume(reply, volume, side);
    else
        put(&reply, sizeof reply);

    take_back(file);
    take_back(dims);
    take_back(volume);
}

int main(void)
{
    struct request r;
    page = sysconf(_SC_PAGESIZE);
    while (fread(&r, sizeof r, 1, stdin) == 1) {
        unsigned char *bytes = malloc(r.size + 1);
        if (!bytes)
            stop("no memory for a file");
        if (r.size && fread(bytes, r.size, 1, stdin) != 1)
            stop("a request breaks off");
        answer(&r, bytes, AFTER_A_PAGE);
        answer(&r, bytes, BEFORE_A_PAGE);
        free(bytes);
        if (fflush(stdout))
            stop("an answer cannot be written");
    }
    return 0;
}
