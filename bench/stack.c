/* How much stack the calls take, in the code that is delivered: a thread makes each call on a stack
   that was painted before, with the longest axis that there may be. Fails if one voxel takes more than 4 kB. */
#define _XOPEN_SOURCE 700
#include <pthread.h>
#include <stdint.h>
#include <stdio.h>
#include <stdlib.h>
#include <string.h>

#include "vurelika.h"

enum { NEAR = 2, FAR = 4096, EDGES = 24, VOXELS = NEAR * NEAR * FAR };
enum { WORK = (NEAR + EDGES) * (NEAR + EDGES) * (FAR + EDGES) };
enum { STACK = 4 << 20, PAINT = 0xA5, ALONE_MOST = 4 << 10 };

static double input[VOXELS], output[VOXELS], work[WORK], value[1];
static uint8_t coverage[VOXELS], code[1];
static uint64_t counts[VURELIKA_CODES];

struct call {
    const char *name;
    uint32_t (*make)(const struct call *);
    size_t order;
    uint32_t prefilter, mode;
};

static uint32_t shift(const struct call *call)
{
    return vurelika_shift(NEAR, NEAR, FAR, 0.3, -0.4, 1.4, call->order, call->prefilter, call->mode, 0.0,
                          input, VOXELS, output, VOXELS, coverage, VOXELS, work, WORK, counts,
                          VURELIKA_CODES);
}

/* By factors that leave the lengths as they are. */
static uint32_t zoom(const struct call *call)
{
    return vurelika_zoom(NEAR, NEAR, FAR, 1.1, 0.9, 1.0, call->order, call->prefilter, call->mode, 0.0,
                         input, VOXELS, output, VOXELS, coverage, VOXELS, work, WORK, counts,
                         VURELIKA_CODES);
}

static uint32_t shift_voxel(const struct call *call)
{
    return vurelika_shift_voxel(NEAR, NEAR, FAR, 0.3, -0.4, 1.4, call->order, call->prefilter, call->mode, 0.0,
                                input, VOXELS, work, WORK, 1, 0, FAR - 1, value, 1, code, 1);
}

static uint32_t zoom_voxel(const struct call *call)
{
    return vurelika_zoom_voxel(NEAR, NEAR, FAR, 1.1, 0.9, 1.0, call->order, call->prefilter, call->mode, 0.0,
                               input, VOXELS, work, WORK, 1, 0, FAR - 1, value, 1, code, 1);
}

static uint32_t filter(const struct call *call)
{
    return vurelika_spline_filter(NEAR, NEAR, FAR, call->order, call->mode, 0.0, input, VOXELS, output,
                                  VOXELS);
}

static uint32_t filter1d(const struct call *call)
{
    return vurelika_spline_filter1d(NEAR, NEAR, FAR, call->order, 2, call->mode, 0.0, input, VOXELS, output,
                                    VOXELS);
}

static const struct call calls[] = {
    {"shift, order 0", shift, 0, 0, VURELIKA_MIRROR},
    {"shift, order 1", shift, 1, 0, VURELIKA_MIRROR},
    {"shift, order 5", shift, 5, 0, VURELIKA_MIRROR},
    {"shift, order 5, prefilter", shift, 5, 1, VURELIKA_MIRROR},
    {"the same, Nearest", shift, 5, 1, VURELIKA_NEAREST},
    {"zoom, order 5, prefilter", zoom, 5, 1, VURELIKA_MIRROR},
    {"the same, Nearest", zoom, 5, 1, VURELIKA_NEAREST},
    {"spline_filter, order 5", filter, 5, 0, VURELIKA_MIRROR},
    {"spline_filter1d, order 5", filter1d, 5, 0, VURELIKA_MIRROR},
};

static const struct call alone[] = {
    {"shift_voxel, order 0", shift_voxel, 0, 0, VURELIKA_MIRROR},
    {"shift_voxel, order 5", shift_voxel, 5, 0, VURELIKA_MIRROR},
    {"the same, prefilter, Nearest", shift_voxel, 5, 1, VURELIKA_NEAREST},
    {"zoom_voxel, order 5", zoom_voxel, 5, 0, VURELIKA_MIRROR},
    {"the same, prefilter, Nearest", zoom_voxel, 5, 1, VURELIKA_NEAREST},
};

static void *do_nothing(void *argument)
{
    return argument;
}

/* Makes the call, and hands it back if it succeeds. */
static void *make_call(void *argument)
{
    const struct call *call = argument;

    return call->make(call) == VURELIKA_DONE ? argument : NULL;
}

/* How far from its top the stack of a thread was written. */
static size_t depth(void *(*start)(void *), const struct call *call)
{
    unsigned char *stack = aligned_alloc(4096, STACK);
    pthread_attr_t attributes;
    pthread_t thread;
    void *result = NULL;
    size_t kept = 0;

    if (stack == NULL)
        exit(1);
    memset(stack, PAINT, STACK);
    if (pthread_attr_init(&attributes) != 0 || pthread_attr_setstack(&attributes, stack, STACK) != 0
        || pthread_create(&thread, &attributes, start, (void *)call) != 0
        || pthread_join(thread, &result) != 0 || result == NULL) {
        fprintf(stderr, "%s: the call failed\n", call->name);
        exit(1);
    }
    while (kept < STACK && stack[kept] == PAINT)
        kept++;
    free(stack);
    return STACK - kept;
}

/* Prints how much each call takes, and returns the most. */
static size_t print_depths(const struct call *calls, size_t count)
{
    size_t thread = depth(do_nothing, &calls[0]);
    size_t most = 0;

    for (size_t i = 0; i < count; i++) {
        size_t taken = depth(make_call, &calls[i]) - thread;

        printf("%-28s%9zu\n", calls[i].name, taken);
        most = taken > most ? taken : most;
    }
    return most;
}

int main(void)
{
    printf("\n%d x %d x %d, Mirror unless said: bytes of stack\n", NEAR, NEAR, FAR);
    print_depths(calls, sizeof calls / sizeof calls[0]);
    if (print_depths(alone, sizeof alone / sizeof alone[0]) > ALONE_MOST) {
        fprintf(stderr, "one voxel takes more than %d bytes\n", ALONE_MOST);
        return 1;
    }
    return 0;
}
