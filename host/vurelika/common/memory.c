#include "memory.h"

#include <stdlib.h>
#include <sysexits.h>

#include "ending.h"

void *room(size_t count, size_t size)
{
    return more_room(NULL, count * size);
}

void *more_room(void *at, size_t bytes)
{
    void *now = realloc(at, bytes > 0 ? bytes : 1); /* 0 bytes may be NULL, which is no failure */

    if (now == NULL)
        fail(EX_OSERR, "no memory for %zu bytes", bytes);
    return now;
}
