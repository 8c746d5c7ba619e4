/* Memory, without which a command ends. */
#ifndef VURELIKA_MEMORY_H
#define VURELIKA_MEMORY_H

#include <stddef.h>
#include <stdint.h>

/* What stands in a file, or will. */
struct bytes {
    uint8_t *at;
    size_t length;
};

/* Room for so many things of a size, of which no command asks for more than a size_t can count. */
void *room(size_t count, size_t size);

/* The same room, grown. */
void *more_room(void *at, size_t bytes);

#endif
