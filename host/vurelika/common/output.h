/* Files that a command writes, at most two. Each is written under a name of its own beside the path, and is
 * given its path when all are written; where the command ends before, they are removed. */
#ifndef VURELIKA_OUTPUT_H
#define VURELIKA_OUTPUT_H

#include "memory.h"

/* Ends the command where a file could not be created at the path, or is there and not to be replaced. */
void expect_output(const char *path, int replace);

/* Writes a file, under its own name. */
void write_output(const char *path, const struct bytes *file);

/* Gives the files their paths, in the order in which they were written. */
void publish_outputs(int replace);

#endif
