/* How a command ends: its status is 0, the number of a refusal, or one of sysexits.h. */
#ifndef VURELIKA_ENDING_H
#define VURELIKA_ENDING_H

#include <stdint.h>

/* Ends the command with a line on stderr. */
_Noreturn void fail(int status, const char *format, ...) __attribute__((format(printf, 2, 3)));

/* Ends it with a refusal of the library, in words. */
_Noreturn void refuse(uint32_t refusal, const char *format, ...) __attribute__((format(printf, 2, 3)));

/* The status of a command that has said all; stdout may fail to take it. */
int finish(void);

#endif
