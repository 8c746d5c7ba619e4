/* A sign of life on work that takes more than two seconds. */
#ifndef VURELIKA_PROGRESS_H
#define VURELIKA_PROGRESS_H

/* Names the step that begins. Two seconds after the first step began the one that runs is said on stderr,
 * and from then on each that begins; only where stderr is a terminal. */
void progress(const char *format, ...) __attribute__((format(printf, 1, 2)));

#endif
