/* What the commands say when the library refuses. */
#ifndef VURELIKA_REFUSAL_H
#define VURELIKA_REFUSAL_H

#include <stdint.h>

/* What a number that a function of vurelika.h returned means, in a few words. */
const char *refusal_meaning(uint32_t number);

#endif
