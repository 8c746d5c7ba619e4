/* What the tests share: a sentence that must hold, and whether one did not. */
#ifndef VURELIKA_HOLD_H
#define VURELIKA_HOLD_H

#include <stdio.h>

static int wrong;

static void hold(int right, const char *what)
{
    if (!right) {
        printf("not so: %s\n", what);
        wrong = 1;
    }
}

#endif
