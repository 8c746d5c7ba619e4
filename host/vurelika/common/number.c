#include "number.h"

#include <stdio.h>
#include <stdlib.h>

struct number number(double value)
{
    struct number number;
    int digits = 15;

    do
        snprintf(number.text, sizeof number.text, "%.*g", digits, value);
    while (strtod(number.text, NULL) != value && digits++ < 17);
    return number;
}
