/* Numbers in print. */
#ifndef VURELIKA_NUMBER_H
#define VURELIKA_NUMBER_H

struct number {
    char text[32];
};

/* A number in 15 digits, or in as many more as it takes to read it again; no two numbers print alike. */
struct number number(double value);

#endif
