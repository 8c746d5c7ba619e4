"""replicate.py ORACLE: Replicate (document 02, #104) beside SciPy's nearest, which clamps the neighbours and
not the coordinate.

It prints the smallest inputs at which the two differ, and some at which they do not: what SciPy gives, and what
`ORACLE ask` gives in Replicate. The volume is 2 by 2 by the length of its lanes, shifted on the last axis.
"""

import sys

import scipy
from scipy import ndimage

import ask
from departures import volume_of

SHORT = (10, 20)
LONG = (10, 20, 30, 40)
# lane, shift, order, prefilter
SAME = [
    (SHORT, 1, 1, False),
    (SHORT, -0.5, 0, False),
    (SHORT, 1, 3, True),
    (SHORT, 12, 3, True),
    (LONG, -0.5, 0, False),
]
DIFFERENT = [
    (SHORT, 1, 2, False),
    (SHORT, 0.5, 3, True),
    (SHORT, 13, 3, True),
    (SHORT, 12, 4, True),
    ((0, 1), -30, 5, True),
    (LONG, -3, 2, False),
]


def line(lane, shift, order, prefilter):
    return ask.line("shift", volume_of(*lane), float(shift), order, "replicate", prefilter)


def print_rows(oracle, rows):
    answers = ask.answers(oracle, [line(*row) for row in rows])
    for (lane, shift, order, prefilter), answer in zip(rows, answers, strict=True):
        asked = dict(order=order, mode="nearest", prefilter=prefilter)
        theirs = ndimage.shift(volume_of(*lane), (0, 0, shift), **asked)[0, 0]
        ours = ask.values(answer)[: len(lane)]
        flag = ", prefilter" if prefilter else ""
        print(f"  lanes {' '.join(map(str, lane))}, shift {shift}, order {order}{flag}:", end="")
        print(" SciPy", *theirs, "Replicate", *ours)


def main():
    oracle = sys.argv[1]
    print(f"Replicate beside nearest of SciPy {scipy.__version__}; the same:")
    print_rows(oracle, SAME)
    print("different:")
    print_rows(oracle, DIFFERENT)


if __name__ == "__main__":
    main()
