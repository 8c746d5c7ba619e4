"""single.py ORACLE: axes of length 1 (document 02, #106) beside SciPy, which interpolates on them as on any other.

It prints the smallest inputs of docs/DIFFERENCES.md: what SciPy gives, and what `ORACLE ask` gives by the document.
Both must be what is recorded here, to the last digit and in every mode that a row names; else it fails. The volume is
1 by 1 by the length of its lane, moved on the last axis.
"""

import sys

import numpy as np
import scipy
from scipy import ndimage

import ask
from departures import MODES, scipys

ONE = (7,)
TWO = (10, 20)
CONSTANT, *OTHERS = MODES
# entry, lane, shift or factor, order, prefilter; modes; SciPy's values; the document's, or its refusal
MOVED = [
    ("shift", ONE, 0, 3, False, MODES, [6.999999999999998], [7]),
    ("shift", ONE, 0, 5, False, MODES, [6.999999999999992], [7]),
    ("shift", ONE, 0, 2, True, ["nearest"], [7.000000000000002], [7]),
    ("shift", ONE, 5e-324, 1, False, OTHERS, [7], "refusal 12"),
    ("shift", ONE, 5e-324, 1, False, [CONSTANT], [ask.FILL], "refusal 12"),
    ("zoom", ONE, 1, 1, False, MODES, [7], [7]),
    ("zoom", ONE, 1.5, 1, False, MODES, [7, 7], "refusal 12"),
    ("zoom", ONE, 0.5, 1, False, MODES, [], "refusal 12"),
    ("zoom", TWO, 0.5, 1, False, MODES, [10], "refusal 5"),
]
# lane, axis (none: all three), order; mode; SciPy's values; the document's
FILTERED = [
    (TWO, None, 2, "mirror", [5, 25], [5.000000000000007, 24.999999999999996]),
    ((7, 8), 0, 3, "reflect", [7, 8], [7, 8]),
]


def volume_of(lane):
    return np.array([[lane]], float)


def moved(entry, lane, factor, order, prefilter, mode):
    move, still = (ndimage.shift, 0) if entry == "shift" else (ndimage.zoom, 1)
    asked = dict(order=order, mode=scipys(mode), cval=ask.FILL, prefilter=prefilter)
    line = ask.line(entry, volume_of(lane), float(factor), order, mode, prefilter)
    return line, move(volume_of(lane), (still, still, factor), **asked)


def filtered(lane, axis, order, mode):
    source, along = volume_of(lane), [] if axis is None else ["axis", axis]
    words = ["spline_filter1d" if along else "spline_filter", "dims", *source.shape, *along, "order", order]
    line = " ".join(map(str, [*words, "mode", mode, "input", *map(ask.hexed, source.ravel())]))
    if along:
        return line, ndimage.spline_filter1d(source, order, axis, mode=mode)
    return line, ndimage.spline_filter(source, order, mode=mode)


def names(modes):
    if len(modes) == 1:
        return modes[0]
    return "every mode" if modes == MODES else "every mode but constant"


def rows():
    """What is asked; by mode the line for `ORACLE ask` and SciPy's output; what is recorded of both."""
    for *asked, modes, theirs, documents in MOVED:
        entry, lane, factor, order, prefilter = asked
        flag = ", prefilter" if prefilter else ""
        what = f"{entry} {factor}, order {order}{flag}, {names(modes)}"
        yield lane, what, [moved(*asked, mode) for mode in modes], theirs, documents
    for lane, axis, order, mode, theirs, documents in FILTERED:
        entry = "spline_filter" if axis is None else f"spline_filter1d along axis {axis}"
        yield lane, f"{entry}, order {order}, {mode}", [filtered(lane, axis, order, mode)], theirs, documents


def spelled(numbers):
    return " ".join(str(float(number)) for number in numbers) or "nothing"


def answered(answer):
    return answer if answer.startswith("refusal") else spelled(ask.values(answer))


def main():
    oracle = sys.argv[1]
    print(f"Single slices beside SciPy {scipy.__version__}:")
    failed = False
    for lane, what, asked, theirs, documents in rows():
        recorded = spelled(theirs), documents if isinstance(documents, str) else spelled(documents)
        answers = ask.answers(oracle, [line for line, _ in asked])
        pairs = zip(asked, answers, strict=True)
        given = {(spelled(output.ravel()), answered(answer)) for (_, output), answer in pairs}
        for scipy_gives, document_gives in sorted(given):
            print(f"  lane {' '.join(map(str, lane))}, {what}: SciPy {scipy_gives} document 02 {document_gives}")
        if given != {recorded}:
            failed = True
            print(f"    recorded: SciPy {recorded[0]} document 02 {recorded[1]}")
    sys.exit(1 if failed else 0)


if __name__ == "__main__":
    main()
