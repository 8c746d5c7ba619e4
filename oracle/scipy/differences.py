"""differences.py ORACLE: puts the same shifts and zooms to SciPy and, through `ORACLE ask`, to the Rust and in
Replicate.

It counts the coordinates at which they differ by more than 1e-9 of the largest voxel, and fails if one
of them is not listed in departures.py; of those not listed it gives the largest gap. Where the Rust panics
(refusal 9) there is nothing to compare.
"""

import collections
import itertools
import sys

import numpy as np
import scipy
from scipy import ndimage

import ask
from departures import MODES, departs, scipys, shifted, zoomed
from vectors import volume

TOLERANCE = 1e-9
LENGTHS = [2, 3, 4, 5, 8]
TINY = [2.0**-54, 2.0**-53, 1e-9, 5e-324]
FAR = [30, 30.5, 64, 127.75, 128]


def requests(modes):
    """Volumes of 2 by 2 by L, moved on the last axis: an entry, a volume, a factor, order, mode, flag."""
    for length, mode, order, prefilter in itertools.product(LENGTHS, modes, range(6), (False, True)):
        source = volume((2, 2, length), length)
        shifts = [k / 4 for k in range(-80, 81)]
        for size in TINY + FAR + [4 * length, 8 * length, 16 * length]:
            shifts += [size, -size]
        for shift in shifts:
            yield "shift", source, float(shift), order, mode, prefilter
        for output in range(2, 40):
            yield "zoom", source, output / length, order, mode, prefilter


def theirs(entry, source, factor, order, mode, prefilter):
    move = ndimage.shift if entry == "shift" else ndimage.zoom
    still = 0.0 if entry == "shift" else 1.0
    asked = dict(order=order, mode=scipys(mode), cval=ask.FILL, prefilter=prefilter)
    return move(source, (still, still, factor), **asked)


def gaps(request, answer):
    """The coordinates of the last axis, and how far apart the values there are."""
    entry, source, factor, *_ = request
    output = theirs(*request)
    apart = np.abs(ask.values(answer).reshape(output.shape) - output).max(axis=(0, 1))
    length, outputs = source.shape[2], output.shape[2]
    moved = shifted([length], [factor]) if entry == "shift" else zoomed([length], [outputs])
    return zip(moved[0], apart, strict=True)


def is_listed(request, at):
    _, source, _, order, mode, prefilter = request
    return departs(mode, order, prefilter, source.shape[2], at)


def mode_of(request):
    return request[4]


def order_of(request):
    *_, order, _, prefilter = request
    return f"order {order}, prefiltered" if prefilter and order > 1 else f"order {order}"


def search(oracle, whose, modes, kind_of):
    """Prints what was found, by kind of request; gives how many differences are not listed."""
    asked = list(requests(modes))
    answers = ask.answers(oracle, [ask.line(*request) for request in asked])
    pairs = zip(asked, answers, strict=True)
    answered = [(request, answer) for request, answer in pairs if answer != "panic"]
    seen, differ, unlisted = 0, collections.Counter(), []
    rest = collections.defaultdict(float)
    for request, answer in answered:
        largest = np.abs(request[1]).max()
        for at, gap in gaps(request, answer):
            seen += 1
            differs, listed = gap > TOLERANCE * largest, is_listed(request, at)
            differ[kind_of(request)] += differs
            if differs and not listed:
                unlisted.append((ask.line(*request), at, gap))
            elif not listed:
                of = order_of(request)
                rest[of] = max(rest[of], gap / largest)
    panics = len(asked) - len(answered)
    print(f"SciPy {scipy.__version__} and {whose}: {len(asked)} requests; the Rust panics at {panics}")
    print(f"{seen} coordinates, {differ.total()} differ: {dict(+differ)}; {len(unlisted)} at no departure")
    print("largest gap elsewhere, over the largest voxel:")
    for of, gap in sorted(rest.items()):
        print(f"  {of}: {gap:.1e}")
    for difference in unlisted[:10]:
        print(*difference)
    return len(unlisted)


def main():
    oracle = sys.argv[1]
    *rusts, replicate = MODES
    unlisted = search(oracle, "the Rust", rusts, mode_of)
    unlisted += search(oracle, "Replicate", [replicate], order_of)
    sys.exit(1 if unlisted else 0)


main()
