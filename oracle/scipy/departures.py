"""Where SciPy may differ, by the coordinate: from the Rust at document 01's departures, and from Replicate where
that clamps the coordinate (document 02, #104) and SciPy the neighbours alone.

Run by itself it prints what docs/DIFFERENCES.md says of SciPy: the smallest input of each departure (a
volume of 2 by 2 by 2, each lane of the last axis 10 20, shifted on that axis), and what stands beside them.
"""

import numpy as np
import scipy
from scipy import ndimage

PAD = 12
FILL = -1.0
# departure, mode, shift, order, prefilter
SMALLEST = [
    ("1", "nearest", 1, 1, False),
    ("1, padded", "nearest", 13, 3, True),
    ("2", "reflect", 8, 1, False),
    ("2, near 0", "reflect", 2.0**-54, 1, False),
    ("3", "constant", -0.5, 1, False),
    ("3", "wrap", -0.25, 1, False),
    ("4, below 0", "wrap", 1, 1, False),
    ("4, beyond", "wrap", -2, 1, False),
    ("5", "constant", -0.5, 0, False),
]


# in the order of their numbers
MODES = ["constant", "mirror", "nearest", "reflect", "wrap", "replicate"]


def scipys(mode):
    """SciPy's name of the mode."""
    return "nearest" if mode == "replicate" else mode


def is_padded(mode, order, prefilter):
    return scipys(mode) == "nearest" and prefilter and order > 1


def departs(mode, order, prefilter, length, at):
    """Whether SciPy may differ at coordinate `at`, before a pad."""
    padded = is_padded(mode, order, prefilter)
    if mode in ("constant", "wrap"):
        return length - 1 < at < length
    if mode == "nearest":
        return at <= (-1 - PAD if padded else -1)
    if mode == "reflect":
        return at <= -4 * length and at % (2 * length) == 0 or -(2.0**-54) <= at < 0
    if mode == "replicate":
        outside = at < 0 or at > length - 1
        return order > 1 and outside and not (padded and repeats(order, length, at))
    return False


def repeats(order, length, at):
    """Whether SciPy's padded coefficients give the edge again at a coordinate outside: at whole ones, as long
    as no neighbour lies more than one voxel beyond the pad."""
    reach = PAD + 1 - order // 2
    return at == round(at) and -reach <= at <= length - 1 + reach


def shifted(dims, shifts):
    return [[i - s for i in range(length)] for length, s in zip(dims, shifts)]


def zoomed(dims, outputs):
    lengths = zip(dims, outputs)
    return [[i * ((n - 1) / (m - 1)) for i in range(m)] for n, m in lengths]


def volume_of(*lane):
    return np.broadcast_to(np.array(lane, float), (2, 2, len(lane)))


def print_smallest():
    for departure, mode, shift, order, prefilter in SMALLEST:
        asked = dict(order=order, mode=mode, cval=FILL, prefilter=prefilter)
        volume = ndimage.shift(volume_of(10, 20), (0, 0, shift), **asked)
        print(f"{departure}: {mode}, shift {shift}, order {order}:", *volume[0, 0])


def print_beside():
    finer = ndimage.zoom(volume_of(*range(10, 90, 10)), (1, 1, 3.25), order=1, mode="constant", cval=FILL)
    print("departure 3 in zoom, the last voxel:", finer[0, 0, -1])
    for mode in ("constant", "mirror", "nearest", "reflect", "wrap"):
        moved = ndimage.shift(volume_of(10, 20, 30, 40), (0, 0, -0.5), order=0, mode=mode, cval=FILL)
        print(f"refusal 9, {mode}, shift -0.5:", *moved[0, 0])
    far = ndimage.shift(volume_of(0, 1), (0, 0, -30), order=5, mode="nearest")
    print("nearest beyond its far pad:", *far[0, 0])
    for mode in ("reflect", "nearest", "mirror"):
        filtered = ndimage.spline_filter1d(volume_of(7, 7), 3, axis=2, mode=mode)
        print(f"a constant volume, {mode}:", *filtered[0, 0])


def main():
    print("SciPy", scipy.__version__)
    print_smallest()
    print_beside()


if __name__ == "__main__":
    main()
