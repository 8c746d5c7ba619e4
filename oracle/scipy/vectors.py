"""vectors.py FILE: what SciPy 1.10.1 gives for shift, zoom, spline_filter and spline_filter1d, in every
mode, order and flag, for crates/manual to compare with. crates/recorded/README.md has the layout.

Left out is where SciPy is known to differ: a request that meets refusal 9, or has a coordinate that
departures.py names.
"""

import itertools
import struct
import sys

import numpy as np
import scipy
from scipy import ndimage

from ask import FILL, bits
from departures import MODES, PAD, departs, is_padded, scipys, shifted, zoomed

VERSION = "1.10.1"
# the words that crates/manual has room for
MOST_WORDS = 65_536

SHIFTS = [
    (0.0, 0.0, 0.0),
    (0.25, 0.5, 0.75),
    (1.0, 0.0, 2.5),
    (-1.0, 2.0, -3.0),
    (0.5, -4.0, 9.75),
    (-0.5, -0.25, -1.75),
    (-30.0, 7.5, 40.0),
    (1000.25, -77.0, 0.125),
]
# order 0 refuses most shifts between voxels
SHIFTS_OF_ORDER_0 = [
    (0.0, 0.0, 0.0),
    (0.25, 0.0, 0.25),
    (1.0, 0.0, -2.0),
    (-1.0, 2.0, 3.0),
    (-30.0, 7.0, 40.0),
]
# outside the axes, and within SciPy's pad
WHOLE_SHIFTS = [(11.0, -9.0, 4.0), (-2.0, 6.0, -11.0)]
ZOOMS = [(1.5, 1.0, 1.75), (2.0, 0.7, 3.5), (1.25, 3.0, 0.5)]
# lengths on both sides of the cut-offs 7, 10, 19, 25, 33 and 40
FILTERED = [(2, 3, 4), (7, 2, 9), (3, 20, 2), (2, 2, 41), (32, 2, 2)]


def volume(dims, seed):
    """Sizes up to 1,000, from SplitMix64."""
    fractions, mask = [], (1 << 64) - 1
    for _ in range(int(np.prod(dims))):
        seed = seed + 0x9E3779B97F4A7C15 & mask
        mixed = (seed ^ seed >> 30) * 0xBF58476D1CE4E5B9 & mask
        mixed = (mixed ^ mixed >> 27) * 0x94D049BB133111EB & mask
        fractions.append(((mixed ^ mixed >> 31) >> 11) / 2**53)
    return np.array(fractions).reshape(dims) * 2000 - 1000


def is_beside(mode, length, at):
    """Refusal 9, at the coordinates that shifts of order 0 have here: whole, or a quarter below."""
    return mode == "nearest" and at >= length or mode == "reflect" and -1 < at < 0


def shifts_of(mode, order):
    if mode == "replicate":
        return SHIFTS + WHOLE_SHIFTS
    return SHIFTS if order else SHIFTS_OF_ORDER_0


def agree(mode, order, prefilter, dims, coordinates):
    return not any(
        departs(mode, order, prefilter, length, at) or order == 0 and is_beside(mode, length, at)
        for length, axis in zip(dims, coordinates)
        for at in axis
    )


class File:
    """A pool of words, in which equal stretches stand once, and the calls."""

    def __init__(self):
        self.pool, self.places, self.calls = [], {}, []

    def place(self, numbers):
        words = struct.unpack(f"<{numbers.size}Q", numbers.astype("<f8").tobytes())
        if words not in self.places:
            self.places[words] = len(self.pool)
            self.pool.extend(words)
        return self.places[words]

    def call(self, entry, source, output, mode, order, factors=(0.0,) * 3, axis=0, prefilter=False):
        resamples = entry < 2
        work = 0
        if resamples and prefilter and order > 1:
            pad = PAD if is_padded(mode, order, prefilter) else 0
            work = int(np.prod([length + 2 * pad for length in source.shape]))
        self.calls.append(
            [entry, *source.shape, *map(bits, factors), order, axis, int(prefilter), MODES.index(mode)]
            + [bits(FILL), self.place(source), source.size]
            + [output.size, output.size if resamples else 0, work]
            + [0, 0, 0, 0, 0, self.place(output), 0, 0, 0]
        )

    def write(self, path):
        words = [len(self.pool), *self.pool, len(self.calls), *itertools.chain(*self.calls)]
        assert len(words) <= MOST_WORDS, len(words)
        with open(path, "wb") as file:
            file.write(struct.pack(f"<{len(words)}Q", *words))


def record_resampled(file):
    source = volume((2, 3, 4), 1)
    dims = source.shape
    for mode, order, prefilter in itertools.product(MODES, range(6), (False, True)):
        asked = dict(order=order, mode=scipys(mode), cval=FILL, prefilter=prefilter)
        recorded = 0
        for shifts in shifts_of(mode, order):
            if agree(mode, order, prefilter, dims, shifted(dims, shifts)):
                output = ndimage.shift(source, shifts, **asked)
                file.call(0, source, output, mode, order, shifts, prefilter=prefilter)
                recorded += 1
        # without prefilter Replicate agrees above order 1 where nothing is moved
        few = mode == "replicate" and order > 1 and not prefilter
        assert recorded >= (1 if few else 2), (mode, order, prefilter)
        for factors in ZOOMS:
            output = ndimage.zoom(source, factors, **asked)
            assert agree(mode, order, prefilter, dims, zoomed(dims, output.shape))
            file.call(1, source, output, mode, order, factors, prefilter=prefilter)


def record_filtered(file):
    for mode, order, (seed, dims) in itertools.product(MODES, range(2, 6), enumerate(FILTERED)):
        source = volume(dims, seed)
        output = ndimage.spline_filter(source, order, mode=scipys(mode))
        file.call(2, source, output, mode, order)
        for axis in range(3):
            output = ndimage.spline_filter1d(source, order, axis, mode=scipys(mode))
            file.call(3, source, output, mode, order, axis=axis)


def main():
    if scipy.__version__ != VERSION:
        sys.exit(f"vectors.py: SciPy {VERSION} is wanted, this is {scipy.__version__}")
    file = File()
    record_resampled(file)
    record_filtered(file)
    file.write(sys.argv[1])


if __name__ == "__main__":
    main()
