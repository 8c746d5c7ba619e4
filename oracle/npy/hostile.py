"""Files made to lead a reader astray: cut short, with a byte changed, with lengths that wrap."""

import itertools
import math

from layout import data_of, file_of, header_of, text_of
from rule import DONE, LENGTH, NOT_NPY, TOO_MANY

SMALL = (2, 2, 2)
GOOD = file_of(header_of(SMALL), data_of(8))


def prefixes():
    return (GOOD[:length] for length in range(len(GOOD)))


def changed():
    """Each byte of a good file changed: before the data to every other value, in the data to one."""
    for at, old in enumerate(GOOD):
        for new in range(256) if at < len(GOOD) - 8 * math.prod(SMALL) else [old ^ 0xFF]:
            if new != old:
                yield GOOD[:at] + bytes([new]) + GOOD[at + 1 :]


def wrapping():
    """Lengths below 2^60 whose data would take 0 or 64 bytes, counted modulo 2^64."""
    for a, b in [(1, 5), (7, 1), (17, 19), (2**20 + 1, 2**19 - 1)]:
        yield a, b, 8 * pow(a * b, -1, 2**61) % 2**61
    yield from [(2**31, 2**30, 2), (2**59, 2, 4), (2**59, 4, 1), (2**32, 2**32, 1), (2**32, 2**29, 1)]


def large():
    sizes = [2**k + d for k in (31, 32, 53, 59, 60, 61, 63, 64, 65, 128) for d in (-1, 0, 1, 2)]
    return sizes + [10**18, 10**19, 10**20, 10**4000]


def with_zero():
    """Shapes without a voxel: NumPy takes them as far as the other lengths go together."""
    halves = [2**59, 2**58 - 1, 2**30, 2**30 - 1, 2**32, TOO_MANY - 1, TOO_MANY]
    pairs = [(0, 0), (0, 4), (1, TOO_MANY - 1), (2**59, 2), (3, 2**58), (4, 2**58), (2**30, 2**30)]
    pairs += itertools.product(halves, [1, 2, 2**30, TOO_MANY - 1])
    for a, b in pairs:
        yield from [(0, a, b), (a, 0, b), (a, b, 0)]


def answer_to(shape):
    """What vurelika_npy_read must answer to a file with this shape and its data, or none if they are many."""
    product = math.prod(length for length in shape if length)
    if product >= TOO_MANY or 0 not in shape and product > 2**20:
        return NOT_NPY
    return DONE if all(1 <= length <= 4096 for length in shape) else LENGTH


def lengths():
    """Each file, and what vurelika_npy_read must answer."""
    shapes = [(2, 2, 4096), (2, 4096, 2), (4096, 2, 2), (2, 2, 4097), (4097, 2, 2), (1, 2, 2), (2, 2, 1)]
    shapes += [(1, 1, 1), (1, 4097, 2), *with_zero()]
    shapes += [shape for big in large() for shape in itertools.permutations((big, 2, 1))]
    for shape in shapes:
        answer = answer_to(shape)
        data = b"" if answer == NOT_NPY else data_of(math.prod(shape))
        yield file_of(text_of(shape), data), answer
    for shape in wrapping():
        yield from ((file_of(text_of(shape), data_of(count)), NOT_NPY) for count in (0, 8))
