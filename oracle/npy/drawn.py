"""Headers drawn from a seed: good ones spoilt sign by sign, and random ones."""

import math
import random
import re

from layout import data_of, file_of

LEADS = ["", "", " ", "\t", " \t "]
SPACINGS = ["", "", " ", " ", "\t", "\n", "  \n"]
SIGNS = ["{", "}", "(", ")", ",", ":", "'descr'", '"descr"', "'fortran_order'", "'shape'", "'<f8'", "False"]
NUMBERS = ["0", "1", "2", "3", "4", "12"]
NEAR_MISSES = ["[", "]", ";", "=", "+", "-", "'", '"', "#", "# 2\n", "\\", "\\\n", "\r", "\f", "\v", "\0"]
NEAR_MISSES += ["'>f8'", "'f8'", "'=f8'", "u'descr'", "'''shape'''", "descr", "True", "false", "None", "''"]
NEAR_MISSES += ["02", "00", "2L", "L", "1_0", "0x2", "2.0", "1e1", "4097", "\xa0"]
NEAR_MISSES += [str(number) for number in (2**59, 2**60, 2**64 + 2)]
LETTERS = "{}(),:'\" \t\n<f8descrfortran_orderFalseshape0123456789"
MOST_VOXELS = 4096


def good_signs(draw):
    """The signs of a header that is taken, with some spacing between them."""
    a, b, c = draw.choices(NUMBERS[1:], k=3)
    entries = [
        [quoted(draw, "descr"), ":", quoted(draw, "<f8")],
        [quoted(draw, "fortran_order"), ":", "False"],
        [quoted(draw, "shape"), ":", "(", a, ",", b, ",", c, ")"],
    ]
    draw.shuffle(entries)
    first, second, third = entries
    signs = ["{", *first, ",", *second, ",", *third, *draw.choice([[], [","]]), "}"]
    spaced = (part for sign in signs for part in (sign, draw.choice(SPACINGS)))
    return [draw.choice(LEADS), *spaced]


def quoted(draw, text):
    mark = draw.choice("'\"")
    return mark + text + mark


def any_sign(draw):
    return draw.choice(draw.choice([SIGNS, NUMBERS, SPACINGS, NEAR_MISSES]))


def spoil(draw, signs):
    """One sign is put in, taken out, doubled, replaced or swapped with another."""
    at, other = draw.randrange(len(signs)), draw.randrange(len(signs))
    change = draw.randrange(5)
    if change == 0:
        signs.insert(at, any_sign(draw))
    elif change == 1 and len(signs) > 1:
        del signs[at]
    elif change == 2:
        signs.insert(at, signs[at])
    elif change == 3:
        signs[at] = any_sign(draw)
    else:
        signs[at], signs[other] = signs[other], signs[at]


def with_data(draw, header):
    """A file with as many voxels as the header's numbers say, now and then a byte or a voxel more or less."""
    numbers = re.findall(r"[0-9]{1,20}", header.replace("<f8", ""))
    count = math.prod(map(int, numbers))
    data = data_of(count if count <= MOST_VOXELS else 0)
    odd = draw.randrange(16)
    if odd == 0:
        data = data[: -draw.choice([1, 8])]
    elif odd == 1:
        data += bytes(draw.choice([1, 8]))
    return file_of(header, data)


def mutated(count, seed):
    """Good headers after up to three changes."""
    draw = random.Random(f"mutated {seed}")
    for _ in range(count):
        signs = good_signs(draw)
        for _ in range(draw.randrange(4)):
            spoil(draw, signs)
        yield with_data(draw, "".join(signs))


def random_headers(count, seed):
    """Headers of random bytes, of letters that headers have, and of signs; good ones, and good beginnings."""
    draw = random.Random(f"random {seed}")
    kinds = [
        lambda length: draw.randbytes(length).decode("latin1"),
        lambda length: "".join(draw.choices(LETTERS, k=length)),
        lambda length: "".join(any_sign(draw) for _ in range(length // 4)),
        lambda length: "".join(good_signs(draw)[: length // 3]) + any_sign(draw) + any_sign(draw),
        lambda _: "".join(good_signs(draw)),
    ]
    for _ in range(count):
        header = draw.choice(kinds)(draw.randrange(160))
        yield with_data(draw, header)
