"""Files of 24 voxels whose headers are spelled by hand, in each kind of spelling that is taken or refused. What
is wrong with a refused header is its spelling alone: a lax reader would find 24 voxels in it.
"""

import itertools

from layout import data_of, file_of, header_of, text_of
from rule import DONE, LONGEST_HEADER, NOT_NPY

SHAPE = (2, 3, 4)
DATA = data_of(24)
DESCR, ORDER, LENGTHS = "'descr': '<f8'", "'fortran_order': False", "'shape': (2, 3, 4)"
TEXT = text_of(SHAPE)


def braced(*entries):
    return "{" + ", ".join(entries) + "}"


BARE = braced(DESCR, ORDER, LENGTHS)  # no last comma, nothing around it


def with_descr(value):
    return BARE.replace("'<f8'", value)


def with_order(value):
    return BARE.replace("False", value)


def with_shape(value):
    return BARE.replace("(2, 3, 4)", value)


def apart(spacing):
    """The header with this between all its signs, and after them."""
    signs = ["{", "'descr'", ":", "'<f8'", ",", "'fortran_order'", ":", "False", ",", "'shape'", ":"]
    signs += ["(", "2", ",", "3", ",", "4", ")", ",", "}", ""]
    return spacing.join(signs)


def quotes():
    """Each string in either quotes."""
    for a, b, c, d in itertools.product("'\"", repeat=4):
        yield braced(f"{a}descr{a}: {b}<f8{b}", f"{c}fortran_order{c}: False", f"{d}shape{d}: (2, 3, 4)")


def admitted():
    yield from (TEXT, TEXT + "\n", header_of(SHAPE))
    yield TEXT + " " * (-(10 + len(TEXT) + 1) % 16) + "\n"  # as NumPy before 1.14 aligned it
    yield from itertools.starmap(braced, itertools.permutations([DESCR, ORDER, LENGTHS]))
    yield from quotes()
    yield from map(apart, ["", " ", "\t", "\n", " \n", "\n\t ", "    "])
    yield from (lead + TEXT for lead in (" ", "\t", " \t", "\t ", "        "))
    yield from (BARE[:-1] + "," + spacing + "}" for spacing in ("", "\t", "\n", " \n "))
    yield from (BARE + spacing for spacing in (" ", "\t", "\n\n", "\n \t", " \n\n\n"))
    yield BARE.ljust(LONGEST_HEADER)
    yield "\t" + apart("\n ")


def refused_values():
    texts = ["=f8", "f8", ">f8", "|f8", "<f4", "<i8", "<c16", "<F8", "<f08", "<f8 ", " <f8", "", "d"]
    yield from (with_descr(f"'{text}'") for text in texts)
    yield from map(with_descr, ["'<f8", "<f8'", "<f8", "'<f8\"", "'''<f8'''", "('<f8')", "'<' 'f8'"])
    yield from map(with_descr, ["u'<f8'", "b'<f8'", "r'<f8'", r"'\x3cf8'", "('<f8',)", "[('', '<f8')]"])
    orders = ["True", "false", "FALSE", "Fals", "Falsee", "0", "None", "(False)", "'False'", "not True"]
    yield from map(with_order, orders + ["False False", "False or True", "", "F alse"])


def refused_shapes():
    yield from map(with_shape, ["[2, 3, 4]", "{2, 3, 4}", "2, 3, 4", "((2, 3, 4))", "(2, 3, (4))"])
    yield from map(with_shape, ["(24)", "(24,)", "(6, 4)", "(1, 2, 3, 4)", "()", "(2, 3, 4,)", "(, 2, 3, 4)"])
    yield from map(with_shape, ["(2, 3, 4", "2, 3, 4)", "(2,, 3, 4)", "(2 3, 4)", "(2; 3; 4)", "(2. 3. 4)"])
    twos = ["+2", "-2", "02", "002", "2L", "2l", "0x2", "0b10", "0o2", "2.0", "2.", "2e0", "2j", "'2'"]
    twos += ["0_2", "_2", "2_", "1+1", "2 #", "2#\n", "\xb2", "2\\\n", "None", ""]
    yield from (with_shape(f"({two}, 3, 4)") for two in twos)
    yield from (with_shape(f"(2, 6, {two})") for two in twos)
    yield from map(with_shape, ["(1_2, 2, 1)", "(2, 1 2, 1)", "(True, 6, 4)", "(00, 3, 4)"])
    yield from map(with_shape, ["(2, 3, 4)x", "(2, 3, 4).T", "(1, 3, 4) or (2, 3, 4)"])


def refused_keys():
    yield from itertools.starmap(braced, itertools.combinations([DESCR, ORDER, LENGTHS], 2))
    yield from (braced(DESCR, DESCR, LENGTHS), braced(ORDER, LENGTHS, ORDER), braced(LENGTHS, LENGTHS, ORDER))
    mores = [DESCR, ORDER, LENGTHS, "'x': 1", "1: 1", "**{}"]
    yield from (braced(DESCR, ORDER, LENGTHS, more) for more in mores)
    names = ["Descr", "descr ", " descr", "desc", "descrs", "", r"\x64escr", "d\\\nescr", "de' 'scr"]
    yield from (BARE.replace("descr", name) for name in names)
    names = ["shape", "u'shape'", "'''shape'''", "'shape", "shape'", "'shape\"", "('shape')"]
    yield from (BARE.replace("'shape'", name) for name in names)


def refused_signs():
    yield from ("", " ", "\n", "{}", "{", "}", "{,}", "None", "()", TEXT[:-1], TEXT[1:], BARE[:-1], BARE[1:])
    swaps = [(",", ";"), (":", "="), (", '", " '"), (", '", ",, '"), (":", ""), (":", "::"), ("{", "{,")]
    yield from (BARE.replace(old, new) for old, new in swaps + [("}", ",,}")])
    yield from ("[%s]" % BARE[1:-1], "(%s)" % BARE, "{%s}" % BARE, "dict(%s)" % BARE, "x = " + BARE)
    afters = [",", ";", "x", "}", BARE, " " + BARE, "\n" + BARE, "[0]", " or 1", "#", "\\"]
    yield from (BARE + after for after in afters)
    yield from (BARE + "\n# 2 voxels", BARE.replace(", '", ", # first\n'", 1), "# first\n" + BARE)


def refused_spacing():
    for other in "\r\f\v\0\x1c\x1f\x7f\x85\xa0":
        yield from (apart(other), other + BARE, BARE + other, BARE.replace(": ", ":" + other, 1))
        yield BARE.replace("(2", "(" + other + "2")
    yield from (apart("\r\n"), "\n" + BARE, "\n " + BARE, " \n" + BARE, "\xef\xbb\xbf" + BARE)
    yield from (BARE.replace(" ", "\\\n", 1), BARE.ljust(LONGEST_HEADER + 1))


def refused_files():
    good = file_of(TEXT, DATA)
    yield from (good[:-1], good[:-8], good + b"\0", good + b"\n", good + DATA[:8], good + good)
    yield from (b"", b"\n" + good, good[1:], good.replace(b"\x93", b"\x92"), good.replace(b"NUMPY", b"numpy"))
    versions = [b"\0\0", b"\0\1", b"\1\1", b"\2\0", b"\3\0", b"\1\xff"]
    yield from (file_of(TEXT, DATA, version) for version in versions)
    for length in (0, 1, len(TEXT) - 1, len(TEXT) + 1, len(TEXT) + len(DATA), 0xFFFF):
        yield good[:8] + length.to_bytes(2, "little") + good[10:]
    yield good[:8] + len(TEXT).to_bytes(2, "big") + good[10:]


def spelled():
    """Each file, and what vurelika_npy_read must answer."""
    refused = [refused_values, refused_shapes, refused_keys, refused_signs, refused_spacing]
    yield from ((file_of(header, DATA), DONE) for header in admitted())
    yield from ((file_of(header, DATA), NOT_NPY) for kind in refused for header in kind())
    yield from ((file, NOT_NPY) for file in refused_files())
