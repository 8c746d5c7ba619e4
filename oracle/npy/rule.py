"""Which bytes are a .npy file that is taken, and what a call answers: document 02's #101, written again.

    file   = 93 'NUMPY' 01 00, the length of the header in two bytes (the low one first), header, data
    header = lead "{" s entry s "," s entry s "," s entry s [ "," s ] "}" s
    entry  = 'descr' s ":" s '<f8' | 'fortran_order' s ":" s "False"
           | 'shape' s ":" s "(" s num s "," s num s "," s num s ")"
             each of the three once, in any order, in either quotes
    num    = "0" | digit1-9 digit*
    s      = (space | tab | newline)*, lead = (space | tab)*
    data   = 8 bytes for each voxel, to the end of the file

NumPy takes fewer than these, and what it refuses is refused: a header of more than 10,000 bytes, and
lengths whose product, those that are 0 left out, is 2^60 or more.
"""

import itertools
import math
import re

DONE, LENGTH, COUNT, BUFFER, NOT_NPY = 0, 3, 6, 7, 10
START = b"\x93NUMPY\x01\x00"
LONGEST_HEADER = 10_000
TOO_MANY = 2**60
SPACING = rb"[ \t\n]*"
NUMBER = rb"(0|[1-9][0-9]{0,18})"  # with more digits it is too large


def spaced(*signs):
    return SPACING.join(signs)


def quoted(text):
    return b"(?:'%b'|\"%b\")" % (text, text)


ENTRIES = [
    spaced(quoted(b"descr"), b":", quoted(b"<f8")),
    spaced(quoted(b"fortran_order"), b":", b"False"),
    spaced(quoted(b"shape"), b":", rb"\(", NUMBER, b",", NUMBER, b",", NUMBER, rb"\)"),
]
LAST_COMMA = spaced(b"(?:,", b")?")
HEADERS = [
    re.compile(rb"[ \t]*" + spaced(rb"\{", a, b",", b, b",", c, LAST_COMMA + rb"\}", b""))
    for a, b, c in itertools.permutations(ENTRIES)
]


def parts_of(file):
    """Header and data, or None where the file starts otherwise or ends before its header does."""
    end = 10 + int.from_bytes(file[8:10], "little")
    if not file.startswith(START) or len(file) < end:
        return None
    return file[10:end], file[end:]


def lengths_in(header):
    """The three lengths, or None where the header is none of the forms."""
    for form in HEADERS:
        if match := form.fullmatch(header):
            return tuple(map(int, match.groups()))
    return None


def dims_of(file):
    """The lengths of a file that is taken, or None."""
    header, data = parts_of(file) or (b"", b"")
    lengths = lengths_in(header)
    if lengths is None or len(header) > LONGEST_HEADER:
        return None
    if math.prod(length for length in lengths if length) >= TOO_MANY:
        return None
    return lengths if len(data) == 8 * math.prod(lengths) else None


def dims_status(file, places):
    """What vurelika_npy_dims answers where it is lent so many places."""
    if dims_of(file) is None:
        return NOT_NPY
    return DONE if places == 3 else BUFFER


def read_status(file, places):
    """What vurelika_npy_read answers where it is lent so many places."""
    dims = dims_of(file)
    if dims is None:
        return NOT_NPY
    if not all(1 <= length <= 4096 for length in dims):
        return LENGTH
    if math.prod(dims) > 2**27:
        return COUNT
    return DONE if places == math.prod(dims) else BUFFER
