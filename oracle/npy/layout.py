"""How a .npy file is put together, and words to fill it with."""

import itertools
import struct

MAGIC = b"\x93NUMPY"
VERSION_1 = b"\x01\x00"
# zeros, subnormal, normal and infinite numbers, quiet and signalling NaNs: bits that a careless reader
# would change
WORDS = [
    0x3FF0000000000000,
    0x8000000000000000,
    0x0000000000000001,
    0x800FFFFFFFFFFFFF,
    0x0123456789ABCDEF,
    0x7FF0000000000000,
    0x7FF0000000000001,
    0xFFF7FFFFFFFFFFFF,
    0x7FF8000000000000,
    0xFFFFFFFFFFFFFFFF,
    0x0000000000000000,
]


def file_of(header, data, version=VERSION_1):
    text = header.encode("latin1")
    return MAGIC + version + struct.pack("<H", len(text)) + text + data


def data_of(count):
    """The data bytes of so many voxels."""
    words = itertools.islice(itertools.cycle(WORDS), count)
    return struct.pack(f"<{count}Q", *words)


def text_of(shape):
    """The header's text as document 02 has it."""
    return "{'descr': '<f8', 'fortran_order': False, 'shape': %s, }" % (tuple(shape),)


def header_of(shape):
    """That text, padded so that the data starts at a multiple of 64."""
    text = text_of(shape)
    before = len(MAGIC + VERSION_1) + 2
    return text + " " * (-(before + len(text) + 1) % 64) + "\n"
