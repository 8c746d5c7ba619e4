"""record.py ANSWERS: keeps the files that NumPy writes (files/*.npy), and writes the file ANSWERS of these,
of headers spelled by hand and of lengths, for crates/npy_files to read, whose README.md has the layout.
"""

import itertools
import math
import struct
import sys

import rule
from hostile import lengths
from layout import file_of, header_of
from spelled import spelled
from written import FOLDER, written

LONGEST = 10_240  # bytes of a file that is recorded
MOST_WORDS = 65_536  # of all records


def words_of(data):
    """Bytes, eight to a word, the last one filled up with zeros."""
    padded = data + bytes(-len(data) % 8)
    return struct.unpack(f"<{len(padded) // 8}Q", padded)


def is_ours(file, dims):
    """Whether the writer gives these very bytes."""
    return file == file_of(header_of(dims), rule.parts_of(file)[1])


def record(file, places, by_numpy):
    status = rule.read_status(file, places)
    dims = rule.dims_of(file)
    volume = rule.parts_of(file)[1] if status == rule.DONE else b""
    ours = status == rule.DONE and is_ours(file, dims)
    head = [by_numpy, len(file), places, status, *(dims or (0, 0, 0)), ours]
    return [*map(int, head), *words_of(file), *words_of(volume)]


def records():
    listed = [(file, answer, True) for file, answer in written().values()]
    listed += [(file, answer, False) for file, answer in itertools.chain(spelled(), lengths())]
    for file, answer, by_numpy in listed:
        places = math.prod(rule.dims_of(file) or (2, 2, 2))
        assert answer == rule.read_status(file, places), file
        if len(file) <= LONGEST:
            yield record(file, places, by_numpy)
            if answer == rule.DONE:
                yield record(file, places + 1, by_numpy)


def keep_written():
    FOLDER.mkdir(exist_ok=True)
    for name, (file, _) in written().items():
        (FOLDER / f"{name}.npy").write_bytes(file)


def main():
    keep_written()
    found = list(records())
    words = [len(found), *itertools.chain(*found)]
    assert len(words) <= MOST_WORDS, len(words)
    with open(sys.argv[1], "wb") as file:
        file.write(struct.pack(f"<{len(words)}Q", *words))


main()
