"""The library in another process: door.c, which is spoken to in numbers of eight bytes and raw bytes."""

import struct
import subprocess
import sys
from collections import namedtuple

# what vurelika_npy_dims answers and leaves; vurelika_npy_read's answer, the volume's bytes; the file that
# vurelika_npy_write makes of it, where it was read
Answer = namedtuple("Answer", "dims_status dims read_status volume written")


class Door:
    def __init__(self, program):
        self.process = subprocess.Popen(program, stdin=subprocess.PIPE, stdout=subprocess.PIPE)

    def ask(self, file, dims_places, places):
        """The answers to a file, with its buffers at either end of their pages."""
        try:
            self.process.stdin.write(struct.pack("<3Q", len(file), dims_places, places) + file)
            self.process.stdin.flush()
            return [self.answer(places) for _ in range(2)]
        except (OSError, EOFError):
            sys.exit(f"the program ended; it was lent {dims_places} and {places} places, and {file!r}")

    def answer(self, places):
        dims_status, *dims, read_status, written = struct.unpack("<6Q", self.bytes(48))
        volume = self.bytes(0 if read_status else 8 * places)
        return Answer(dims_status, tuple(dims), read_status, volume, self.bytes(written))

    def bytes(self, count):
        read = self.process.stdout.read(count)
        if len(read) < count:
            raise EOFError
        return read
