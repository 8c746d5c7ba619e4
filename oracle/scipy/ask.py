"""Requests as lines that `oracle ask` reads, and the values it answers."""

import struct
import subprocess

import numpy as np

FILL = -7.25


def bits(number):
    return struct.unpack("<Q", struct.pack("<d", number))[0]


def hexed(number):
    return f"0x{bits(number):016x}"


def line(entry, source, factor, order, mode, prefilter):
    """The last axis is moved, the other two are left still."""
    still = 0.0 if entry == "shift" else 1.0
    words = [entry, "dims", *source.shape, "factors", hexed(still), hexed(still), hexed(factor)]
    words += ["order", order, "prefilter", int(prefilter), "mode", mode]
    words += [hexed(FILL)] if mode == "constant" else []
    return " ".join(map(str, words + ["input", *map(hexed, source.ravel())]))


def answers(oracle, lines):
    text = "print bits\n" + "\n".join(lines) + "\n"
    ran = subprocess.run([oracle, "ask"], input=text, capture_output=True, text=True, check=True)
    return ran.stdout.splitlines()


def values(answer):
    words = answer.split()
    words = words[words.index("values") + 1 :]
    return np.array([struct.unpack("<d", struct.pack("<Q", int(word, 16)))[0] for word in words])
