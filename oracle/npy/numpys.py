"""What NumPy itself reads and writes."""

import io
import math
import warnings

import numpy as np
from numpy.lib import format as npy

warnings.simplefilter("ignore")  # hostile headers make it warn before it raises


def array_of(shape, data):
    """The array of these words: bits are moved, and no NaN is looked at."""
    return np.frombuffer(data, "<f8").reshape(shape)


def saved(array):
    """The file that NumPy writes."""
    file = io.BytesIO()
    np.save(file, array, allow_pickle=False)
    return file.getvalue()


def saved_as(version, array):
    """The file of a version that NumPy would not choose."""
    file = io.BytesIO()
    npy.write_array(file, array, version, allow_pickle=False)
    return file.getvalue()


def loaded(file):
    """The array that NumPy reads from a file of version 1.0, or None where it raises, whatever it raises."""
    try:
        stream = io.BytesIO(file)
        if npy.read_magic(stream) != (1, 0):
            return None
        shape, _, dtype = npy.read_array_header_1_0(stream)
        if math.prod(shape) * dtype.itemsize > len(file):
            return None  # it would make room before it misses the data
        return np.load(io.BytesIO(file), allow_pickle=False)
    except Exception:
        return None
