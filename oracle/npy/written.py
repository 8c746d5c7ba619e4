"""Files that NumPy writes: some that are taken, and some that are not, each under 1 kB."""

import pathlib

import numpy as np

from layout import data_of
from numpys import array_of, saved, saved_as
from rule import DONE, LENGTH, NOT_NPY

FOLDER = pathlib.Path(__file__).parent / "files"
SHAPES = [(2, 2, 2), (2, 3, 4), (4, 3, 2), (2, 2, 13), (10, 2, 2)]


def shaped(*shape):
    return array_of(shape, data_of(int(np.prod(shape))))


def written():
    """For each name the file, and what vurelika_npy_read must answer."""
    files = {f"{a}x{b}x{c}": (saved(shaped(a, b, c)), DONE) for a, b, c in SHAPES}
    volume = np.arange(24.0).reshape(2, 3, 4)
    files["strided"] = saved(volume[:, ::-1]), DONE
    files["one_voxel_thin"] = saved(shaped(1, 3, 4)), DONE
    files["empty"] = saved(shaped(2, 0, 4)), LENGTH
    refused = {
        "axes_1": shaped(24),
        "axes_2": shaped(4, 6),
        "axes_4": shaped(1, 2, 3, 4),
        "big_endian": volume.astype(">f8"),
        "f4": volume.astype("<f4"),
        "i8": volume.astype("<i8"),
        "fortran_order": np.asfortranarray(volume),
        "record": volume.astype([("voxel", "<f8")]),
    }
    files |= {name: (saved(array), NOT_NPY) for name, array in refused.items()}
    files["version_2"] = saved_as((2, 0), volume), NOT_NPY
    files["version_3"] = saved_as((3, 0), volume), NOT_NPY
    return files


def kept():
    """For each name the file that oracle/make-npy kept."""
    return {path.stem: path.read_bytes() for path in sorted(FOLDER.glob("*.npy"))}
