"""Makes the .npy files of host/test in the folder named, with numpy.save: what the commands are given, and what
they must write."""
import pathlib
import sys

import numpy

FOLDER = pathlib.Path(sys.argv[1])


def lanes(numbers, kind="<f8"):
    """A volume of 2 by 2 lanes, all alike."""
    return numpy.tile(numpy.array(numbers, kind), (2, 2, 1))


scan = lanes([10, 20, 30, 40])  # document 01's volume
gap = scan.copy()
gap[0, 1, 2] = numpy.nan

numpy.save(FOLDER / "scan.npy", scan)
numpy.save(FOLDER / "gap.npy", gap)
numpy.save(FOLDER / "slice.npy", scan[0][None])  # a radiograph
numpy.save(FOLDER / "thin.npy", scan[:, :1, :])
numpy.save(FOLDER / "flat.npy", scan[0])  # on two axes
numpy.save(FOLDER / "empty.npy", scan[:, :0, :])
numpy.save(FOLDER / "single.npy", scan.astype("<f4"))
(FOLDER / "text.npy").write_text("10 20 30 40\n")

numpy.save(FOLDER / "moved.npy", lanes([-1, 10, 20, 30]))
numpy.save(FOLDER / "moved_codes.npy", lanes([1, 0, 0, 0], "|u1"))
numpy.save(FOLDER / "moved_slice.npy", lanes([-1, 10, 20, 30])[:1])
numpy.save(FOLDER / "repeated.npy", lanes([10, 10, 10, 20]))
numpy.save(FOLDER / "zoomed.npy", lanes([10, 15, 20, 25, 30, 35, 40]))
numpy.save(FOLDER / "zoomed_thin.npy", lanes([10, 15, 20, 25, 30, 35, 40])[:, :1])
