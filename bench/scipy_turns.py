"""SciPy's side of the bench: takes a call, then makes it as often as it is told to.

A line `ENTRY SIDE ORDER MODE PREFILTER F0 F1 F2` prepares a call on a cube; each line `turn` after it
makes the call once and prints the seconds that it took. The output array was touched before.
"""

import sys
import time

import numpy
import scipy
from scipy import ndimage

print("SciPy", scipy.__version__, flush=True)
for line in sys.stdin:
    words = line.split()
    if words == ["turn"]:
        began = time.perf_counter()
        entry(volume, factors, output=output, order=order, mode=mode, prefilter=prefilter)
        print(time.perf_counter() - began, flush=True)
        continue
    name, side, order, mode, prefilter, *factors = words
    entry = {"shift": ndimage.shift, "zoom": ndimage.zoom}[name]
    side, order, prefilter, factors = int(side), int(order), prefilter == "1", [float(f) for f in factors]
    volume = numpy.random.default_rng(1).uniform(-1024.0, 1024.0, (side, side, side))
    lengths = [round(side * f) for f in factors] if name == "zoom" else volume.shape
    output = numpy.ones(lengths)
