"""compare.py CASES SEED RANDOM PROGRAM...: puts files to the library, through PROGRAM (door.c), and to NumPy.

Held, for each file:
- the library answers what rule.py says, with the file's lengths and bits, and where a list brings an answer
  of its own rule.py says that;
- a file that the library takes NumPy takes too, with the same lengths and bits;
- the volume that was read is written byte for byte as NumPy writes it.

It prints a line for each kind of files, and fails if anything differs.
"""

import math
import sys

import numpy as np

import rule
from door import Answer, Door
from drawn import mutated, random_headers
from hostile import changed, lengths, prefixes
from numpys import array_of, loaded, saved
from spelled import spelled
from written import kept, written

SHOWN = 5  # files of a kind that differ
LONGEST_SHOWN = 200
REFUSED_PLACES = 8  # of a volume lent to a call that must leave it alone


def expected(file, dims_places, places):
    """What the library must answer, by the rule, and write, by NumPy."""
    dims_status, read_status = rule.dims_status(file, dims_places), rule.read_status(file, places)
    dims = rule.dims_of(file) if dims_status == rule.DONE else (0, 0, 0)
    volume = rule.parts_of(file)[1] if read_status == rule.DONE else b""
    both = dims_status == read_status == rule.DONE
    return Answer(dims_status, dims, read_status, volume, saved(array_of(dims, volume)) if both else b"")


def is_numpys(answer, array):
    """Whether a file that was taken is one that NumPy took, with these lengths and these bits."""
    if answer.dims_status != rule.DONE:
        return True
    same = array is not None and array.shape == answer.dims and array.dtype == "<f8"
    return same and (answer.read_status != rule.DONE or array.tobytes() == answer.volume)


def lendings(file):
    """Places of dims and of the volume to lend: the right ones, and for a file that is taken wrong ones."""
    dims = rule.dims_of(file)
    if dims is None:
        return [(3, REFUSED_PLACES)]
    count = math.prod(dims)
    return [(3, count), (2, count + 1), (4, max(count - 1, 0))]


def shown(thing):
    return repr(thing)[:LONGEST_SHOWN]


def faults(door, file, listed, array):
    """What is wrong with the library's answers to a file."""
    places = lendings(file)[0][1]
    if listed not in (None, rule.read_status(file, places)):
        yield f"the list says {listed}, and the rule {rule.read_status(file, places)}"
    for lending in lendings(file):
        must = expected(file, *lending)
        for answer in door.ask(file, *lending):
            for name, given, right in zip(Answer._fields, answer, must):
                if given != right:
                    yield f"lent {lending}, {name} is {shown(given)}, and must be {shown(right)}"
            if not is_numpys(answer, array):
                yield "taken, and not so by NumPy"


def hold(door, kind, files, fewest_taken):
    """Puts files of a kind to both; whether all is as it should be, and so many at least were taken."""
    count = taken = numpys = differ = 0
    for file, listed in files:
        array = loaded(file)
        count += 1
        taken += rule.dims_of(file) is not None
        numpys += array is not None
        fault = next(faults(door, file, listed, array), None)
        differ += fault is not None
        if fault and differ <= SHOWN:
            print(f"{kind}: {len(file)} bytes, {shown(file)}: {fault}")
    print(f"{kind}: {count}, {taken} taken, {numpys} by NumPy; {differ} differ", flush=True)
    if taken < fewest_taken:
        print(f"{kind}: fewer than {fewest_taken} are taken")
    return not differ and taken >= fewest_taken


def hold_kept():
    """Whether the kept files are those that NumPy writes."""
    now = {name: file for name, (file, _) in written().items()}
    differ = [name for name in now.keys() | kept().keys() if now.get(name) != kept().get(name)]
    print(f"files in oracle/npy/files: {len(kept())}, {len(differ)} differ from what NumPy writes", *differ)
    return not differ


def unlisted(files):
    return ((file, None) for file in files)


def main():
    cases, seed, random_count = map(int, sys.argv[1:4])
    door = Door(sys.argv[4:])
    print(f"NumPy {np.__version__}")
    kinds = [
        ("files that NumPy wrote", written().values(), 1),
        ("headers spelled by hand", spelled(), 1),
        ("lengths", lengths(), 1),
        ("prefixes of a file", unlisted(prefixes()), 0),
        ("files with a byte changed", unlisted(changed()), 1),
        ("headers with signs changed", unlisted(mutated(cases, seed)), cases // 10),
    ]
    if random_count:
        kinds.append(("random headers", unlisted(random_headers(random_count, seed)), random_count // 10))
    held = [hold_kept()] + [hold(door, *kind) for kind in kinds]
    sys.exit(0 if all(held) else 1)


main()
