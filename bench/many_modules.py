#!/usr/bin/env python3
"""Prints the processor time and the memory of checks of many modules, at three sizes: time should grow with the modules, not with their square.

`many_modules.py [PROGRAM]`: without PROGRAM, the proved program is run. The sets: a chain, in which each module imports the next one, with the journal
of one worker; modules without imports by 1, 4 and 16 workers; layers of 64 modules that import four of the layer before; and, at the greatest size
alone, layers of 256 that import 200 each. Memory of 15 MB and less is that of this script, from which the program is started.
"""
import os
import pathlib
import sys
import tempfile

sys.path.insert(0, os.path.join(os.path.dirname(os.path.dirname(os.path.abspath(__file__))), "tools"))
from measuring import PROVED, measured  # noqa: E402
from sets import apart, chain, layers  # noqa: E402

SIZES = (1024, 2048, 4096)
LONGEST = 1_000_000


def written(modules, folder):
    """Writes the modules to as many files as their greatest length asks for."""
    files, held = [], []
    for module in [*modules, None]:
        if held and (module is None or sum(map(len, held)) + len(held) + len(module) > LONGEST):
            files.append(os.path.join(folder, f"{len(files)}.hs"))
            pathlib.Path(files[-1]).write_text("\n".join(held) + "\n")
            held = []
        held += [module] if module is not None else []
    return files


def checked(words, modules):
    """Returns the run that checks these modules."""
    with tempfile.TemporaryDirectory() as folder:
        run = measured([*words, *written(modules, folder)])
    if run.status:
        sys.exit(f"{words[0]} ended with {run.status}")
    return run


def main(program=PROVED):
    rows = [("chain, journal, 1 worker", ["--jobs", "1", "--journal"], chain)]
    rows += [(f"no imports, {jobs} workers", ["--jobs", str(jobs)], apart) for jobs in (1, 4, 16)]
    rows += [("layers of 64, 4 imports, 1 worker", ["--jobs", "1"], lambda size: layers(size, 64, 4))]
    for name, words, made in rows:
        runs = [checked([program, *words], made(size)) for size in SIZES]
        cells = [f"{size}: {run.processor:.2f} s {run.megabytes} MB" for size, run in zip(SIZES, runs)]
        print(f"{name:36}", *cells, f"ratio {runs[-1].processor / runs[0].processor:.1f}", sep="  ", flush=True)
    for jobs in (1, 16):
        run = checked([program, "--jobs", str(jobs)], layers(SIZES[-1], 256, 200))
        print(f"layers of 256, 200 imports, {jobs} workers  {SIZES[-1]}: {run.processor:.2f} s {run.megabytes} MB", flush=True)


if __name__ == "__main__":
    main(*sys.argv[1:])
