#!/usr/bin/env python3
"""Times `hmc` beside GHC in one run: 256 modules in layers of 16, which both only check.

`ghc_times.py [PROGRAM]`: without PROGRAM, the script `hmc` at the top is run. GHC checks the same modules, a file each, by
`ghc --make -fno-code`; its Prelude is the whole one. Prints the least times of some runs with one and with four workers, their
ratio, and how many times as fast four are as one. Ends with 1 if either doesn't accept all modules, and with 2 if there is no `ghc`.
"""
import os
import shutil
import sys
import tempfile

sys.path.insert(0, os.path.join(os.path.dirname(os.path.dirname(os.path.abspath(__file__))), "tools"))
from measuring import SCRIPT, measured  # noqa: E402
from sets import layered  # noqa: E402

RUNS = 5
DECLARATIONS = 36
FLAGS = ["--make", "-v0", "-fno-code", "-w", "-XHaskell98"]


def least_seconds(words, folder):
    """The least time of some runs, which must all end well."""
    runs = [measured(words, cwd=folder) for _ in range(RUNS)]
    if any(run.status for run in runs):
        sys.exit(f"a run fails: {' '.join(words[:8])}")
    return min(run.clock for run in runs)


def main(program=SCRIPT):
    if not shutil.which("ghc"):
        print("there is no ghc on the PATH")
        return 2
    text = layered(DECLARATIONS)
    with tempfile.TemporaryDirectory() as folder:
        modules = text.split("\n")
        files = [f"M{number}.hs" for number in range(len(modules))]
        for file, module in zip([*files, "modules"], [*modules, text]):
            with open(os.path.join(folder, file), "w", encoding="utf-8") as it:
                it.write(module + "\n")
        alone = None
        for workers in (1, 4):
            theirs = least_seconds(["ghc", *FLAGS, f"-j{workers}", *files], folder)
            mine = least_seconds([os.path.abspath(program), "--jobs", str(workers), "modules"], folder)
            alone = alone or mine
            print(f"{workers} workers: hmc {mine:.3f} s, ghc {theirs:.2f} s, ratio {mine / theirs:.3f}; {alone / mine:.1f} times as fast as one", flush=True)
    return 0


if __name__ == "__main__":
    sys.exit(main(*sys.argv[1:]))
