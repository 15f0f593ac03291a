#!/usr/bin/env python3
"""Counts the instructions of checks by one worker, and of plans: 64 and 256 modules in layers of 16.

`instructions.py [PROGRAM]`: without PROGRAM, the proved program is run. `valgrind --tool=cachegrind` counts, so other work on the machine doesn't
matter. Ends with 2 if there is no `valgrind`.
"""
import os
import re
import shutil
import sys

sys.path.insert(0, os.path.join(os.path.dirname(os.path.dirname(os.path.abspath(__file__))), "tools"))
from measuring import PROVED, measured  # noqa: E402
from sets import layered  # noqa: E402

DECLARATIONS = 36
COUNT = ["valgrind", "--tool=cachegrind", "--cache-sim=no", "--cachegrind-out-file=/dev/null"]


def main(program=PROVED):
    if not shutil.which("valgrind"):
        print("there is no valgrind on the PATH")
        return 2
    for modules in (64, 256):
        text = layered(DECLARATIONS, modules)
        for words in (["--jobs", "1"], ["--plan"]):
            run = measured([*COUNT, program, *words], text)
            count = re.search(rb"I +refs: +([\d,]+)", run.told)
            if run.status or not count:
                print(f"a run fails: {run.told.decode(errors='replace')}")
                return 1
            millions = int(count[1].replace(b",", b"")) / 1e6
            print(f"{modules} modules of {len(text)} bytes, {' '.join(words)}: {millions:,.1f} million instructions", flush=True)
    return 0


if __name__ == "__main__":
    sys.exit(main(*sys.argv[1:]))
