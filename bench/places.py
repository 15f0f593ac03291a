#!/usr/bin/env python3
"""Measures what a place takes: how long its types, and how many instructions the names of its module beside those of scope.

`places.py [PROGRAM]`: without PROGRAM, the proved program is run. Places are on names of a program of 5 KB. The time of a run for a place is taken
beside that of a check of the same files, with all processors' time in both; the median and the most of the differences are printed. Then the
instructions of `uses_of` are counted beside those of scope, in modules that differ in size, by `valgrind --tool=callgrind`. Each asks for a local
variable, so that the names are read once. Ends with 2 if there is no `valgrind`.
"""
import os
import random
import re
import shutil
import statistics
import subprocess
import sys
import tempfile

TOP = os.path.dirname(os.path.dirname(os.path.abspath(__file__)))
sys.path.insert(0, os.path.join(TOP, "tools"))
sys.path.insert(0, os.path.join(TOP, "tests"))
from measuring import PROVED, measured  # noqa: E402
from name_reading import uses_of  # noqa: E402
from sets import layered  # noqa: E402

# A program of two modules and 5,412 bytes.
FILE = os.path.join(TOP, "bench", "programs", "Json.hs")
PLACES, ROUNDS = 60, 5
LINE = re.compile(r"^ *([\d,]+) \( *[\d.]+%\) +(.*)$", re.M)
# The crates whose largest function, with what it calls, is that of the names of a module, and that of scope.
USES, SCOPE = ":hm_uses_header::", ":hm_scope::"


def seconds(program, *words):
    """The least time of a processor of some runs."""
    return min(measured([program, "--jobs", "1", *words, FILE]).processor for _ in range(ROUNDS))


def print_times(program):
    """Prints what places take more than a check."""
    with open(FILE, encoding="utf-8") as it:
        text = it.read()
    uses = [it for it in uses_of([text]) if it.kind in ("variable", "constructor")]
    check = seconds(program)
    more = [seconds(program, "--at", f"{FILE}:{it.line}:{it.column}") - check for it in random.Random(1).sample(uses, PLACES)]
    print(f"{PLACES} names of {len(text)} bytes, more than a check of {1000 * check:.1f} ms: median {1000 * statistics.median(more):.1f} ms, most {1000 * max(more):.1f}", flush=True)


def instructions(program, text):
    """The instructions of the names and of scope, or none if the run fails. The place is that of the parameter of the last function."""
    line = text.rstrip("\n").count("\n") + 1
    column = text.rstrip("\n").split("\n")[-1].rindex(" x = case") + 2
    with tempfile.TemporaryDirectory() as folder:
        run = measured(["valgrind", "--tool=callgrind", f"--callgrind-out-file={folder}/profile", program, "--jobs", "1", "--at", f"<stdin>:{line}:{column}", "-"], text)
        if run.status:
            print(f"a run fails: {run.told.decode(errors='replace')}")
            return None
        page = subprocess.run(["callgrind_annotate", "--threshold=100", "--auto=no", "--inclusive=yes", f"{folder}/profile"], stdout=subprocess.PIPE, text=True, check=True).stdout
    counts = [(int(count.replace(",", "")), name) for count, name in LINE.findall(page)]
    return [max((it for it, name in counts if part in name), default=0) for part in (USES, SCOPE)]


def main(program=PROVED):
    if not shutil.which("valgrind"):
        print("there is no valgrind on the PATH")
        return 2
    program = os.path.abspath(program)
    print_times(program)
    for declarations in (18, 72, 288):
        text = layered(declarations, 1) + "\n"
        found = instructions(program, text)
        if not found:
            return 1
        uses, scope = found
        print(f"a module of {len(text)} bytes: its names {uses / 1e6:.2f} million instructions, scope {scope / 1e6:.2f} million, ratio {uses / scope:.2f}", flush=True)
    return 0


if __name__ == "__main__":
    sys.exit(main(*sys.argv[1:]))
