#!/usr/bin/env python3
"""Checks 256 modules in layers of 16 with 1, 2 and 4 workers, and prints the least time of some runs, the speed-up and the most memory.

`workers.py [PROGRAM]`: without PROGRAM, the script `hmc` at the top is run. The modules are in one source, and then in a source each: as many threads
as workers lex and parse. Prints the time of their plan too. Ends with 1 if a report differs from that of one worker.
"""
import os
import sys
import tempfile

sys.path.insert(0, os.path.join(os.path.dirname(os.path.dirname(os.path.abspath(__file__))), "tools"))
from measuring import SCRIPT, measured  # noqa: E402
from sets import layered  # noqa: E402

RUNS = 21
DECLARATIONS = 36


def written(folder, name, text):
    path = os.path.join(folder, name)
    with open(path, "w", encoding="utf-8") as it:
        it.write(text)
    return path


def least(words):
    """The least time of some runs, the most memory of one, and their different answers."""
    runs = [measured(words) for _ in range(RUNS)]
    return min(it.clock for it in runs), max(it.megabytes for it in runs), {(it.status, it.printed) for it in runs}


def compare(program, paths):
    """Prints the times with each number of workers. Returns whether a report differs."""
    alone, expected = None, None
    differs = False
    for workers in (1, 2, 4):
        seconds, megabytes, answers = least([program, "--jobs", str(workers), *paths])
        alone, expected = alone or seconds, expected or answers
        differs |= len(answers | expected) != 1
        print(f"{len(paths)} sources, {workers} workers: {seconds:.2f} s, {alone / seconds:.2f} times as fast as one, {megabytes} MB", flush=True)
    return differs


def main(program=SCRIPT):
    text = layered(DECLARATIONS)
    with tempfile.TemporaryDirectory() as folder:
        whole = [written(folder, "modules.hs", text)]
        each = [written(folder, f"module{at}.hs", it) for at, it in enumerate(text.split("\n"))]
        differs = compare(program, whole) | compare(program, each)
        seconds, megabytes, _ = least([program, "--plan", *whole])
        print(f"1 sources, plan: {seconds:.2f} s, {megabytes} MB")
    return differs


if __name__ == "__main__":
    sys.exit(main(*sys.argv[1:]))
