#!/usr/bin/env python3
"""Builds the program bench/looks over hm_store and hm_check, in a copy of the crates that it needs, and runs it.

`looks.py [--seconds N] [--trial]`: it prints how many looks a second four workers make at published interfaces, 1,000,000 in all, beside one that
publishes: without the lock, and under one. Three rounds of each. The program is not proved: it is built natively (build/unproved.py), or with --trial
run by `rt try`, whose checks cost more than either kind of look. What the workers without a lock saw is compared with the journal. Ends
with the status of the program.
"""
# Why: docs/DECISIONS.md, "The speed of looks".
import argparse
import os
import pathlib
import shutil
import subprocess
import sys
import tempfile

TOP = os.path.dirname(os.path.dirname(os.path.abspath(__file__)))
sys.path.insert(0, os.path.join(TOP, "build"))
import unproved  # noqa: E402

USED = ["hm_syntax", "hm_types", "hm_run_sources", "hm_verdicts", "hm_check", "hm_store_published", "hm_store", "hm_store_shared"]


def lines_of_crates():
    """The lines of crates.txt, by name."""
    with open(os.path.join(TOP, "crates.txt"), encoding="utf-8") as file:
        return {line.split(":")[0].split()[0]: line for line in file if ":" in line and not line.startswith("#")}


def below(lines, names):
    """These crates and all that they stand on, as far as the repository has them."""
    found, open_names = set(), list(names)
    while open_names:
        name = open_names.pop()
        if name in lines and name not in found:
            found.add(name)
            open_names += lines[name].split(":")[1].split()
    return found


def main():
    words = argparse.ArgumentParser(description=__doc__, formatter_class=argparse.RawDescriptionHelpFormatter)
    words.add_argument("--seconds", type=int, default=600)
    words.add_argument("--trial", action="store_true")
    options = words.parse_args()
    lines = lines_of_crates()
    needed = below(lines, USED)
    with tempfile.TemporaryDirectory() as work:
        for name in needed:
            shutil.copytree(os.path.join(TOP, "crates", name), os.path.join(work, "crates", name), ignore=shutil.ignore_patterns("out"))
        program = os.path.join(work, "crates", "looks")
        os.makedirs(os.path.join(program, "src"))
        shutil.copy(os.path.join(TOP, "bench", "looks", "main.text"), os.path.join(program, "src", "main.rt"))
        shutil.copy(os.path.join(TOP, "HANDLES"), work)
        with open(os.path.join(work, "crates.txt"), "w", encoding="utf-8") as file:
            file.write("".join(line for name, line in lines.items() if name in needed))
            file.write("looks: " + " ".join(USED) + " anyhow\n")
        if options.trial:
            sys.exit(subprocess.run(["rt", "try", "--seconds", str(options.seconds)], cwd=program).returncode)
        unproved.build(os.path.join(work, "looks"), "looks", pathlib.Path(work), is_bare=True)
        sys.exit(subprocess.run([os.path.join(work, "looks")], timeout=options.seconds).returncode)


if __name__ == "__main__":
    main()
