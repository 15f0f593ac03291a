#!/usr/bin/env python3
"""Measures the program and its builds, and writes docs/FIGURES.md.

`all.py [--program PROGRAM] [--server SERVER] [PART..]` measures the parts that are named, or all but those of builds: each is a script of bench/ or
tests/ with its words. Without PROGRAM and SERVER, the proved program and language server are run.
A part's section of the page is replaced, with the commit, the machine, the kit and the date of its figures; the others stay. The machine should do
nothing else, but instructions don't depend on that. Ends with 1 if a script fails.
"""
import argparse
import os
import re
import subprocess
import sys

TOP = os.path.dirname(os.path.dirname(os.path.abspath(__file__)))
sys.path.insert(0, os.path.join(TOP, "tools"))
import lsp  # noqa: E402
from measuring import PROVED, where  # noqa: E402

PAGE = os.path.join(TOP, "docs", "FIGURES.md")
HEAD = """# Figures

Written by `bench/all.py`, which runs the script that each heading names. Other documents cite this page.
"""
PROGRAM, SERVER = "PROGRAM", "SERVER"
PARTS = {
    "workers": ["bench/workers.py", PROGRAM],
    "instructions": ["bench/instructions.py", PROGRAM],
    "profile": ["bench/profile.py", PROGRAM],
    "checks": ["bench/checks.py", PROGRAM],
    "many_modules": ["bench/many_modules.py", PROGRAM],
    "ghc": ["bench/ghc_times.py", PROGRAM],
    "slips": ["bench/slips.py", "--program", PROGRAM, "--ghc", "--count", "16", "--seed", "901", "--seed", "902", "--seed", "903", "--seed", "904"],
    "forgotten": ["bench/forgotten.py", "--program", PROGRAM, "--ghc", "--count", "3", "--seed", "9601", "--seed", "9602", "--seed", "9603", "--seed", "9604"],
    "missing_tokens": ["bench/missing_tokens.py", PROGRAM, "40"],
    "server": ["bench/server.py", SERVER],
    "places": ["bench/places.py", PROGRAM],
    "deep": ["tests/deep.py", PROGRAM],
    "growth": ["tests/growth.py", PROGRAM],
    "newcomer": ["bench/newcomer.py"],
    "first": ["bench/build_times.py", "first"],
    "start": ["bench/build_times.py", "start"],
    "proved": ["bench/build_times.py", "proved"],
    "words": ["bench/build_times.py", "words"],
    "reports": ["bench/build_times.py", "reports"],
    "gate": ["bench/build_times.py", "gate"],
}
# These parts build, and aren't measured unless they are named.
BUILDS = ("bench/build_times.py", "bench/newcomer.py")


def sections():
    """Returns the page's sections by their headings."""
    if not os.path.exists(PAGE):
        return {}
    with open(PAGE, encoding="utf-8") as it:
        parts = re.split(r"^## (.*)\n", it.read(), flags=re.M)[1:]
    return dict(zip(parts[::2], parts[1::2]))


def write(found):
    headings = [heading_of(words) for words in PARTS.values()]
    with open(PAGE, "w", encoding="utf-8") as it:
        it.write(HEAD + "".join(f"\n## {heading}\n\n{found[heading].strip()}\n" for heading in headings if heading in found))


def heading_of(words):
    return f"`{' '.join(word for word in words if word not in ('--program', PROGRAM, SERVER))}`"


def main():
    words = argparse.ArgumentParser(description=__doc__, formatter_class=argparse.RawDescriptionHelpFormatter)
    words.add_argument("--program", default=PROVED)
    words.add_argument("--server", default=lsp.PROVED)
    words.add_argument("parts", nargs="*", metavar="PART")
    given = words.parse_args()
    parts = given.parts or [name for name, (script, *_) in PARTS.items() if script not in BUILDS]
    if unknown := {*parts} - PARTS.keys():
        words.error(f"no part {' '.join(sorted(unknown))}; there are {' '.join(PARTS)}")
    failed, programs = False, {PROGRAM: os.path.abspath(given.program), SERVER: os.path.abspath(given.server)}
    for name in parts:
        command = [programs.get(word, word) for word in PARTS[name]]
        ran = subprocess.run([sys.executable, *command], cwd=TOP, stdout=subprocess.PIPE, text=True)
        print(f"{name}: status {ran.returncode}\n{ran.stdout}", flush=True)
        failed |= ran.returncode != 0
        if ran.returncode == 0:
            found = sections()
            found[heading_of(PARTS[name])] = f"{where()}:\n\n```text\n{ran.stdout}```"
            write(found)
    return failed


if __name__ == "__main__":
    sys.exit(main())
