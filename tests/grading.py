#!/usr/bin/env python3
"""Runs examples/grading on its submissions, and on one that takes more than its limits.

`grading.py PROGRAM` ends with 1 if the table differs.
"""
import pathlib
import shutil
import subprocess
import sys
import tempfile

FOLDER = pathlib.Path(__file__).resolve().parent.parent / "examples" / "grading"
# Types that double at each of these functions.
LARGE = "module Reverse where { f0 x = [x] ; " + " ; ".join(f"f{n} = \\x -> f{n - 1} (f{n - 1} x)" for n in range(1, 40)) + " }\n"
WANTED = """\
ada          as wanted
bob          other names or types   6:3 type error in 'c1'
cyd          other names or types   6:3 type error in 'c1'
dan          can't be read          3:16 expected ';' before 'backwards' at 3:3
eve          other names or types   6:8 'Reverse.backwards' isn't in scope
fay          not graded (status 3)  1:8 there is no memory to check module 'Reverse'
"""


def main():
    with tempfile.TemporaryDirectory() as room:
        submissions = pathlib.Path(room) / "submissions"
        shutil.copytree(FOLDER / "submissions", submissions)
        (submissions / "fay.hs").write_text(LARGE)
        words = [sys.executable, FOLDER / "grade.py", sys.argv[1], FOLDER / "Check.hs", submissions]
        ran = subprocess.run(words, stdout=subprocess.PIPE, stderr=subprocess.STDOUT, text=True)
    if ran.stdout == WANTED and ran.returncode == 0:
        print("the table of submissions: as wanted")
        return 0
    print(f"the table of submissions: status {ran.returncode}\n{ran.stdout}in place of\n{WANTED}")
    return 1


if __name__ == "__main__":
    sys.exit(main())
