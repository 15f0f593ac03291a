#!/usr/bin/env python3
"""Goes through a newcomer's first hour in a fresh clone of the last commit, and prints what each step takes.

`newcomer.py` follows README.md: the clone, the first answer, a file with layout and its repair, a link on the PATH, the objects for programs, the
grading of submissions, and a program that embeds the checker. It ends with 1 at the first step that doesn't end as README.md says. The two builds
take some minutes. The machine should do nothing else.
"""
import pathlib
import sys
import tempfile

TOP = pathlib.Path(__file__).resolve().parent.parent
sys.path.insert(0, str(TOP / "tools"))
from measuring import measured  # noqa: E402

LAYOUT = "module Mine where\nswap (x, y) = (y, x)\n"
BRACES = "module Mine where {\nswap (x, y) = (y, x)\n}\n"


def step(what, words, cwd, status, said):
    """Runs a command, prints what it took, and ends if it doesn't end with this status and say this."""
    run = measured(words, cwd=cwd)
    text = (run.printed + run.told).decode(errors="replace")
    print(f"{run.clock:8.2f} s  {what}", flush=True)
    if run.status != status or said not in text:
        sys.exit(f"status {run.status}, wanted {status} and {said!r}:\n{text[-2000:]}")


def main():
    with tempfile.TemporaryDirectory(prefix="hmc-newcomer-") as made:
        home = pathlib.Path(made)
        clone, examples = home / "hmc", home / "hmc" / "examples"
        step("a clone", ["git", "clone", "--quiet", "--no-hardlinks", str(TOP), str(clone)], home, 0, "")
        hmc = str(clone / "hmc")
        pair = [hmc, "--explain", "Pairs.hs", "Main.hs"]
        step("the first answer of ./hmc, which builds a program", pair, examples, 1, "this has type 'a -> b', but 'a' is expected")
        step("the same again", pair, examples, 1, "2 modules: 1 good, 1 faulty, 0 skipped")
        mine = home / "mine"
        mine.mkdir()
        (mine / "Mine.hs").write_text(LAYOUT)
        step("a file with layout", [hmc, "--explain", "Mine.hs"], mine, 2, "layout isn't supported")
        (mine / "Mine.hs").write_text(BRACES)
        step("the same file with braces", [hmc, "--explain", "Mine.hs"], mine, 0, "swap :: (a, b) -> (b, a)")
        link = home / "bin" / "hmc"
        link.parent.mkdir()
        link.symlink_to(hmc)
        step("all files of a folder, by a link on the PATH", [str(link), "--explain", "."], mine, 0, "1 modules: 1 good")
        step("the report as objects", [str(link), "--report-format", "json", "."], mine, 0, '"verdict":"good"')
        step("what the program is", [str(link), "--version"], mine, 0, "NOT PROVED")
        grading = examples / "grading"
        step("five submissions graded", [sys.executable, "grade.py", hmc, "Check.hs", "submissions"], grading, 0, "ada")
        kept = home / "embedded"
        step("a program that embeds the checker", [sys.executable, "build/unproved.py", str(kept), "hm_example"], clone, 0, "")
        step("a run of it", [str(kept)], home, 0, "2 modules: 2 good, 0 faulty, 0 skipped")


if __name__ == "__main__":
    main()
