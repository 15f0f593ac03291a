#!/usr/bin/env python3
"""Compares what `rt must-fail` prints of each edit with the goal that the edit is to be refused at.

`refused_goals.py [--printed FILE] [CRATE..]`: an edit names its goal by a line `goal: NAME`, which `rt` passes over. Without FILE, which has
what `rt must-fail` has printed, the edits of these crates, or of all, are tried; that takes as long as the proofs of those crates.
Ends with 1 where an edit isn't refused, is refused at another goal, names none, or stands in no line of what was printed.
"""
import argparse
import glob
import os
import re
import subprocess
import sys

TOP = os.path.dirname(os.path.dirname(os.path.abspath(__file__)))
REFUSED = re.compile(r"must-fail (\w+)/([\w.-]+\.edit): refused, as it must be(.*)")


def goal_of(path):
    with open(path, encoding="utf-8") as file:
        goals = [line[len("goal: "):].strip() for line in file if line.startswith("goal: ")]
    return goals[0] if len(goals) == 1 else None


def is_told(goal, told):
    """Whether the line names the goal, which may be cut at its end."""
    names = re.findall(r"`([^`]+)`", told)
    cut = told.rpartition("`")[2] if told.count("`") % 2 else None
    return goal in names or (cut is not None and len(cut) > len("returns-") and goal.startswith(cut))


def main():
    words = argparse.ArgumentParser(description=__doc__, formatter_class=argparse.RawDescriptionHelpFormatter)
    words.add_argument("--printed")
    words.add_argument("crates", nargs="*")
    options = words.parse_args()
    paths = {tuple(path.split(os.sep)[-3::2]): path for path in glob.glob(os.path.join(TOP, "crates", "*", "must-fail", "*.edit"))}
    paths = {name: path for name, path in sorted(paths.items()) if not options.crates or name[0] in options.crates}
    if options.printed:
        with open(options.printed, encoding="utf-8", errors="replace") as file:
            printed = file.read()
    else:
        printed = subprocess.run(["rt", "must-fail", *options.crates], cwd=TOP, stdout=subprocess.PIPE, stderr=subprocess.STDOUT, text=True, errors="replace").stdout
    told = {(found[1], found[2]): found[3] for found in REFUSED.finditer(printed)}
    failed = 0
    for name, path in paths.items():
        goal = goal_of(path)
        if name not in told:
            answer = "not refused, or not tried"
        elif goal is None:
            answer = f"it names no goal; refused{told[name]}"
        elif not is_told(goal, told[name]):
            answer = f"refused at another goal than {goal}{told[name]}"
        else:
            continue
        failed += 1
        print("/".join(name) + ": " + answer)
    print(f"{len(paths)} edits, {len(paths) - failed} refused at their goal")
    sys.exit(1 if failed else 0)


if __name__ == "__main__":
    main()
