#!/usr/bin/env python3
"""Checks each submission of a folder beside a module that says what it has to define, and prints a table.

`grade.py HMC CHECK SUBMISSIONS` runs the program HMC on the file CHECK and on each file `*.hs` of the folder SUBMISSIONS, one process for each
submission, with limits of memory and time. A line of the table has the submission, what is said of it, and its first message.
"""
import json
import pathlib
import re
import resource
import subprocess
import sys

# One gigabyte of addresses and twenty seconds of a processor. Each submission in tests/bombs.py needs less.
MEMORY, SECONDS = 1_000_000 << 10, 20


def limit():
    resource.setrlimit(resource.RLIMIT_AS, (MEMORY, MEMORY))
    resource.setrlimit(resource.RLIMIT_CPU, (SECONDS, SECONDS))


def checked(hmc, check, submission):
    """Returns what is said of a submission, and its first message."""
    words = [hmc, "--jobs", "1", "--message-format", "json", "--", check, submission]
    ran = subprocess.run(words, stdin=subprocess.DEVNULL, stdout=subprocess.PIPE, stderr=subprocess.PIPE, preexec_fn=limit)
    report = ran.stdout.decode()
    objects = [json.loads(line) for line in ran.stderr.decode().splitlines() if line.startswith("{")]
    messages = [it for it in objects if it["level"] in ("error", "note")]
    first = next((f"{it['start']['line']}:{it['start']['character']} {it['text']}" for it in messages), "")
    if report.startswith("refused: "):
        return "can't be read", first
    if ran.returncode == 0:
        return "as wanted", ""
    if ran.returncode == 1 and re.search(r"^\d+ modules: .* skipped$", report, re.M):
        names = [it["file"] for it in messages if it["level"] == "error"]
        return "has faults" if submission in names else "other names or types", first
    # The limits, or a fault of the machine: nothing is known of the submission.
    return f"not graded (status {ran.returncode})", first


def main(words):
    if len(words) != 3:
        print(__doc__, file=sys.stderr)
        return 2
    hmc, check, folder = words
    rows = [(it.stem, *checked(hmc, check, str(it))) for it in sorted(pathlib.Path(folder).glob("*.hs"))]
    for name, said, first in rows:
        print(f"{name:12} {said:22} {first}".rstrip())
    return 0


if __name__ == "__main__":
    sys.exit(main(sys.argv[1:]))
