#!/usr/bin/env python3
"""Runs the gate and tells where its time goes.

`gate_times.py [WORDS]` runs `rt ci WORDS` at the top of the repository (`--anew` does all from nothing), with its output in out/gate.txt, and
looks each second at the prover's processes. Then it prints, for each crate and each kind of check (its proof, that of its tests, its must-fail
edits with the check that they begin from), the seconds of processor, the minute in which the last one ended, and the most memory of one; and
the sums. A check that ends within a second may be missed.
"""
import collections
import os
import pathlib
import re
import subprocess
import sys
import time

TOP = pathlib.Path(__file__).resolve().parent.parent
TICKS = os.sysconf("SC_CLK_TCK")


def prover_of(pid):
    """Returns what a process of the prover checks, its seconds of processor and its MB at the most, or None."""
    try:
        words = pathlib.Path(f"/proc/{pid}/cmdline").read_text(errors="replace").split("\0")
        if os.path.basename(words[0]) != "rattle" or "--crate-name" not in words:
            return None
        ticks = pathlib.Path(f"/proc/{pid}/stat").read_text().rsplit(")", 1)[1].split()[11:13]
        most = re.search(r"VmHWM:\s+(\d+)", pathlib.Path(f"/proc/{pid}/status").read_text())
        kind = "tests" if "--test" in words else "edits" if words[1] == "check" and "-o" not in words else "proof"
        name = words[words.index("--crate-name") + 1]
        return (name, kind), sum(map(int, ticks)) / TICKS, int(most[1]) // 1024 if most else 0
    except (OSError, IndexError):
        return None


def main():
    (TOP / "out").mkdir(exist_ok=True)
    seen, begin = {}, time.time()
    with open(TOP / "out" / "gate.txt", "w") as said:
        run = subprocess.Popen(["rt", "ci", *sys.argv[1:]], cwd=TOP, stdout=said, stderr=subprocess.STDOUT)
        while run.poll() is None:
            for pid in filter(str.isdigit, os.listdir("/proc")):
                found = prover_of(pid)
                if found:
                    seen[pid, found[0]] = (*found[1:], time.time() - begin)
            time.sleep(1)
    rows, sums = collections.defaultdict(lambda: [0, 0, 0]), collections.Counter()
    for (_, what), (seconds, most, end) in seen.items():
        row = rows[what]
        row[:] = row[0] + seconds, max(row[1], end), max(row[2], most)
        sums[what[1]] += seconds
    for (name, kind), (seconds, end, most) in sorted(rows.items(), key=lambda it: -it[1][0]):
        print(f"{name:20} {kind:6} {seconds:6.0f} s, ended in minute {end / 60:4.0f}, {most:5} MB")
    for kind, seconds in sums.items():
        print(f"{kind}: {seconds / 60:.0f} minutes of processor")
    print(f"rt ci: {(time.time() - begin) / 60:.1f} minutes, status {run.returncode}")
    return run.returncode


if __name__ == "__main__":
    sys.exit(main())
