#!/usr/bin/env python3
"""Simulates the gate's lanes over recorded seconds, in the order of `rt ci` and in that of build/rt_ci.py.

`gate_order.py FILE [LANES]`: FILE has the lines that gate_times.py prints, of proofs and of tests. Edits are left out, because they fill the lanes
that proofs leave free in either order. A proof with several jobs takes less by the clock. How much less is a guess, so each order is simulated with
three guesses: the share of a proof that one job must do alone is a quarter, a half, or three quarters.
"""
import heapq
import pathlib
import re
import sys

TOP = pathlib.Path(__file__).resolve().parent.parent
SHARES = (0.25, 0.5, 0.75)


def crates():
    """Returns each crate's dependencies in the repository, in the order of crates.txt."""
    found = {}
    for line in (TOP / "crates.txt").read_text().splitlines():
        name, colon, rest = line.partition("#")[0].partition(":")
        if colon:
            found[name.split()[0]] = [it for it in rest.split() if it in found]
    return found


def below(deps):
    """Returns all crates below each."""
    found = {}
    for name, direct in deps.items():
        found[name] = set(direct).union(*(found[it] for it in direct))
    return found


def lines_of(name):
    """Returns the lines of a crate, as `rt ci` counts them."""
    folder = TOP / "crates" / name
    files = [it for part in ("src", "specs", "proofs") for it in (folder / part).rglob("*") if it.is_file()]
    return sum(it.read_bytes().count(b"\n") for it in files)


def recorded(path):
    """Returns the seconds of each task: a crate with its proof or its tests."""
    found = {}
    for line in pathlib.Path(path).read_text().splitlines():
        row = re.match(r"(\w+)\s+(proof|tests)\s+([\d.]+) s", line)
        if row:
            found[row[1], row[2]] = float(row[3])
    return found


def tasks(deps, seconds, is_changed):
    """Returns what each task waits for and its weight, in one of the two orders."""
    found, under = {}, below(deps)
    proofs = [(name, "proof") for name in deps]
    for name in deps:
        waits, lines = [(it, "proof") for it in under[name]], lines_of(name)
        found[name, "proof"] = waits, 10 + len(waits) + lines // 6 if is_changed else lines
        has_tests = (name, "tests") in seconds
        found[name, "tests"] = proofs if is_changed else waits, lines * has_tests
    return found


def simulated(found, seconds, lanes, share):
    """Returns the minutes by the clock until all tasks have ended."""
    behind = {key: 0 for key in found}
    order = sorted(found, key=lambda key: len(found[key][0]))
    for key in reversed(order):
        behind[key] += found[key][1]
        for it in found[key][0]:
            behind[it] = max(behind[it], behind[key])
    left, running, done, clock, idle = sorted(found, key=lambda key: -behind[key]), [], set(), 0.0, lanes
    while left or running:
        ready = [key for key in left if all(it in done for it in found[key][0])]
        for at, key in enumerate(ready):
            if idle <= 0:
                break
            left.remove(key)
            jobs = max(1, min(4, idle // (len(ready) - at)))
            took = seconds.get(key, 0) * (share + (1 - share) / jobs)
            heapq.heappush(running, (clock + took, key, jobs))
            idle -= jobs
        clock, key, jobs = heapq.heappop(running)
        done.add(key)
        idle += jobs
    return clock / 60


def main():
    seconds, lanes = recorded(sys.argv[1]), int(sys.argv[2]) if len(sys.argv) > 2 else 4
    deps = crates()
    print(f"{len(seconds)} proofs, {sum(seconds.values()) / 60:.0f} min of processors, {lanes} lanes")
    for share in SHARES:
        kit, ours = (simulated(tasks(deps, seconds, it), seconds, lanes, share) for it in (False, True))
        print(f"alone {share:.2f} of a proof: {kit:5.1f} min in the order of rt ci, {ours:5.1f} min in that of build/rt_ci.py")


if __name__ == "__main__":
    main()
