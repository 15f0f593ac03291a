#!/usr/bin/env python3
"""Tells which parts of a crate's proof took longest.

`proof_times.py CRATE [N]` lists the N (15) files of crates/CRATE/out/incremental between which most time passed, as the last check left
them. Run that check by `rt check --jobs 1` from nothing, since with more jobs the times of several functions overlap. The name of a file tells
the function; `Lts` are the steps that the prover makes of its code, one for each path that may return or drop something, `Proof` its proofs
and searches, `Tie` what ties both together.
"""
import pathlib
import sys

TOP = pathlib.Path(__file__).resolve().parent.parent


def main():
    crate, count = sys.argv[1], int(sys.argv[2]) if len(sys.argv) > 2 else 15
    folder = TOP / "crates" / crate / "out" / "incremental"
    files = sorted((it.stat().st_mtime_ns, it.name) for it in folder.rglob("*") if it.is_file())
    if not files:
        sys.exit(f"{folder} has no files: run `rt check --jobs 1` there first")
    steps = [((time - before) / 1e9, name) for (before, _), (time, name) in zip(files, files[1:])]
    for seconds, name in sorted(steps, reverse=True)[:count]:
        print(f"{seconds:7.1f} {name}")


if __name__ == "__main__":
    main()
