#!/usr/bin/env python3
"""Runs the kit's command `rt`, with another order of its work where `rt ci` takes longer than it must, for build/proved.py.

A crate that is alone gets all processors. `rt ci` divides them by the number of proofs that are ready, and counts the tests of a crate as one,
also if it has none. Here tests wait for all proofs. The longest chain of crates is found by an estimate of seconds, in which each crate below
counts, and not by lines alone.

The checks are those of `rt ci`. Its code is no interface of the kit, so the order is changed in the versions named in KNOWN alone. With any
other, `rt ci` runs as it is, which takes some minutes more.
"""
# Why: docs/DECISIONS.md, "The order of work", "The second compiler stays in".
import importlib.machinery
import importlib.util
import os
import sys

sys.dont_write_bytecode = True
sys.path.insert(0, os.path.dirname(os.path.abspath(__file__)))
import sources  # noqa: E402

PARTS = ("bin/rt", "bin/rtlib.py")
# Checksums of these files, by the kits in which this file was tried.
KNOWN = {
    "a16c765318d3e0a7d2a5627ef80233697a0f797b3f6f1fb62b6d0caae84667e9": "rattle-kit-13f",
}


def command():
    """Returns the words that start `rt`."""
    is_known = sources.kit_checksum(*PARTS) in KNOWN
    return [sys.executable, "-I", os.path.abspath(__file__)] if is_known else [str(sources.kit() / "bin" / "rt")]


def load_rt():
    """Returns the kit's command as a module."""
    loader = importlib.machinery.SourceFileLoader("rt", str(sources.kit() / "bin" / "rt"))
    rt = importlib.util.module_from_spec(importlib.util.spec_from_loader("rt", loader))
    sys.modules["rt"] = rt
    loader.exec_module(rt)
    return rt


def in_order(tasks):
    """Returns the tasks of `rt ci` with other weights of proofs, and tests after all proofs.

    The key of a task begins with a crate and a kind. A task is what it waits for, its lines, its memory and its call.
    """
    proofs = [key for key in tasks if key[1] == "proof"]
    changed = {}
    for key, (waits, lines, memory, call) in tasks.items():
        if key[1] == "proof":
            # Seconds of a processor, fitted to the crates of this repository.
            lines = 10 + len(waits) + lines // 6
        elif key[1] == "tests":
            waits = proofs
        changed[key] = waits, lines, memory, call
    return changed


def main(words):
    rt = load_rt()
    in_lanes = rt.in_lanes
    rt.in_lanes = lambda tasks: in_lanes(in_order(tasks))
    return rt.main(words)


if __name__ == "__main__":
    sys.exit(main(sys.argv[1:]))
