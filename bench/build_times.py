#!/usr/bin/env python3
"""Measures what builds take, in a fresh clone of the last commit.

`build_times.py [PART..]` measures the parts that are named, or all: `first` (the first answer of ./hmc), `start` (what the script ./hmc adds to a run if
nothing is built), `proved` (./prove --anew), `words` and `reports` (./prove after a change in hmc_words and in hm_build_reports) and `gate` (rt ci --anew, whose
output goes to out/gate.txt).
All take some two hours on four processors. The machine should do nothing else.
"""
import pathlib
import statistics
import subprocess
import sys
import tempfile

TOP = pathlib.Path(__file__).resolve().parent.parent
sys.path.insert(0, str(TOP / "tools"))
from measuring import measured  # noqa: E402

SOURCE = "module A where { twice f x = f (f x) }\n"
# A change that comes out in the library of a crate, and needs no proof.
CHANGE = "\npub const MEASURED: usize = 1;\n"
RUNS = 200


def timed(words, cwd, kept=None):
    """Runs a command that must end well, and returns its seconds by the clock and of all processors. What it prints is kept in a file, if one is given."""
    run = measured(words, cwd=cwd)
    if kept:
        kept.parent.mkdir(exist_ok=True)
        kept.write_bytes(run.printed + run.told)
    if run.status:
        sys.exit(f"{' '.join(words)} ended with {run.status}:\n{(run.printed + run.told).decode(errors='replace')[-2000:]}")
    return run.clock, run.processor


def first(clone):
    (clone / "a.hs").write_text(SOURCE)
    return timed(["./hmc", "a.hs"], clone)


def proved(clone):
    return timed(["./prove", "--anew"], clone)


def rebuilt(clone, crate):
    """Measures ./prove after a change in a crate, from a program that is proved."""
    timed(["./prove"], clone)
    source = clone / "crates" / crate / "src" / "lib.rt"
    text = source.read_text()
    source.write_text(text + CHANGE)
    found = timed(["./prove"], clone)
    source.write_text(text)
    return found


def start(clone):
    """Measures runs of the script and of the program itself in turn, and returns the middle of what the script adds."""
    timed(["./hmc", "--version"], clone)
    proved, unproved = (clone / it for it in ("crates/hmc/out/hmc", "out/unproved/hmc"))
    program = str(proved if proved.exists() else unproved)
    pairs = [(timed(["./hmc", "--version"], clone), timed([program, "--version"], clone)) for _ in range(RUNS)]
    return tuple(statistics.median(script[it] - alone[it] for script, alone in pairs) for it in (0, 1))


PARTS = {
    "first": ("first answer of `./hmc`, without a proof", first),
    "start": ("what the script `./hmc` adds to a run if nothing is built", start),
    "proved": ("`./prove --anew`, the proved program from nothing", proved),
    "words": ("`./prove` after a change in `hmc_words`", lambda clone: rebuilt(clone, "hmc_words")),
    "reports": ("`./prove` after a change in `hm_build_reports`", lambda clone: rebuilt(clone, "hm_build_reports")),
    "gate": ("`rt ci --anew`, the gate from nothing", lambda clone: timed(["rt", "ci", "--anew"], clone, TOP / "out" / "gate.txt")),
}


def shown(seconds):
    return f"{seconds / 60:.1f} min" if seconds >= 60 else f"{seconds:.1f} s" if seconds >= 1 else f"{seconds * 1000:.1f} ms"


def main(*parts):
    if not {*parts} <= PARTS.keys():
        print(__doc__, file=sys.stderr)
        return 1
    with tempfile.TemporaryDirectory(prefix="hmc-times-") as made:
        clone = pathlib.Path(made) / "hmc"
        subprocess.run(["git", "clone", "--quiet", "--no-hardlinks", TOP, clone], check=True)
        for name in parts or PARTS:
            what, measure = PARTS[name]
            clock, processors = measure(clone)
            print(f"{what}: {shown(clock)} by the clock, {shown(processors)} of processors", flush=True)
    return 0


if __name__ == "__main__":
    sys.exit(main(*sys.argv[1:]))
