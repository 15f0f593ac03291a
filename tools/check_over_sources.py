#!/usr/bin/env python3
"""Proves functions of a crate without proving the crates below it first.

`check_over_sources.py CRATE [PART..]` checks the functions of CRATE that a PART names, and all that these call, in the crates below too; without a PART,
all of CRATE. A PART is a module or a function: a name that a check prints after `fn`, or its end, as `references` or `ast::ExprKind::drop`. It must
name one thing. The prover reads the crates below as sources, and proves of them only what is called. On a fresh clone the first line comes after some
seconds in a low crate and a minute near the top, where `rt check` would prove all crates below first. What it proves is kept in the crate's out/
for its next run.

The exit status is that of the check. Only `rt ci` is the verdict: this one says nothing of the crates below.
"""
import pathlib
import subprocess
import sys

TOP = pathlib.Path(__file__).resolve().parent.parent
sys.path.insert(0, str(TOP / "build"))
import sources  # noqa: E402


def words_of(crate):
    """Returns the arguments of the prover for a crate, with the crates below as sources."""
    rows, kit = sources.rows(), sources.kit()
    below = [it for it in sources.crates_of(crate) if it != crate]
    of_kit = dict.fromkeys(["core", "std", *(it for name in [*below, crate] for it in rows[name][1] if it not in rows)])
    root = next(it for it in ("src/lib.rt", "src/main.rt") if (TOP / "crates" / crate / it).is_file())
    words = ["--crate-name", crate, root, "-L", f"dependency={kit}/rlibs"]
    words += [word for it in of_kit for word in ("--extern", f"{it}={kit}/rlibs/{it}.rlib")]
    for name in below:
        words += ["--lib", f"{name}:{','.join(dict.fromkeys(['core', 'std', *rows[name][1]]))}={TOP}/crates/{name}/src/lib.rt"]
    words += ["--antt-project", f"{kit}/rattle/logic/antt-project.json", "--logic-built", f"{kit}/logic_built", "--links", f"{crate}="]
    return [*words, "--jobs", "1", "--incremental", "out/incremental", "--progress"]


def main():
    if len(sys.argv) < 2 or sys.argv[1] not in sources.rows() or sources.kit() is None:
        print(__doc__ if sources.kit() else "there is no command rt on the PATH", file=sys.stderr)
        return 2
    crate, parts = sys.argv[1], sys.argv[2:]
    folder = TOP / "crates" / crate
    (folder / "out").mkdir(exist_ok=True)
    only = [word for part in parts for word in ("--only", part)]
    return subprocess.run([sources.kit() / "bin" / "rattle", "check", *words_of(crate), *only], cwd=folder, stdin=subprocess.DEVNULL).returncode


if __name__ == "__main__":
    sys.exit(main())
