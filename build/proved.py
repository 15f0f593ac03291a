#!/usr/bin/env python3
"""Proves hmc and builds the proved program, for the script `./prove`.

`proved.py [--anew]` runs the kit's gate `rt ci` over a copy of hmc and the crates below it, without tests and must-fail edits, and puts the
program that comes out in crates/hmc/out/hmc. The exit status is 1 if something isn't proved, and the older program stays.

`rt ci` keeps what it proved beside the kit, by checksums of all that a proof reads: the sources of the crate, its row of crates.txt, the
libraries below it as they were built, and the kit. So a change costs the crate in which it is, and the crates above it if its library comes out
different, which a comment doesn't cause. What another checkout or the gate proved on this machine isn't proved again. `--anew` uses nothing
that is kept. With a kit that keeps nothing every call proves all crates.
"""
# Why: docs/DECISIONS.md, "./prove runs the gate's checks", "The cache", "No builder of our own".
import contextlib
import os
import pathlib
import re
import shutil
import signal
import subprocess
import sys
import tempfile
import time

sys.dont_write_bytecode = True
sys.path.insert(0, os.path.dirname(os.path.abspath(__file__)))
import ready  # noqa: E402
import rt_ci  # noqa: E402
import sources  # noqa: E402

LOG = ready.OUT / "prove.log"
# What `rt ci` says of a crate that it proved, or took from an earlier run.
DONE = re.compile(r"rt: (\w+) (proved|is kept: .*)\n")
# What it says of a fault.
FAULT = re.compile(r"error|NOT PROVED|FAILED|^rt: (?!ok)|refus")


def say(text):
    ready.say(text, "prove")


def copy_sources(to):
    """Copies hmc and the crates below it, less their must-fail edits and what was built in them."""
    # `rt ci` runs at the top of a repository.
    (to / ".git").mkdir(parents=True)
    shutil.copy(sources.TOP / "HANDLES", to)
    names = sources.crates_of("hmc")
    for name in names:
        crate = sources.TOP / "crates" / name
        shutil.copytree(crate, to / "crates" / name, symlinks=True, ignore=lambda at, _: {"out", "must-fail"} if at == str(crate) else ())
    rows = (sources.rows()[it] for it in names)
    (to / "crates.txt").write_text("".join(f"{' '.join(head)}: {' '.join(deps)}\n" for head, deps in rows), encoding="utf-8")
    return names


def follow(lines, log, count):
    """Writes the lines of `rt ci` to the log, and says which of the `count` crates it proves. Returns how many."""
    done, new, begun = 0, 0, time.monotonic()
    for line in lines:
        log.write(line)
        log.flush()
        found = DONE.fullmatch(line)
        done += bool(found)
        if found and found[2] == "proved":
            new += 1
            say(f"{done} of {count} crates: {found[1]} proved ({(time.monotonic() - begun) / 60:.0f} minutes so far)")
    return new


def faults(said):
    """Returns the lines of the log that say why a build failed."""
    lines = said.splitlines()
    found = [it for it in lines if FAULT.search(it) and not DONE.fullmatch(f"{it}\n") and ": its library " not in it]
    return "\n".join((found or lines)[-20:])


def run_gate(repository, anew, count):
    """Runs `rt ci` over a copy. Returns whether it passed, and how many crates it proved. Its processes end when this one does."""
    words = [*rt_ci.command(), "ci", *["--anew"] * anew]
    how = {"stdin": subprocess.DEVNULL, "stdout": subprocess.PIPE, "stderr": subprocess.STDOUT, "errors": "replace", "start_new_session": True}
    with open(LOG, "w", encoding="utf-8") as log, subprocess.Popen(words, cwd=repository, **how) as gate:
        try:
            new = follow(gate.stdout, log, count)
        except BaseException:
            os.killpg(gate.pid, signal.SIGKILL)
            raise
    return gate.returncode == 0, new


def beside_the_gate():
    """Keeps `rt ci` out of this checkout until the block ends, because it runs the program from the same place."""
    lock = sources.TOP / ".git" / "rt-ci.lock"
    return ready.locked(lock, "waiting for rt ci to end") if lock.parent.is_dir() else contextlib.nullcontext()


def place(program, then, *lines):
    """Puts a program where the script `./hmc` finds it, in one step."""
    with beside_the_gate(), ready.locked(ready.OUT / "lock", "waiting for another build"):
        ready.PROVED.parent.mkdir(exist_ok=True)
        part = pathlib.Path(f"{ready.PROVED}.{os.getpid()}.part")
        try:
            shutil.copy(program, part)
            # A program without a checksum is stale.
            pathlib.Path(f"{ready.PROVED}.sum").unlink(missing_ok=True)
            os.replace(part, ready.PROVED)
        finally:
            part.unlink(missing_ok=True)
        ready.note(ready.PROVED, then, *lines)


def build(anew):
    """Proves and builds the program, unless it is proved already. Returns whether it is proved."""
    then = ready.now()
    wanted, proof = sources.checksum("hmc", ready.OF_PROVED), ready.proof_checksum()
    known = ready.is_of(ready.PROVED, wanted, then) or ready.is_by_gate(wanted, then)
    if not anew and known and (sources.read(f"{ready.PROVED}.sum") or "").split("\n")[1:2] == [proof]:
        say("the program is proved already")
        return True
    with tempfile.TemporaryDirectory(prefix="hmc-prove-") as made:
        repository, then = pathlib.Path(made) / "repository", ready.now()
        names = copy_sources(repository)
        begun = time.monotonic()
        say(f"proving {len(names)} crates; what an earlier run proved is not proved again")
        is_proved, new = run_gate(repository, anew, len(names))
        if not is_proved:
            said = LOG.read_text(encoding="utf-8").replace(str(repository), str(sources.TOP))
            LOG.write_text(said, encoding="utf-8")
            say(f"NOT proved; {LOG} says why:\n{faults(said)}")
            return False
        lines = sources.checksum("hmc", ready.OF_PROVED, repository), ready.proof_checksum(repository)
        place(repository / "crates/hmc/out/hmc", then, *lines)
        say(f"built in {(time.monotonic() - begun) / 60:.1f} minutes; {new} of {len(names)} crates were proved in this run")
        return True


def main(words):
    if words not in ([], ["--anew"]):
        print(__doc__, file=sys.stderr)
        return 1
    if sources.kit() is None:
        say("the command rt of the Rattle kit is not on the PATH")
        return 127
    for it in (signal.SIGTERM, signal.SIGHUP):
        signal.signal(it, lambda *_: sys.exit(127))
    ready.OUT.mkdir(exist_ok=True)
    try:
        with ready.locked(ready.OUT / "prove.lock", "waiting for another ./prove"):
            return 0 if build(bool(words)) else 1
    except OSError as error:
        say(f"the program was not built: {error}")
        return 127


if __name__ == "__main__":
    try:
        sys.exit(main(sys.argv[1:]))
    except KeyboardInterrupt:
        sys.exit(127)
