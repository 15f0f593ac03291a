#!/usr/bin/env python3
"""Runs hmc if the script `./hmc` can't tell that a program is fresh.

`ready.py [ARGUMENT..]` runs the proved program with these arguments if it was built from the sources as they are now. Otherwise it runs the
unproved one, which it builds first if need be, and says on standard error that this program isn't proved. If that build fails, the exit status
is 127 and the older programs stay.

Beside each program is a file of its name and `.sum`. Its first line is a checksum of the sources of the program, and its date is the time of the
last check. The script takes a program for fresh if no source has changed since that date. If one has, the checksum decides here. So a `touch`,
another branch and back, or a copy of the folder builds nothing. A proved program stays proved when only a proof is edited: the files in proofs/
are no part of its checksum.
"""
# Why: docs/DECISIONS.md, "Unproved first", "Stale programs", "Programs of the gate".
import contextlib
import fcntl
import os
import signal
import sys
import threading
import time

sys.dont_write_bytecode = True
sys.path.insert(0, os.path.dirname(os.path.abspath(__file__)))
import sources  # noqa: E402
import unproved  # noqa: E402

OUT = sources.TOP / "out"
# The crate of the program, who speaks of it, and its files. server.py sets others.
NAME, SPEAKER = "hmc", "hmc"
PROVED = sources.TOP / "crates" / NAME / "out" / NAME
UNPROVED = OUT / "unproved" / NAME
# The folders of a crate that decide what the proved program is and promises, and what the unproved one is: its compiler reads no file of specs/.
OF_PROVED, OF_UNPROVED = ("src", "specs"), ("src",)
# What a proof reads.
OF_PROOF = ("src", "specs", "proofs")
# The files of the kit that decide what a proof is.
OF_KIT = ("KIT-ID", "WHAT", "bin/rt", "bin/rtlib.py")
NOT_PROVED = "this program is not proved yet: ./prove proves and builds it"
# The same for programs: an object on a line, as the messages that follow it.
NOT_PROVED_OBJECT = f'{{"level":"program","proved":false,"text":"{NOT_PROVED}"}}'
# How many seconds pass between two lines that say that a build goes on.
TICK = 10


def say(text, who=None):
    print(f"{who or SPEAKER}: {text}", file=sys.stderr, flush=True)


def are_objects(arguments):
    """Returns whether messages are JSON objects by these arguments."""
    return "--message-format=json" in arguments or ("--message-format", "json") in zip(arguments, arguments[1:])


@contextlib.contextmanager
def ticking(what):
    """Says after each ten seconds of the block that it goes on."""
    ended, begun = threading.Event(), time.monotonic()

    def tick():
        while not ended.wait(TICK):
            say(f"{what}: {time.monotonic() - begun:.0f} seconds so far")

    thread = threading.Thread(target=tick, daemon=True)
    thread.start()
    try:
        yield
    finally:
        ended.set()
        thread.join()


@contextlib.contextmanager
def locked(file, why):
    """Holds the lock of a file until the block ends. If another process holds it, says why this one waits."""
    with open(file, "a") as lock:
        try:
            fcntl.flock(lock, fcntl.LOCK_EX | fcntl.LOCK_NB)
        except BlockingIOError:
            say(why)
            fcntl.flock(lock, fcntl.LOCK_EX)
        yield


def now():
    """Returns the time by the clock of the file system, less 0.02 s: two changes so close to one another can have the same time."""
    with open(OUT / "clock", "a") as it:
        os.utime(it.fileno())
        return os.fstat(it.fileno()).st_mtime - 0.02


def is_of(program, wanted, then):
    """Returns whether a program was built from sources with the checksum `wanted`. If so, dates its checksum."""
    said = sources.read(f"{program}.sum")
    if said is None or not os.access(program, os.X_OK) or said.split("\n")[0] != wanted:
        return False
    os.utime(f"{program}.sum", (then, then))
    return True


def note(program, then, *lines):
    """Writes the file beside a program: the checksum of its sources, which were read at the time `then`, and what else is known of it."""
    sources.write(f"{program}.sum", "".join(f"{it}\n" for it in lines))
    os.utime(f"{program}.sum", (then, then))


def proof_checksum(top=sources.TOP):
    """Returns a checksum of all that the proof of the program reads."""
    return sources.checksum(NAME, OF_PROOF, top) + sources.kit_checksum(*OF_KIT)


def has_changed_since(then):
    """Returns whether a file that the proved program is built from was changed, made or removed since then."""
    watched = [sources.TOP / "crates.txt", sources.TOP / "HANDLES"]
    for crate in sources.crates_of(NAME):
        for part in OF_PROOF:
            for at, _, names in os.walk(sources.TOP / "crates" / crate / part):
                watched += [at, *(os.path.join(at, it) for it in names)]
    return any(os.stat(it).st_ctime > then for it in watched)


def is_by_gate(wanted, then):
    """Returns whether `rt ci` built the program from the sources as they are now. If so, notes it.

    `rt ci` writes no checksum. It opens its lock for writing when it begins, which dates it.
    """
    lock = sources.TOP / ".git" / "rt-ci.lock"
    if not os.access(PROVED, os.X_OK) or os.path.exists(f"{PROVED}.sum") or not lock.is_file():
        return False
    begun = lock.stat().st_mtime
    if PROVED.stat().st_mtime < begun or has_changed_since(begun):
        return False
    note(PROVED, then, wanted, proof_checksum())
    return True


def program():
    """Returns the program for the sources as they are now. Builds the unproved one if there is none."""
    OUT.mkdir(exist_ok=True)
    with locked(OUT / "lock", "waiting for another build"):
        then = now()
        wanted = sources.checksum(NAME, OF_PROVED)
        if is_of(PROVED, wanted, then) or is_by_gate(wanted, then):
            return PROVED
        wanted = sources.checksum(NAME, OF_UNPROVED)
        if not is_of(UNPROVED, wanted, then):
            say("building the program without a proof, which takes one to two minutes")
            begun = time.monotonic()
            UNPROVED.parent.mkdir(exist_ok=True)
            with ticking("building"):
                unproved.build(UNPROVED, NAME)
            note(UNPROVED, then, wanted)
            say(f"built in {time.monotonic() - begun:.0f} seconds")
        return UNPROVED


def main(arguments):
    # What this process starts ends when this process ends by an exception.
    for it in (signal.SIGTERM, signal.SIGHUP):
        signal.signal(it, lambda *_: sys.exit(127))
    try:
        found = program()
    except (unproved.Failed, OSError) as error:
        say(f"the program was not built: {error}")
        return 127
    if found == UNPROVED and are_objects(arguments):
        print(NOT_PROVED_OBJECT, file=sys.stderr, flush=True)
    elif found == UNPROVED:
        say(NOT_PROVED)
    # Python ignores these signals, and the program would too.
    for it in (signal.SIGPIPE, signal.SIGXFSZ):
        signal.signal(it, signal.SIG_DFL)
    os.execv(found, [str(found), *arguments])


if __name__ == "__main__":
    try:
        sys.exit(main(sys.argv[1:]))
    except KeyboardInterrupt:
        sys.exit(127)
