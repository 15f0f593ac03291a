#!/usr/bin/env python3
"""Runs `hmc` where addresses, threads, stack or processors are few, and looks for an answer that isn't the right one.

`small_machines.py [PROGRAM]`: without PROGRAM, the proved program beside this folder is run. Under each limit each set is checked and planned.
Wanted is the answer that is given without a limit, or `hmc: no memory` with status 3, or `hmc: no worker` with status 6, and never a signal.
Prints for each limit how many runs ended in each way, and the least addresses that one worker needs for usual sources of 1 KB, 30 KB, 300 KB and 1 MB.
Ends with 1 if an answer is wrong, or if one of these needs more than 1 GB.
"""
import collections
import os
import resource
import shutil
import subprocess
import sys
import tempfile

sys.path.insert(0, os.path.join(os.path.dirname(os.path.dirname(os.path.abspath(__file__))), "tools"))
from measuring import PROVED  # noqa: E402

MEGABYTE = 1 << 20
NOBODY = 65534

# What a limit of 1,000,000 KB allows.
MOST_MEGABYTES = 976


# A declaration of a usual program; # is its number.
USUAL = """f# x y = case x of {
    (a, b) : r -> let { g z = [(z, a), (y, b)] } in if null r then g y else g (fst (head r)) ; -- the rest
    [] -> h# (\\z -> z) }
  where { h# k = [(k y, y)] } ;
"""


def usual(size):
    """A module of about so many bytes, whose declarations nest as those of a usual program do."""
    return "module A where {\n" + "".join(USUAL.replace("#", str(n)) for n in range(size // len(USUAL))) + "}"


PAIRS = "module A where { a x = (x, x) ; b x = a (a x) ; c x = b (b x) ; d x = c (c x) ; e x = d (d x) }"
LINES = "module A where { x = y }\nmodule B where { import A ; import C }\nmodule C where { f x = x x }\nmodule D where { import B }"
SETS = {
    "nothing": "",
    "a source of 1 KB": usual(1_000),
    "a source of 30 KB": usual(30_000),
    "a source of 300 KB": usual(300_000),
    "a source of 1 MB": usual(1_000_000),
    "faulty and skipped modules": LINES,
    "types that double": PAIRS,
    "a chain of 200 modules": "\n".join(f"module M{n} where {{ {f'import M{n - 1} ; ' if n else ''}x = 1 }}" for n in range(200)),
    "a deep source of 100 KB": "module A where { x = " + "\\y -> " * 20_000 + "1 }",
    "an open comment": "{-",
}
WORDS = [["--jobs", "1"], ["--jobs", "4"], ["--jobs", "16"], ["--plan"]]
REFUSED = {(3, b"", b"hmc: no memory\n"): "no memory", (6, b"", b"hmc: no worker\n"): "no worker"}


def addresses(size):
    return lambda: resource.setrlimit(resource.RLIMIT_AS, (size, size))


def threads(count):
    """So many threads; the root has no limit, so that the run is another user's, whose other threads count too."""

    def before():
        resource.setrlimit(resource.RLIMIT_NPROC, (count, count))
        if os.geteuid() == 0:
            os.setuid(NOBODY)

    return before


def stack(size):
    return lambda: resource.setrlimit(resource.RLIMIT_STACK, (size, size))


def processors(count):
    return lambda: os.sched_setaffinity(0, sorted(os.sched_getaffinity(0))[:count])


def limits():
    # 50 MB to 4 GB in ten steps, each 1.63 times the one before
    for step in range(10):
        megabytes = round(50 * (4096 / 50) ** (step / 9))
        yield f"{megabytes} MB of addresses", addresses(megabytes * MEGABYTE)
    for count in (1, 2, 3, 4, 8):
        yield f"{count} threads", threads(count)
    for kilobytes in (64, 256, 1024, 8192):
        yield f"{kilobytes} KB of stack", stack(kilobytes << 10)
    yield "one processor", processors(1)


def run(program, words, text, before=None):
    child = subprocess.run([program, *words], input=text.encode(), stdout=subprocess.PIPE, stderr=subprocess.PIPE, preexec_fn=before, check=False)
    return child.returncode, child.stdout, child.stderr


def least_addresses(program, text):
    """The least megabytes of addresses in which one worker checks a source."""
    low, high = 1, 8192
    while low < high:
        middle = (low + high) // 2
        if run(program, ["--jobs", "1"], text, addresses(middle * MEGABYTE))[0] == 0:
            high = middle
        else:
            low = middle + 1
    return low


def main(given=PROVED):
    failed = 0
    with tempfile.TemporaryDirectory() as folder:
        # where every user may run it
        os.chmod(folder, 0o755)
        program = os.path.join(folder, "hmc")
        shutil.copyfile(given, program)
        os.chmod(program, 0o755)
        wanted = {(name, *words): run(program, words, text) for name, text in SETS.items() for words in WORDS}
        for limit, before in limits():
            ways = collections.Counter()
            for name, text in SETS.items():
                for words in WORDS:
                    answer = run(program, words, text, before)
                    way = "right" if answer == wanted[(name, *words)] else REFUSED.get(answer)
                    ways[way or "wrong"] += 1
                    if way is None:
                        failed += 1
                        print(f"{limit}, {name}, {' '.join(words)}: status {answer[0]}, {answer[1][-80:]!r}, {answer[2][-200:]!r}")
            print(f"{limit}: " + ", ".join(f"{count} {way}" for way, count in sorted(ways.items())), flush=True)
        for name in (name for name in SETS if name.startswith("a source of ")):
            least = least_addresses(program, SETS[name])
            failed += least > MOST_MEGABYTES
            print(f"one worker checks {name} in {least} MB of addresses")
    return 1 if failed else 0


if __name__ == "__main__":
    sys.exit(main(*sys.argv[1:]))
