#!/usr/bin/env python3
"""Checks sets of modules that are large in one way each, and prints seconds, memory and the last line of each report.

`checks.py [PROGRAM]`: without PROGRAM, the script `hmc` at the top is run. Each kind is run at half its size too: the ratio shows how the time grows.
Ends with 1 if a report isn't the one that the set was made for.
"""
import os
import sys

sys.path.insert(0, os.path.join(os.path.dirname(os.path.dirname(os.path.abspath(__file__))), "tools"))
from measuring import SCRIPT, measured  # noqa: E402
from sets import declared_below_lambdas, layered, lets_below_lambdas, module  # noqa: E402


def chained(count):
    return module(["f0 x = x"] + [f"f{n} x = f{n - 1} x" for n in range(1, count)])


def flat(count):
    return module(f"f{n} x y = x" for n in range(count))


def signed(count):
    return module(["f0 :: a -> a", "f0 x = x"] + [line for n in range(1, count) for line in (f"f{n} :: a -> a", f"f{n} x = f{n - 1} x")])


def mutual(count):
    return module(f"f{n} x = f{(n + 1) % count} x" for n in range(count))


def untyped(count):
    return module(["g = 1 'c'"] + [f"f{n} x = x" for n in range(1, count)])


def all_untyped(count):
    return module(f"f{n} = 1 'c'" for n in range(count))


def all_refused(count):
    return module(line for n in range(count) for line in (f"f{n} :: Int", f"f{n} = 'c'"))


def nested_lets(count):
    head = "".join(f"let {{ g{n} x = {'g%d x' % (n - 1) if n else 'x'} }} in " for n in range(count))
    return module([f"f = {head}g{count - 1} True"])


def arguments(count):
    return module(["f a = a" + " 1" * count])


def elements(count):
    return module(["f = [" + "1," * (count - 1) + "1]"])


def constructors(count):
    data = "data T = " + " | ".join(f"C{n}" for n in range(count))
    return module([data] + [f"f{n} = C{n}" for n in range(count)])


ONE = "1 modules: 1 good, 0 faulty, 0 skipped"
FAULTY = "1 modules: 0 good, 1 faulty, 0 skipped"

# The kind, what makes a set of a size, the size, and the last line of its report.
KINDS = [
    ("bindings, each of the one before", chained, 20_000, ONE),
    ("bindings that stand alone", flat, 20_000, ONE),
    ("bindings with signatures", signed, 12_000, ONE),
    ("bindings of one group", mutual, 4_000, ONE),
    ("bindings beside one without a type", untyped, 20_000, FAULTY),
    ("bindings without a type", all_untyped, 20_000, FAULTY),
    ("bindings without their declared type", all_refused, 12_000, FAULTY),
    ("lets within lets", nested_lets, 20_000, ONE),
    ("names of one let below as many variables of a lambda", lets_below_lambdas, 4_000, ONE),
    ("declared types below as many variables of a lambda", declared_below_lambdas, 2_000, ONE),
    ("arguments of one application", arguments, 400_000, ONE),
    ("elements of a list", elements, 400_000, ONE),
    ("constructors", constructors, 4_000, ONE),
    ("declarations in each of 256 modules", layered, 36, "256 modules: 256 good, 0 faulty, 0 skipped"),
]


def main(program=SCRIPT):
    failed = False
    for kind, make, size, wanted in KINDS:
        for count in (size // 2, size):
            text = make(count)
            run = measured([program], text)
            failed |= run.last != wanted
            print(f"{count} {kind}: {len(text)} bytes, {run.clock:.2f} s, {run.megabytes} MB: {run.last}", flush=True)
    return failed


if __name__ == "__main__":
    sys.exit(main(*sys.argv[1:]))
