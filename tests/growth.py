#!/usr/bin/env python3
"""Runs `hmc` on inputs whose time once grew too fast, each at a size and at twice that size, and prints seconds of processors, printed bytes
and both ratios.

`growth.py [PROGRAM]`: without PROGRAM, the script `hmc` at the top is run. Ends with 1 if a run fails or takes too long, if the time grows by more
than 3 and what is printed doesn't, or if 10,000 faults with their messages take a second of processors. One kind grows by the square of its size,
and may: each use of a name has its own copy of its type. It ends with 1 too if a few type faults below synonyms of large types take more than some
seconds with their notes.
"""
import os
import sys
import tempfile

sys.path.insert(0, os.path.join(os.path.dirname(os.path.dirname(os.path.abspath(__file__))), "tools"))
from measuring import SCRIPT, measured  # noqa: E402
from sets import declared_below_lambdas, lets_below_lambdas, module  # noqa: E402

RUNS = 2
GREATEST_RATIO = 3
# Of so many uses of a type of as many arrows: each use is a copy of the type, and types share no parts.
GREATEST_RATIO_OF_COPIES = 5
SECONDS = 120
# Shorter times than this say nothing about growth.
LEAST_SECONDS = 0.02
# So many faults take less than this with their messages.
MANY_FAULTS = 10_000
MOST_SECONDS = 1
# So many type faults, in a module with as many synonyms of large types, take less than this with their notes.
FAULTS_OF_SYNONYMS = 60
MOST_SECONDS_OF_NOTES = 4


def arrows(count):
    return "Int" + " -> Int" * count


def names_of_a_signature(count):
    names = [f"f{n}" for n in range(count)]
    return module([f"{', '.join(names)} :: {arrows(count)}"] + [f"{name} = {name}" for name in names])


def uses_of_a_type(count):
    return module([f"f :: {arrows(count)}", "f = f", "g = [" + ", ".join(["f"] * count) + "]"])


def large_module(count):
    return module(f"f{n} = True" for n in range(count))


def repeated_imports(count, names):
    """A module of so many names, and one that imports from it in as many lines."""
    return large_module(count) + "\nmodule B where { " + " ; ".join([f"import A {names}"] * count + ["x = True"]) + " }"


def imports_of_modules(count):
    """Modules of one name, and one module that imports all of them."""
    modules = [f"module M{n} where {{ f{n} = True }}" for n in range(count)]
    return "\n".join(modules + ["module Z where { " + " ; ".join([f"import M{n} (f{n})" for n in range(count)] + ["x = True"]) + " }"])


def importers(count):
    return "\n".join([large_module(10_000)] + [f"module M{n} where {{ import A (f0) ; x = f0 }}" for n in range(count)])


def exported_again(count):
    modules = []
    for n in range(count):
        again, line = (f", module M{n - 1}", f"import M{n - 1} ; ") if n else ("", "")
        modules.append(f"module M{n} (module M{n}{again}) where {{ {line}" + " ; ".join(f"f{n}_{k} = True" for k in range(40)) + " }")
    return "\n".join(modules)


def doubling_synonyms(count):
    return module(["type T0 = Int"] + [f"type T{n} = (T{n - 1}, T{n - 1})" for n in range(1, count)] + ["x = True"])


def faults_of_types(count):
    return "module A where {\n" + " ;\n".join(f"f{at} :: Int -> Char ; f{at} x = x" for at in range(count)) + " }\n"


def faults_of_synonyms(count):
    """As many type faults, and as many synonyms, each of a type of 512 leaves or more."""
    doubled = ["type A0 = (Int, Int)"] + [f"type A{n} = (A{n - 1}, A{n - 1})" for n in range(1, 9)]
    return module(doubled + [f"type T{n} = (A8, [A8])" for n in range(count)] + [f"f{n} :: T{n} -> T{n} -> Int ; f{n} x y = not [x, y]" for n in range(count)])


def faults(count):
    return module(f"f{n} = y" for n in range(count))


def chained_faults(count):
    """As many names that have no type, each in a module of its own that imports nothing, and as many modules that import one of them."""
    return "\n".join(f"module M{n} where {{ f = f f }}\nmodule N{n} where {{ import M{n} }}" for n in range(count))


# the kind, what makes an input of a size, and the smaller size
COPIES = "uses of a type of as many arrows"
KINDS = [
    ("names of one signature, with a type of as many arrows", names_of_a_signature, 500),
    (COPIES, uses_of_a_type, 400),
    ("lines `import A ()`, where A has as many names", lambda count: repeated_imports(count, "()"), 2_000),
    ("lines `import A (f0)`, where A has as many names", lambda count: repeated_imports(count, "(f0)"), 2_000),
    ("imports of as many modules in one module", imports_of_modules, 2_000),
    ("importers of one name of a module of 10,000", importers, 32),
    ("names of one let below as many variables of a lambda", lets_below_lambdas, 2_000),
    ("declared types below as many variables of a lambda", declared_below_lambdas, 1_000),
    ("modules of 40 names, each exporting again what the one before exports", exported_again, 64),
    ("synonyms that nothing uses, each of twice the one before", doubling_synonyms, 9),
]


# the same for inputs with faults, whose messages are printed too
FAULTY = [
    ("faults of one module, each with its message", faults, 5_000),
    ("definitions without their declared type, each with its message", faults_of_types, 5_000),
    ("faulty modules, and as many that are skipped for them", chained_faults, 1_000),
]


def quickest(command, wanted):
    """The seconds and the printed bytes of the quickest of some runs, or None if one fails."""
    runs = [measured(command, seconds=SECONDS) for _ in range(RUNS)]
    if any(run.status != wanted for run in runs):
        return None
    return min((run.processor, len(run.printed) + len(run.told)) for run in runs)


def main(program=SCRIPT):
    failed = False
    with tempfile.TemporaryDirectory() as folder:
        path = os.path.join(folder, "modules.hs")
        rows = [(*row, [], 0) for row in KINDS] + [(*row, ["--explain"], 1) for row in FAULTY]
        for kind, make, size, words, status in rows:
            answers = []
            for count in (size, 2 * size):
                with open(path, "w", encoding="utf-8") as file:
                    file.write(make(count))
                answers.append(quickest([program, "--jobs", "1", *words, path], status))
            if None in answers:
                failed = True
                print(f"{size} and {2 * size} {kind}: a run fails, or takes more than {SECONDS} s", flush=True)
                continue
            (short, little), (long, much) = answers
            growth, output = max(long, LEAST_SECONDS) / max(short, LEAST_SECONDS), much / little
            most = GREATEST_RATIO_OF_COPIES if kind == COPIES else GREATEST_RATIO
            is_fast = growth > most and GREATEST_RATIO >= output
            failed |= is_fast
            print(f"{size} and {2 * size} {kind}: {short:.2f} and {long:.2f} s, {growth:.1f} times; {output:.1f} times the output{': TOO FAST' if is_fast else ''}", flush=True)
        with open(path, "w", encoding="utf-8") as file:
            file.write(faults(MANY_FAULTS))
        seconds, _ = quickest([program, "--jobs", "1", "--explain", path], 1) or (MOST_SECONDS, 0)
        failed |= seconds >= MOST_SECONDS
        print(f"{MANY_FAULTS} faults with their messages: {seconds:.2f} s", flush=True)
        with open(path, "w", encoding="utf-8") as file:
            file.write(faults_of_synonyms(FAULTS_OF_SYNONYMS))
        seconds, _ = quickest([program, "--jobs", "1", "--explain", path], 1) or (MOST_SECONDS_OF_NOTES, 0)
        failed |= seconds >= MOST_SECONDS_OF_NOTES
        print(f"{FAULTS_OF_SYNONYMS} type faults below as many synonyms of large types: {seconds:.2f} s", flush=True)
    return failed


if __name__ == "__main__":
    sys.exit(main(*sys.argv[1:]))
