#!/usr/bin/env python3
"""Runs the program on each row of the tables in tests/rows and on sources made here, and compares its status and what it prints.

`printed.py [PROGRAM]`: without a word, the script `hmc` beside this folder is run. Prints each run that differs, and last how many were as
wanted; ends with 1 where one differs.
"""
# Why: docs/DECISIONS.md, "Tests by the program".
import os
import re
import subprocess
import sys
import tempfile

from rows import messages, places, plans, reports

TOP = os.path.dirname(os.path.dirname(os.path.abspath(__file__)))
PROGRAM = os.path.abspath(sys.argv[1]) if len(sys.argv) > 1 else os.path.join(TOP, "hmc")
GOOD, FAULTY, REFUSED = 0, 1, 2
LONGEST = 1_048_576
MOST = 4096
REPORTS = [
    *reports.TYPED,
    *reports.DECLARED,
    *reports.EXPORTED,
    *reports.UNTYPED,
    *reports.ILL_FORMED,
    *reports.SETS,
    *reports.WRITTEN,
    *reports.PRELUDE,
]
# a good module of most forms of expressions
FORMS = plans.READ[1]
SKIPPED = "module A where { x = y }\nmodule B where { import A ; import C }\nmodule C where { f x = x x }\nmodule D where { import B }"
# the least of the modules that are ready comes first
LEAST = "module A where { import B }\nmodule B where { }\nmodule C where { }"
USED = "module A where { f x = x }"
USER = "module B where { import A ; g = f ; h = f True }"


def report_of(source):
    """The status and the report of a source of the tables."""
    return next(row[1:] for row in REPORTS if row[0] == source)


def tables():
    """The rows of tests/rows but for those of messages: words, sources, status and what is printed."""
    for source, status, text in REPORTS:
        yield ["--jobs", "4"], [source], status, text
    for source, why in plans.REFUSED:
        yield [], [source], REFUSED, f"refused: {why}\n"
        yield ["--plan"], [source], REFUSED, f"refused: {why}\n"
    for source, place in plans.NO_QUOTES:
        yield ["--plan"], [source], REFUSED, f"refused: source 1 at {place}: lexeme\n"
    for source in plans.READ:
        yield ["--plan"], [source], GOOD, "module A\n1 modules\n"
    for source, place in plans.NOT_READ:
        yield ["--plan"], [source], REFUSED, f"refused: source 1 at {place}: syntax\n"
    for source, text in plans.PLANNED:
        yield ["--plan"], [source], GOOD, text


def hostile():
    """Each prefix of a good source, and the byte 255 in the place of each of its bytes, are refused by a line."""
    for words in ([], ["--plan"]):
        for length in range(1, len(FORMS)):
            yield words, [FORMS[:length]], REFUSED, re.compile(r"refused: source 1 at 1:\d+: [a-z ]+\n")
    source = FORMS.encode()
    for place in range(len(source)):
        yield [], [source[:place] + b"\xff" + source[place + 1 :]], REFUSED, re.compile(r"refused: source 1 at 1:\d+: lexeme\n")


def chain_of(count):
    """So many modules, each of which imports the next."""
    return "".join(f"module M{number - 1} where {{ import M{number} }}\n" for number in range(1, count)) + f"module M{count - 1} where {{ }}\n"


def bounds():
    """Sources of the greatest length and depth, the most modules of a set, and one more of each."""
    for depth, status, text in ((199, GOOD, "module A\n1 modules\n"), (200, REFUSED, "refused: source 1 at 1:221: too deep\n")):
        yield ["--plan"], ["module A where { x = " + "(" * depth + "1" + ")" * depth + "}"], status, text
    for words, text in (([], "0 modules: 0 good, 0 faulty, 0 skipped\n"), (["--plan"], "0 modules\n")):
        yield words, [" " * LONGEST], GOOD, text
        yield words, [" " * (LONGEST + 1)], REFUSED, "refused: source 1 too long\n"
    apart, chain = "".join(f"module M{number} where {{ }}\n" for number in range(MOST)), chain_of(MOST)
    names = "".join(f"module {name}\n" for name in sorted(f"M{number}" for number in range(MOST)))
    for source in (apart, chain):
        for workers in ("1", "4", "16"):
            yield ["--jobs", workers], [source], GOOD, f"{names}{MOST} modules: {MOST} good, 0 faulty, 0 skipped\n"
    yield ["--plan"], [apart], GOOD, f"{names}{MOST} modules\n"
    for words in ([], ["--plan"]):
        yield words, [apart + f"module M{MOST} where {{ }}\n"], REFUSED, "refused: too many modules\n"


def sources():
    """Sets of several sources, in either order, and refusals that name one of many."""
    report = "module A\n  val f = A.f :: a -> a\nmodule B\n  val g = B.g :: a -> a\n  val h = B.h :: Bool\n2 modules: 2 good, 0 faulty, 0 skipped\n"
    yield [], [USER, USED], GOOD, report
    yield [], [USED, USER], GOOD, report
    whole = "".join(f"module M{number} where {{ }}\n" for number in range(3))
    faults = {"\n\nmodule N where { # }": "lexeme", "\n\nmodule N where { {- }": "open comment", "\n\nmodule N where { }}": "syntax"}
    places = {"lexeme": "3:18", "open comment": "3:18", "syntax": "3:19"}
    for fault, why in faults.items():
        for number in (1, 2, 10, 123):
            yield ["--plan"], [""] * (number - 1) + [fault, whole], REFUSED, f"refused: source {number} at {places[why]}: {why}\n"
    yield ["--plan"], [whole, "\n\n" + " " * 17 + "(" * 201], REFUSED, "refused: source 2 at 3:218: too deep\n"
    yield ["--plan"], [whole, "x", " " * (LONGEST + 1)], REFUSED, "refused: source 2 at 1:1: syntax\n"
    yield ["--plan"], [whole, " " * (LONGEST + 1), "x"], REFUSED, "refused: source 2 too long\n"


def workers():
    """One worker with its journal, and one report for any number of workers."""
    alone = ["--jobs", "1", "--journal"]
    yield alone, [""], GOOD, "0 modules: 0 good, 0 faulty, 0 skipped\n"
    yield alone, [SKIPPED], FAULTY, report_of(SKIPPED)[1] + "claim 0 A\nfail 0 A\nclaim 0 C\nfail 0 C\n"
    yield alone, ["module A where { import A }"], REFUSED, "refused: module A in a cycle\n"
    least = "claim 0 B\npublish 0 B 0\nclaim 0 A\npublish 0 A 1\nclaim 0 C\npublish 0 C 2\n"
    yield alone, [LEAST], GOOD, "module A\nmodule B\nmodule C\n3 modules: 3 good, 0 faulty, 0 skipped\n" + least
    for count in (256, MOST):
        names = "".join(f"module {name}\n" for name in sorted(f"M{number}" for number in range(count)))
        steps = "".join(f"claim 0 M{number}\npublish 0 M{number} {count - 1 - number}\n" for number in reversed(range(count)))
        yield alone, [chain_of(count)], GOOD, f"{names}{count} modules: {count} good, 0 faulty, 0 skipped\n{steps}"
    for count in range(1, 17):
        yield ["--jobs", str(count)], [SKIPPED], *report_of(SKIPPED)


def long_scheme():
    """Principal types may be long: that of `e` has 65,536 leaves."""
    source = "module A where { a x = (x, x) ; b x = a (a x) ; c x = b (b x) ; d x = c (c x) ; e x = d (d x) }"
    lines, pair, depth = [], "a", 0
    for name, levels in (("a", 1), ("b", 2), ("c", 4), ("d", 8), ("e", 16)):
        while depth < levels:
            pair, depth = f"({pair}, {pair})", depth + 1
        lines.append(f"  val {name} = A.{name} :: a -> {pair}\n")
    yield [], [source], GOOD, "module A\n" + "".join(lines) + "1 modules: 1 good, 0 faulty, 0 skipped\n"


def typed_places():
    """The lines of types at the places of the table, after those of a name and of where it is bound."""
    for marked, types in places.TYPED:
        column = marked.index("^") + 1
        yield ["--at", f"<stdin>:1:{column}"], [marked.replace("^", "")], GOOD, re.compile(r"[a-z]+ \S+\n  bound [^\n]*\n" + re.escape(types))


def run(folder, words, given):
    """Runs the program on sources: one alone is its standard input, and several are files."""
    given = [it.encode() if isinstance(it, str) else it for it in given]
    if len(given) == 1:
        return subprocess.run([PROGRAM, *words], cwd=folder, input=given[0], capture_output=True)
    files = [f"{number}.hs" for number in range(len(given))]
    for name, source in zip(files, given):
        with open(os.path.join(folder, name), "wb") as it:
            it.write(source)
    return subprocess.run([PROGRAM, *words, *files], cwd=folder, stdin=subprocess.DEVNULL, capture_output=True)


def is_wanted(done, status, wanted):
    """Whether a run ended so and printed this text, or one of this form, and nothing else."""
    text = done.stdout.decode(errors="surrogateescape")
    is_text = text == wanted if isinstance(wanted, str) else wanted.fullmatch(text)
    return done.returncode == status and is_text and not done.stderr


def explain(folder, source):
    """Runs the program on a file M.hs without messages, and with them."""
    with open(os.path.join(folder, "M.hs"), "wb") as it:
        it.write(source.encode() if isinstance(source, str) else source)
    return [subprocess.run([PROGRAM, *words, "M.hs"], cwd=folder, stdin=subprocess.DEVNULL, capture_output=True) for words in ([], ["--explain"])]


def is_explained(alone, told, status, wanted):
    """Whether messages change nothing of what is printed, and are these, or fit a pattern."""
    is_told = wanted.fullmatch(told.stderr.decode()) if isinstance(wanted, re.Pattern) else told.stderr == (wanted.encode() if isinstance(wanted, str) else wanted)
    return alone.returncode == told.returncode == status and told.stdout == alone.stdout and is_told


def with_notes(notes):
    """Returns a pattern of messages with these notes of expected types, in order, and no others."""
    others = r"((?!M\.hs:.* is expected to have type ).*\n)*"
    lines = [re.escape(f"M.hs:1:{column}: note: '{name}' is expected to have type '{text}'\n") for column, name, text in notes]
    return re.compile(others + "".join(line + others for line in lines))


def main():
    differing, count = [], 0
    with tempfile.TemporaryDirectory() as folder:
        for made in (tables, hostile, bounds, sources, workers, long_scheme, typed_places):
            for words, given, status, wanted in made():
                done, count = run(folder, words, given), count + 1
                if not is_wanted(done, status, wanted):
                    differing.append((words, given, done))
        hints = [
            (source, REFUSED, re.compile(rf"M\.hs:{place}: error: {re.escape(line)} \[{word}\]\n(.*\n)*"))
            for word, rows in (("lexeme", messages.LEXEMES), ("syntax", messages.HINTS))
            for source, place, line in rows
        ]
        details = [
            (f"module M where {{ {items} }}", FAULTY, re.compile(rf"M\.hs:{place}: error: {re.escape(line)}\n(.*\n)*"))
            for items, place, line in messages.DETAILS
        ]
        types = [(f"module M where {{ {items} }}", FAULTY, with_notes(notes)) for items, notes in messages.EXPECTED]
        for source, status, wanted in [*messages.KINDS, *messages.REASONS, *messages.EXCERPTS, *hints, *details, *types]:
            (alone, told), count = explain(folder, source), count + 1
            if not is_explained(alone, told, status, wanted):
                differing.append((["--explain"], [source], told))
    for words, given, done in differing:
        print(f"{words} {str(given)[:300]}: status {done.returncode}, {done.stdout[:1000]!r}, {done.stderr[:1000]!r}")
    print(f"{count - len(differing)} of {count} runs as wanted")
    return bool(differing)


if __name__ == "__main__":
    sys.exit(main())
