#!/usr/bin/env python3
"""Runs `hmc` on small sources whose types, if they were written out, would be very large, and looks at its answer, its time and its memory.

`bombs.py [PROGRAM]`: without PROGRAM, the program that the gate built is run, with one worker and in 4 GB of addresses, on as many sources at a time as
there are processors. The answer to each must be its last line here with the status that belongs to it, or, where the table allows it, `hmc: no memory` with
status 3, in at most 1 GB and 10 s of a processor. Then `--at` asks for the last name that the source binds. It has an answer or the same refusal, within
the same limits. Prints a line for each, and ends with 1 if one is wrong.
"""
import concurrent.futures
import functools
import os
import re
import resource
import sys
import time

sys.path.insert(0, os.path.join(os.path.dirname(os.path.dirname(os.path.abspath(__file__))), "tools"))
from measuring import PROVED, measured  # noqa: E402
from sets import module as of_declarations  # noqa: E402

MEGABYTE = 1_000_000
MOST_SECONDS, MOST_MEGABYTES, ADDRESSES = 10, 1000, 4_000 * MEGABYTE
GOOD = "1 modules: 1 good, 0 faulty, 0 skipped"
FAULTY = "1 modules: 0 good, 1 faulty, 0 skipped"
TWO_GOOD = "2 modules: 2 good, 0 faulty, 0 skipped"


def module(*declarations, head="A"):
    return of_declarations(declarations, head)


def chain(first, step, count):
    """`first`, and then `step` for 1 to `count`, which sees its number as `n` and the one before as `m`."""
    return [first, *(step.format(n=n, m=n - 1) for n in range(1, count + 1))]


def nested(open_, inner, close, count):
    return open_ * count + inner + close * count


def row(item, count, separator=", "):
    return separator.join(item.format(n=n) for n in range(count))


def importing(declaration, first, count):
    """Modules of which each imports the one before, and has the declaration."""
    later = (module(f"import M{n - 1}", declaration.format(n=n, m=n - 1), head=f"M{n}") for n in range(1, count + 1))
    return "\n".join([module(first, head="M0"), *later])


PAIRS = chain("a0 = 1", "a{n} = (a{m}, a{m})", 30)
COMPOSED = ["c f g = \\x -> f (g x)", *chain("f0 x = (x, x)", "f{n} = c f{m} f{m}", 12)]
DOUBLED = "type D a = (a, a)"
SYNONYMS = chain("type T0 = (Int, Int)", "type T{n} = (T{m}, T{m})", 30)
LARGE = "x :: " + nested("D (", "Int", ")", 14)
LONG = "T" * 400
VALUES = [f"a{n} = 1" for n in range(4_000)]

# A name; the source; the last line that is right; whether memory may run out instead.
BOMBS = [
    # values
    ("pairs of pairs", module(*PAIRS), GOOD, True),
    ("pairs by a function", module("p x = (x, x)", *chain("a0 = 1", "a{n} = p a{m}", 24)), GOOD, True),
    ("functions applied twice", module(*chain("f0 x = (x, x)", "f{n} x = f{m} (f{m} x)", 5)), GOOD, True),
    ("composed functions", module(*COMPOSED), GOOD, True),
    ("lists of lists, by levels", module("c f g = \\x -> f (g x)", *chain("f0 x = [x]", "f{n} = c f{m} f{m}", 30)), GOOD, True),
    ("values that nothing exports", module(*PAIRS, head="A ()"), GOOD, True),
    ("tuples of 15", module(*chain("a0 = 1", "a{n} = (" + row("a{{m}}", 15) + ")", 8)), GOOD, True),
    ("lists of a large element", module(*PAIRS[:16], "x = [" + row("a15", 40) + "]"), GOOD, True),
    ("branches of one large type", module(*PAIRS[:16], "x = " + "if True then a15 else " * 40 + "a15"), GOOD, True),
    ("arguments of one large type", module("f a b c d e = [a, b, c, d, e]", *PAIRS[:16], "x = f a15 a15 a15 a15 a15"), GOOD, True),
    ("an infinite type", module("f x = f (x, x)", *PAIRS), FAULTY, True),
    # binding forms
    ("pairs of patterns", module(*chain("(a0, b0) = (1, 1)", "(a{n}, b{n}) = ((a{m}, b{m}), (b{m}, a{m}))", 24)), GOOD, True),
    ("one large type for many names", module(*PAIRS[:17], row("b{n}@", 60, "") + "_ = a16"), GOOD, True),
    ("copies of a large type", module(*PAIRS[:17], *(f"b{n} = a16" for n in range(90))), GOOD, True),
    ("nested lets", module("x = let { a = 1 } in " + "let { b = (a, a) } in let { a = (b, b) } in " * 15 + "a"), GOOD, True),
    ("nested wheres", module(nested("x = (y, y) where { y = (x, x) where { ", "x = 1", " } }", 15)), GOOD, True),
    ("a where of pairs", module("x = a30 where { " + " ; ".join(PAIRS) + " }"), GOOD, True),
    ("alternatives that bind", module("x = case 1 of { y0 -> " + "".join(f"case (y{n}, y{n}) of {{ y{n + 1} -> " for n in range(25)) + "y25" + " }" * 26), GOOD, True),
    ("lambdas that bind", module("x = " + nested("(\\y -> (y, y)) (", "1", ")", 30)), GOOD, True),
    ("a guard of pairs", module("x | True = a25 | otherwise = a25", *PAIRS[:26]), GOOD, True),
    # synonyms and newtypes
    ("synonyms that nothing uses", module(*SYNONYMS, "x = 1", head="A (x)"), GOOD, False),
    ("1,000 synonyms that nothing uses", module(*chain("type T0 = (Int, Int)", "type T{n} = (T{m}, T{m})", 999), "x = 1", head="A (x)"), GOOD, False),
    ("a small synonym below them", module(*SYNONYMS, "x :: T3", "x = x", head="A (x, T2)"), GOOD, False),
    ("a synonym that nothing else uses", module(*SYNONYMS, "x = 1"), GOOD, True),
    ("a synonym that is exported", module(*SYNONYMS, head="A (T30)"), GOOD, True),
    ("a synonym in a signature", module(*SYNONYMS, "x :: T30", "x = x"), GOOD, True),
    ("a synonym within itself", module(DOUBLED, "x :: " + nested("D (", "Int", ")", 30), "x = x"), GOOD, True),
    ("a signature of many names", module(DOUBLED, row("x{n}", 60) + LARGE[1:], *(f"x{n} = x{n}" for n in range(60))), GOOD, True),
    ("an expression with a type", module(DOUBLED, "x = \\y -> y :: " + nested("D (", "Int", ")", 30)), GOOD, True),
    ("functions by a synonym", module("type F a = a -> a", "x :: " + nested("F (", "Int", ")", 30), "x = x"), GOOD, True),
    ("a constructor of a large type", module(DOUBLED, "data C = C (" + nested("D (", "Int", ")", 14) + ")", *(f"f{n} (C y) = C y" for n in range(60))), GOOD, True),
    ("newtypes of synonyms", module(*SYNONYMS[:20], *(f"newtype N{n} = N{n} T19" for n in range(20)), "f (N0 y) = N1 y"), GOOD, True),
    ("newtypes of newtypes", module("newtype N a = N (a, a)", "n x = N (x, x)", *chain("a0 = 1", "a{n} = n a{m}", 24)), GOOD, True),
    ("long names", module(f"data {LONG} = {LONG}", DOUBLED, "x :: " + nested("D (", LONG, ")", 15), "x = x"), GOOD, True),
    # faults are told whatever a type would take
    ("a fault beside a large type", module(DOUBLED, "x :: " + nested("D (", "Int", ")", 30), "x = y"), FAULTY, False),
    ("a good module beside it", module(DOUBLED, "x :: " + nested("D (", "Int", ")", 30), "x = y") + "\n" + module("z = 1", head="B"), "2 modules: 1 good, 1 faulty, 0 skipped", False),
    ("a synonym of itself", module("type R a = (R a, a, a)", "x :: " + nested("R (", "Int", ")", 30), "x = x"), FAULTY, False),
    ("a fault beside synonyms by levels", module(*chain("type N0 a = [a]", "type N{n} a = N{m} (N{m} a)", 20), "x = y"), FAULTY, False),
    # imports that add up
    ("imports of pairs", importing("a{n} = (a{m}, a{m})", "a0 = 1", 21), "22 modules: 22 good, 0 faulty, 0 skipped", True),
    ("imports of synonyms", importing("type T{n} = (T{m}, T{m})", "type T0 = (Int, Int)", 21), "22 modules: 22 good, 0 faulty, 0 skipped", True),
    ("a large type in 30 modules", "\n".join([module(*PAIRS[:15], head="M0"), *(module(f"import M{n - 1}", head=f"M{n} (module M{n - 1})") for n in range(1, 30))]), "30 modules: 30 good, 0 faulty, 0 skipped", True),
    # what adds up by repetition
    ("2,800 imports of one module", module(*VALUES[:2_800]) + "\n" + module(*["import A"] * 2_800, head="B"), TWO_GOOD, True),
    ("4,000 imports of one module under other names", module(*VALUES) + "\n" + module(*(f"import A as Q{n}" for n in range(4_000)), head="B"), TWO_GOOD, True),
    ("imports that hide another name each", module(*VALUES[:1_500]) + "\n" + module(*(f"import A hiding (a{n})" for n in range(1_500)), head="B"), TWO_GOOD, True),
    ("imports of one module in 1,000 modules", module(*VALUES[:2_500]) + "\n" + "\n".join(module("import A", head=f"B{n}") for n in range(1_000)), "1001 modules: 1001 good, 0 faulty, 0 skipped", True),
    ("4,000 exports of one type with 4,000 constructors", module("data T = " + row("C{n}", 4_000, " | "), head="A (" + row("T (..)", 4_000) + ")"), GOOD, True),
    ("4,000 exports of a whole module", module(*VALUES, head="A (" + row("module A", 4_000) + ")"), GOOD, True),
    ("2,000 exports of such names", module(*VALUES[:2_000]) + "\n" + module(*(f"import A as Q{n}" for n in range(2_000)), head="B (" + row("module Q{n}", 2_000) + ")"), TWO_GOOD, True),
    # what is large as it is written is good
    ("40,000 values beside an import", module("m = 1", head="B") + "\n" + module("import B", *(f"a{n} = 1" for n in range(40_000))), TWO_GOOD, False),
    ("60,000 constructors", module("data T = " + row("C{n}", 60_000, " | ")), GOOD, False),
    ("a line of 327,676 bytes", module("a x = (x, x)", "b x = a (a x)", "c x = b (b x)", "d x = c (c x)", "e x = d (d x)"), GOOD, False),
    ("20,000 nested lambdas", module("x = " + "\\y -> " * 20_000 + "1"), GOOD, False),
    ("20,000 arguments", module("f a = a" + " 1" * 20_000), GOOD, False),
    ("a row of 5,000 tuples", module("x = [" + row("(1, 'c', {n})", 5_000) + "]"), GOOD, False),
    ("199 brackets", module("x = " + nested("(", "1", ")", 199)), GOOD, False),
    ("1,000 names of a type of 100 arrows", module(row("x{n}", 1_000) + " :: " + "Int -> " * 100 + "Int", *(f"x{n} = undefined" for n in range(1_000))), GOOD, False),
    ("a written type of 100 KB", module("x :: (" + row("(Int, Int)", 9, ", ") + ") -> " + "Maybe Int -> " * 7_000 + "Int", "x = x"), GOOD, False),
]


def judged(program, bomb):
    """A line for a source, and whether its answer, time and memory are as they must be."""
    name, text, wanted, may_run_out = bomb
    run = measured([program, "--jobs", "1"], text)
    told = run.told.decode(errors="replace")
    is_right = (run.status, run.last, told) == (0 if " 0 faulty" in wanted else 1, wanted, "")
    is_refused = may_run_out and (run.status, run.printed, told) == (3, b"", "hmc: no memory\n")
    is_small = run.processor < MOST_SECONDS and run.megabytes < MOST_MEGABYTES
    answer = "right" if is_right else "no memory" if is_refused else f"WRONG: status {run.status}, {run.last!r}, {told!r}"
    line = f"{name}: {len(text)} bytes, {run.processor:.2f} s, {run.megabytes} MB: {answer}{'' if is_small else ', TOO MUCH'}"
    return line, (is_right or is_refused) and is_small


def placed(program, bomb):
    """The same for the place of the last name before a `=`. Its type comes from a larger source, so memory may run out where the check has an answer."""
    name, text, *_ = bomb
    at = [it.start() for it in re.finditer(r"[a-z]\w*(?=[^=;{}\n]*=)", text)][-1]
    line, column = text.count("\n", 0, at) + 1, at - text.rfind("\n", 0, at)
    run = measured([program, "--jobs", "1", "--at", f"<stdin>:{line}:{column}"], text)
    told = run.told.decode(errors="replace")
    is_right = run.status in (0, 1) and run.printed and not told
    is_refused = (run.status, run.printed, told) == (3, b"", "hmc: no memory\n")
    is_small = run.processor < MOST_SECONDS and run.megabytes < MOST_MEGABYTES
    answer = "right" if is_right else "no memory" if is_refused else f"WRONG: status {run.status}, {run.last!r}, {told!r}"
    return f"{name}, at {line}:{column}: {run.processor:.2f} s, {run.megabytes} MB: {answer}{'' if is_small else ', TOO MUCH'}", (is_right or is_refused) and is_small


def main(program=PROVED):
    # for the runs too
    resource.setrlimit(resource.RLIMIT_AS, (ADDRESSES, ADDRESSES))
    began, failed = time.time(), 0
    with concurrent.futures.ThreadPoolExecutor(os.cpu_count()) as pool:
        for judge in (judged, placed):
            for line, is_as_wanted in pool.map(functools.partial(judge, os.path.abspath(program)), BOMBS):
                failed += not is_as_wanted
                print(line, flush=True)
    print(f"{len(BOMBS)} sources in {time.time() - began:.0f} s, {failed} wrong")
    return 1 if failed else 0


if __name__ == "__main__":
    sys.exit(main(*sys.argv[1:]))
