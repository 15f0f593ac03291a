#!/usr/bin/env python3
"""Runs `hmc --plan`, `hmc` and `hmc --at` on sources of the greatest length that nest as deep as they can, one for each kind of nesting.

`deep.py [PROGRAM]`: without PROGRAM, the script `hmc` at the top is run. The place is that of the last name. Prints the answer, the seconds and the
memory of each, and ends with 1 where a run crashed or gave no answer of the language, or where a plan took more than 1 GB.
"""
import os
import re
import sys

sys.path.insert(0, os.path.join(os.path.dirname(os.path.dirname(os.path.abspath(__file__))), "tools"))
from measuring import SCRIPT, measured  # noqa: E402

LIMIT = 1_048_576

# what stands before the nesting, one level of it, what is innermost, the close of each level, and what follows
KINDS = {
    "lambdas": ("x = ", "\\x-> ", "1", "", ""),
    "lets": ("x = ", "let{}in ", "1", "", ""),
    "ifs behind else": ("x = ", "if a then a else ", "1", "", ""),
    "ifs within conditions": ("x = ", "if ", "1", " then a else a", ""),
    "colons": ("x = ", "a:", "1", "", ""),
    "colons and lambdas": ("x = ", "a: \\x->", "1", "", ""),
    "arguments": ("x = a", " a", "", "", ""),
    "function types": ("x :: ", "a->", "a", "", ""),
    "lazy patterns": ("x ", "~ ", "a", "", " = 1"),
    "bound patterns": ("x ", "a@", "a", "", " = 1"),
    "colons of patterns": ("x = case a of { ", "a:", "a", "", " -> 1 }"),
    "brackets": ("x = ", "(", "1", ")", ""),
    "open brackets": ("x = ", "(", "", "", ""),
    "clauses": ("", "x = 1;", "", "", ""),
    "bindings of patterns": ("", "(x)=1;", "", "", ""),
    "colons of a bound pattern": ("", "a:", "a", "", " = 1"),
    "lazy bound patterns": ("", "~ ", "a", "", " = 1"),
    "names of a bound pattern": ("", "~a@ ", "a", "", " = 1"),
    "bindings within bindings": ("", "(x)=let{", "x=1", "}in x", ""),
    "a synonym of functions": ("type A = ", "a->", "a", "", ""),
    "applications of what is bound": ("f a = a", " a", "", "", ""),
    "arguments of one function": ("f a = a", " 1", "", "", ""),
    "elements of a list": ("f a = [a", ",a", "]", "", ""),
    "colons of what is bound": ("f a = ", "a:", "[]", "", ""),
    # a module with synonyms is walked over once more
    "lambdas beside a synonym": ("type S = () ; f = ", "\\x-> ", "1", "", ""),
    "lets beside a synonym": ("type S = () ; f = ", "let{}in ", "1", "", ""),
    "colons beside a synonym": ("type S = () ; f a = ", "a:", "[]", "", ""),
    "a declared type": ("f :: a ->", "Int->", "a", "", "; f = f"),
}


def source(kind):
    before, level, inner, close, after = KINDS[kind]
    head, tail = "module A where { " + before, after + " }"
    count = (LIMIT - len(head) - len(inner) - len(tail)) // (len(level) + len(close))
    # brackets and braces nest 200 levels deep, the module's own brace among them
    if kind in ("brackets", "bindings within bindings"):
        count = 199 if kind == "brackets" else 198
    return head + level * count + inner + close * count + tail, count


def is_answer(words, status, last):
    if status == 2:
        return last.startswith("refused: ")
    if "--at" in words:
        return (status, last.endswith(": no name is here")) in [(0, False), (1, True)]
    if words:
        return status == 0 and last == "1 modules"
    return (status, last) in [(0, "1 modules: 1 good, 0 faulty, 0 skipped"), (1, "1 modules: 0 good, 1 faulty, 0 skipped")]


def main(program=SCRIPT):
    failed = False
    for kind in KINDS:
        text, count = source(kind)
        column = [it.start() for it in re.finditer(r"\b[a-z]\b", text)][-1] + 1
        for what, words in {"plan": ["--plan"], "check": [], "place": ["--at", f"<stdin>:1:{column}"]}.items():
            run = measured([program, *words], text)
            failed |= not is_answer(words, run.status, run.last) or (what == "plan" and run.megabytes >= 1000)
            print(f"{kind}, {what}: {count} levels, {run.clock:.2f} s, {run.megabytes} MB: {run.last[-80:] or run.status}", flush=True)
    return failed


if __name__ == "__main__":
    sys.exit(main(*sys.argv[1:]))
