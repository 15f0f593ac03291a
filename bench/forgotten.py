#!/usr/bin/env python3
"""Measures the notes of what beginners forget or mix up: makes such slips in good modules, and asks the program.

`forgotten.py [--program PROGRAM] [--ghc] [--count N] [--seed N].. [--show N] [FILE..]`: FILEs are as those of slips.py. A slip of each sort is made N
times in each FILE, if it has as many places. The sorts are: the brackets of an argument, a `;` before a signature, a `,`, an argument, a constructor
in front of a right side or the brackets of a list of one element are left out; the sides of a `:` or two neighbouring patterns change places. A slip
is kept where the set then has one faulty module with one type fault. Another sort is two slips of slips.py in one definition.

Prints for each sort how many slips there are, how many have the right change in the first note and in any note, how many first notes overlap the slip,
and with `--ghc` how many first errors of GHC do. Of two slips it prints how many have a note at one of them, and at both. `--show` prints the first
slips without the right change. Ends with 1 if there is no slip.
"""
# Why: docs/DECISIONS.md, "Forgotten texts".
import argparse
import collections
import glob
import os
import random
import re
import statistics
import sys
import tempfile

sys.dont_write_bytecode = True
sys.path.insert(0, os.path.dirname(os.path.abspath(__file__)))
import slips  # noqa: E402

SAYS = {
    "brackets": "with brackets around this",
    "semicolon": "with ';' before this",
    "comma": "with ',' before this",
    "argument": "one more after this",
    "constructor": "in front of this",
    "list brackets": "with '[' and ']' around this",
    "sides": "this side of ':'",
    "patterns": "this pattern and the one at",
}
LINE = re.compile(r"^<stdin>:(\d+):(\d+): note: (.*)$", re.M)
# How many single slips are made of which pairs are taken, and from how many tries.
SINGLES, TRIES = 60, 240


class Made:
    """A changed source: what the slip is, its ranges of bytes, and where the right change is said to begin."""

    def __init__(self, kind, source, ranges, begins):
        self.kind, self.source, self.ranges, self.begins = kind, source, ranges, begins

    def explain(self, program):
        _, _, plain = slips.run(program, self.source)
        _, messages, seconds = slips.run(program, self.source, "--explain")
        self.seconds = seconds - plain
        lines = [it for it in LINE.finditer(messages) if not it[3].startswith("skipped")]
        self.lines = [(slips.byte_at(self.source, int(it[1]), int(it[2])), it[3]) for it in lines]
        self.notes = list(slips.notes_in(self.source, slips.tokens_of(self.source), messages))
        self.is_first = bool(self.notes) and any(self.overlaps(self.notes[0], it) for it in self.ranges)
        self.hits = [any(self.overlaps(note, it) for note in self.notes) for it in self.ranges]
        rights = [self.is_right(*line) for line in self.lines]
        self.is_first_right, self.is_any_right = rights[:1] == [True], any(rights)

    def is_right(self, at, text):
        start, end = self.begins
        return SAYS.get(self.kind, "nothing of this") in text and start <= at < end

    def overlaps(self, note, changed):
        return note[0] < changed[1] and changed[0] < note[1]

    def ask_ghc(self):
        tokens = slips.tokens_of(self.source)
        with tempfile.TemporaryDirectory() as folder:
            found = slips.first_error(self.source, tokens, folder)
        self.is_theirs = bool(found) and any(self.overlaps(found, it) for it in self.ranges)


def applications_in(tokens, start, end):
    """The applications between two tokens, inside brackets too: the numbers of the first token and the end of each atom."""
    at = start
    while at < end:
        atoms, here = [], at
        while here < end:
            token = tokens[here]
            is_head = token.kind in ("variable", "constructor") or token.text in ("(", "[")
            behind = slips.atom_end(tokens, here)
            if behind is None or not atoms and not is_head:
                break
            atoms.append((here, behind))
            here = behind
        if len(atoms) > 1:
            yield atoms
        for first, behind in atoms:
            if behind - first > 2:
                yield from applications_in(tokens, first + 1, behind - 1)
        at = max(here, at + 1)


def of_application(source, tokens, atoms):
    """The slips of an application: an argument without its brackets, and one left out."""
    head = tokens[atoms[0][0]].start
    for first, behind in atoms[1:]:
        start, end = tokens[first].start, tokens[behind - 1].end
        yield "argument", (start, end), "", (head, head + 1)
        inner = next(applications_in(tokens, first + 1, behind - 1), None)
        if tokens[first].text == "(" and inner and (inner[0][0], inner[-1][1]) == (first + 1, behind - 1):
            yield "brackets", (start, end), source[tokens[first + 1].start:tokens[behind - 2].end], (start, start + 1)


def of_side(source, tokens, start, end):
    """The slips of a right side."""
    first, last = tokens[start].start, tokens[end - 1].end
    if tokens[start].kind == "constructor" and end - start > 1 and slips.atom_end(tokens, start + 1) == end:
        text = source[tokens[start + 1].start:last]
        yield "constructor", (first, last), text, (first, first + len(text))
    depth, colons = 0, []
    for at in range(start, end):
        text = tokens[at].text
        depth += (text in ("(", "[", "{")) - (text in (")", "]", "}"))
        if depth == 0 and text == ":":
            colons.append(at)
        if depth == 0 and text in ("if", "let", "case", "\\", "::"):
            return
    if len(colons) == 1:
        at = colons[0]
        left, right = source[first:tokens[at - 1].end], source[tokens[at + 1].start:last]
        yield "sides", (first, last), f"{right} : {left}", (first, last)


def of_mark(source, tokens, at, right):
    """The slips of a `;` or `,` that is left out, and of a list of one element without its brackets."""
    text = tokens[at].text
    before, after = tokens[at - 1].end, tokens[at + 1].start
    if text == ";" and at + 2 < len(tokens) and tokens[at + 1].kind == "variable" and tokens[at + 2].text == "::":
        yield "semicolon", (tokens[at].start, tokens[at].end), " ", (before, tokens[at + 1].end)
    if text == "," and at in right:
        yield "comma", (before, after), " ", (before, tokens[at + 1].end)
    end = slips.atom_end(tokens, at) if text == "[" and at in right else None
    if end and end - at == 3:
        inner = tokens[at + 1].text
        yield "list brackets", (tokens[at].start, tokens[end - 1].end), inner, (tokens[at].start, tokens[at].start + len(inner))


def of_patterns(source, tokens, at):
    """The slips of a clause whose name is this token: two neighbouring patterns that change places."""
    if tokens[at].kind != "variable" or tokens[at - 1].text not in (";", "{"):
        return
    atoms, here = [], at + 1
    while here < len(tokens) and (behind := slips.atom_end(tokens, here)):
        atoms.append((tokens[here].start, tokens[behind - 1].end))
        here = behind
    if here >= len(tokens) or tokens[here].text != "=":
        return
    for one, other in zip(atoms, atoms[1:]):
        changed = source[other[0]:other[1]] + source[one[1]:other[0]] + source[one[0]:one[1]]
        yield "patterns", (one[0], other[1]), changed, (one[0], other[1])


def slips_of(source):
    """The slips of a source: what they are, the bytes that are replaced, the text in their place, and where the right change begins in that."""
    tokens = slips.tokens_of(source)
    places = slips.Places(tokens)
    right = set(places.right)
    for start, end in places.sides:
        yield from of_side(source, tokens, start, end)
        for atoms in applications_in(tokens, start, end):
            yield from of_application(source, tokens, atoms)
    for at in range(1, len(tokens) - 1):
        yield from of_mark(source, tokens, at, right)
        yield from of_patterns(source, tokens, at)


def faults_of(report):
    return re.findall(r"^  \d+:\d+ type (\S+)$", report, re.M)


def kept(program, changed):
    """The name of the only type fault, or None."""
    report, _, _ = slips.run(program, changed)
    return faults_of(report)[0] if slips.is_kept(report) and len(faults_of(report)) == 1 else None


def forgotten_in(program, source, chance, count):
    by_kind = collections.defaultdict(list)
    for kind, where, text, begins in slips_of(source):
        by_kind[kind].append((where, text, begins))
    for kind, found in sorted(by_kind.items()):
        chance.shuffle(found)
        made = 0
        for (start, end), text, begins in found:
            changed = source[:start] + text + source[end:]
            if made < count and kept(program, changed):
                made += 1
                yield Made(kind, changed, [(start, start + max(len(text), 1)) if kind != "argument" else (begins[0], start + 1)], begins)


def pairs_in(program, source, chance, count):
    """Two slips of slips.py in one definition each."""
    kinds = {}
    for kind, where, text in slips.all_slips(source, slips.tokens_of(source), chance):
        kinds.setdefault(kind, []).append((where, text))
    singles = []
    for _ in range(TRIES):
        (start, end), text = chance.choice(kinds[chance.choice(sorted(kinds))])
        name = kept(program, source[:start] + text + source[end:])
        if name and len(singles) < SINGLES:
            singles.append((start, end, text, name))
    chance.shuffle(singles)
    made = 0
    for number, first in enumerate(singles):
        for second in singles[number + 1:]:
            one, other = sorted((first, second))
            if made == count or one[3] != other[3] or one[1] > other[0]:
                continue
            changed = source[:one[0]] + one[2] + source[one[1]:other[0]] + other[2] + source[other[1]:]
            moved = other[0] + len(one[2]) - (one[1] - one[0])
            if kept(program, changed):
                made += 1
                yield Made("two slips", changed, [(one[0], one[0] + len(one[2])), (moved, moved + len(other[2]))], (0, 0))


def row_of(kind, made, is_compared):
    seconds = [it.seconds for it in made]
    theirs = f", GHC's first error hits {sum(it.is_theirs for it in made)}" if is_compared else ""
    time = f"; seconds: median {statistics.median(seconds):.3f}, most {max(seconds):.3f}"
    if kind == "two slips":
        return f"{kind}: {len(made)}; a note {sum(bool(it.notes) for it in made)}; hits one {sum(any(it.hits) for it in made)}, both {sum(all(it.hits) for it in made)}{theirs}{time}"
    right = f"right change in the first note {sum(it.is_first_right for it in made)}, in any note {sum(it.is_any_right for it in made)}"
    return f"{kind}: {len(made)}; {right}; first note hits {sum(it.is_first for it in made)}{theirs}{time}"


def show(made):
    start, end = made.ranges[0]
    print(f"== {made.kind}: {made.source[max(0, start - 40):start]}<<{made.source[start:end]}>>{made.source[end:end + 40]}")
    for _, text in made.lines:
        print(f"   {text}")


def main():
    parser = argparse.ArgumentParser(description=__doc__, formatter_class=argparse.RawDescriptionHelpFormatter)
    parser.add_argument("--program", default=os.path.join(slips.TOP, "hmc"))
    parser.add_argument("--ghc", action="store_true")
    parser.add_argument("--count", type=int, default=2)
    parser.add_argument("--seed", type=int, action="append")
    parser.add_argument("--show", type=int, default=0)
    parser.add_argument("files", nargs="*")
    words = parser.parse_args()
    files = words.files or sorted(glob.glob(os.path.join(slips.TOP, "bench", "programs", "*.hs")))
    found = collections.defaultdict(list)
    for seed in words.seed or [1]:
        chance = random.Random(seed)
        for file in files:
            with open(file, encoding="utf-8") as opened:
                source = opened.read()
            for made in [*forgotten_in(words.program, source, chance, words.count), *pairs_in(words.program, source, chance, words.count)]:
                made.explain(words.program)
                if words.ghc:
                    made.ask_ghc()
                found[made.kind].append(made)
    for kind, made in sorted(found.items()):
        print(row_of(kind, made, words.ghc))
    for made in [it for of_kind in found.values() for it in of_kind if not (all(it.hits) if it.kind == "two slips" else it.is_first_right)][:words.show]:
        show(made)
    return 0 if found else 1


if __name__ == "__main__":
    sys.exit(main())
