#!/usr/bin/env python3
"""Measures how often the note of a type fault is at the slip: makes single slips in good modules, and asks the program.

`slips.py [--program PROGRAM] [--ghc] [--count N] [--seed N].. [--show N] [FILE..]`: FILEs are sources of good modules, each a set by itself, and
those of bench/programs if none is given. A slip
changes one token or one small expression: two arguments exchanged, one left out or given twice, a function left out, a literal of another kind, another
constructor or variable, list brackets put in or left out, a tuple without its last component, another right side, a pattern or a type of a signature.
What it is comes by chance first, each sort as often, and then where. It is kept where the set then has one faulty module, with type faults alone.

Prints how many faults have a place (told), and how many of these places overlap the changed tokens (hit), have all of them (contain), and are hits
that are at most two tokens wider than the slip (tight; three tokens always are). Then how many tokens a place and a slip have (width), and how
much longer runs with messages take. This is printed of hmc's first note alone, of all its notes, and with `--ghc` of GHC's first error. With `--show` the
first slips are printed that the first note misses.
"""
# Why: docs/DECISIONS.md, "Hits of notes", "Widths of notes", "Misses of notes", "Sorts of slips", "The order of notes".
import argparse
import glob
import os
import random
import re
import resource
import statistics
import subprocess
import sys
import tempfile
from concurrent.futures import ThreadPoolExecutor

TOP = os.path.dirname(os.path.dirname(os.path.abspath(__file__)))
sys.path.insert(0, os.path.join(TOP, "tests"))
from haskell_sets.places import first_error  # noqa: E402
TOKEN = re.compile(r"""\s+ | --+(?![!#$%&*+./<=>?@\\^|~:-])[^\n]* | \{-.*?-\}
    | (?P<text>"(?:\\.|[^"\\])*") | (?P<character>'(?:\\[^\n]*?|[^'\\])')
    | (?P<integer>\d\w*) | (?P<name>(?:[A-Z][\w']*\.)*[A-Za-z_][\w']*)
    | (?P<mark>[()\[\]{},;]) | (?P<operator>[!\#$%&*+./<=>?@\\^|~:-]+)""", re.X | re.S)
WORDS = set("case class data default deriving do else if import in infix infixl infixr instance let module newtype of then type where _".split())
CLOSING = {"(": ")", "[": "]"}
# of how many tokens right sides are put in place of each other
LONGEST_SIDE = 12


class Token:
    def __init__(self, kind, text, start):
        self.kind, self.text, self.start, self.end = kind, text, start, start + len(text)


def tokens_of(source):
    found, at = [], 0
    while at < len(source):
        match = TOKEN.match(source, at)
        if match is None:
            raise ValueError(f"no token at byte {at}")
        if match.lastgroup:
            text, kind = match.group(), match.lastgroup
            if kind == "name":
                last = text.rsplit(".", 1)[-1]
                kind = "word" if text in WORDS else "constructor" if last[0].isupper() else "variable"
            found.append(Token(kind, text, at))
        at = match.end()
    return found


def atom_end(tokens, at):
    """The number behind the atom that begins here, or None."""
    token = tokens[at]
    if token.kind in ("text", "character", "integer", "constructor", "variable"):
        return at + 1
    if token.text not in CLOSING:
        return None
    open_brackets = []
    for end in range(at, len(tokens)):
        text = tokens[end].text
        if text in ("(", "[", "{"):
            open_brackets.append(text)
        elif text in (")", "]", "}"):
            open_brackets.pop()
            if not open_brackets:
                return end + 1
    return None


class Places:
    """Where the tokens of a source stand: in right sides, in types of signatures, or in patterns; and the ranges of the right sides."""

    def __init__(self, tokens):
        self.right, self.types, self.patterns, self.sides = [], [], [], []
        states, state, begun = [], "", 0
        for at, token in enumerate(tokens):
            state, begun = self.behind(tokens, at, states, state, begun)
            if token.text in ("=", "->", "::", "|", ";", "where", "of", "let", "{", "}"):
                continue
            if state in ("right", "signature"):
                (self.right if state == "right" else self.types).append(at)
            elif state == "" and at and tokens[at - 1].text not in (";", "{"):
                self.patterns.append(at)

    def behind(self, tokens, at, states, state, begun):
        """The state behind a token, and where the right side began that it stands in."""
        text = tokens[at].text
        if text in ("data", "newtype", "type", "import", "module"):
            return "type", begun
        if text == "::":
            return ("signature" if state == "" else state), begun
        if text in ("=", "->") and state == "":
            return "right", at + 1
        if text in (";", "where", "}") and state == "right" and begun < at:
            self.sides.append((begun, at))
        if text in (";", "where"):
            return "", 0
        if text == "{":
            states.append((state, begun))
            return "", 0
        if text == "}" and states:
            return states.pop()
        return state, begun


def of_literal(token, chance):
    other = chance.choice([it for it in ("integer", "character", "text") if it != token.kind])
    return {"integer": "7", "character": "'k'", "text": '"slip"'}[other]


def is_applied(tokens, at):
    return at > 0 and (tokens[at - 1].kind in ("variable", "constructor") or tokens[at - 1].text in (")", "]"))


def nesting(tokens, start, end):
    """How many brackets that open from one token on are open at another."""
    texts = [token.text for token in tokens[start:end] if token.kind == "mark"]
    return sum(text in ("(", "[", "{") for text in texts) - sum(text in (")", "]", "}") for text in texts)


def slips_of_atoms(source, tokens, at):
    """Slips of the atoms that begin with a token: what they are, the bytes that are replaced, and the text that takes their place."""
    end = atom_end(tokens, at)
    if end is None:
        return
    start, stop = tokens[at].start, tokens[end - 1].end
    atom = source[start:stop]
    yield "list", (start, stop), f"[{atom}]"
    commas = [number for number in range(at + 1, end - 1) if tokens[number].text == "," and nesting(tokens, at, number) == 1]
    if tokens[at].text == "[" and end - at > 2 and not commas:
        yield "element", (start, stop), f"({atom[1:-1]})"
    if tokens[at].text == "(" and commas:
        yield "tuple", (start, stop), source[start:tokens[commas[-1]].start] + ")"
    if is_applied(tokens, at):
        yield "given twice", (start, stop), f"{atom} {atom}"
    next_end = atom_end(tokens, end) if end < len(tokens) else None
    if next_end is None:
        return
    second, last = tokens[end].start, tokens[next_end - 1].end
    yield "left out", (start, last), atom
    if is_applied(tokens, at):
        yield "exchange", (start, last), source[second:last] + source[stop:second] + atom
    else:
        yield "function", (start, last), source[second:last]


def slips_of_token(token, is_pattern, names, constructors, chance):
    """Slips that put another token in the place of one."""
    here = (token.start, token.end)
    if token.kind in ("integer", "character", "text"):
        yield "pattern" if is_pattern else "literal", here, of_literal(token, chance)
    if token.kind == "constructor":
        yield "pattern" if is_pattern else "constructor", here, chance.choice(constructors)
    if token.kind == "variable" and is_pattern:
        yield "pattern", here, f"[{token.text}]"
    if token.kind == "variable" and not is_pattern:
        yield "variable", here, chance.choice(names)


def all_slips(source, tokens, chance):
    """All slips of a source: what they are, the bytes that are replaced, and the text that takes their place."""
    places = Places(tokens)
    names = sorted({it.text for it in tokens if it.kind == "variable"})
    constructors = sorted({tokens[at].text for at in places.right if tokens[at].kind == "constructor"}) or ["True"]
    types = [at for at in places.types if tokens[at].kind in ("constructor", "variable")]
    sides = [(tokens[start].start, tokens[end - 1].end) for start, end in places.sides if end - start <= LONGEST_SIDE]
    for at in places.right:
        yield from slips_of_atoms(source, tokens, at)
    for is_pattern, numbers in ((False, places.right), (True, places.patterns)):
        for at in numbers:
            yield from slips_of_token(tokens[at], is_pattern, names, constructors, chance)
    for at in types:
        yield "signature", (tokens[at].start, tokens[at].end), tokens[chance.choice(types)].text
    for start, end in sides:
        other = chance.choice(sides)
        yield "right side", (start, end), source[other[0]:other[1]]


def run(program, source, *words):
    """What a run writes, and the seconds of a processor that it takes."""
    begun = processor_seconds()
    ended = subprocess.run([program, "--jobs", "1", *words], input=source.encode(), capture_output=True)
    return ended.stdout.decode(), ended.stderr.decode(), processor_seconds() - begun


def processor_seconds():
    used = resource.getrusage(resource.RUSAGE_CHILDREN)
    return used.ru_utime + used.ru_stime


def is_kept(report):
    blocks = re.findall(r"^faulty \S+\n((?:  .*\n)*)", report, re.M)
    return len(blocks) == 1 and all(line.split()[1] == "type" for line in blocks[0].splitlines())


def byte_at(source, line, column):
    lines = source.encode().split(b"\n")
    return sum(len(it) + 1 for it in lines[:line - 1]) + column - 1


# Where a note ends, and what it may say of the other one of two parts.
BESIDE = r"\)(?: and at \d+:\d+|(?: if the pattern at \d+:\d+ is '_' and its| and the one at \d+:\d+ are '_' and their) variables have every type|, with another expression at \d+:\d+)?"
NOTE = re.compile(rf"^<stdin>:(\d+):(\d+): note: .* (?:(?:(?:another expression here|this pattern is '_' and its variables have every type|if this pattern|this is left out|without this|one more after this|is expected|without this signature|around this|in front of this|argument after this|expressions both here) \(up to|the one (at)) (\d+):(\d+)(?:{BESIDE}| exchanged)|with '[;,]' before this)$", re.M)


def notes_in(source, tokens, messages):
    """The ranges of notes: of a part, of two that change places and what stands between them, or of the tokens around a mark that is put in."""
    for match in NOTE.finditer(messages):
        start = byte_at(source, int(match[1]), int(match[2]))
        if match[4] is None:
            at = next(at for at, token in enumerate(tokens) if token.start == start)
            yield tokens[max(at - 1, 0)].start, tokens[at].end
            continue
        other = byte_at(source, int(match[4]), int(match[5]))
        if match[3]:
            at = next(at for at, token in enumerate(tokens) if token.start == other)
            other = tokens[(atom_end(tokens, at) or at + 1) - 1].end - 1
        yield start, other + 1


class Told:
    """What is told of a slip: ranges of its source."""

    def __init__(self, slip, ranges):
        start, end = slip.changed
        self.widths = [sum(1 for it in slip.tokens if first <= it.start < last) for first, last in ranges]
        hits = [first < end and start < last for first, last in ranges]
        self.is_hit = any(hits)
        self.is_whole = any(first <= start and end <= last for first, last in ranges)
        self.is_tight = any(hit and width <= max(3, slip.own_width + 2) for hit, width in zip(hits, self.widths))


class Slip:
    def __init__(self, kind, source, changed):
        self.kind, self.source, self.changed, self.tokens = kind, source, changed, tokens_of(source)
        self.own_width = sum(1 for it in self.tokens if changed[0] <= it.start < changed[1])
        self.notes, self.seconds, self.first, self.any, self.theirs = [], None, None, None, None

    def explain(self, program, plain):
        _, messages, seconds = run(program, self.source, "--explain")
        self.notes, self.seconds = list(notes_in(self.source, self.tokens, messages)), seconds - plain
        self.first, self.any = Told(self, self.notes[:1]), Told(self, self.notes)

    def ask_ghc(self):
        with tempfile.TemporaryDirectory() as folder:
            found = first_error(self.source, self.tokens, folder)
        self.theirs = Told(self, [found] if found else [])


def slips_in(program, source, chance, count):
    """Slips in a source. What a slip is comes by chance first, and then where it is."""
    found = {}
    for kind, where, text in all_slips(source, tokens_of(source), chance):
        found.setdefault(kind, []).append((where, text))
    for slips in found.values():
        chance.shuffle(slips)
    while count > 0 and found:
        kind = chance.choice(sorted(found))
        (start, end), text = found[kind].pop()
        if not found[kind]:
            del found[kind]
        changed = source[:start] + text + source[end:]
        report, _, plain = run(program, changed)
        if is_kept(report):
            slip = Slip(kind, changed, (start, start + len(text)))
            slip.explain(program, plain)
            yield slip
            count -= 1


def share(flags):
    return f"{100 * sum(flags) / len(flags):.1f} %"


def spread(widths):
    widths = sorted(widths)
    return f"median {statistics.median(widths)}, mean {statistics.mean(widths):.1f}, 90 % {widths[9 * len(widths) // 10]}" if widths else "none"


def row_of(name, told):
    shares = f"told {share([bool(it.widths) for it in told])}, hit {share([it.is_hit for it in told])}, contain {share([it.is_whole for it in told])}"
    return f"{name}: {shares}, tight {share([it.is_tight for it in told])}, width in tokens: {spread([width for it in told for width in it.widths])}"


def compared(slips):
    """The lines of what is told of slips by both."""
    mine = sum(it.first.is_hit and not it.theirs.is_hit for it in slips)
    theirs = sum(it.theirs.is_hit and not it.first.is_hit for it in slips)
    return [row_of("GHC", [it.theirs for it in slips]), f"hmc's first note alone hits {mine}, GHC alone {theirs}"]


def summary(slips, is_compared):
    """The lines that are printed of slips."""
    lines = [f"slips: {len(slips)}, width in tokens: {spread([it.own_width for it in slips])}"]
    lines += [row_of("hmc's first note", [it.first for it in slips]), row_of("any note of hmc", [it.any for it in slips])]
    lines += compared(slips) if is_compared else []
    extra = sorted(it.seconds for it in slips)
    lines.append(f"seconds of a processor more with messages: median {statistics.median(extra):.3f}, 90 % {extra[9 * len(extra) // 10]:.3f}, most {extra[-1]:.3f}")
    for kind in sorted({it.kind for it in slips}):
        of_kind = [it for it in slips if it.kind == kind]
        theirs = f", GHC {sum(it.theirs.is_hit for it in of_kind)}" if is_compared else ""
        hits = f"first note {sum(it.first.is_hit for it in of_kind)}, any note {sum(it.any.is_hit for it in of_kind)}"
        lines.append(f"  {kind}: {hits}{theirs} of {len(of_kind)}, median width {width_of(of_kind)}")
    return lines


def width_of(slips):
    widths = [width for it in slips for width in it.first.widths]
    return statistics.median(widths) if widths else "none"


def show(slip):
    start, end = slip.changed
    line = slip.source.count("\n", 0, start) + 1
    print(f"== {slip.kind} at line {line}: {slip.source[max(0, start - 40):start]}<<{slip.source[start:end]}>>{slip.source[end:end + 40]}")
    for start, end in slip.notes:
        print(f"   told: {slip.source[max(0, start - 20):start]}<<{slip.source[start:end]}>>{slip.source[end:end + 20]}")
    if slip.theirs and slip.theirs.is_hit:
        print("   GHC's first error hits")


def main():
    parser = argparse.ArgumentParser()
    parser.add_argument("--program", default=os.path.join(TOP, "crates", "hmc", "out", "hmc"))
    parser.add_argument("--ghc", action="store_true", help="ask GHC of each slip too")
    parser.add_argument("--count", type=int, default=40, help="slips in each file")
    parser.add_argument("--seed", type=int, action="append", help="may be given several times; 1 if it isn't given")
    parser.add_argument("--show", type=int, default=0)
    parser.add_argument("files", nargs="*", default=sorted(glob.glob(os.path.join(TOP, "bench", "programs", "*.hs"))))
    words = parser.parse_args()
    slips = []
    for seed in words.seed or [1]:
        chance = random.Random(seed)
        for name in words.files:
            with open(name, encoding="utf-8") as file:
                slips += slips_in(words.program, file.read(), chance, words.count)
    if not slips:
        sys.exit("no slip was kept")
    if words.ghc:
        with ThreadPoolExecutor(2) as pool:
            list(pool.map(Slip.ask_ghc, slips))
    print("\n".join(summary(slips, words.ghc)))
    for slip in [it for it in slips if not it.first.is_hit][:words.show]:
        show(slip)


if __name__ == "__main__":
    main()
