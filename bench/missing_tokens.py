#!/usr/bin/env python3
"""Takes single tokens out of good sources, and counts how often the first line of the message names what is missing.

`missing_tokens.py PROGRAM COUNT [FILE..]`: for each kind of token, COUNT places of the files at most, drawn by a fixed seed. The files are those
of bench/programs if none is given. A message names a token if its first line has it between quotes, or, for a bracket, the bracket that closes
or opens it. Prints a line for each kind and last their sum; those that weren't named are written to standard error.
"""
import collections
import pathlib
import random
import re
import subprocess
import sys

PROGRAMS = pathlib.Path(__file__).resolve().parent / "programs"
KINDS = "; } { ) ( ] [ = -> , of then else in where let if case".split()
PARTNERS = {"(": ")", ")": "(", "[": "]", "]": "[", "{": "}", "}": "{"}
TOKEN = re.compile(r"""(?P<left>--[^\n]*|\{-(?:.|\n)*?-\}|"(?:[^"\\\n]|\\.)*"|'(?:[^'\\\n]|\\.)+'|[A-Za-z_][\w'.]*|\d\w*)|(?P<op>[!#$%&*+./<=>?@\\^|~:-]+)|[()\[\]{},;]""")


def places(text):
    """The tokens of these kinds, with where each begins and ends."""
    for found in TOKEN.finditer(text):
        if found[0] in KINDS:
            yield found[0], found.start(), found.end()


def first_line(program, text):
    """The first line of the message of a source that isn't read, or None if it is read."""
    done = subprocess.run([program, "--explain"], input=text.encode(), capture_output=True, check=False)
    line = done.stderr.decode(errors="replace").split("\n")[0]
    return line if done.returncode == 2 and line.endswith("[syntax]") else None


def main(program, count, files):
    random.seed(1)
    texts = {file: pathlib.Path(file).read_text(encoding="utf-8") for file in files}
    found = collections.defaultdict(list)
    for file, text in texts.items():
        for kind, start, end in places(text):
            found[kind].append((file, start, end))
    tried, named = collections.Counter(), collections.Counter()
    for kind in KINDS:
        for file, start, end in random.sample(found[kind], min(int(count), len(found[kind]))):
            text = texts[file]
            line = first_line(program, text[:start] + " " * (end - start) + text[end:])
            if line is None:
                continue
            tried[kind] += 1
            if f"'{kind}'" in line or f"'{PARTNERS.get(kind, kind)}'" in line:
                named[kind] += 1
            else:
                print(f"{kind}: {file}:{text.count(chr(10), 0, start) + 1}: {line}", file=sys.stderr)
        print(f"{kind:6} {named[kind]:4} of {tried[kind]:4}")
    print(f"all    {sum(named.values()):4} of {sum(tried.values()):4}, {100 * sum(named.values()) / max(1, sum(tried.values())):.0f} per cent")


if __name__ == "__main__":
    main(sys.argv[1], sys.argv[2], sys.argv[3:] or sorted(map(str, PROGRAMS.glob("*.hs"))))
