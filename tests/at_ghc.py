#!/usr/bin/env python3
"""Compares the types at places of the programs of bench/programs with those that GHC has there, up to names of variables, synonyms and qualifiers.

`at_ghc.py [PROGRAM [SEED N]]`: without a word, the script `hmc` beside this folder is run. N names are chosen by the seed, 300 by seed 1 if these
words aren't given, among the variables and constructors for which ghci's `:type-at` has a type. Names outside of expressions and patterns have none.
Each difference is printed. Ends with 1 if there is one, or if fewer names were compared. If there is no `ghci`, a line says so, and the status is 0.
"""
import concurrent.futures
import os
import random
import re
import shutil
import subprocess
import sys
import tempfile

from ghc_programs import FLAGS, TOP, programs, write_modules
from haskell_sets.ghc import path_of
from haskell_sets.types import TypeReader, bare, canonical, substitute
from name_reading import uses_of

PROGRAM = os.path.abspath(sys.argv[1]) if len(sys.argv) > 1 else str(TOP / "hmc")
SEED, PLACES = (sys.argv[2], int(sys.argv[3])) if len(sys.argv) > 3 else ("1", 300)
SYNONYM = re.compile(r"\btype\s+([A-Z][\w']*)((?:\s+[a-z][\w']*)*)\s*=([^;}]*)")
STRING = {"String": ([], ("[]", ("Char",)))}
MARK = "-- place"


def read_type(text):
    return TypeReader(text, bare).whole()


def synonyms_of(program):
    """What the synonyms of a program stand for."""
    return {**STRING, **{name: (parameters.split(), read_type(meaning)) for name, parameters, meaning in SYNONYM.findall(program.text)}}


def expanded(kind, synonyms):
    """A type without synonyms."""
    if isinstance(kind, str):
        return kind
    parts = [expanded(part, synonyms) for part in kind[1:]]
    if kind[0] in synonyms:
        parameters, meaning = synonyms[kind[0]]
        return expanded(substitute(meaning, dict(zip(parameters, parts))), synonyms)
    return (kind[0], *parts)


def same_text(text, synonyms):
    """A type with names of its variables in their order."""
    return canonical(expanded(read_type(text), synonyms))


def ghc_types(program, uses):
    """GHC's type of each of these names, or none."""
    with tempfile.TemporaryDirectory() as folder:
        paths = write_modules(program, folder)
        words = [":set +c", ":load " + " ".join(paths)]
        for number, use in enumerate(uses):
            column = program.ghc_column(use.line, use.column)
            words += [f":! echo '{MARK} {number}'", f":type-at {path_of(use.module)} {use.line} {column} {use.line} {column + len(use.text)}"]
        ran = subprocess.run(["ghci", "-v0", "-ignore-dot-ghci", "-dppr-cols=1000000", *FLAGS], input="\n".join(words) + "\n",
                             cwd=folder, stdout=subprocess.PIPE, stderr=subprocess.STDOUT, text=True, check=False)
    first, *answers = re.split(rf"^{MARK} \d+\n", ran.stdout, flags=re.M)
    if len(answers) != len(uses) or "error" in first:
        sys.exit(f"{program.path.name}: ghci doesn't read it: {first[-2000:]}")
    found = [re.match(r" :: (?:forall [^.]*\. )?([^\n]*)\n", it) for it in answers]
    return [it and it[1] for it in found]


def hmc_type(program, use):
    """The type of a name at its place, as the program prints it: that of its use, else that with which it is bound."""
    spot = f"{program.path.name}:{use.line}:{use.column}"
    ran = subprocess.run([PROGRAM, "--at", spot, program.path.name], cwd=program.path.parent, capture_output=True, text=True, check=False)
    lines = dict(re.findall(r"^  (type|here) (.*)$", ran.stdout, re.M))
    return lines.get("here", lines.get("type"))


def chosen_uses():
    """All variables and constructors of the programs, in an order by the seed."""
    uses = [(program, use) for program in programs() for use in uses_of([program.text]) if use.kind in ("variable", "constructor")]
    random.Random(SEED).shuffle(uses)
    return uses


def main():
    if not shutil.which("ghci"):
        print("there is no ghci on the PATH")
        return 0
    uses, known, untyped = chosen_uses(), [], 0
    theirs = {}
    for program in {id(it): it for it, _ in uses}.values():
        of_program = [use for it, use in uses if it is program]
        theirs.update({(program.path, use): found for use, found in zip(of_program, ghc_types(program, of_program))})
    for program, use in uses:
        if len(known) == PLACES:
            break
        if theirs[program.path, use] is None:
            untyped += 1
        else:
            known.append((program, use))
    with concurrent.futures.ThreadPoolExecutor(os.cpu_count()) as pool:
        mine = list(pool.map(lambda it: hmc_type(*it), known))
    differences = 0
    for (program, use), found in zip(known, mine):
        wanted, synonyms = theirs[program.path, use], synonyms_of(program)
        if found is None or same_text(found, synonyms) != same_text(wanted, synonyms):
            differences += 1
            print(f"{program.path.name}:{use.line}:{use.column}: {use.text}: {PROGRAM} has {found}, GHC {wanted}")
    print(f"{len(known)} types compared with those of GHC, {differences} differences; for {untyped} names GHC has none")
    return 1 if differences or len(known) < PLACES else 0


if __name__ == "__main__":
    sys.exit(main())
