#!/usr/bin/env python3
"""Compares what names of the programs of bench/programs mean with what GHC's renamer found, by the files that `ghc -fwrite-ide-info` writes.

`names_ghc.py [PROGRAM]`: without a word, the script `hmc` beside this folder is run. Local variables, and variables and constructors of modules are compared by the places where they are bound, types by module and name, and names of Prelude by Prelude. GHC binds a type variable of a
signature at the signature, and the program at the first of its name there. So that is the first place where GHC has the same variable. Names of
modules aren't compared. Each difference is printed. Ends with 1 if there is one. If there is no `ghc` with its library, a line says so, and the
status is 0.
"""
import collections
import concurrent.futures
import os
import re
import shutil
import subprocess
import sys
import tempfile

from ghc_programs import FLAGS, TOP, programs, write_modules
from haskell_sets.ghc import path_of
from name_reading import uses_of

PROGRAM = os.path.abspath(sys.argv[1]) if len(sys.argv) > 1 else str(TOP / "hmc")
LEAST_NAMES = 3000

# What GHC says of a name: its kind, the module of its entity or -, its text, and where it is bound.
Meant = collections.namedtuple("Meant", "kind home text file line column")


def built_reader(folder):
    """The program that reads what GHC has found, or none."""
    path = os.path.join(folder, "names")
    if not shutil.which("ghc"):
        return None
    ran = subprocess.run(["ghc", "-v0", "-package", "ghc", "-outputdir", folder, "-o", path, str(TOP / "tests" / "GhcNames.hs")], check=False)
    return None if ran.returncode else path


def ghc_names(reader, program):
    """What GHC says of the names of a program, by the file of the module, the line, and the columns of the first character and after the last."""
    with tempfile.TemporaryDirectory() as folder:
        paths = write_modules(program, folder)
        subprocess.run(["ghc", "--make", "-v0", "-fno-code", "-fwrite-ide-info", *FLAGS, *paths], cwd=folder, check=True)
        ran = subprocess.run([reader, *(it.removesuffix(".hs") + ".hie" for it in paths)], cwd=folder, capture_output=True, text=True, check=True)
    names = collections.defaultdict(set)
    for row in ran.stdout.splitlines():
        file, line, column, end_line, end, kind, home, text, bound_file, bound_line, bound_column = row.split(" ")
        if line == end_line:
            meant = Meant(kind.replace("-", " "), home, text, bound_file.removeprefix("./"), int(bound_line), int(bound_column))
            names[file.removeprefix("./"), int(line), int(column), int(end)].add(meant)
    return names


def hmc_bound(program, use):
    """The second line of what the program prints for a name of this kind and text."""
    spot = f"{program.path.name}:{use.line}:{use.column}"
    ran = subprocess.run([PROGRAM, "--at", spot, program.path.name], cwd=program.path.parent, capture_output=True, text=True, check=False)
    found = re.search(rf"^{re.escape(use.kind)} {re.escape(use.text)}\n  (.*)$", ran.stdout, re.M)
    return found and found[1]


def name_at(program, line, column):
    """The name that begins at a place of a program."""
    return re.match(r"[\w.']+", program.lines[line - 1][column - 1:])[0]


def agrees(program, bound, meant, firsts):
    """Whether a line that says where a name is bound is what GHC means. `firsts` has the first place of each type variable."""
    place = re.fullmatch(r"bound at [^:]*:(\d+):(\d+)", bound)
    if not place:
        return bound == "bound in Prelude" and meant.home not in ("-", *program.modules)
    line, column = int(place[1]), int(place[2])
    module = program.module_of(line)
    if meant.kind == "type":
        return (meant.home, meant.text) == (module, name_at(program, line, column))
    if meant.kind == "type variable":
        return firsts[meant] == (path_of(module), line, program.ghc_column(line, column))
    return (meant.file, meant.line, meant.column) == (path_of(module), line, program.ghc_column(line, column)) and meant.home in ("-", module)


def compared(pool, reader, program):
    """How many names of a program were compared, on how many GHC has no opinion by their kinds, and the differences."""
    theirs, silent, differences, asked = ghc_names(reader, program), collections.Counter(), [], []
    firsts = {}
    for file, line, column, end in sorted(theirs):
        for meant in theirs[file, line, column, end]:
            if end - column == len(meant.text):
                firsts.setdefault(meant, (file, line, column))
    for use in uses_of([program.text]):
        column = program.ghc_column(use.line, use.column)
        meant = {it for it in theirs.get((path_of(use.module), use.line, column, column + len(use.text)), ()) if it.kind == use.kind}
        if use.kind == "module" or not meant:
            silent[use.kind] += 1
        else:
            asked.append((use, meant))
    for (use, meant), bound in zip(asked, pool.map(lambda it: hmc_bound(program, it[0]), asked)):
        if bound is None or len(meant) != 1 or not agrees(program, bound, *meant, firsts):
            differences.append(f"{program.path.name}:{use.line}:{use.column}: {use.kind} {use.text}: {bound}; GHC: {meant}")
    return len(asked), silent, differences


def main():
    with tempfile.TemporaryDirectory() as folder, concurrent.futures.ThreadPoolExecutor(os.cpu_count()) as pool:
        reader = built_reader(folder)
        if not reader:
            print("there is no ghc with its library")
            return 0
        found = [compared(pool, reader, it) for it in programs()]
    names, differences = sum(it for it, _, _ in found), [it for _, _, more in found for it in more]
    silent = sum((it for _, it, _ in found), collections.Counter())
    print(*differences, sep="\n", end="\n" if differences else "")
    print(f"{names} names compared with those of GHC, {len(differences)} differences; GHC has no opinion on {dict(silent)}")
    return 1 if differences or names < LEAST_NAMES else 0


if __name__ == "__main__":
    sys.exit(main())
