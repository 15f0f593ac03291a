"""The programs of bench/programs as GHC reads them: a file for each module, in which each name has the line that it has in the program."""
import pathlib
import re

from haskell_sets.ghc import HIDDEN, ghc_text, path_of
from haskell_sets.prelude import STAND_IN, stand_in

TOP = pathlib.Path(__file__).resolve().parent.parent
PROGRAMS = TOP / "bench" / "programs"
FLAGS = ["-w", "-XHaskell98", "-XNoImplicitPrelude", "-XScopedTypeVariables", "-XNoMonomorphismRestriction", "-XNoMonoLocalBinds"]
HEADER = re.compile(r"^module\s+([A-Z][\w.']*)", re.M)
# What `ghc_text` writes around a literal.
BEFORE, AFTER = "(", f" :: {HIDDEN}.Int)"
LITERAL = re.compile(r"(?<![\w'.\\])(0[xX][0-9a-fA-F]+|0[oO][0-7]+|[0-9]+)(?![\w'])")


class Program:
    """A program of one file, with its lines, its modules in order, and the module of each line."""

    def __init__(self, path):
        self.path, self.text = path, path.read_text()
        self.lines = self.text.split("\n")
        starts = [(self.text.count("\n", 0, it.start()), it[1]) for it in HEADER.finditer(self.text)]
        self.modules = [name for _, name in starts]
        self.starts = [start for start, _ in starts]
        self.bodies = {name: next(at for at in range(start, len(self.lines)) if "where {" in self.lines[at]) for start, name in starts}

    def module_of(self, line):
        """The module of a line, which counts from 1."""
        return [name for start, name in zip(self.starts, self.modules) if start < line][-1]

    def ghc_module(self, name):
        """The text of a module for GHC."""
        at = self.modules.index(name)
        start, end = self.starts[at], [*self.starts[1:], len(self.lines)][at]
        body = self.bodies[name]
        return "\n" * start + "".join(f"{it}\n" for it in self.lines[start:body]) + ghc_text("\n".join(self.lines[body:end]))

    def ghc_column(self, line, column):
        """The column of GHC's text for a column of a name; both count from 1."""
        if line - 1 <= self.bodies[self.module_of(line)]:
            return column
        before = sum(1 for it in LITERAL.finditer(self.lines[line - 1]) if it.end() < column)
        return column + before * len(BEFORE + AFTER)


def programs():
    """All programs, by their files."""
    return [Program(path) for path in sorted(PROGRAMS.glob("*.hs"))]


def write_modules(program, folder):
    """Writes the modules of a program and the stand-in for Prelude into a folder, and returns their paths in it."""
    texts = {STAND_IN: stand_in(), **{name: program.ghc_module(name) for name in program.modules}}
    for name, text in texts.items():
        path = pathlib.Path(folder, path_of(name))
        path.parent.mkdir(parents=True, exist_ok=True)
        path.write_text(text)
    return [path_of(name) for name in texts]
