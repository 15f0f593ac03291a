"""Asks GHC where the first error of a source is, in bytes of the source."""
import os
import re
import subprocess

from .ghc import FLAGS, HIDDEN, path_of
from .prelude import STAND_IN, stand_in

PLACE = re.compile(r"^(\S+\.hs):(?:\((\d+),(\d+)\)-\((\d+),(\d+)\)|(\d+):(\d+)(?:-(\d+))?): error:", re.M)
WORDS = [*(word for word in FLAGS if word != "-ddump-hi"), "-ferror-spans", "-main-is", "None"]


class Copy:
    """A text made of pieces of a source and of other texts, and for each of its characters the one of the source that it stands for."""

    def __init__(self, source):
        self.source, self.text, self.origins = source, "", []

    def add(self, start, end):
        self.text += self.source[start:end]
        self.origins += range(start, end)

    def put(self, text, at):
        """Appends a text that stands for a character of the source."""
        self.text += text
        self.origins += [at] * len(text)

    def range_of(self, lines):
        """The range in the source of a range given by its first and last line and column."""
        first, first_column, last, last_column = lines
        starts = [0] + [match.end() for match in re.finditer("\n", self.text)]
        return self.origins[starts[first - 1] + first_column - 1], self.origins[starts[last - 1] + last_column - 1] + 1


def copies(source, tokens):
    """The modules of a source by name, each as GHC reads it: literals are of type Int, and the stand-in is Prelude."""
    found, copy, at, depth = {}, None, 0, 0
    for number, token in enumerate(tokens):
        depth += {"(": 1, "{": 1, ")": -1, "}": -1}.get(token.text, 0) if token.kind == "mark" else 0
        if token.text == "module" and depth == 0:
            copy = found[tokens[number + 1].text] = Copy(source)
            at = token.start
        if token.kind == "integer":
            copy.add(at, token.start)
            copy.put(f"({token.text} :: {HIDDEN}.Int)", token.start)
            at = token.end
        if token.text == "{" and depth == 1 and token.kind == "mark":
            copy.add(at, token.end)
            is_imported = imports_prelude(tokens, number + 1)
            copy.put(f" import qualified {STAND_IN} as {HIDDEN} (Int);" + ("" if is_imported else f" import {STAND_IN} as Prelude;"), token.start)
            at = token.end
        if token.text == "Prelude" and tokens[number - 1].text in ("import", "qualified"):
            copy.add(at, token.start)
            copy.put(STAND_IN if tokens[number + 1].text == "as" else f"{STAND_IN} as Prelude", token.start)
            at = token.end
        if token.text == "}" and depth == 0:
            copy.add(at, token.end)
            at = token.end
    return found


def imports_prelude(tokens, number):
    """Whether one of the imports that begin with a token is of Prelude."""
    texts = [token.text for token in tokens[number:]]
    return any(text == "Prelude" and texts[at - 1] in ("import", "qualified") for at, text in enumerate(texts) if at)


def first_error(source, tokens, folder):
    """The range of the first error that GHC prints, or nothing if it finds none."""
    modules = copies(source, tokens)
    for name, text in {**{name: copy.text for name, copy in modules.items()}, STAND_IN: stand_in()}.items():
        path = os.path.join(folder, path_of(name))
        os.makedirs(os.path.dirname(path), exist_ok=True)
        with open(path, "w", encoding="utf-8") as file:
            file.write(text)
    files = {path_of(name): copy for name, copy in modules.items()}
    child = subprocess.run(["ghc", *WORDS, *map(path_of, [STAND_IN, *modules])], cwd=folder, capture_output=True, text=True, check=False)
    match = PLACE.search(child.stderr)
    if match is None:
        if child.returncode:
            raise RuntimeError(child.stderr[-2000:])
        return None
    file, *lines, line, column, last = match.groups()
    wanted = [int(it) for it in lines] if line is None else [int(line), int(column), int(line), int(last or column)]
    return files[file].range_of(wanted)
