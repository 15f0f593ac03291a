"""Asks GHC for its answers on modules: verdicts, interfaces as the lines that `hmc` prints, and classified faults."""
import os
import re
import subprocess
from dataclasses import dataclass

from .prelude import STAND_IN, data_entities, entities, stand_in
from .types import TypeReader, bare, canonical, substitute

FLAGS = ["--make", "-v1", "-fno-code", "-fkeep-going", "-w", "-XHaskell98", "-XNoImplicitPrelude", "-XScopedTypeVariables",
         "-XNoMonomorphismRestriction", "-XNoMonoLocalBinds", "-ddump-hi", "-dppr-cols=1000000"]

# where the type of literals comes from in GHC's text; no more is imported, since `T(..)` exports what is in scope by any name
HIDDEN = "Literals"

# parts of GHC's messages, the first that occurs counts, and the words of `hmc` that say the same
MESSAGES = [
    (r"error: Not in scope|error:\n +(?:• )?Not in scope|Variable not in scope|constructor not in scope", {"unbound"}),
    (r"does not export|is a data constructor of|In module ‘", {"not-exported"}),
    (r"Conflicting exports", {"export-clash"}),
    (r"export item ‘module \S+’ is not imported", {"not-imported"}),
    (r"is not the parent of|cannot be exported|attempts to export constructors", {"unbound"}),
    (r"Multiple declarations|Conflicting definitions|Duplicate type signature|Repeated", {"duplicate", "non-linear"}),
    (r"lacks an accompanying binding", {"no-binding"}),
    (r"Ambiguous occurrence", {"ambiguous"}),
    (r"have different numbers of arguments", {"clause-length", "duplicate"}),
    (r"Cycle in type synonym", {"recursive"}),
    (r"should have \S+ arguments?, but|Expecting \w+ (fewer|more) argument|Expected (kind|a type)|Expected kind|expected kind", {"arity"}),
    (r"Couldn't match|Occurs check|cannot construct the infinite type|would escape|is a rigid type variable|applied to too (many|few)", {"type"}),
]


def ghc_text(text):
    """A module of `hmc` as GHC reads it, line for line: literals are of type Int, and the stand-in is Prelude."""
    lines = text.split("\n")
    named = False
    for place, line in enumerate(lines):
        if line.startswith("import "):
            found = re.match(r"import (qualified )?Prelude( as \S+)?(?=[ ;])", line)
            named |= bool(found)
            if found:
                lines[place] = f"import {found[1] or ''}{STAND_IN}{found[2] or ' as Prelude'}" + line[found.end():]
        elif place:
            lines[place] = re.sub(r"(?<![\w'.\\])(0[xX][0-9a-fA-F]+|0[oO][0-7]+|[0-9]+)(?![\w'])", rf"(\1 :: {HIDDEN}.Int)", line)
    lines[0] += f" import qualified {STAND_IN} as {HIDDEN} (Int);" + ("" if named else f" import {STAND_IN} as Prelude;")
    return "\n".join(lines)


@dataclass
class Message:
    """One message of GHC: the words of `hmc` that say the same, its line, all lines that it mentions, and its text."""
    words: set
    line: int
    lines: set
    text: str


@dataclass
class Answer:
    """GHC's answer on one module: its word, the lines of its interface, and its messages."""
    word: str
    lines: list
    messages: list


class Interfaces:
    """The interfaces that GHC dumps, as lines of `hmc`."""

    def __init__(self, modules):
        self.modules = set(modules)
        self.types, self.synonyms, self.constructors, self.values = {}, {}, {}, {}
        self.exports = {}
        for entity in entities()["type"]:
            self.types[entity.key] = entity
            if entity.meaning is not None:
                self.synonyms[bare(entity.key)] = ([], entity.meaning)
        for entity in entities()["con"]:
            self.constructors[entity.key] = entity.kind

    def key(self, name):
        module, _, own = name.rpartition(".")
        return name if module in self.modules else f"Prelude.{own}"

    def head(self, name):
        return self.key(name).removeprefix("Prelude.")

    def read(self, dump):
        """Reads one dumped interface; answers its module."""
        name = re.match(r"interface main:(\S+)", dump)[1]
        exports = re.search(r"^exports:\n(.*?)^module dependencies:", dump, re.M | re.S)[1]
        self.exports[name] = re.findall(r"^  ([^\s{|]+)(\|?)(?:\{(.*)\})?$", exports, re.M)
        module = name if name in self.modules else "Prelude"
        for chunk in re.split(r"^[0-9a-f]{32}\n", dump, flags=re.M)[1:]:
            for item in re.split(r"\n  (?! )", "\n" + chunk)[1:]:
                self.declaration(module, " ".join(item.split("\ntrusted:")[0].split()))
        return name

    def declaration(self, module, text):
        value = re.match(r"([\w']+) :: (.*)", text)
        synonym = re.match(r"type ([\w']+)((?: [\w']+)*) = (.*)", text)
        if text.startswith(("data ", "newtype ")):
            entity, constructors = data_entities(text, module, lambda name: self.head(name if "." in name else f"{module}.{name}"))
            self.types[entity.key] = entity
            self.constructors.update({each.key: each.kind for each in constructors})
        elif synonym:
            key = f"{module}.{synonym[1]}"
            self.synonyms[self.head(key)] = (synonym[2].split(), self.kind(synonym[3]))
        elif value:
            self.values[f"{module}.{value[1]}"] = self.kind(value[2].split(" [Never")[0])

    def kind(self, text):
        return TypeReader(text, self.head).whole()

    def expand(self, kind):
        if isinstance(kind, str):
            return kind
        parts = [self.expand(part) for part in kind[1:]]
        if kind[0] in self.synonyms:
            parameters, meaning = self.synonyms[kind[0]]
            return self.expand(substitute(meaning, dict(zip(parameters, parts))))
        return (kind[0], *parts)

    def type_line(self, name):
        key, head = self.key(name), self.head(name)
        if head in self.synonyms:
            parameters, meaning = self.synonyms[head]
            return f"  syn {bare(key)}/{len(parameters)} = {key} :: {canonical(self.expand(meaning), parameters)}"
        return f"  type {bare(key)}/{len(self.types[key].parameters)} = {key}"

    def lines(self, name):
        """The block of a module as `hmc` prints it, in some order."""
        found = []
        for parent, hidden, rest in self.exports[name]:
            key = self.key(parent)
            if bare(key)[0].islower() or bare(key)[0] == "_":
                found.append(f"  val {bare(key)} = {key} :: {canonical(self.expand(self.values[key]))}")
                continue
            if not hidden:
                found.append(self.type_line(parent))
            for each in map(self.key, rest.split()):
                found.append(f"  con {bare(each)} = {each} :: {canonical(self.expand(self.constructors[each]))}")
        return found


def messages(errors, modules):
    """GHC's messages, by module."""
    paths = {path_of(name): name for name in modules}
    found = {name: [] for name in modules}
    for message in re.split(r"\n(?=\S+\.hs:\S+ error:)", "\n" + errors):
        start = re.match(r"\n?(\S+\.hs):\(?(\d+)[^\n]* error:", message)
        if start and start[1] in paths:
            text = re.split(r"\n-fkeep-going|\n\s*\|\n", message)[0]
            words = next((words for pattern, words in MESSAGES if re.search(pattern, text)), set())
            lines = {int(line) for line in re.findall(re.escape(start[1]) + r":\(?(\d+)", text)}
            found[paths[start[1]]].append(Message(words, int(start[2]), lines, text.strip()))
    return found


def path_of(name):
    return name.replace(".", "/") + ".hs"


def ask(texts, folder):
    """GHC's answers on modules, given by name; their sources are written into the folder."""
    for name, text in {**{name: ghc_text(text) for name, text in texts.items()}, STAND_IN: stand_in()}.items():
        path = os.path.join(folder, path_of(name))
        os.makedirs(os.path.dirname(path), exist_ok=True)
        with open(path, "w", encoding="utf-8") as file:
            file.write(text)
    child = subprocess.run(["ghc", *FLAGS, *map(path_of, [STAND_IN, *texts])], cwd=folder, capture_output=True, text=True, check=False)
    interfaces = Interfaces(texts)
    good = {interfaces.read(dump) for dump in re.split(r"=+ FINAL INTERFACE =+\n", child.stdout)[1:]}
    if STAND_IN not in good:
        raise RuntimeError(child.stderr[-2000:])
    told = messages(child.stderr, texts)
    answers = {}
    for name in texts:
        word = "faulty" if told[name] else "good" if name in good else "skipped"
        answers[name] = Answer(word, interfaces.lines(name) if word == "good" else [], told[name])
    return answers
