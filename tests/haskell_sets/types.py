"""Types, the entities that have them, and scopes.

A type is the text of a variable, or a tuple of a head and its arguments. Heads are `->`, `[]`, `()`, `(,)` and so on,
the bare name of a type of Prelude, or the name of another type with its module, as `hmc` prints them.
"""
import re
from dataclasses import dataclass, field

ARROW, LIST, UNIT = "->", "[]", "()"
INT, CHAR, BOOL = ("Int",), ("Char",), ("Bool",)
STRING = (LIST, CHAR)


def function(arguments, result):
    for argument in reversed(arguments):
        result = (ARROW, argument, result)
    return result


def split(kind, limit=None):
    """The arguments and the result of a function's type, at most `limit` arguments of them."""
    arguments = []
    while isinstance(kind, tuple) and kind[0] == ARROW and (limit is None or len(arguments) < limit):
        arguments.append(kind[1])
        kind = kind[2]
    return arguments, kind


def pair(*parts):
    return ("(" + "," * (len(parts) - 1) + ")", *parts)


def is_tuple(head):
    return head.startswith("(,")


def variables(kind, seen=None):
    """The variables of a type in order of first occurrence."""
    seen = [] if seen is None else seen
    if isinstance(kind, str):
        if kind not in seen:
            seen.append(kind)
    else:
        for part in kind[1:]:
            variables(part, seen)
    return seen


def substitute(kind, values):
    if isinstance(kind, str):
        return values.get(kind, kind)
    return (kind[0], *(substitute(part, values) for part in kind[1:]))


def match(pattern, kind, flexible, values):
    """Whether values for the flexible variables make the pattern the type; they are added to `values`."""
    if isinstance(pattern, str):
        if pattern not in flexible:
            return pattern == kind
        return values.setdefault(pattern, kind) == kind
    if isinstance(kind, str) or pattern[0] != kind[0] or len(pattern) != len(kind):
        return False
    return all(match(left, right, flexible, values) for left, right in zip(pattern[1:], kind[1:]))


def letter(number):
    return chr(ord("a") + number % 26) + (str(number // 26) if number >= 26 else "")


def shown(kind, head_name=lambda head: head, variable_name=lambda name: name, place=0):
    """The text of a type: place 0 is a whole one, 1 the left of an arrow, 2 an argument."""
    if isinstance(kind, str):
        return variable_name(kind)
    head, *parts = kind
    inner = [shown(part, head_name, variable_name, 0) for part in parts] if head in (LIST, UNIT) or is_tuple(head) else None
    if head == LIST:
        return f"[{inner[0]}]"
    if inner is not None:
        return "(" + ", ".join(inner) + ")"
    if head == ARROW:
        text = shown(parts[0], head_name, variable_name, 1) + " -> " + shown(parts[1], head_name, variable_name, 0)
        return f"({text})" if place > 0 else text
    text = " ".join([head_name(head)] + [shown(part, head_name, variable_name, 2) for part in parts])
    return f"({text})" if parts and place > 1 else text


def canonical(kind, order=()):
    """The text of a scheme, its variables renamed in the given order and then in that of first occurrence."""
    names = {name: letter(number) for number, name in enumerate(variables(kind, list(order)))}
    return shown(kind, variable_name=names.get)


class TypeReader:
    """Reads a type as GHC or a signature writes it."""

    def __init__(self, text, head=lambda name: name):
        self.tokens = re.findall(r"->|[()\[\],]|[\w'.$]+", text)
        self.head = head

    def peek(self):
        return self.tokens[0] if self.tokens else None

    def take(self, wanted=None):
        token = self.tokens.pop(0)
        if wanted and token != wanted:
            raise ValueError(f"{wanted} expected, {token} found before {self.tokens}")
        return token

    def whole(self):
        left = self.applied()
        if self.peek() == ARROW:
            self.take()
            return (ARROW, left, self.whole())
        return left

    def applied(self):
        first = self.atom()
        arguments = self.atoms()
        return (first[0], *first[1:], *arguments) if arguments else first

    def atoms(self):
        """As many types as stand side by side."""
        found = []
        while self.peek() not in (None, ")", "]", ",", ARROW):
            found.append(self.atom())
        return found

    def atom(self):
        token = self.take()
        if token == "[":
            inner = self.whole()
            self.take("]")
            return (LIST, inner)
        if token != "(":
            return token if token[0].islower() or token[0] == "_" else (self.head(token),)
        parts = [] if self.peek() == ")" else [self.whole()]
        while self.peek() == ",":
            self.take()
            parts.append(self.whole())
        self.take(")")
        return parts[0] if len(parts) == 1 else pair(*parts) if parts else (UNIT,)


@dataclass
class TypeEntity:
    """A type with its parameters and constructors, or a synonym with what it stands for."""
    key: str
    parameters: list
    constructors: list = field(default_factory=list)
    meaning: object = None


@dataclass
class Constructor:
    key: str
    parent: str
    kind: object
    fields: int


@dataclass
class Value:
    """A variable; its type has all variables quantified, and is None where the maker doesn't know it."""
    key: str
    kind: object


def bare(key):
    return key.rsplit(".", 1)[-1]


class Scope:
    """What names mean: for types, constructors and variables a table from names, bare or qualified, to entities."""

    def __init__(self):
        self.tables = {"type": {}, "con": {}, "var": {}}

    def add(self, space, name, entity):
        found = self.tables[space].setdefault(name, [])
        if all(other.key != entity.key for other in found):
            found.append(entity)

    def bring(self, space, entity, qualifier, both):
        """What one definition or import gives."""
        self.add(space, f"{qualifier}.{bare(entity.key)}", entity)
        if both:
            self.add(space, bare(entity.key), entity)

    def clear(self, space):
        """The names that mean one entity, with it."""
        return [(name, found[0]) for name, found in self.tables[space].items() if len(found) == 1]

    def ambiguous(self, space):
        return [name for name, found in self.tables[space].items() if len(found) > 1]

    def names(self, space, key):
        """The names that mean just the entity."""
        return [name for name, found in self.tables[space].items() if len(found) == 1 and found[0].key == key]
