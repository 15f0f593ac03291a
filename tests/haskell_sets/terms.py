"""Random patterns and expressions, made for a type or wildly."""
from dataclasses import dataclass
from functools import cached_property

from .types import (ARROW, BOOL, CHAR, INT, LIST, STRING, UNIT, function, is_tuple, match, pair, shown, split, substitute, variables)

INTEGERS = ["0", "1", "2", "7", "42", "0x1F", "0o17", "100"]
CHARACTERS = ["'a'", "'z'", "' '", "'\\n'", "'\\''", "'\"'", "'\\x41'", "'\\65'"]
STRINGS = ['""', '"a"', '"hello"', '"a\\"b"', '"\\tx"', '"it\'s"', '"a\\&b"']
NAMES = ["x", "y", "z", "u", "v", "w", "x'", "acc", "rest", "as", "hiding", "qualified"]


@dataclass
class Entry:
    """What the maker knows of a variable: its type, or None, which variables of it are quantified, and how often it is chosen."""
    kind: object
    quantified: frozenset = frozenset()
    weight: float = 10

    @cached_property
    def shapes(self):
        """Its types when it is applied to 0, 1, .. arguments, with those of the arguments."""
        return [] if self.kind is None else [split(self.kind, count) for count in range(len(split(self.kind)[0]) + 1)]


def quantified(kind, fixed=()):
    return Entry(kind, frozenset(variables(kind)) - frozenset(fixed))


class Terms:
    """Makes patterns and expressions of one module, with the faults that are planned for it."""

    def __init__(self, random, scope, faults):
        self.random, self.scope, self.faults = random, scope, list(faults)
        self.features = set()
        self.counter = 0
        self.constructors = []
        self.synonyms = []

    def ready(self):
        """Called when the scope is complete."""
        self.constructors = self.scope.clear("con")
        self.synonyms = [(name, entity) for name, entity in self.scope.clear("type") if entity.meaning is not None]

    def chance(self, share):
        return self.random.random() < share

    def fault(self, kind, share=0.3):
        """Whether a planned fault is to be made here."""
        if kind in self.faults and self.chance(share):
            self.faults.remove(kind)
            self.features.add("fault: " + kind)
            return True
        return False

    def feature(self, name):
        self.features.add(name)

    def fresh(self):
        self.counter += 1
        return f"t{self.counter}"

    # types

    def type_names(self, head):
        key = head if "." in head else f"Prelude.{head}"
        return self.scope.names("type", key)

    def random_type(self, given, depth):
        """A type over the given variables whose names the module can write."""
        choice = self.random.random()
        if given and choice < 0.35:
            return self.random.choice(given)
        if depth <= 0 or choice < 0.5:
            return self.random.choice([INT, CHAR, BOOL, INT, STRING, (UNIT,)])
        parts = [self.random_type(given, depth - 1) for _ in range(3)]
        if choice < 0.6:
            return (LIST, parts[0])
        if choice < 0.7:
            return pair(*parts[:self.random.choice([2, 2, 3])])
        if choice < 0.8:
            return (ARROW, parts[0], parts[1])
        known = [entity for _, entity in self.scope.clear("type") if entity.meaning is None]
        if not known:
            return parts[0]
        entity = self.random.choice(known)
        head = entity.key.removeprefix("Prelude.")
        return (head, *(self.random_type(given, depth - 2) for _ in entity.parameters))

    def type_text(self, kind, place=0, names=None):
        """The type as the module writes it, or None where a name for a part of it is missing."""
        names = {} if names is None else names
        missing = []

        def head_name(head):
            found = self.type_names(head)
            if not found:
                missing.append(head)
            return self.random.choice(found or ["Missing"])

        def variable_name(name):
            return names.setdefault(name, "abcdefghijklm"[len(names) % 13] + ("'" if len(names) > 12 else ""))

        text = self.by_synonym(kind, place, names) or shown(kind, head_name, variable_name, place)
        return None if missing else text

    def by_synonym(self, kind, place, names):
        """The type written by a synonym that stands for it, now and then."""
        if not self.synonyms or not self.chance(0.5):
            return None
        name, entity = self.random.choice(self.synonyms)
        values = {}
        if not match(entity.meaning, kind, set(entity.parameters), values):
            return None
        parts = [self.type_text(values[given], 2, names) if given in values else "()" for given in entity.parameters]
        if None in parts:
            return None
        self.feature("synonym in a type")
        if self.fault("type arity", 0.8):
            parts = parts[1:] if parts else ["()"]
        text = " ".join([name] + parts)
        return f"({text})" if parts and place > 1 else text

    # patterns

    def pattern(self, kind, bound, depth, place=2):
        """A pattern of the type, at place 2 an atomic one; what it binds is added to `bound`."""
        choice = self.random.random()
        if self.fault("constructor arity", 0.15) and self.constructors:
            name, entity = self.random.choice(self.constructors)
            return "(" + " ".join([name] + ["_"] * (entity.fields + self.random.choice([1, -1]) if entity.fields else 1)) + ")"
        if self.chance(0.03):
            return f"({self.pattern(kind, bound, depth, 0)})"
        if depth <= 0 or choice < 0.4:
            return self.variable_pattern(kind, bound)
        if choice < 0.48:
            self.feature("wildcard")
            return "_"
        if choice < 0.56:
            self.feature("as pattern")
            inner = self.pattern(kind, bound, depth - 1)
            name = self.variable_pattern(kind, bound)
            return inner if name == "_" else f"{name}@({inner})" if inner[0] == "~" else f"{name}@{inner}"
        if choice < 0.62:
            self.feature("lazy pattern")
            inner = self.pattern(kind, bound, depth - 1)
            return inner if inner[0] == "~" else "~" + inner
        return self.shape_pattern(kind, bound, depth, place)

    def variable_pattern(self, kind, bound):
        if bound and self.fault("non-linear", 0.5):
            return self.random.choice(sorted(bound))
        free = [name for name in NAMES if name not in bound]
        if self.chance(0.06):
            free = [name for name in ("f", "g", "map", "id") if name not in bound]
            self.feature("pattern variable with the name of another")
        if not free:
            return "_"
        name = self.random.choice(free)
        bound[name] = Entry(kind)
        return name

    def shape_pattern(self, kind, bound, depth, place):
        """A pattern that looks into a value of the type."""
        head = None if isinstance(kind, str) else kind[0]
        options = [make for wanted, make in ((INT, INTEGERS), (CHAR, CHARACTERS), (STRING, STRINGS)) if kind == wanted]
        if options and self.chance(0.6):
            self.feature("literal pattern")
            return self.random.choice(options[0])
        if head == LIST:
            return self.list_pattern(kind[1], bound, depth, place)
        if head == UNIT:
            return "()"
        if head is not None and is_tuple(head):
            self.feature("tuple pattern")
            parts = [self.pattern(part, bound, depth - 1, 0) for part in kind[1:]]
            if self.chance(0.15):
                text = f"{head} " + " ".join(part if self.is_atom(part) else f"({part})" for part in parts)
                return text if place < 2 else f"({text})"
            return "(" + ", ".join(parts) + ")"
        return self.constructor_pattern(kind, bound, depth, place)

    @staticmethod
    def is_atom(text):
        """Whether the text of a pattern is one lexeme or stands in brackets as a whole."""
        if text[0] not in "([":
            return " " not in text
        level = 0
        for place, mark in enumerate(text):
            level += (mark in "([") - (mark in ")]")
            if level == 0:
                return place == len(text) - 1
        return False

    def list_pattern(self, element, bound, depth, place):
        choice = self.random.random()
        if choice < 0.25:
            return "[]"
        if choice < 0.5:
            self.feature("list pattern")
            return "[" + ", ".join(self.pattern(element, bound, depth - 1, 0) for _ in range(self.random.choice([1, 2]))) + "]"
        self.feature("cons pattern")
        first, rest = self.pattern(element, bound, depth - 1, 1), self.pattern((LIST, element), bound, depth - 1, 0)
        text = f"{first} : {rest}"
        return text if place < 1 else f"({text})"

    def fitting_constructors(self, kind):
        """The constructors of the type in scope, with the types of their fields."""
        found = []
        for name, entity in self.constructors:
            fields, whole = split(entity.kind)
            values = {}
            if not isinstance(kind, str) and match(whole, kind, set(variables(whole)), values):
                found.append((name, [substitute(part, values) for part in fields]))
        return found

    def constructor_pattern(self, kind, bound, depth, place):
        fitting = self.fitting_constructors(kind)
        if not fitting:
            return self.variable_pattern(kind, bound)
        name, fields = self.random.choice(fitting)
        self.feature("constructor pattern")
        if "." in name:
            self.feature("qualified constructor in a pattern")
        if self.fault("unbound constructor", 0.4):
            name = "Nowhere"
        text = " ".join([name] + [self.pattern(part, bound, depth - 1) for part in fields])
        return text if not fields or place < 2 else f"({text})"

    def patterns(self, kinds, depth):
        """Patterns of a clause or lambda, and what they bind."""
        bound = {}
        texts = [self.pattern(kind, bound, depth) for kind in kinds]
        return texts, bound

    # expressions for a type

    def expression(self, kind, env, depth, place=0):
        """An expression of the type: at place 0 any, at 1 an operand, at 2 an argument."""
        if self.fault("wrong type", 0.08):
            kind = self.random.choice([INT, CHAR, (LIST, kind), (ARROW, kind, kind), (UNIT,)])
        if depth <= 0:
            return self.simple(kind, env, place)
        if self.chance(0.03):
            self.feature("parentheses")
            return f"({self.expression(kind, env, depth - 1)})"
        choice = self.random.random()
        if choice < 0.42:
            return self.application(kind, env, depth, place) or self.by_shape(kind, env, depth, place)
        if choice < 0.72:
            return self.by_shape(kind, env, depth, place)
        makers = [self.conditional, self.cases, self.let, self.annotated, self.redex]
        return self.random.choice(makers)(kind, env, depth, place)

    def candidates(self, kind, env, limit):
        """Variables that have the type when applied to at most `limit` arguments, with the types of these."""
        found = []
        for name, entry in env.items():
            for arguments, result in entry.shapes[:limit + 1]:
                values = {}
                if match(result, kind, entry.quantified, values):
                    found.append((name, arguments, values, entry.quantified))
        return found

    def application(self, kind, env, depth, place, limit=3):
        found = self.candidates(kind, env, limit)
        if not found or (max(env[each[0]].weight for each in found) < 1 and self.chance(0.85)):
            return None
        name, arguments, values, open_variables = self.random.choices(found, [env[each[0]].weight for each in found])[0]
        for missing in sorted(open_variables - set(values)):
            values[missing] = self.random_type([], 1)
        if "." in name:
            self.feature("qualified variable")
        parts = [self.expression(substitute(part, values), env, depth - 1, 2) for part in arguments]
        if self.fault("unbound variable", 0.2):
            name = self.random.choice(["nowhere", "Nowhere.id", "Prelude.nowhere"])
        if self.scope.ambiguous("var") and self.fault("ambiguous", 0.3):
            name = self.random.choice(self.scope.ambiguous("var"))
        if self.fault("extra argument", 0.15):
            parts.append("True" if "True" in dict(self.constructors) else "()")
        return self.placed(" ".join([name] + parts), 1 if parts else 2, place)

    @staticmethod
    def placed(text, level, place):
        return text if level >= place else f"({text})"

    def simple(self, kind, env, place):
        """A small expression."""
        found = self.application(kind, env, 1, place, 0) if self.chance(0.8) else None
        if found:
            return found
        literals = {INT: INTEGERS, CHAR: CHARACTERS, STRING: STRINGS}.get(kind)
        if literals:
            return self.random.choice(literals)
        head = None if isinstance(kind, str) else kind[0]
        if head == LIST:
            return "[]"
        if head == UNIT:
            return "()"
        if head is not None and is_tuple(head):
            return "(" + ", ".join(self.simple(part, env, 0) for part in kind[1:]) + ")"
        if head == ARROW:
            return self.lambda_(kind, env, 1, place)
        empty = [name for name, fields in self.fitting_constructors(kind) if not fields]
        if empty:
            return self.random.choice(empty)
        self.feature("let of itself")
        return "(let { r = r } in r)"

    def by_shape(self, kind, env, depth, place):
        """An expression whose form is that of values of the type."""
        head = None if isinstance(kind, str) else kind[0]
        if head == ARROW:
            return self.lambda_(kind, env, depth, place)
        if head == LIST and (kind != STRING or self.chance(0.5)):
            return self.list_(kind[1], env, depth, place)
        if head is not None and is_tuple(head):
            parts = [self.expression(part, env, depth - 1, 0) for part in kind[1:]]
            if self.chance(0.2):
                self.feature("tuple constructor")
                return self.placed(f"{head} " + " ".join(f"({part})" for part in parts), 1, place)
            self.feature("tuple")
            return "(" + ", ".join(parts) + ")"
        fitting = self.fitting_constructors(kind)
        if not fitting:
            return self.simple(kind, env, place)
        name, fields = self.random.choice(fitting)
        self.feature("constructor")
        parts = [self.expression(part, env, depth - 1, 2) for part in fields]
        return self.placed(" ".join([name] + parts), 1 if parts else 2, place)

    def lambda_(self, kind, env, depth, place):
        arguments, result = split(kind, self.random.choice([1, 1, 2]))
        texts, bound = self.patterns(arguments, min(depth - 1, 2))
        self.feature("lambda")
        body = self.expression(result, {**env, **bound}, depth - 1)
        return self.placed("\\ " + " ".join(texts) + " -> " + body, 0, place)

    def list_(self, element, env, depth, place):
        if self.chance(0.45):
            self.feature("list")
            count = self.random.choice([1, 2, 3])
            return "[" + ", ".join(self.expression(element, env, depth - 1) for _ in range(count)) + "]"
        first = self.expression(element, env, depth - 1, 1 if self.chance(0.5) else 2)
        rest = self.expression((LIST, element), env, depth - 1, 0 if self.chance(0.3) else 1)
        if self.chance(0.15):
            self.feature("cons constructor")
            return self.placed(f"(:) ({first}) ({rest})", 1, place)
        self.feature("cons")
        return self.placed(f"{first} : {rest}", 0, place)

    def conditional(self, kind, env, depth, place):
        self.feature("if")
        parts = [self.expression(part, env, depth - 1) for part in (BOOL, kind, kind)]
        return self.placed("if {} then {} else {}".format(*parts), 0, place)

    def cases(self, kind, env, depth, place):
        self.feature("case")
        given = self.random_type([], 1)
        inner = self.expression(given, env, depth - 1)
        alternatives = []
        for _ in range(self.random.choice([1, 2, 2, 3])):
            bound = {}
            pattern = self.pattern(given, bound, 2, 0)
            alternatives.append(pattern + self.right_side(kind, {**env, **bound}, depth - 1, "->"))
        return self.placed(f"case {inner} of {{ " + " ; ".join(alternatives) + " }", 1, place)

    def annotated(self, kind, env, depth, place):
        """An expression with a type, which must be closed, since its variables are new ones."""
        if variables(kind):
            return self.by_shape(kind, env, depth, place)
        general = self.random.choice([kind, kind, (ARROW, "a", "a")])
        text = self.type_text(general)
        if text is None:
            return self.by_shape(kind, env, depth, place)
        self.feature("annotation")
        if general is not kind:
            self.feature("polymorphic annotation")
            function_text = self.expression(general, env, 1, 1)
            return self.placed(f"({function_text} :: {text}) {self.expression(kind, env, depth - 1, 2)}", 1, place)
        if not isinstance(kind, str) and kind[0] == ARROW and self.chance(0.1):
            inner = split(kind)[1]
            return f"({self.lambda_(kind, env, 1, 0)} :: {self.type_text(inner) or UNIT})"
        return f"({self.expression(kind, env, depth - 1, 1)} :: {text})"

    def redex(self, kind, env, depth, place):
        """A lambda that is applied at once."""
        given = self.random_type([], 1)
        return self.placed(f"{self.lambda_(function([given], kind), env, depth - 1, 2)} {self.expression(given, env, depth - 1, 2)}", 1, place)

    def right_side(self, kind, env, depth, mark="="):
        """What follows a clause's patterns: the expression or guards, and perhaps a `where`."""
        where = ""
        if depth > 1 and self.chance(0.2):
            self.feature("where")
            texts, env = self.local(env, self.random.choice([1, 1, 2]), depth - 1)
            where = " where { " + " ; ".join(texts) + " }"
        if self.chance(0.75) or depth <= 0:
            return f" {mark} {self.expression(kind, env, depth)}{where}"
        self.feature("guard")
        parts = []
        for _ in range(self.random.choice([1, 2])):
            parts.append(f" | {self.expression(BOOL, env, depth - 1)} {mark} {self.expression(kind, env, depth - 1)}")
        return "".join(parts) + where

    def let(self, kind, env, depth, place):
        self.feature("let")
        texts, inner = self.local(env, self.random.choice([1, 1, 2, 3]), depth - 1)
        return self.placed("let { " + self.random.choice([" ; ", " ; ", " ;; "]).join(texts) + " } in " + self.expression(kind, inner, depth - 1), 0, place)
