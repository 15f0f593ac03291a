"""Random declaration lists: functions, pattern bindings and signatures, made for types or wildly."""
import re
from dataclasses import dataclass, field

from .terms import INTEGERS, Entry, Terms, quantified
from .types import ARROW, BOOL, CHAR, INT, LIST, function, pair, split, substitute, variables

LOCAL_NAMES = ["f", "g", "h", "k", "go", "loop", "step", "one", "two", "map", "id", "x", "y"]
WILD_PARTS = ["variable"] * 5 + ["apply"] * 8 + ["lambda"] * 4 + ["let"] * 4 + ["tuple", "tuple", "list", "cons", "case", "if", "literal", "annotated"]


@dataclass
class Binding:
    """A planned function: its type, and that of its signature where it has one."""
    name: str
    kind: object
    entry: object = None
    signature: str = None
    lines: list = field(default_factory=list)


class Declarations(Terms):
    """Makes whole declaration lists."""

    def binding_type(self, given):
        """The type of a new binding over the given variables."""
        count = self.random.choice([0, 1, 1, 2, 2, 3])
        return function([self.random_type(given, 1) for _ in range(count)], self.random_type(given, 1))

    def plan_group(self, names, outer):
        """The bindings of one group; those without signatures share their type variables."""
        given = [self.fresh() for _ in range(self.random.choice([0, 1, 2, 2, 3]))]
        group = []
        for name in names:
            binding = Binding(name, self.binding_type(given + outer))
            if self.chance(0.4):
                self.sign(binding, outer)
            group.append(binding)
        if len(group) > 1 and group[0].signature and not group[1].signature and self.chance(0.3):
            first, second = group[:2]
            second.kind, second.entry = first.kind, first.entry
            first.signature = f"{second.name}, {first.signature}"
            self.feature("signature of two variables")
        return group

    def sign(self, binding, outer):
        """Gives a binding a signature if its type can be written: the type itself, or a special case of it."""
        if any(name in outer for name in variables(binding.kind)):
            return
        shown = binding.kind
        own = variables(shown)
        if own and self.chance(0.2):
            self.feature("signature for less than the principal type")
            shown = substitute(shown, {own[0]: self.random.choice([INT, own[-1]])})
        entry = quantified(shown)
        if self.fault("signature too general", 0.5):
            arguments, _ = split(shown)
            shown = function(arguments, "new")
        if self.fault("type arity", 0.3):
            text = f"{self.random.choice([name for name, _ in self.scope.clear('type')] or ['T'])} () Int () ()"
        elif self.fault("unbound type", 0.4):
            text = "Nowhere"
        else:
            text = self.type_text(shown)
        if text is not None:
            binding.entry, binding.signature = entry, f"{binding.name} :: {text}"
            self.feature("signature with variables" if own else "signature")

    def functions(self, group, env, depth):
        """Makes the clauses of a group."""
        for each in group:
            each.lines = self.clauses(each, env, depth)
            if any(re.search(rf"(?<![\w'.]){each.name}(?![\w'])", line[len(each.name) + 2:]) for line in each.lines):
                self.feature("recursion through a signature" if each.entry else "recursion without a signature")
        if len(group) > 1:
            self.feature("group of several functions")

    def clauses(self, binding, env, depth):
        arguments, _ = split(binding.kind)
        count = self.random.choice([len(arguments)] * 3 + list(range(len(arguments) + 1)))
        taken, result = split(binding.kind, count)
        lines = []
        for number in range(self.random.choice([1, 1, 2, 3]) if count else 1):
            given = taken
            if number and self.fault("clause length", 0.6):
                given = taken[:-1] if len(taken) > 1 else taken + taken
            texts, bound = self.patterns(given, 2)
            lines.append(" ".join([binding.name] + texts) + self.right_side(result, {**env, **bound}, depth))
        if len(lines) > 1:
            self.feature("several clauses")
        if not count and self.chance(0.1):
            self.feature("variable in parentheses")
            return [f"({binding.name})" + lines[0][len(binding.name):]]
        return lines

    def pattern_binding(self, env, depth, taken, outer):
        """A binding of a pattern, with what it binds, or nothing."""
        given = [self.fresh() for _ in range(self.random.choice([0, 1, 2]))]
        parts = [self.random_type(given + outer, 1) for _ in range(self.random.choice([2, 2, 3]))]
        kind = self.random.choice([pair(*parts), pair(*parts), (LIST, parts[0]), self.random_type(given + outer, 2)])
        bound = {}
        text = self.pattern(kind, bound, 3, 0)
        if set(bound) & set(taken) or text in bound:
            return None, {}
        self.feature("pattern binding")
        if any(variables(entry.kind) for entry in bound.values()):
            self.feature("polymorphic pattern binding")
        inner = env
        if self.chance(0.3):
            self.feature("pattern binding of itself")
            inner = {**env, **bound}
        return text + self.right_side(kind, inner, depth), bound

    @staticmethod
    def outer_variables(env):
        """Variables of types that are fixed outside a list."""
        found = []
        for entry in env.values():
            if entry.kind is not None and not entry.quantified:
                variables(entry.kind, found)
        return found[-3:]

    def local(self, env, count, depth):
        """A `let` or `where`: its declarations, and what is known behind them."""
        outer = self.outer_variables(env) if self.chance(0.5) else []
        fixed = self.outer_variables(env)
        names = self.random.sample(LOCAL_NAMES, count)
        texts, known = self.groups(self.split_names(names), env, depth, outer, fixed)
        if outer:
            self.feature("local binding with a type variable from outside")
        return texts, {**env, **known}

    def split_names(self, names):
        groups = []
        while names:
            count = self.random.choice([1, 1, 1, 2, 3])
            groups.append(names[:count])
            names = names[count:]
        return groups

    def groups(self, names, env, depth, outer, fixed, written=lambda name: [name]):
        """Declarations for groups of names, in some order, and what is known of them; `written` tells how a name is referred to."""
        planned = [self.plan_group(group, outer) for group in names]
        known = {each.name: each.entry or Entry(None) for group in planned for each in group}
        pieces = []

        def inside(more):
            every = {**known, **more}
            return {**env, **{other: every[name] for name in every for other in written(name)}}

        for group in planned:
            if len(group) == 1 and not group[0].signature and self.chance(0.25):
                text, bound = self.pattern_binding(inside({}), depth, known, outer)
                if text:
                    known.update({name: quantified(entry.kind, fixed) for name, entry in bound.items()})
                    pieces.append([text])
            self.functions(group, inside({each.name: each.entry or Entry(each.kind) for each in group}), depth)
            known.update({each.name: each.entry or quantified(each.kind, fixed) for each in group})
            pieces += [each.lines for each in group]
            pieces += [[each.signature] for each in group if each.signature]
        self.list_faults(planned, pieces)
        self.random.shuffle(pieces)
        return [line for piece in pieces for line in piece], known

    def list_faults(self, planned, pieces):
        """Faults that a declaration list can have as a list."""
        every = [each for group in planned for each in group]
        some = self.random.choice(every)
        if self.fault("duplicate binding"):
            pieces.append([f"{some.name} = 1"])
        if self.fault("signature without binding"):
            pieces.append(["lost :: Int"])
        signed = [each for each in every if each.signature]
        if signed and self.fault("duplicate signature", 0.6):
            pieces.append([signed[0].signature])
        if signed and self.fault("pattern binding beside a signature", 0.6):
            pieces.append([f"({signed[0].name}, other) = (1, 2)"])

    # wild ones

    def wild_list(self, names, env, depth):
        """Declarations without a plan of types."""
        inner = {**env, **{name: Entry(None) for name in names}}
        texts = []
        for name in names:
            count = self.random.choice([0, 1, 1, 2])
            for _ in range(self.random.choice([1, 1, 1, 1, 2]) if count else 1):
                bound = {}
                patterns = [self.wild_pattern(bound, 1) for _ in range(count)]
                texts.append(" ".join([name] + patterns) + " = " + self.wild_term({**inner, **bound}, depth))
        self.feature("wild declarations")
        return texts, inner

    def wild_pattern(self, bound, depth):
        choice = self.random.random()
        if depth <= 0 or choice < 0.8:
            return self.variable_pattern(None, bound)
        if choice < 0.95:
            shape = "({}, {})" if choice < 0.9 else "({} : {})"
            return shape.format(*(self.wild_pattern(bound, depth - 1) for _ in range(2)))
        name, entity = self.random.choice(self.constructors or [("()", None)])
        parts = [self.wild_pattern(bound, depth - 1) for _ in range(entity.fields if entity else 0)]
        return "(" + " ".join([name] + parts) + ")" if parts else name

    def wild_term(self, env, depth, place=0):
        """An expression without a plan of types, over a few of the known names."""
        part = self.random.choice(WILD_PARTS) if depth > 0 else self.random.choice(["variable"] * 6 + ["literal"])
        if part == "variable":
            return self.wild_variable(env)
        if part == "literal":
            return self.random.choice(INTEGERS[:3] + ["'a'", '"a"', "[]", "()"])
        if part == "lambda":
            bound = {}
            patterns = [self.wild_pattern(bound, 1)]
            return self.placed("\\ " + " ".join(patterns) + " -> " + self.wild_term({**env, **bound}, depth - 1), 0, place)
        if part == "let":
            names = self.random.sample(LOCAL_NAMES[:5], self.random.choice([1, 1, 2]))
            texts, inner = self.wild_list(names, env, depth - 1)
            return self.placed("let { " + " ; ".join(texts) + " } in " + self.wild_term(inner, depth - 1), 0, place)
        if part == "case":
            bound = {}
            pattern = self.wild_pattern(bound, 2)
            return self.placed(f"case {self.wild_term(env, depth - 1)} of {{ {pattern} -> {self.wild_term({**env, **bound}, depth - 1)} }}", 1, place)
        return self.wild_shape(part, env, depth, place)

    def wild_shape(self, part, env, depth, place):
        if part == "annotated":
            text = self.type_text(self.random.choice([INT, (ARROW, "a", "a"), CHAR, BOOL])) or "()"
            return f"({self.wild_term(env, depth - 1)} :: {text})"
        if part == "apply":
            head = self.wild_variable(env) if self.chance(0.8) else f"(\\ x -> {self.wild_term({**env, 'x': Entry(None)}, depth - 1)})"
            inner = [self.wild_term(env, depth - 1, 2) for _ in range(self.random.choice([1, 1, 2]))]
            return self.placed(" ".join([head, *inner]), 1, place)
        inner = [self.wild_term(env, depth - 1, 1 if part == "cons" else 0) for _ in range(3)]
        if part == "if":
            return self.placed("if {} then {} else {}".format(*inner), 0, place)
        if part == "cons":
            return self.placed("{} : {}".format(*inner), 0, place)
        return ("[{}, {}]" if part == "list" else "({}, {})").format(*inner)

    def wild_variable(self, env):
        """Mostly a variable that was bound near by."""
        local = [name for name, entry in env.items() if entry.kind is None]
        if local and self.chance(0.8):
            return self.random.choice(local[-6:])
        near = [name for name, entry in env.items() if entry.weight >= 2] + [name for name, entity in self.constructors if "." not in name]
        return self.random.choice(near or ["()"])
