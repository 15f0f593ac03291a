"""Random sets of modules: imports, exports, data types and declarations."""
import re

from .declarations import Declarations
from .prelude import entities
from .terms import Entry, quantified
from .types import UNIT, Constructor, Scope, TypeEntity, Value, bare, function

TOP_NAMES = ["f", "g", "h", "k", "p", "q", "swap", "twice", "size", "make", "run'", "_x", "map", "id", "length", "not", "qualified"]
TYPE_NAMES = ["T", "U", "V", "W", "Tree", "Pair", "Maybe", "String"]
CONSTRUCTOR_NAMES = ["A", "B", "C", "D", "Leaf", "Node", "T", "U", "Just", "MkPair", "E'"]
SYNONYM_NAMES = ["S", "R", "Name", "Fun", "U", "String"]
ALIASES = ["Q", "R", "N.M", "Prelude"]
SPACES = ("type", "con", "var")

RESERVED = set("case class data default deriving do else if import in infix infixl infixr instance let module newtype of then type where".split())

# many modules have one of these; the maker makes it at a place where it can
FAULTS = ["another name"] * 6 + [
    "unbound variable", "unbound constructor", "unbound type", "ambiguous", "wrong type", "wrong type", "extra argument", "clause length",
    "constructor arity", "type arity", "recursive synonym", "repeated parameter", "unbound type variable", "duplicate binding",
    "duplicate signature", "duplicate type", "duplicate constructor", "signature without binding", "non-linear", "signature too general",
    "pattern binding beside a signature", "import of what isn't exported", "import of a constructor without its type",
    "import of a constructor of another type", "export of an unbound name", "export clash", "export of a module that isn't imported",
    "export of an ambiguous name", "export of a constructor of another type",
]


class Exports:
    """What a module exports: by namespace a list of entities, each name once."""

    def __init__(self):
        self.lists = {space: [] for space in SPACES}

    def add(self, space, entity):
        if all(bare(other.key) != bare(entity.key) for other in self.lists[space]):
            self.lists[space].append(entity)

    def constructors(self, entity):
        return [each for each in self.lists["con"] if each.parent == entity.key]


class Module(Declarations):
    """One module that is being made."""

    def __init__(self, random, name, others, faults, wild):
        super().__init__(random, Scope(), faults)
        self.name, self.others, self.wild = name, others, wild
        self.qualifiers, self.lines, self.own = [], [], Exports()
        self.exports = Exports()

    # imports

    def make_imports(self):
        names = [name for name in self.others if name != "Prelude"]
        chosen = self.random.sample(names, self.random.randint(self.chance(0.85) and len(names) > 0, min(3, len(names))))
        if chosen and self.chance(0.25):
            chosen.append(self.random.choice(chosen))
            self.feature("several imports of one module")
        if self.chance(0.3):
            chosen += ["Prelude"] * self.random.choice([1, 1, 2])
            self.feature("import of Prelude")
        self.random.shuffle(chosen)
        for name in chosen:
            self.make_import(name)
        if "Prelude" not in chosen:
            self.bring(self.others["Prelude"].lists, "Prelude", True)
            self.qualifiers.append("Prelude")

    def make_import(self, name):
        exports = self.others[name]
        is_qualified, text, qualifier = self.chance(0.2), name, name
        if self.chance(0.35):
            qualifier = self.random.choice(self.qualifiers or ALIASES) if self.chance(0.5) else self.random.choice(ALIASES)
            self.feature("as with an alias of another" if qualifier in self.qualifiers else "as")
            text += f" as {qualifier}"
        kept = exports.lists
        choice = self.random.random()
        if choice < 0.25 or {"import of what isn't exported", "import of a constructor without its type",
                             "import of a constructor of another type"} & set(self.faults):
            items, kept = self.listed(exports)
            text += f" ({items})"
            self.feature("import list")
        elif choice < 0.5:
            items, kept = self.hidden(exports)
            text += f" hiding ({items})"
            self.feature("hiding")
        if is_qualified:
            self.feature("qualified import")
        self.bring(kept, qualifier, not is_qualified)
        self.qualifiers.append(qualifier)
        self.lines.append(f"import {'qualified ' if is_qualified else ''}{text}")

    def bring(self, lists, qualifier, both):
        for space in SPACES:
            for entity in lists[space]:
                self.scope.bring(space, entity, qualifier, both)

    def listed(self, exports):
        """A list of names to import, with what it takes."""
        kept = Exports()
        items = []
        for entity in self.some(exports.lists["var"], 8):
            kept.add("var", entity)
            items.append(bare(entity.key))
        for entity in self.some(exports.lists["type"], 6):
            kept.add("type", entity)
            items.append(bare(entity.key) + self.subordinates(exports.constructors(entity), kept, "import"))
        constructors = exports.lists["con"]
        if self.fault("import of what isn't exported", 1):
            items.append(self.random.choice(["nothing", "Nothing'", "T'"]))
        if constructors and self.fault("import of a constructor without its type", 1):
            items.append(bare(self.random.choice(constructors).key))
        if exports.lists["type"] and self.fault("import of a constructor of another type", 1):
            items.append(bare(self.random.choice(exports.lists["type"]).key) + "(" + self.random.choice(CONSTRUCTOR_NAMES) + ")")
        self.random.shuffle(items)
        return ", ".join(items) + ("," if items and self.chance(0.1) else ""), kept.lists

    def some(self, entities_, limit):
        return self.random.sample(entities_, self.random.randint(0, min(limit, len(entities_))))

    def subordinates(self, constructors, kept, where):
        """What stands behind a type in a list; the constructors that it takes are added to `kept`."""
        choice = self.random.random()
        if choice < 0.5:
            for each in constructors:
                kept.add("con", each)
            self.feature(f"T(..) in an {where} list")
            return "(..)"
        if choice < 0.75:
            self.feature(f"T(c) in an {where} list")
            taken = self.some(constructors, 3)
            for each in taken:
                kept.add("con", each)
            return "(" + ", ".join(bare(each.key) for each in taken) + ")"
        return ""

    def hidden(self, exports):
        """A hiding list, with what is left. It never has `T(c)` with a c that isn't T's: see `known` in the comparison."""
        gone = Exports()
        items = []
        for entity in self.some(exports.lists["var"], 6):
            gone.add("var", entity)
            items.append(bare(entity.key))
        for entity in self.some(exports.lists["type"], 3):
            gone.lists["type"].append(entity)
            behind = self.subordinates(exports.constructors(entity), gone, "hiding")
            items.append(bare(entity.key) + behind)
            if not behind:
                gone.lists["con"] += [each for each in exports.lists["con"] if bare(each.key) == bare(entity.key)]
        for entity in self.some(exports.lists["con"], 2):
            for space in ("con", "type"):
                gone.lists[space] += [each for each in exports.lists[space] if bare(each.key) == bare(entity.key)]
            items.append(bare(entity.key))
            self.feature("constructor in a hiding list")
        if self.chance(0.1):
            items.append(self.random.choice(["nowhere", "Nowhere"]))
            self.feature("hiding what isn't exported")
        keys = {space: {each.key for each in gone.lists[space]} for space in SPACES}
        return ", ".join(items), {space: [each for each in exports.lists[space] if each.key not in keys[space]] for space in SPACES}

    # data types and synonyms

    def define(self, space, entity):
        self.own.lists[space].append(entity)
        self.scope.bring(space, entity, self.name, True)

    def make_types(self):
        """Declares types: the names first, so that they may refer to each other."""
        names = self.random.sample(TYPE_NAMES if self.chance(0.2) else TYPE_NAMES[:6], self.random.choice([0, 1, 1, 2, 3]))
        planned = []
        for name in names:
            entity = TypeEntity(f"{self.name}.{name}", ["a", "b", "c"][:self.random.choice([0, 0, 1, 1, 2])])
            self.define("type", entity)
            planned.append(entity)
        free = [name for name in CONSTRUCTOR_NAMES if name != "Just" or self.chance(0.2)]
        for entity in planned:
            free = self.make_data(entity, free)
        for name in self.random.sample([each for each in SYNONYM_NAMES if each not in names], self.random.choice([0, 0, 1, 2])):
            self.make_synonym(name)
        if names and self.fault("duplicate type", 1):
            self.lines.append(f"data {names[0]} = Other")

    def make_data(self, entity, free):
        """One type; answers the names that are left for constructors."""
        is_newtype = self.chance(0.25)
        count = 1 if is_newtype else self.random.choice([1, 2, 2, 3])
        head = (entity.key, *entity.parameters)
        parts, every = [], []
        for name in self.random.sample(free, min(count, len(free))):
            fields, texts = [], []
            for _ in range(1 if is_newtype else self.random.choice([0, 0, 1, 2, 3])):
                kind = self.random_type(entity.parameters, 1)
                text = self.field_text(kind, entity.parameters)
                fields.append(kind if text else (UNIT,))
                texts.append(text or UNIT)
            self.define("con", Constructor(f"{self.name}.{name}", entity.key, function(fields, head), len(fields)))
            parts.append(" ".join([name] + texts))
            every += texts
            if self.fault("duplicate constructor", 0.5) and not is_newtype:
                parts.append(name)
        parameters = entity.parameters + (["a"] if "a" in entity.parameters and self.fault("repeated parameter", 0.7) else [])
        self.feature("newtype" if is_newtype else "data")
        if any(bare(entity.key) in re.findall(r"\w+", text) for text in every):
            self.feature("recursive data")
        self.lines.append(f"{'newtype' if is_newtype else 'data'} {' '.join([bare(entity.key)] + parameters)} = {' | '.join(parts)}")
        return [name for name in free if name not in [part.split()[0] for part in parts]]

    def field_text(self, kind, parameters):
        if self.fault("unbound type variable", 0.5):
            return "other"
        if self.fault("unbound type", 0.3):
            return "Nowhere"
        if self.fault("type arity", 0.3):
            return "(" + self.random.choice([name for name, _ in self.scope.clear("type")]) + " () () ())"
        names = {name: name for name in parameters}
        return self.type_text(kind, 2, names)

    def make_synonym(self, name):
        parameters = ["a", "b"][:self.random.choice([0, 1, 1, 2])]
        meaning = self.random_type(parameters, 2)
        names = {each: each for each in parameters}
        self.synonyms = [(bare(each.key), each) for each in self.own.lists["type"] if each.meaning is not None]
        self.synonyms = [pair for pair in self.synonyms if len(self.scope.tables["type"][pair[0]]) == 1]
        text = self.type_text(meaning, 0, names)
        if text is None:
            meaning, text = (UNIT,), UNIT
        if self.fault("recursive synonym", 0.8):
            text = f"[{name}" + " ()" * len(parameters) + "]"
        self.define("type", TypeEntity(f"{self.name}.{name}", parameters, [], meaning))
        self.feature("synonym")
        self.lines.append(" ".join(["type", name] + parameters) + " = " + text)

    # variables

    def environment(self):
        """What is known of imported variables. Those of Prelude are seldom chosen, and its bottoms hardly ever."""
        env = {}
        for name, entity in self.scope.clear("var"):
            if entity.kind is not None:
                share = 8 if not entity.key.startswith("Prelude.") else 0.1 if bare(name) in ("undefined", "error") else 2
                entry = quantified(entity.kind)
                env[name] = Entry(entry.kind, entry.quantified, share / 6 if "." in name else share)
        return env

    def written(self, name):
        """How the module can refer to a variable of its own: a pattern's variable isn't in the scope's tables yet."""
        table, whole = self.scope.tables["var"], f"{self.name}.{name}"
        if whole not in table:
            return [whole if name in table else name]
        return [each for each in (name, whole) if len(table[each]) == 1]

    def make_values(self):
        count = self.random.choice([1, 1, 2, 3] if self.wild else [1, 2, 3, 4, 5, 6])
        names = self.random.sample(TOP_NAMES if self.chance(0.3) else TOP_NAMES[:12], count)
        for name in names:
            self.define("var", Value(f"{self.name}.{name}", None))
        self.ready()
        env = self.environment()
        if self.wild:
            lines, known = self.wild_list(names, env, self.random.choice([1, 2, 2, 3]))
        else:
            lines, known = self.groups(self.split_names(names), env, self.random.choice([2, 3, 3]), [], [], self.written)
        for name, entry in known.items():
            if name not in env and name not in names:
                self.define("var", Value(f"{self.name}.{name}", entry.kind))
        for entity in self.own.lists["var"]:
            found = known.get(bare(entity.key))
            entity.kind = found.kind if found else None
        self.lines += lines

    # exports

    def make_exports(self):
        """The export list's text, and what the module exports."""
        if not any("export" in fault and "import" not in fault for fault in self.faults) and self.chance(0.5):
            self.exports = self.own
            return ""
        items = []
        for _ in range(self.random.choice([0, 1, 2, 3, 4, 5])):
            items.append(self.export_item())
        items += self.export_faults()
        self.feature("export list")
        self.random.shuffle(items)
        return " (" + ", ".join(items) + ("," if items and self.chance(0.1) else "") + ")"

    def clashes(self, space, entity):
        return any(bare(each.key) == bare(entity.key) and each.key != entity.key for each in self.exports.lists[space])

    def export_item(self):
        """One export that clashes with none so far; the module's own name where the choice would clash."""
        choice = self.random.random()
        if choice < 0.45:
            names = [(name, entity) for name, entity in self.scope.clear("var") if entity.key.startswith(self.name) or self.chance(0.1)]
            names = [(name, entity) for name, entity in names if not self.clashes("var", entity)]
            if names:
                name, entity = self.random.choice(names)
                self.exports.add("var", entity)
                self.feature("export of a variable" if entity.key.startswith(self.name + ".") else "export of an imported variable")
                return name
        if choice < 0.8:
            names = [each for each in self.scope.clear("type") if not self.clashes("type", each[1])]
            if names:
                return self.export_type(*self.random.choice(names))
        return self.export_module(self.random.choice([self.name] + [each for each in self.qualifiers if each != "Prelude" or self.chance(0.1)]))

    def export_type(self, name, entity):
        in_scope = {each.key: each for found in self.scope.tables["con"].values() for each in found if each.parent == entity.key}
        if any(self.clashes("con", each) for each in in_scope.values()):
            return f"module {self.name}"
        self.exports.add("type", entity)
        text = name + self.subordinates(list(in_scope.values()), self.exports, "export")
        if not entity.key.startswith(self.name + "."):
            self.feature("export of an imported type")
        return text

    def export_module(self, qualifier):
        """`module N` exports what is in scope bare and as `N.e`."""
        taken = []
        for space in SPACES:
            table = self.scope.tables[space]
            for name, found in table.items():
                if name.startswith(qualifier + ".") and "." not in name[len(qualifier) + 1:]:
                    taken += [(space, each) for each in found if each in table.get(name[len(qualifier) + 1:], [])]
        if any(self.clashes(*each) for each in taken) and not self.chance(0.1):
            return f"module {self.name}"
        for space, entity in taken:
            self.exports.add(space, entity)
        self.feature("export of the own module" if qualifier == self.name else "export of an imported module")
        return f"module {qualifier}"

    def export_faults(self):
        items = []
        if self.fault("export of an unbound name", 1):
            items.append(self.random.choice(["nowhere", "Nowhere", "Nowhere.x", "Q.f"]))
        if self.fault("export of a module that isn't imported", 1):
            items.append("module Nowhere")
        if self.fault("export clash", 1):
            items += [f"module {self.name}"] + [f"module {each}" for each in self.qualifiers]
        ambiguous = self.scope.ambiguous("var") + self.scope.ambiguous("type")
        if ambiguous and self.fault("export of an ambiguous name", 1):
            items.append(self.random.choice(ambiguous))
        types = self.scope.clear("type")
        if types and self.fault("export of a constructor of another type", 1):
            items.append(self.random.choice(types)[0] + "(" + self.random.choice(CONSTRUCTOR_NAMES) + ")")
        return items

    def rename(self):
        """Writes another name of the module somewhere: often a fault, and one that nobody has thought of."""
        place = self.random.randrange(len(self.lines))
        names = r"(?<![\w'.\"\\])(?:[a-z]|[A-Z])[\w']*(?![\w'.\"])"
        known = [each for line in self.lines for each in re.findall(names, line) if each not in RESERVED]
        found = [each for each in re.finditer(names, self.lines[place]) if each[0] not in RESERVED]
        if not found:
            return
        old = self.random.choice(found)
        line = self.lines[place]
        is_signed = re.match(r"[\w', ]+ :: ", line)
        others = [each for each in known if each[0].isupper() == old[0][0].isupper()]
        if not is_signed or old.start() >= is_signed.end():
            self.lines[place] = line[:old.start()] + self.random.choice(others) + line[old.end():]

    def make(self):
        """The module's text: each declaration stands on a line of its own."""
        self.make_imports()
        imports, self.lines = self.lines, []
        if not self.wild or self.chance(0.5):
            self.make_types()
        self.make_values()
        if self.fault("another name", 1):
            self.rename()
        return "\n".join([f"module {self.name}{self.make_exports()} where {{"] + [line + ";" for line in imports + self.lines] + ["}", ""])


class RandomSet:
    """Modules of one set, each of which may import those before."""

    def __init__(self, random, number):
        prelude = Exports()
        prelude.lists = entities()
        known = {"Prelude": prelude}
        self.texts, self.features = {}, {}
        wild_share = random.choice([0, 0, 0.2, 1])
        for place in range(random.choice([1, 2, 2, 3, 3, 4])):
            name = ("Part." if random.random() < 0.1 else "") + f"M{number}{'ABCD'[place]}"
            wild = random.random() < wild_share
            faults = [random.choice(FAULTS)] if random.random() < 0.25 + 0.1 * place and not wild else []
            module = Module(random, name, {"Prelude": prelude} if wild_share == 1 else known, faults, wild)
            self.texts[name] = module.make()
            self.features[name] = module.features
            known[name] = module.exports
