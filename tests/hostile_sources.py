"""Random sources that no friend would write, five kinds of them. Each is a list of files, with what the program must answer where that is known."""
import re

from haskell_sets.modules import RandomSet

# docs/LANGUAGE.md: bytes of a source, brackets that are open at once, modules of a set, components of a tuple
BYTES, BRACKETS, MODULES, COMPONENTS = 1_048_576, 200, 4_096, 15

RESERVED = "case class data default deriving do else if import in infix infixl infixr instance let module newtype of then type where _".split()
MARKS = ["(", ")", "[", "]", "{", "}", ",", ";", "..", ":", "::", "=", "\\", "|", "<-", "->", "@", "~", "=>"]
NAMES = ["x", "y", "f", "as", "qualified", "hiding", "A", "B", "T", "Just", "Nothing", "True", "Int", "Maybe", "A.x", "A.T", "map", "Prelude", "Prelude.id"]
LITERALS = ["0", "1", "0xff", "0o17", "1.5", "'c'", "'\\n'", "'\\1114111'", "'\\1114112'", '"s"', '"a\\ \\b"', '"\\&"', '"', "'", "{-", "-}", "--", "`", "+", "-"]
WORDS = RESERVED + MARKS + NAMES + LITERALS
TOKEN = re.compile(r"\s+|[A-Za-z_][A-Za-z0-9_'.]*|[0-9]+|\"[^\"\n]*\"|'[^'\n]*'|[!#$%&*+./<=>?@\\^|~:-]+|.", re.S)

# what stands before the nesting, one level of it, what is innermost, the close of each level, what follows, and the brackets of a level
NESTS = {
    "lambdas": ("x = ", "\\x -> ", "1", "", "", 0),
    "lets": ("x = ", "let { } in ", "1", "", "", 0),
    "bindings of lets": ("x = ", "let { y = ", "1", " } in y", "", 1),
    "names of lets": ("x = ", "let { y = 1 } in ", "y", "", "", 0),
    "conditions": ("x = ", "if ", "True", " then True else True", "", 0),
    "branches": ("x = ", "if True then ", "1", " else 1", "", 0),
    "branches behind else": ("x = ", "if True then 1 else ", "1", "", "", 0),
    "what a case looks at": ("x = ", "case ", "1", " of { y -> y }", "", 0),
    "alternatives": ("x = ", "case 1 of { y -> ", "1", " }", "", 1),
    "guards": ("x = ", "case 1 of { y | ", "True", " -> True }", "", 1),
    "parentheses": ("x = ", "(", "1", ")", "", 1),
    "tuples": ("x = ", "(1, ", "1", ")", "", 1),
    "lists": ("x = ", "[", "1", "]", "", 1),
    "declared types": ("x = ", "(", "1", " :: Int)", "", 1),
    "arguments": ("x = id", " id", "", "", "", 0),
    "functions in parentheses": ("x = ", "(id ", "1", ")", "", 1),
    "colons": ("x = ", "1 : ", "[]", "", "", 0),
    "wheres": ("x = y ", "where { y = z ; z = y ", "", "}", "", 1),
    "function types": ("x :: ", "Int -> ", "Int", "", " ; x = x", 0),
    "function types on the left": ("x :: ", "(", "Int", " -> Int)", " ; x = x", 1),
    "tuple types": ("x :: ", "(Int, ", "Int", ")", " ; x = x", 1),
    "list types": ("x :: ", "[", "Int", "]", " ; x = x", 1),
    "type arguments": ("x :: ", "Maybe (", "Int", ")", " ; x = x", 1),
    "lazy patterns": ("f ", "~ ", "x", "", " = 1", 0),
    "bound patterns": ("f ", "y@", "x", "", " = 1", 0),
    "pattern parentheses": ("f ", "(", "x", ")", " = 1", 1),
    "pattern tuples": ("f ", "(_, ", "x", ")", " = 1", 1),
    "pattern lists": ("f ", "[", "x", "]", " = 1", 1),
    "pattern colons": ("f (", "_ : ", "x", "", ") = 1", 0),
    "constructor patterns": ("f ", "(Just ", "x", ")", " = 1", 1),
    "binding patterns": ("", "~ ", "x", "", " = 1", 0),
    "nested comments": ("x = 1 ", "{-", "", "-}", "", 0),
}


def module(text, name="A"):
    return f"module {name} where {{ {text} }}"


# ---- mutations of good sets

def changed_bytes(random, data):
    data = bytearray(data)
    for _ in range(random.randint(1, 4)):
        at = random.randrange(len(data) + 1)
        how = random.randrange(5)
        if how == 0:
            data[at:at] = bytes([random.choice([random.randrange(256), ord(random.choice("(){}[],;=\\\"'-.:|_"))])])
        elif how == 1:
            del data[at:at + random.randint(1, 5)]
        elif how == 2:
            data[at:at + 1] = bytes([random.randrange(256)])
        elif how == 3:
            data[at:at] = data[at:at + random.randint(1, 40)]
        else:
            del data[at:]
    return bytes(data)


def changed_parts(random, parts, more):
    """Parts of a text, some of them gone, twice, exchanged, moved or others."""
    parts = list(parts) or [""]
    for _ in range(random.choice([1, 1, 1, 2, 4])):
        at, other = random.randrange(len(parts)), random.randrange(len(parts))
        how = random.randrange(5)
        if how == 0 and len(parts) > 1:
            del parts[at]
        elif how == 1:
            parts.insert(at, parts[other])
        elif how == 2:
            parts[at], parts[other] = parts[other], parts[at]
        elif how == 3:
            parts[at] = random.choice(more)
        else:
            parts.insert(at, random.choice(more))
    return parts


def class_of(token):
    """The tokens that may stand for one another without a syntax fault, roughly."""
    return "name" if token[0].islower() and token not in RESERVED else "constructor" if token[0].isupper() else "literal" if token[0] in "0123456789'\"" else token


def changed_names(random, text):
    """The text with a few names and literals in the place of others of it."""
    tokens = TOKEN.findall(text)
    places = [at for at, token in enumerate(tokens) if class_of(token) in ("name", "constructor", "literal")]
    for _ in range(random.randint(1, 3) if places else 0):
        at = random.choice(places)
        tokens[at] = random.choice([tokens[other] for other in places if class_of(tokens[other]) == class_of(tokens[at])])
    return "".join(tokens)


def mutated(random, number):
    texts = list(RandomSet(random, number).texts.values())
    for _ in range(random.randint(1, 2)):
        at = random.randrange(len(texts))
        how = random.choices(["names", "bytes", "tokens", "lines"], [70, 6, 12, 12])[0]
        if how == "names":
            texts[at] = changed_names(random, texts[at])
        elif how == "bytes":
            texts[at] = changed_bytes(random, texts[at].encode()).decode("latin-1")
        elif how == "tokens":
            texts[at] = "".join(changed_parts(random, TOKEN.findall(texts[at]), [" " + word + " " for word in WORDS]))
        else:
            texts[at] = "\n".join(changed_parts(random, texts[at].split("\n"), [line for text in texts for line in text.split("\n")]))
    files = [text.encode("latin-1", "replace") for text in texts]
    if random.random() < 0.1:
        random.shuffle(files)
    return (files if random.random() < 0.5 else [b"\n".join(files)]), None


# ---- words of the grammar

def soup(random, number):
    words = [random.choice(WORDS) for _ in range(int(2 ** random.uniform(0, 9)))]
    text = random.choice([" ", " ", "\n", ""]).join(words)
    how = random.randrange(4)
    if how == 0:
        return [text.encode()], None
    if how == 1:
        return [module(text).encode()], None
    if how == 2:
        return [module("x = " + text).encode()], None
    return [module(random.choice(["x :: ", "f ", "type T a = ", "data T a = ", "import A ", "x = case 1 of { "]) + text).encode()], None


# ---- nesting

def nested(random, number):
    before, level, inner, close, after, brackets = NESTS[random.choice(list(NESTS))]
    if brackets and random.random() < 0.7:
        count = random.choice([BRACKETS - 2, BRACKETS - 1, BRACKETS, BRACKETS + 1, random.randint(1, BRACKETS)]) // brackets
    else:
        count = int(2 ** random.uniform(0, 12))
    closes = random.choice([count, count, count, count - 1, count + 1, 0])
    text = before + level * count + inner + close * closes + after
    if random.random() < 0.3:
        before, level, inner, close, after, _ = NESTS[random.choice(list(NESTS))]
        inside = random.randint(1, 60)
        text += " ; " + before + level * inside + inner + close * inside + after
    return [module(text).encode()], None


# ---- limits: the value, one below and one above, with the answer

def padded(text, size, filling):
    """The text, made so long by what fills it."""
    return text + filling * ((size - len(text)) // len(filling)) + " " * ((size - len(text)) % len(filling))


def of_length(random, above):
    size = BYTES + above
    one = module("x = 1")
    kind = random.randrange(4)
    if kind == 0:
        text = padded(one, size, random.choice([" ", "\n", "{--}", "--\n"]))
    elif kind == 1:
        text = module("x = \"" + "s" * (size - len(module("x = \"\""))) + "\"")
    elif kind == 2:
        text = module("x" * (size - len(module(" = 1"))) + " = 1")
    else:
        text = one + "{-" + "-" * (size - len(one) - 4) + "-}"
    assert len(text) == size
    return [text.encode()], ("refused: source 1 too long\n" if above > 0 else " modules: 1 good, 0 faulty, 0 skipped\n")


def of_brackets(random, above):
    count = BRACKETS - 1 + above
    before, level, inner, close, after, _ = NESTS[random.choice([name for name, nest in NESTS.items() if nest[5] and name not in ("wheres", "guards", "lists", "pattern lists", "list types", "what a case looks at")])]
    text = module(before + level * count + inner + close * count + after)
    return [text.encode()], (": too deep\n" if above > 0 else " modules: 1 good, 0 faulty, 0 skipped\n" if "Maybe" not in level else " modules: ")


def of_modules(random, above):
    count = MODULES + above
    chain = random.random() < 0.5
    texts = [module(f"import M{n - 1} ; x = 1" if chain and n else "x = 1", f"M{n}") for n in range(count)]
    return ["\n".join(texts).encode()], ("refused: too many modules\n" if above > 0 else f"{count} modules: {count} good, 0 faulty, 0 skipped\n")


def of_components(random, above):
    count = COMPONENTS + above
    parts = lambda part: "(" + ", ".join([part] * count) + ")"
    text = module(random.choice(["x = " + parts("1"), "x :: " + parts("Int") + " ; x = x", "f " + parts("_") + " = 1", "x = (" + "," * (count - 1) + ")"]))
    return [text.encode()], (": syntax\n" if above > 0 else "1 modules: 1 good, 0 faulty, 0 skipped\n")


def of_codes(random, above):
    code = 1_114_111 + above
    text = module("x = '\\" + random.choice([str(code), f"x{code:x}", f"o{code:o}"]) + "'")
    return [text.encode()], (": lexeme\n" if above > 0 else "1 modules: 1 good, 0 faulty, 0 skipped\n")


def at_limit(random, number):
    return random.choice([of_length, of_brackets, of_brackets, of_modules, of_components, of_components, of_codes])(random, random.choice([-1, 0, 1]))


# ---- bytes

def random_text(random, count):
    return "".join(chr(random.choice([random.randrange(32, 127), random.randrange(128), random.randrange(0x250), random.randrange(0x800, 0xD800), random.randrange(0xE000, 0x110000)])) for _ in range(count))


def any_bytes(random, number):
    count = int(2 ** random.uniform(0, 11))
    how = random.randrange(6)
    if how == 0:
        return [random.randbytes(count)], None
    if how == 1:
        return [random_text(random, count).encode()], None
    if how == 2:
        return [b"\xef\xbb\xbf" + module("x = 1").encode() + random.randbytes(random.randint(0, 3))], None
    inside = random_text(random, count).encode() if how == 3 else random.randbytes(count)
    before, after = random.choice([(b"x = \"", b"\""), (b"x = '", b"'"), (b"x = 1 {-", b"-}"), (b"x = 1 --", b"\n"), (b"x = ", b"")])
    return [module("").encode()[:-1] + before + inside + after + b" }"], None


KINDS = {"mutated sets": mutated, "words": soup, "nesting": nested, "limits": at_limit, "bytes": any_bytes}

# of a hundred sources
SHARES = {"mutated sets": 50, "words": 20, "nesting": 14, "limits": 1, "bytes": 15}


def hostile(random, number):
    """The kind of a source, its files, and how the report ends, where that is known."""
    kind = random.choices(list(SHARES), list(SHARES.values()))[0]
    files, wanted = KINDS[kind](random, number)
    return kind, files, wanted
