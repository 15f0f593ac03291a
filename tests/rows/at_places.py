"""Places of sources, with the objects that `--at` prints for them as `--message-format json`. A place is a line and a column in characters of a source."""


def position(line, byte, character=None, utf16=None):
    """A position, by its columns in bytes, in characters and in units of UTF-16. They are the same in a line of one-byte characters."""
    character = character or byte
    return {"line": line, "byte": byte, "character": character, "utf16": utf16 or character}


def spread(line, byte, width, character=None, utf16=None):
    """The range of a name of one-byte characters."""
    character = character or byte
    utf16 = utf16 or character
    return {"start": position(line, byte, character, utf16), "end": position(line, byte + width, character + width, utf16 + width)}


def at(file, place):
    """What is bound at a position of a file."""
    text = f"bound at {file}:{place['line']}:{place['character']}"
    return {"file": file, "position": place, "module": None, "text": text}


def within(module):
    """What is bound in a module that isn't one of the sources."""
    return {"file": None, "position": None, "module": module, "text": f"bound in {module}"}


def elsewhere(text):
    """What is bound at no place, with the words for it."""
    return {"file": None, "position": None, "module": None, "text": text}


def name(kind, text, spot, bound, scheme=None, here=None, definition=None, untyped=None):
    """The object of a name. A definition is a pair of its name and its type."""
    owner = dict(zip(("name", "type"), definition)) if definition else None
    return {"kind": kind, "name": text, "range": spot, "bound": bound, "type": scheme, "here": here, "definition": owner, "untyped": untyped}


# the sources, which are files 0.hs, 1.hs and so on; the number of one of them, the line and the column; the status, and the names there
ROWS = [
    # a use of an import, with its principal type and the type of the use
    (["module A where { import B ; x = y 1 }", "module B where { y z = z }"], 0, 1, 33, 0,
     [name("variable", "y", spread(1, 33, 1), at("1.hs", position(1, 18)), "a -> a", "Int -> Int", ("x", "Int"))]),
    # a local variable has no principal type, only that of the place
    (["module A where { f x = x }"], 0, 1, 20, 0,
     [name("variable", "x", spread(1, 20, 1), at("0.hs", position(1, 20)), None, "a", ("f", "a -> a"))]),
    (["module A where { twice f = f f }"], 0, 1, 28, 0, [name("variable", "f", spread(1, 28, 1), at("0.hs", position(1, 24)), untyped="no type is found")]),
    # a declaration, a name of Prelude, a type of it, and a type variable
    (["module A where { x = 1 }"], 0, 1, 18, 0, [name("variable", "x", spread(1, 18, 1), at("0.hs", position(1, 18)), "Int")]),
    (["module A where { x = not True }"], 0, 1, 23, 0, [name("variable", "not", spread(1, 22, 3), within("Prelude"), "Bool -> Bool", "Bool -> Bool", ("x", "Bool"))]),
    (["module A where { x :: Bool ; x = True }"], 0, 1, 23, 0, [name("type", "Bool", spread(1, 23, 4), within("Prelude"))]),
    (["module A where { data T a = C a a }"], 0, 1, 33, 0, [name("type variable", "a", spread(1, 33, 1), at("0.hs", position(1, 25)))]),
    # the three columns after letters of two and of four bytes
    (["module A where { {- é😀 -} x = 1 ; y = x }"], 0, 1, 39, 0,
     [name("variable", "x", spread(1, 43, 1, 39, 40), at("0.hs", position(1, 31, 27, 28)), "Int", "Int", ("y", "Int"))]),
    # a qualified name has the range of all of it, at its qualifier too
    (["module A where { x = 1 }\nmodule B where { import A as Q ; y = Q.x }"], 0, 2, 38, 0,
     [name("variable", "Q.x", spread(2, 38, 3), at("0.hs", position(1, 18)), "Int", "Int", ("y", "Int"))]),
    (["module A where { x = 1 }\nmodule B where { import A as Q ; y = Q.x }"], 0, 2, 30, 0, [name("module", "Q", spread(2, 30, 1), elsewhere("a prefix of qualified names"))]),
    (["module A where { import B }", "module B where { y = 1 }"], 0, 1, 25, 0, [name("module", "B", spread(1, 25, 1), at("1.hs", position(1, 8)))]),
    # two names at one place
    (["module A where { data T = C }\nmodule B where { import A hiding (C) }"], 0, 2, 35, 0,
     [name("type", "C", spread(2, 35, 1), elsewhere("bound nowhere")), name("constructor", "C", spread(2, 35, 1), at("0.hs", position(1, 27)), "A.T")]),
    # names that are bound nowhere, or several times
    (["module A where { x = y }"], 0, 1, 22, 0, [name("variable", "y", spread(1, 22, 1), elsewhere("bound nowhere"))]),
    (["module A where { x = 1 }\nmodule B where { x = 1 }\nmodule C where { import A ; import B ; y = x }"], 0, 3, 44, 0,
     [name("variable", "x", spread(3, 44, 1), elsewhere("ambiguous"))]),
    # a name without a type, because of its module
    (["module B where { twice f = f f }"], 0, 1, 18, 0,
     [name("variable", "twice", spread(1, 18, 5), at("0.hs", position(1, 18)), untyped="no type: module B isn't good")]),
    # a pattern binding is no definition with a name
    (["module A where { (y, z) = (\\w -> w, 1) }"], 0, 1, 29, 0, [name("variable", "w", spread(1, 29, 1), at("0.hs", position(1, 29)), None, "a")]),
    # a name of a skipped module
    (["module B where { twice f = f f }", "module C where { import B ; y = twice }"], 1, 1, 33, 0, [{"kind": "skipped", "module": "C"}]),
    # places without a name: a blank, a keyword, past the end of the line, and below the last line
    (["module A where { x = 1 }"], 0, 1, 17, 1, []),
    (["module A where { x = 1 }"], 0, 1, 1, 1, []),
    (["module A where { x = 1 }"], 0, 1, 99, 1, []),
    (["module A where { x = 1 }"], 0, 9, 1, 1, []),
]

# sources that are refused, and the line of their refusal
REFUSED = [
    (["module A where { import B ; x = y }"], "refused: module A imports missing B\n"),
    (["module A where { x = }"], "refused: source 1 at 1:22: syntax\n"),
    (["module A where { x = 1 }\xff".encode("latin-1")], "refused: source 1 at 1:25: lexeme\n"),
]
