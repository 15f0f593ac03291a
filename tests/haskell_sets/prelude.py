"""Prelude as the checker has it: for the maker of modules as entities, for GHC as the text of a module."""
from .types import Constructor, TypeEntity, TypeReader, Value, function

# what a module of GHC's text has instead of Prelude
STAND_IN = "HmcPrelude"

# the types that GHC's own literals, guards and `if` have, and those that the stand-in defines
GHC_TYPES = "data Bool = False | True ; data Char ; data Int"
OWN_TYPES = "data Either a b = Left a | Right b ; data Maybe a = Nothing | Just a ; data Ordering = LT | EQ | GT"

VALUES = """
id :: a -> a
const :: a -> b -> a
asTypeOf :: a -> a -> a
seq :: a -> b -> b
flip :: (a -> b -> c) -> b -> a -> c
until :: (a -> Bool) -> (a -> a) -> a -> a
undefined :: a
error :: [Char] -> a
not :: Bool -> Bool
otherwise :: Bool
fst :: (a, b) -> a
snd :: (a, b) -> b
curry :: ((a, b) -> c) -> a -> b -> c
uncurry :: (a -> b -> c) -> (a, b) -> c
maybe :: b -> (a -> b) -> Maybe a -> b
either :: (a -> c) -> (b -> c) -> Either a b -> c
map :: (a -> b) -> [a] -> [b]
filter, takeWhile, dropWhile :: (a -> Bool) -> [a] -> [a]
span, break :: (a -> Bool) -> [a] -> ([a], [a])
any, all :: (a -> Bool) -> [a] -> Bool
and, or :: [Bool] -> Bool
concat :: [[a]] -> [a]
concatMap :: (a -> [b]) -> [a] -> [b]
head, last :: [a] -> a
tail, init, reverse, cycle :: [a] -> [a]
null :: [a] -> Bool
length :: [a] -> Int
foldr :: (a -> b -> b) -> b -> [a] -> b
foldl :: (b -> a -> b) -> b -> [a] -> b
foldr1, foldl1 :: (a -> a -> a) -> [a] -> a
scanl :: (b -> a -> b) -> b -> [a] -> [b]
scanr :: (a -> b -> b) -> b -> [a] -> [b]
iterate :: (a -> a) -> a -> [a]
repeat :: a -> [a]
replicate :: Int -> a -> [a]
take, drop :: Int -> [a] -> [a]
splitAt :: Int -> [a] -> ([a], [a])
zip :: [a] -> [b] -> [(a, b)]
zipWith :: (a -> b -> c) -> [a] -> [b] -> [c]
unzip :: [(a, b)] -> ([a], [b])
lines, words :: String -> [String]
unlines, unwords :: [String] -> String
"""


def stand_in():
    """The text of the module that GHC reads for Prelude; nothing of it is ever run."""
    lines = [f"module {STAND_IN} (module {STAND_IN}, B.Bool (..), B.Char, B.Int) where {{", "import qualified Prelude as B;",
             "import Prelude (Bool, Char, Int);", "type String = [Char];"]
    lines += [line + ";" for line in OWN_TYPES.split(" ; ")]
    for line in VALUES.split("\n"):
        if line:
            lines.append(line + ";")
            lines += [f"{name} = {name};" for name in line.split(" ::")[0].split(", ")]
    return "\n".join(lines + ["}", ""])


def data_entities(text, module, head):
    """The type and the constructors of a `data` declaration in one line."""
    left, _, right = text.partition(" = ")
    _, name, *parameters = left.split()
    kind = (head(f"{module}.{name}"), *parameters)
    constructors = []
    for part in right.split(" | ") if right else []:
        own, _, rest = part.strip().partition(" ")
        fields = TypeReader(rest, head).atoms()
        constructors.append(Constructor(f"{module}.{own}", f"{module}.{name}", function(fields, kind), len(fields)))
    return TypeEntity(f"{module}.{name}", parameters, constructors), constructors


def entities():
    """All of Prelude, by namespace."""
    found = {"type": [], "con": [], "var": []}
    for line in (GHC_TYPES + " ; " + OWN_TYPES).split(" ; "):
        made, constructors = data_entities(line, "Prelude", lambda name: name.rsplit(".", 1)[-1])
        found["type"].append(made)
        found["con"] += constructors
    found["type"].append(TypeEntity("Prelude.String", [], [], ("[]", ("Char",))))
    for line in VALUES.replace("String", "[Char]").strip().split("\n"):
        names, kind = line.split(" :: ")
        found["var"] += [Value(f"Prelude.{name}", TypeReader(kind).whole()) for name in names.split(", ")]
    return found
