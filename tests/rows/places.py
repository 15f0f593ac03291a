"""Places of sources, with the types that names have there. A place is that of the mark `^`, which isn't part of the source."""

# the source, and the lines of types. The types follow from the rules of Damas and Milner (1982) and the Report, section 4.5
TYPED = [
    # parameters have the letters of their definition's type, also if nothing uses them
    ("module A where { f x ^y = x }", "  type b\n  in f :: a -> b -> a\n"),
    ("module A where { f ^x y = x }", "  type a\n  in f :: a -> b -> a\n"),
    ("module A where { f x y = ^x }", "  type a\n  in f :: a -> b -> a\n"),
    ("module A where { f :: Int -> b -> Int ; f ^x y = x }", "  type Int\n  in f :: Int -> a -> Int\n"),
    # a local function of two types: its most general one where it is bound, and those of its uses
    ("module A where { p = let { ^same x = x } in (same 1, same 'c') }", "  type a -> a\n  in p :: (Int, Char)\n"),
    ("module A where { p = let { same ^x = x } in (same 1, same 'c') }", "  type a\n  in p :: (Int, Char)\n"),
    ("module A where { p = let { same x = x } in (^same 1, same 'c') }", "  type Int -> Int\n  in p :: (Int, Char)\n"),
    ("module A where { p = let { same x = x } in (same 1, ^same 'c') }", "  type Char -> Char\n  in p :: (Int, Char)\n"),
    # a local function that isn't generalised, since its type has that of a parameter
    ("module A where { p u = (^k 1, k 'c') where { k v = u } }", "  type Int -> a\n  in p :: a -> (a, a)\n"),
    ("module A where { p u = (k 1, k 'c') where { ^k v = u } }", "  type b -> a\n  in p :: a -> (a, a)\n"),
    # lambdas, alternatives and guards
    ("module A where { g = \\^q r -> r q }", "  type a\n  in g :: a -> (a -> b) -> b\n"),
    ("module A where { g = \\q ^r -> r q }", "  type a -> b\n  in g :: a -> (a -> b) -> b\n"),
    ("module A where { h m = case m of { Just ^v -> v ; Nothing -> 1 } }", "  type Int\n  in h :: Maybe Int -> Int\n"),
    ("module A where { h m n = case m of { Just v -> v where { w = n } ; ^other -> n } }", "  type Maybe a\n  in h :: Maybe a -> a -> a\n"),
    ("module A where { h x | null ^y = y | True = y where { y = [x] } }", "  type [a]\n  in h :: a -> [a]\n"),
    ("module A where { h (^x : xs) = xs }", "  type a\n  in h :: [a] -> [a]\n"),
    ("module A where { h all@(x : _) = ^all }", "  type [a]\n  in h :: [a] -> [a]\n"),
    # names of expressions have their own types and those of their uses
    ("module A where { n = ^fst (True, 'c') }", "  type (a, b) -> a\n  here (Bool, Char) -> Bool\n  in n :: Bool\n"),
    ("module A where { n = ^Just 'c' }", "  type a -> Maybe a\n  here Char -> Maybe Char\n  in n :: Maybe Char\n"),
    # patterns of bindings, local and at top level, and definitions within those
    ("module A where { f x = let { (y, ^z) = (x, \\w -> w) } in y }", "  type b -> b\n  in f :: a -> a\n"),
    ("module A where { (y, z) = (\\^w -> w, 1) }", "  type a\n"),
    ("module A where { (^y, z) = (\\w -> w, 1) }", "  type a -> a\n"),
    # a recursive definition uses itself at one type, but one with a signature at any
    ("module A where { len [] = 0 ; len (x : xs) = const 1 (^len xs) }", "  type [a] -> Int\n  here [a] -> Int\n  in len :: [a] -> Int\n"),
    ("module A where { data N a = E | C a (N (a, a)) ; s :: N a -> Int ; s E = 0 ; s (C x ^r) = s r }", "  type A.N (a, a)\n  in s :: A.N a -> Int\n"),
    ("module A where { data N a = E | C a (N (a, a)) ; s :: N a -> Int ; s E = 0 ; s (C x r) = ^s r }", "  type A.N a -> Int\n  here A.N (a, a) -> Int\n  in s :: A.N a -> Int\n"),
    # names that aren't exported, and synonyms that signatures name
    ("module A (x) where { x = 1 ; ^y = \\z -> z }", "  type a -> a\n"),
    ("module A (x) where { x = 1 ; data T a = ^C a }", "  type a -> A.T a\n"),
    ("module A where { type Pos = (Int, Int) ; f :: Pos -> Int ; f ^p = 1 }", "  type Pos\n  in f :: Pos -> Int\n"),
    # a name that is written with its module, since another one is imported
    ("module A where { map ^k v = A.map k v }", "  type a\n  in map :: a -> b -> c\n"),
    # beside a fault: what doesn't depend on it, what does, and what depends on a signature alone
    ("module A where { f x = x x ; g ^y = 'c' }", "  type a\n  in g :: a -> Char\n"),
    ("module A where { f x = x x ; g ^y = f y }", "  no type is found\n"),
    ("module A where { f ^x = x x }", "  no type is found\n"),
    ("module A where { f :: Int -> Char ; f x = x ; g ^y = f y }", "  type Int\n  in g :: Int -> Char\n"),
    ("module A where { f x = z ; g ^y = 'c' }", "  no type is found\n"),
    # in `e :: t` a variable of t stands for no other type
    ("module A where { f = (\\^x -> x) :: a -> a }", "  no type is found\n"),
    ("module A where { f = (\\^x -> x) :: Int -> Int }", "  type Int\n  in f :: Int -> Int\n"),
    # names outside of expressions have no type of a use
    ("module A (^f) where { f x = x }", "  type a -> a\n"),
    ("module A where { ^f :: a -> a ; f x = x }", "  type a -> a\n"),
    ("module A where { h (^Just x) = x }", "  type a -> Maybe a\n"),
]
