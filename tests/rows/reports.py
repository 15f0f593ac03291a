"""Sources, each with the status and the report of a check, as the rules of docs/LANGUAGE.md have it."""

# modules without and with types that are inferred
TYPED = [
    ("", 0, "0 modules: 0 good, 0 faulty, 0 skipped\n"),
    ("{- -- -}", 0, "0 modules: 0 good, 0 faulty, 0 skipped\n"),
    ("module A where { }", 0, "module A\n1 modules: 1 good, 0 faulty, 0 skipped\n"),
    (
        "module A where { i x = x ; k x y = x }",
        0,
        "module A\n"
        "  val i = A.i :: a -> a\n"
        "  val k = A.k :: a -> b -> a\n"
        "1 modules: 1 good, 0 faulty, 0 skipped\n",
    ),
    ("module A where { p = let { g x = x } in (g 1, g 'c') }", 0, "module A\n  val p = A.p :: (Int, Char)\n1 modules: 1 good, 0 faulty, 0 skipped\n"),
    (
        "module A where { p = (i 1, i 'c') ; i x = x }",
        0,
        "module A\n"
        "  val i = A.i :: a -> a\n"
        "  val p = A.p :: (Int, Char)\n"
        "1 modules: 1 good, 0 faulty, 0 skipped\n",
    ),
    (
        "module A where { f x = g x ; g x = f x ; h = (f 1, f 'c', g 1, g 'c') }",
        0,
        "module A\n"
        "  val f = A.f :: a -> b\n"
        "  val g = A.g :: a -> b\n"
        "  val h = A.h :: (a, b, c, d)\n"
        "1 modules: 1 good, 0 faulty, 0 skipped\n",
    ),
    # two members of one group that meet their type variables in different orders
    (
        "module A where { f x y = const x (g y x) ; g x y = const y (f y x) }",
        0,
        "module A\n"
        "  val f = A.f :: a -> b -> a\n"
        "  val g = A.g :: a -> b -> b\n"
        "1 modules: 1 good, 0 faulty, 0 skipped\n",
    ),
    (
        "module A where { f y = let { g x = (x, y) } in (g 1, g 'c') }",
        0,
        "module A\n"
        "  val f = A.f :: a -> ((Int, a), (Char, a))\n"
        "1 modules: 1 good, 0 faulty, 0 skipped\n",
    ),
    (
        "module A where { h x = let { p y = (x, y) } in (p 1, p 'c') }",
        0,
        "module A\n"
        "  val h = A.h :: a -> ((a, Int), (a, Char))\n"
        "1 modules: 1 good, 0 faulty, 0 skipped\n",
    ),
    # a name with a signature is polymorphic in its own binding
    (
        "module A where { h :: a -> a ; h x = k x (h 1) (h 'c') ; k a b c = a }",
        0,
        "module A\n"
        "  val h = A.h :: a -> a\n"
        "  val k = A.k :: a -> b -> c -> a\n"
        "1 modules: 1 good, 0 faulty, 0 skipped\n",
    ),
    (
        "module A where { data N a = Z a | S (N (a, a)) ; d :: N a -> Int ; d (Z x) = 0 ; d (S n) = d n }",
        0,
        "module A\n"
        "  type N/1 = A.N\n"
        "  con S = A.S :: A.N (a, a) -> A.N a\n"
        "  con Z = A.Z :: a -> A.N a\n"
        "  val d = A.d :: A.N a -> Int\n"
        "1 modules: 1 good, 0 faulty, 0 skipped\n",
    ),
    # groups part at names with signatures
    (
        "module A where { u x = s x ; s :: a -> a ; s x = const x (u 1, u 'c') }",
        0,
        "module A\n"
        "  val s = A.s :: a -> a\n"
        "  val u = A.u :: a -> a\n"
        "1 modules: 1 good, 0 faulty, 0 skipped\n",
    ),
    (
        "module A where { f x | x = y | otherwise = 2 where { y = 1 } ; g = \\x -> x :: Int ; h = case \"s\" of { c : _ -> c ; [] -> 'z' } }",
        0,
        "module A\n"
        "  val f = A.f :: Bool -> Int\n"
        "  val g = A.g :: Int -> Int\n"
        "  val h = A.h :: Char\n"
        "1 modules: 1 good, 0 faulty, 0 skipped\n",
    ),
    (
        "module A where { p = ((\\x -> x) :: a -> a) 1 ; f x = let { g :: a -> a ; g y = y } in (g x, g 'c') }",
        0,
        "module A\n"
        "  val f = A.f :: a -> (a, Char)\n"
        "  val p = A.p :: Int\n"
        "1 modules: 1 good, 0 faulty, 0 skipped\n",
    ),
    ('module A where { s = "a\\ \\b\\&c" }', 0, "module A\n  val s = A.s :: [Char]\n1 modules: 1 good, 0 faulty, 0 skipped\n"),
    (
        "module A where { import Prelude hiding (id) ; id = 1 ; y = id ; f x = let { x = 1 } in x }",
        0,
        "module A\n"
        "  val f = A.f :: a -> Int\n"
        "  val id = A.id :: Int\n"
        "  val y = A.y :: Int\n"
        "1 modules: 1 good, 0 faulty, 0 skipped\n",
    ),
    (
        "module A where { data A = A B ; data B = B A }",
        0,
        "module A\n"
        "  type A/0 = A.A\n"
        "  type B/0 = A.B\n"
        "  con A = A.A :: A.B -> A.A\n"
        "  con B = A.B :: A.A -> A.B\n"
        "1 modules: 1 good, 0 faulty, 0 skipped\n",
    ),
]

# newtypes, synonyms and pattern bindings
DECLARED = [
    (
        "module A where { type P b a = (a, b) ; newtype W a = W [a] ; f :: P Int a -> W a ; f (x, n) = W [x] }",
        0,
        "module A\n"
        "  type W/1 = A.W\n"
        "  syn P/2 = A.P :: (b, a)\n"
        "  con W = A.W :: [a] -> A.W a\n"
        "  val f = A.f :: (a, Int) -> A.W a\n"
        "1 modules: 1 good, 0 faulty, 0 skipped\n",
    ),
    (
        "module A where { type Rec a = [Circ a] ; data Circ a = Tag [Rec a] }",
        0,
        "module A\n"
        "  type Circ/1 = A.Circ\n"
        "  syn Rec/1 = A.Rec :: [A.Circ a]\n"
        "  con Tag = A.Tag :: [[A.Circ a]] -> A.Circ a\n"
        "1 modules: 1 good, 0 faulty, 0 skipped\n",
    ),
    ('module A where { s :: String ; s = "x" }', 0, "module A\n  val s = A.s :: [Char]\n1 modules: 1 good, 0 faulty, 0 skipped\n"),
    ("module A where { type S = Int }", 0, "module A\n  syn S/0 = A.S :: Int\n1 modules: 1 good, 0 faulty, 0 skipped\n"),
    (
        'module A where { x : y = "ab" ; Just z = undefined ; _ = 1 ; ~[u, v] = [x, z] }',
        0,
        "module A\n"
        "  val u = A.u :: Char\n"
        "  val v = A.v :: Char\n"
        "  val x = A.x :: Char\n"
        "  val y = A.y :: [Char]\n"
        "  val z = A.z :: a\n"
        "1 modules: 1 good, 0 faulty, 0 skipped\n",
    ),
    ("module A where { (x) = 1 }", 0, "module A\n  val x = A.x :: Int\n1 modules: 1 good, 0 faulty, 0 skipped\n"),
]

# lists of exports
EXPORTED = [
    # a synonym is expanded if it is exported, or if a type names it: in a signature of any level, in an expression, in a constructor, or on the
    # right side of such a synonym
    (
        "module A (x) where { type S = (Int, Int) ; type T = (S, S) ; x = 1 }",
        0,
        "module A\n  val x = A.x :: Int\n1 modules: 1 good, 0 faulty, 0 skipped\n",
    ),
    (
        "module A (x, T) where { type S = (Int, Int) ; type T = (S, S) ; x = 1 }",
        0,
        "module A\n  syn T/0 = A.T :: ((Int, Int), (Int, Int))\n  val x = A.x :: Int\n1 modules: 1 good, 0 faulty, 0 skipped\n",
    ),
    (
        "module A (x) where { type S = Bool ; type T = [S] ; x = let { y :: T ; y = y } in y }",
        0,
        "module A\n  val x = A.x :: [Bool]\n1 modules: 1 good, 0 faulty, 0 skipped\n",
    ),
    (
        "module A (x) where { type S = Bool ; x y = z where { z = w y ; w :: S -> S ; w v = v } }",
        0,
        "module A\n  val x = A.x :: Bool -> Bool\n1 modules: 1 good, 0 faulty, 0 skipped\n",
    ),
    (
        "module A (x, z) where { type S = Bool ; type T = S ; x y = case y of { True -> (y :: T) ; v -> v } ; z = \\y -> [if True then (y :: S) else y] }",
        0,
        "module A\n  val x = A.x :: Bool -> Bool\n  val z = A.z :: Bool -> [Bool]\n1 modules: 1 good, 0 faulty, 0 skipped\n",
    ),
    (
        "module A (x, B(..), D(..)) where { type S = Bool ; type T = [S] ; type U = Char ; data B = C T ; newtype D = E U ; x y | (y :: S) = y | True = y }",
        0,
        "module A\n"
        "  type B/0 = A.B\n"
        "  type D/0 = A.D\n"
        "  con C = A.C :: [Bool] -> A.B\n"
        "  con E = A.E :: Char -> A.D\n"
        "  val x = A.x :: Bool -> Bool\n"
        "1 modules: 1 good, 0 faulty, 0 skipped\n",
    ),
    # a synonym that nothing uses has its faults all the same
    ("module A (x) where { type S = (S, S) ; type T = Y ; x = 1 }", 1, "faulty A\n  1:49 unbound Y\n1 modules: 0 good, 1 faulty, 0 skipped\n"),
    ("module A (x) where { type S = (T, T) ; type T = S ; x = 1 }", 1, "faulty A\n  1:27 recursive S\n  1:45 recursive T\n1 modules: 0 good, 1 faulty, 0 skipped\n"),
    (
        "module A where { type P b a = (a, b) ; newtype W a = W [a] }",
        0,
        "module A\n"
        "  type W/1 = A.W\n"
        "  syn P/2 = A.P :: (b, a)\n"
        "  con W = A.W :: [a] -> A.W a\n"
        "1 modules: 1 good, 0 faulty, 0 skipped\n",
    ),
    (
        "module A where { import Prelude hiding (id) ; id = 1 ; y = id }",
        0,
        "module A\n"
        "  val id = A.id :: Int\n"
        "  val y = A.y :: Int\n"
        "1 modules: 1 good, 0 faulty, 0 skipped\n",
    ),
    (
        "module A (T(D), C, Maybe(..), module A) where { data T = D ; type C = T ; (x, y) = (1, 2) }",
        0,
        "module A\n"
        "  type Maybe/1 = Prelude.Maybe\n"
        "  type T/0 = A.T\n"
        "  syn C/0 = A.C :: A.T\n"
        "  con D = A.D :: A.T\n"
        "  con Just = Prelude.Just :: a -> Maybe a\n"
        "  con Nothing = Prelude.Nothing :: Maybe a\n"
        "  val x = A.x :: Int\n"
        "  val y = A.y :: Int\n"
        "1 modules: 1 good, 0 faulty, 0 skipped\n",
    ),
    (
        "module A (f, map) where { f = g ; g = f }",
        0,
        "module A\n"
        "  val f = A.f :: a\n"
        "  val map = Prelude.map :: (a -> b) -> [a] -> [b]\n"
        "1 modules: 1 good, 0 faulty, 0 skipped\n",
    ),
    ("module A where { type Phantom a b = [a] }", 0, "module A\n  syn Phantom/2 = A.Phantom :: [a]\n1 modules: 1 good, 0 faulty, 0 skipped\n"),
]

# units without types: each is told once, but for those that depend on another
UNTYPED = [
    ("module A where { f x = x x }", 1, "faulty A\n  1:18 type f\n1 modules: 0 good, 1 faulty, 0 skipped\n"),
    # a variable of the outer scope stands for one type
    (
        "module A where { f x = let { g :: a -> a ; g y = asTypeOf y x } in g }",
        1,
        "faulty A\n"
        "  1:18 type f\n"
        "1 modules: 0 good, 1 faulty, 0 skipped\n",
    ),
    # a lambda's variable has one type
    (
        "module A where { p = let { g x = x } in (g 1, g 'c') ; q = \\g -> (g 1, g 'c') }",
        1,
        "faulty A\n"
        "  1:56 type q\n"
        "1 modules: 0 good, 1 faulty, 0 skipped\n",
    ),
    (
        "module A where { data N a = Z a | S (N (a, a)) ; d (Z x) = 0 ; d (S n) = d n }",
        1,
        "faulty A\n"
        "  1:50 type d\n"
        "1 modules: 0 good, 1 faulty, 0 skipped\n",
    ),
    # g depends on f, and isn't told; t is told beside s, whose signature it sees
    (
        "module A where { f x = x x ; g = f 1 ; s :: Int ; s = 'c' ; t = not s }",
        1,
        "faulty A\n"
        "  1:18 type f\n"
        "  1:51 type s\n"
        "  1:61 type t\n"
        "1 modules: 0 good, 1 faulty, 0 skipped\n",
    ),
    ("module A where { p i = (i 1, i 'c') }", 1, "faulty A\n  1:18 type p\n1 modules: 0 good, 1 faulty, 0 skipped\n"),
    ("module A where { f x = (g 1, g 'c') ; g x = f x }", 1, "faulty A\n  1:18 type f\n1 modules: 0 good, 1 faulty, 0 skipped\n"),
    ("module A where { f y = let { g x = y x } in (g 1, g 'c') }", 1, "faulty A\n  1:18 type f\n1 modules: 0 good, 1 faulty, 0 skipped\n"),
    ("module A where { h x = k x (h 1) (h 'c') ; k a b c = a }", 1, "faulty A\n  1:18 type h\n1 modules: 0 good, 1 faulty, 0 skipped\n"),
    ("module A where { f :: a -> a ; f x = 1 }", 1, "faulty A\n  1:32 type f\n1 modules: 0 good, 1 faulty, 0 skipped\n"),
    ("module A where { f :: a -> b ; f x = x }", 1, "faulty A\n  1:32 type f\n1 modules: 0 good, 1 faulty, 0 skipped\n"),
    ("module A where { p = (\\x -> 1) :: a -> a }", 1, "faulty A\n  1:18 type p\n1 modules: 0 good, 1 faulty, 0 skipped\n"),
    ("module A where { f x = x :: a }", 1, "faulty A\n  1:18 type f\n1 modules: 0 good, 1 faulty, 0 skipped\n"),
    ("module A where { [a, b] = [1, 'c'] }", 1, "faulty A\n  1:18 type a\n1 modules: 0 good, 1 faulty, 0 skipped\n"),
    # pattern names are monomorphic in their own group
    ("module A where { (f, g) = (\\x -> x, f 1) ; h = f 'c' }", 1, "faulty A\n  1:44 type h\n1 modules: 0 good, 1 faulty, 0 skipped\n"),
    ("module A where { (f, g) = (not 1, 1) ; h = not g }", 1, "faulty A\n  1:18 type f\n1 modules: 0 good, 1 faulty, 0 skipped\n"),
    ("module A where { (x, y) = 1 }", 1, "faulty A\n  1:18 type x\n1 modules: 0 good, 1 faulty, 0 skipped\n"),
    ("module A where { _ = not 1 }", 1, "faulty A\n  1:18 type _\n1 modules: 0 good, 1 faulty, 0 skipped\n"),
    # a name stands for a scheme of its own in each of two groups that use it
    ("module A where { i x = x ; p = not (i 1) ; q = i 'c' }", 1, "faulty A\n  1:28 type p\n1 modules: 0 good, 1 faulty, 0 skipped\n"),
]

# faults of names, of numbers of arguments and of synonyms
ILL_FORMED = [
    ("module A where { f x x = 1 }", 1, "faulty A\n  1:22 non-linear x\n1 modules: 0 good, 1 faulty, 0 skipped\n"),
    ("module A where { f x = 1 ; f x y = 2 }", 1, "faulty A\n  1:28 clause-length f\n1 modules: 0 good, 1 faulty, 0 skipped\n"),
    ("module A where { x = 1 ; x = 2 }", 1, "faulty A\n  1:26 duplicate x\n1 modules: 0 good, 1 faulty, 0 skipped\n"),
    ("module A where { g :: Int }", 1, "faulty A\n  1:18 no-binding g\n1 modules: 0 good, 1 faulty, 0 skipped\n"),
    ("module A where { h (Just) = 1 }", 1, "faulty A\n  1:21 arity Just\n1 modules: 0 good, 1 faulty, 0 skipped\n"),
    ("module A (module Z) where { }", 1, "faulty A\n  1:18 not-imported Z\n1 modules: 0 good, 1 faulty, 0 skipped\n"),
    ("module A where { x = y ; x = 2 ; g :: Int }", 1, "faulty A\n  1:26 duplicate x\n  1:34 no-binding g\n1 modules: 0 good, 1 faulty, 0 skipped\n"),
    ("module A where { type S = T ; type T = [S] }", 1, "faulty A\n  1:23 recursive S\n  1:36 recursive T\n1 modules: 0 good, 1 faulty, 0 skipped\n"),
    ("module A where { x :: String Int ; x = x }", 1, "faulty A\n  1:23 arity String\n1 modules: 0 good, 1 faulty, 0 skipped\n"),
    ("module A where { data String = S ; x :: String ; x = S }", 1, "faulty A\n  1:41 ambiguous String\n1 modules: 0 good, 1 faulty, 0 skipped\n"),
    (
        "module A where { f :: a -> a ; (f, g) = (\\x -> x, f 1) ; h = f 'c' }",
        1,
        "faulty A\n"
        "  1:18 no-binding f\n"
        "1 modules: 0 good, 1 faulty, 0 skipped\n",
    ),
    ("module A where { (x, x) = (1, 2) }", 1, "faulty A\n  1:22 non-linear x\n1 modules: 0 good, 1 faulty, 0 skipped\n"),
    ("module A where { (x, y) = p }", 1, "faulty A\n  1:27 unbound p\n1 modules: 0 good, 1 faulty, 0 skipped\n"),
    ("module A where { g, g :: Int ; g = 1 }", 1, "faulty A\n  1:21 duplicate g\n1 modules: 0 good, 1 faulty, 0 skipped\n"),
    ("module A where { id = 1 ; y = id }", 1, "faulty A\n  1:31 ambiguous id\n1 modules: 0 good, 1 faulty, 0 skipped\n"),
    ("module A where { import qualified Prelude ; x = not }", 1, "faulty A\n  1:49 unbound not\n1 modules: 0 good, 1 faulty, 0 skipped\n"),
    ("module A where { data T a = C b }", 1, "faulty A\n  1:31 unbound b\n1 modules: 0 good, 1 faulty, 0 skipped\n"),
    ("module A where { data T a a = C }", 1, "faulty A\n  1:27 duplicate a\n1 modules: 0 good, 1 faulty, 0 skipped\n"),
    ("module A where { data T = C | C }", 1, "faulty A\n  1:31 duplicate C\n1 modules: 0 good, 1 faulty, 0 skipped\n"),
    ("module A where { f :: Maybe ; f = f }", 1, "faulty A\n  1:23 arity Maybe\n1 modules: 0 good, 1 faulty, 0 skipped\n"),
    ("module A where { (x, y) = (1, 2) ; x = 3 }", 1, "faulty A\n  1:36 duplicate x\n1 modules: 0 good, 1 faulty, 0 skipped\n"),
    # a constructor behind a type that hasn't it, and one behind a synonym
    ("module A (T(D)) where { data T = C ; data U = D }", 1, "faulty A\n  1:13 unbound D\n1 modules: 0 good, 1 faulty, 0 skipped\n"),
    ("module A (S(C)) where { data T = C ; type S = T }", 1, "faulty A\n  1:13 unbound C\n1 modules: 0 good, 1 faulty, 0 skipped\n"),
    ("module A (y) where { x = x }", 1, "faulty A\n  1:11 unbound y\n1 modules: 0 good, 1 faulty, 0 skipped\n"),
    ("module A (U, T(..)) where { data T = C }", 1, "faulty A\n  1:11 unbound U\n1 modules: 0 good, 1 faulty, 0 skipped\n"),
    ("module A (id) where { id = id }", 1, "faulty A\n  1:11 ambiguous id\n1 modules: 0 good, 1 faulty, 0 skipped\n"),
    ("module A where { data T a = C (T a) ; f (C x y) = f }", 1, "faulty A\n  1:42 arity C\n1 modules: 0 good, 1 faulty, 0 skipped\n"),
    (
        "module A (T(C, E), E) where { data T = C ; data U = D }",
        1,
        "faulty A\n"
        "  1:16 unbound E\n"
        "  1:20 unbound E\n"
        "1 modules: 0 good, 1 faulty, 0 skipped\n",
    ),
]

# modules that import each other
SETS = [
    (
        "module A where { f :: a -> b ; f x = x }\n"
        "module B where { g :: Int -> Int ; g x = x }\n"
        "module C where { import B ; h = g }\n"
        "module D where { import B ; j = g 'c' }",
        1,
        "faulty A\n"
        "  1:32 type f\n"
        "module B\n"
        "  val g = B.g :: Int -> Int\n"
        "module C\n"
        "  val h = C.h :: Int -> Int\n"
        "faulty D\n"
        "  4:29 type j\n"
        "4 modules: 2 good, 2 faulty, 0 skipped\n",
    ),
    (
        "module A where { x = y }\n"
        "module B where { import A ; import C }\n"
        "module C where { f x = x x }\n"
        "module D where { import B }",
        1,
        "faulty A\n"
        "  1:22 unbound y\n"
        "skipped B\n"
        "  by A\n"
        "  by C\n"
        "faulty C\n"
        "  3:18 type f\n"
        "skipped D\n"
        "  by B\n"
        "4 modules: 0 good, 2 faulty, 2 skipped\n",
    ),
    # a re-exported entity is one entity, whatever way it comes
    (
        "module A where { x = 1 }\n"
        "module B (module A) where { import A }\n"
        "module C where { import A ; import B ; y = x }\n"
        "module D where { x = 'd' }\n"
        "module E where { import A ; import D ; y = 2 }\n"
        "module F where { import A ; import D ; y = x }",
        1,
        "module A\n"
        "  val x = A.x :: Int\n"
        "module B\n"
        "  val x = A.x :: Int\n"
        "module C\n"
        "  val y = C.y :: Int\n"
        "module D\n"
        "  val x = D.x :: Char\n"
        "module E\n"
        "  val y = E.y :: Int\n"
        "faulty F\n"
        "  6:44 ambiguous x\n"
        "6 modules: 5 good, 1 faulty, 0 skipped\n",
    ),
    (
        "module A where { data C = C ; x = C }\n"
        "module B where { import A hiding (C, zz) ; y = x }\n"
        "module D where { import A hiding (C) ; y = C }\n"
        "module E where { import A (C, zz) ; y = x }",
        1,
        "module A\n"
        "  type C/0 = A.C\n"
        "  con C = A.C :: A.C\n"
        "  val x = A.x :: A.C\n"
        "module B\n"
        "  val y = B.y :: A.C\n"
        "faulty D\n"
        "  3:44 unbound C\n"
        "faulty E\n"
        "  4:31 not-exported zz\n"
        "4 modules: 2 good, 2 faulty, 0 skipped\n",
    ),
    (
        "module B where { data T = K | L ; f = K }\n"
        "module A (module B, B.T(..)) where { import qualified B ; g = B.f }",
        0,
        "module A\n"
        "  type T/0 = B.T\n"
        "  con K = B.K :: B.T\n"
        "  con L = B.L :: B.T\n"
        "module B\n"
        "  type T/0 = B.T\n"
        "  con K = B.K :: B.T\n"
        "  con L = B.L :: B.T\n"
        "  val f = B.f :: B.T\n"
        "2 modules: 2 good, 0 faulty, 0 skipped\n",
    ),
    (
        "module A (mk, un) where { data T = T Int ; mk x = T x ; un (T x) = x }\n"
        "module B where { import A ; z = un (mk 7) ; w = mk 1 }",
        0,
        "module A\n"
        "  val mk = A.mk :: Int -> A.T\n"
        "  val un = A.un :: A.T -> Int\n"
        "module B\n"
        "  val w = B.w :: A.T\n"
        "  val z = B.z :: Int\n"
        "2 modules: 2 good, 0 faulty, 0 skipped\n",
    ),
    (
        "module A where { import B ; x = y }\n"
        "module B where { y = 'c' }",
        0,
        "module A\n"
        "  val x = A.x :: Char\n"
        "module B\n"
        "  val y = B.y :: Char\n"
        "2 modules: 2 good, 0 faulty, 0 skipped\n",
    ),
    # an imported synonym is expanded
    (
        "module A where { type P b a = (a, b) }\n"
        "module B where { import A ; f :: P Int a -> a ; f (x, n) = x }",
        0,
        "module A\n"
        "  syn P/2 = A.P :: (b, a)\n"
        "module B\n"
        "  val f = B.f :: (a, Int) -> a\n"
        "2 modules: 2 good, 0 faulty, 0 skipped\n",
    ),
    (
        "module A (x, B.x) where { import qualified B ; x = 1 }\n"
        "module B where { x = 2 }",
        1,
        "faulty A\n"
        "  1:14 export-clash x\n"
        "module B\n"
        "  val x = B.x :: Int\n"
        "2 modules: 1 good, 1 faulty, 0 skipped\n",
    ),
]

# how types are written: variables by first occurrence, the 27th as a1; brackets where they are wanted; names of other modules in full
WRITTEN = [
    (
        "module A where { f " + " ".join(f"x{number}" for number in range(26)) + " = undefined }",
        0,
        "module A\n"
        "  val f = A.f :: a -> b -> c -> d -> e -> f -> g -> h -> i -> j -> k -> l -> m -> n -> o -> p -> q -> r -> s -> t -> u -> v -> w -> x -> y -> z -> a1\n"
        "1 modules: 1 good, 0 faulty, 0 skipped\n",
    ),
    (
        "module A where { g :: (x -> y) -> z ; g = undefined ; m :: Maybe (Maybe x) ; m = undefined ; p :: ([x], ()) ; p = undefined ; s :: Int -> Int ; s x = x }",
        0,
        "module A\n"
        "  val g = A.g :: (a -> b) -> c\n"
        "  val m = A.m :: Maybe (Maybe a)\n"
        "  val p = A.p :: ([a], ())\n"
        "  val s = A.s :: Int -> Int\n"
        "1 modules: 1 good, 0 faulty, 0 skipped\n",
    ),
    (
        "module A where { data T = T }\n"
        "module B where { import A ; data U a = U a ; f :: x -> U (T -> x) ; f = undefined }",
        0,
        "module A\n"
        "  type T/0 = A.T\n"
        "  con T = A.T :: A.T\n"
        "module B\n"
        "  type U/1 = B.U\n"
        "  con U = B.U :: a -> B.U a\n"
        "  val f = B.f :: a -> B.U (A.T -> a)\n"
        "2 modules: 2 good, 0 faulty, 0 skipped\n",
    ),
]

# the whole of Prelude, exported once more
PRELUDE = [
    (
        "module A (module Prelude) where { }",
        0,
        "module A\n"
        "  type Bool/0 = Prelude.Bool\n"
        "  type Char/0 = Prelude.Char\n"
        "  type Either/2 = Prelude.Either\n"
        "  type Int/0 = Prelude.Int\n"
        "  type Maybe/1 = Prelude.Maybe\n"
        "  type Ordering/0 = Prelude.Ordering\n"
        "  syn String/0 = Prelude.String :: [Char]\n"
        "  con EQ = Prelude.EQ :: Ordering\n"
        "  con False = Prelude.False :: Bool\n"
        "  con GT = Prelude.GT :: Ordering\n"
        "  con Just = Prelude.Just :: a -> Maybe a\n"
        "  con LT = Prelude.LT :: Ordering\n"
        "  con Left = Prelude.Left :: a -> Either a b\n"
        "  con Nothing = Prelude.Nothing :: Maybe a\n"
        "  con Right = Prelude.Right :: a -> Either b a\n"
        "  con True = Prelude.True :: Bool\n"
        "  val all = Prelude.all :: (a -> Bool) -> [a] -> Bool\n"
        "  val and = Prelude.and :: [Bool] -> Bool\n"
        "  val any = Prelude.any :: (a -> Bool) -> [a] -> Bool\n"
        "  val asTypeOf = Prelude.asTypeOf :: a -> a -> a\n"
        "  val break = Prelude.break :: (a -> Bool) -> [a] -> ([a], [a])\n"
        "  val concat = Prelude.concat :: [[a]] -> [a]\n"
        "  val concatMap = Prelude.concatMap :: (a -> [b]) -> [a] -> [b]\n"
        "  val const = Prelude.const :: a -> b -> a\n"
        "  val curry = Prelude.curry :: ((a, b) -> c) -> a -> b -> c\n"
        "  val cycle = Prelude.cycle :: [a] -> [a]\n"
        "  val drop = Prelude.drop :: Int -> [a] -> [a]\n"
        "  val dropWhile = Prelude.dropWhile :: (a -> Bool) -> [a] -> [a]\n"
        "  val either = Prelude.either :: (a -> b) -> (c -> b) -> Either a c -> b\n"
        "  val error = Prelude.error :: [Char] -> a\n"
        "  val filter = Prelude.filter :: (a -> Bool) -> [a] -> [a]\n"
        "  val flip = Prelude.flip :: (a -> b -> c) -> b -> a -> c\n"
        "  val foldl = Prelude.foldl :: (a -> b -> a) -> a -> [b] -> a\n"
        "  val foldl1 = Prelude.foldl1 :: (a -> a -> a) -> [a] -> a\n"
        "  val foldr = Prelude.foldr :: (a -> b -> b) -> b -> [a] -> b\n"
        "  val foldr1 = Prelude.foldr1 :: (a -> a -> a) -> [a] -> a\n"
        "  val fst = Prelude.fst :: (a, b) -> a\n"
        "  val head = Prelude.head :: [a] -> a\n"
        "  val id = Prelude.id :: a -> a\n"
        "  val init = Prelude.init :: [a] -> [a]\n"
        "  val iterate = Prelude.iterate :: (a -> a) -> a -> [a]\n"
        "  val last = Prelude.last :: [a] -> a\n"
        "  val length = Prelude.length :: [a] -> Int\n"
        "  val lines = Prelude.lines :: [Char] -> [[Char]]\n"
        "  val map = Prelude.map :: (a -> b) -> [a] -> [b]\n"
        "  val maybe = Prelude.maybe :: a -> (b -> a) -> Maybe b -> a\n"
        "  val not = Prelude.not :: Bool -> Bool\n"
        "  val null = Prelude.null :: [a] -> Bool\n"
        "  val or = Prelude.or :: [Bool] -> Bool\n"
        "  val otherwise = Prelude.otherwise :: Bool\n"
        "  val repeat = Prelude.repeat :: a -> [a]\n"
        "  val replicate = Prelude.replicate :: Int -> a -> [a]\n"
        "  val reverse = Prelude.reverse :: [a] -> [a]\n"
        "  val scanl = Prelude.scanl :: (a -> b -> a) -> a -> [b] -> [a]\n"
        "  val scanr = Prelude.scanr :: (a -> b -> b) -> b -> [a] -> [b]\n"
        "  val seq = Prelude.seq :: a -> b -> b\n"
        "  val snd = Prelude.snd :: (a, b) -> b\n"
        "  val span = Prelude.span :: (a -> Bool) -> [a] -> ([a], [a])\n"
        "  val splitAt = Prelude.splitAt :: Int -> [a] -> ([a], [a])\n"
        "  val tail = Prelude.tail :: [a] -> [a]\n"
        "  val take = Prelude.take :: Int -> [a] -> [a]\n"
        "  val takeWhile = Prelude.takeWhile :: (a -> Bool) -> [a] -> [a]\n"
        "  val uncurry = Prelude.uncurry :: (a -> b -> c) -> (a, b) -> c\n"
        "  val undefined = Prelude.undefined :: a\n"
        "  val unlines = Prelude.unlines :: [[Char]] -> [Char]\n"
        "  val until = Prelude.until :: (a -> Bool) -> (a -> a) -> a -> a\n"
        "  val unwords = Prelude.unwords :: [[Char]] -> [Char]\n"
        "  val unzip = Prelude.unzip :: [(a, b)] -> ([a], [b])\n"
        "  val words = Prelude.words :: [Char] -> [[Char]]\n"
        "  val zip = Prelude.zip :: [a] -> [b] -> [(a, b)]\n"
        "  val zipWith = Prelude.zipWith :: (a -> b -> c) -> [a] -> [b] -> [c]\n"
        "1 modules: 1 good, 0 faulty, 0 skipped\n",
    ),
]
