"""Sources that are refused, and sources with their plans."""

# sources and sets, and why each is refused, by a check as by a plan
REFUSED = [
    ("{- {- -}", "source 1 at 1:1: open comment"),
    ("module A where { x = 1 } --> y", "source 1 at 1:26: lexeme"),
    ("module A where { x = }", "source 1 at 1:22: syntax"),
    ("module A where { x = 1 }}", "source 1 at 1:25: syntax"),
    ("module A where { newtype N = N Int Int }", "source 1 at 1:36: syntax"),
    ("module A where { (f) x = 1 }", "source 1 at 1:22: syntax"),
    ("module A where { import B }\nmodule B where { import A }", "module A in a cycle"),
    ("module Prelude where { }", "module Prelude twice"),
    ("module A where { import Z }\nmodule A where { }", "module A twice"),
    ("module A where { import A ; import Z }", "module A imports missing Z"),
    ("module A where { import A }", "module A in a cycle"),
    ("module B where { import C }\nmodule C where { import B }\nmodule A where { import Y }", "module A imports missing Y"),
    ("module A where { s = \"a\\ \\b\\&c\" ; c = '\\&' }", "source 1 at 1:39: lexeme"),
    ("module A where { x = 1.5 }", "source 1 at 1:22: lexeme"),
    ("module A where { x = A.where }", "source 1 at 1:22: lexeme"),
    (b"module A where { s = \"\xff\" }", "source 1 at 1:22: lexeme"),
    (b"{-\xff-}", "source 1 at 1:1: lexeme"),
    (b"{-\xff", "source 1 at 1:1: lexeme"),
    (b"-- \xff", "source 1 at 1:1: lexeme"),
    (b"\xef\xbb\xbfmodule A where { }", "source 1 at 1:1: lexeme"),
    ("module A where { x = 1", "source 1 at 1:23: syntax"),
    ("x {-} -", "source 1 at 1:3: open comment"),
    (b"x {- \xff", "source 1 at 1:3: lexeme"),
    (b"x -- \xff\ny", "source 1 at 1:3: lexeme"),
    ("x = 1.5", "source 1 at 1:5: lexeme"),
    ("x =\n 0e+5", "source 1 at 2:2: lexeme"),
    ("A.B.where", "source 1 at 1:1: lexeme"),
    ("A.B.wherex.y", "source 1 at 1:11: lexeme"),
    ("f =\\x", "source 1 at 1:3: lexeme"),
    ("A.B.+", "source 1 at 1:4: lexeme"),
    ("|--", "source 1 at 1:1: lexeme"),
    ("a`b", "source 1 at 1:2: lexeme"),
    (b"\n\t\xc3\xa9", "source 1 at 2:2: lexeme"),
    ("0x1.5", "source 1 at 1:4: lexeme"),
]

# sources that are read as one module A
READ = [
    'module A where { s = "a\\ \\b\\&c" }',
    "module A where { f x | x = y | otherwise = 2 where { y = 1 } ; g = \\x -> x :: Int ; h = case \"s\" of { c : _ -> c ; [] -> 'z' } }",
    "module A where { data N a = Z a | S (N (a, a)) ; d :: N a -> Int ; d (Z x) = 0 ; d (S n) = d n }",
    "module A where { f (x @ (y : ~z)) [a, 1, 'c', \"s\"] () _ (B.C p q, r) = x }",
    "module A where { x , y :: T ; x = 1 ; y = 2 }",
    "module A where { x :: (a -> b, [T c], ()) -> A.B (c) [d] -> e ; x = x }",
    "module A where { ; x = 1 ; ; y = let { ; a = 1 ; ; b :: c } in a ; }",
    "module A where { f | \\q -> q :: T = 2 }",
    "module A where { x = case 1 of { y | (\\q -> q :: T) -> 2 } }",
    "module A where { x = case 1 of { y | let { a :: T ; a = 1 } in a -> \\b -> b :: T } }",
    "module A where { x = if \\a -> a then 1 : 2 : \\b -> b else let { } in [] }",
    "module A where { x = (,) 1 2 ; y = (:) ; z = () ; u = [] ; v = [1, 2, 3] ; w = (1, 2) }",
    "module A where { x = (,,,,,,,,,,,,,,) }",
    "module A where { x = (1,1,1,1,1,1,1,1,1,1,1,1,1,1,1) }",
    "module A where { x = case 1 of { ; 1 -> 2 ; ; y | y -> 3 | z -> 4 where { z = 5 } } }",
    "module A where { x = f (\\a b -> a) (case b of { c -> d }) (if 1 then 2 else 3) }",
    "module A where { x = 1 : 2 :: [Int] }",
    "module A where { as = hiding ; qualified as hiding = as }",
    "module A where { data T = T ; data U a b = V | W a [b] (a -> b) A.B }",
    "module A where { f x = x ; f (y) = y ; g (((z))) = ((z)) }",
    "module A where { x = let { f 0 = 1 ; f n = n } in f where { y = 1 } }",
    "module A where { x = a b c ; y = A.b A.C 'd' \"e\" 0x1F }",
    "module A where { type S = Int }",
    "module A where { (x, y) = p }",
    "module A where { (x) = 1 ; ((y)) = 2 ; (z) | x = 1 | y = 2 where { a = 1 } }",
    "module A where { newtype W a = W [a] ; type P b a = (a, b) ; f :: P Int a -> W a ; f (x, n) = W [x] }",
    "module A where { type Rec a = [Circ a] ; data Circ a = Tag [Rec a] ; newtype N = N (Int -> Int) ; type F a b = a -> b -> a }",
    'module A where { x : y = "ab" ; Just z = undefined ; _ = 1 ; ~[u, v] = [x, z] ; p@(q, r) = a ; s @ t : w = b }',
    "module A where { () = 1 ; [] = 2 ; (,) a b = 3 ; 1 = 2 ; 'c' = 3 ; \"s\" = 4 ; (:) c d = 5 ; A.B e f = 6 ; [g, h] = 7 }",
    "module A where { x = let { (a, b) = c ; d : e = f } in a where { ((g)) = 1 ; Just (h) | i = j | k = l where { m = 1 } } }",
    "module A where { type S = T ; type T = [S] }",
    'module A where { s :: String ; s = "x" }',
    "module A where { x :: String Int ; x = x }",
    "module A where { data String = S ; x :: String ; x = S }",
    "module A where { f :: a -> a ; (f, g) = (\\x -> x, f 1) ; h = f 'c' }",
    "module A where { (f, g) = (not 1, 1) ; h = not g }",
    "module A where { (x, x) = (1, 2) }",
    "module A where { (x, y) = (1, 2) ; x = 3 }",
    "module A where { (x, y) = 1 }",
    "module A where { _ = not 1 }",
    "module A where { x = case y of { ; z -> 1 ; ; _ | a -> 2 | b -> 3 where { a = 1 } } }",
    "module A where { data T a b = C a (T a b) | D [a] | E (a -> b, ()) | F }",
    "module A where { x , y :: a -> [b] -> (a, b) ; x y = y ; x :: M.T a }",
    "module A where { as qualified hiding = as }",
    "module A where { (x) = 1 }",
    "module A where { x = a : b : c :: T }",
    "module A where { x = a : \\y -> y :: T }",
    "module A where { x | \\q -> q :: T = 1 | y = 2 }",
    "module A where { x = let { a = 1 ; ; b = a } in a b where { c = 1 } }",
    "module A where { x = if a then b else c : d }",
    "module A where { f x@(a, _) ~[b, c] (p : q : []) 'c' \"s\" 0x1 (Just Nothing) = (:) x a }",
    "module A where { f ~x@y = 1 }",
    "module A where { f Just x = 1 ; f (Just x y) = 1 }",
    "module A where { x = [] : [1] : [1, 2] : () }",
    "module A where { x = 1 where { y = 2 ; z | a = 1 where { } } ; }",
]

# sources with the line and column of the first token with which no module goes on
NOT_READ = [
    ("module A where { x = case 1 of { y | \\q -> q :: T -> 2 } }", "1:46"),
    ("module A where { x = case 1 of { y | \\q -> q :: -> 2 } }", "1:46"),
    ("module A where { x = case 1 of { y | if a then b else c : let { } in d :: T -> e } }", "1:72"),
    ("module A where { x = case 1 of { y | \\q -> q :: T -> a } }", "1:46"),
    ("module A where { x = f case b of { c -> d } }", "1:24"),
    ("module A where { x = if 1 ; then 2 else 3 }", "1:27"),
    ("module A where { f (Just x) = x ; import B }", "1:35"),
    ("module A where { x = (1,1,1,1,1,1,1,1,1,1,1,1,1,1,1,1) }", "1:52"),
    ("module A where { f (a,a,a,a,a,a,a,a,a,a,a,a,a,a,a,a) = 1 }", "1:50"),
    ("module A where { f :: (a,a,a,a,a,a,a,a,a,a,a,a,a,a,a,a) }", "1:53"),
    ("module A where { x = (,,,,,,,,,,,,,,,) }", "1:37"),
    ("module A where { x = case 1 of { } }", "1:34"),
    ("module A where { x = case 1 of { ; } }", "1:36"),
    ("module A where { x , y = 1 }", "1:24"),
    ("module A (T(C,)) where { }", "1:15"),
    ("module A (T(,)) where { }", "1:13"),
    ("module A where { x = 1 :: Int : 2 }", "1:31"),
    ("module A where { data T a }", "1:27"),
    ("module A where { data T = t }", "1:27"),
    ("module A where { x = \\ -> 1 }", "1:24"),
    ("module A where { x = [1,] }", "1:25"),
    ("module A where { x = let { y = 1 } }", "1:36"),
    ("module A where { f 1 : 2 = 3 }", "1:22"),
    ("module A where { newtype N = N }", "1:32"),
    ("module A where { newtype N = n }", "1:30"),
    ("module A where { newtype N = N Int | M }", "1:36"),
    ("module A where { newtype N = N (Int | Int) }", "1:37"),
    ("module A where { newtype A.B = C Int }", "1:26"),
    ("module A where { newtype N 1 }", "1:28"),
    ("module A where { type S = Int | T }", "1:31"),
    ("module A where { type s = Int }", "1:23"),
    ("module A where { type S = a -> }", "1:32"),
    ("module A where { type S a }", "1:27"),
    ("module A where { x = let { type S = Int } in x }", "1:28"),
    ("module A where { x = let { newtype N = N Int } in x }", "1:28"),
    ("module A where { (x) y = 1 }", "1:22"),
    ("module A where { f x : y = 1 }", "1:22"),
    ("module A where { x : y :: T }", "1:24"),
    ("module A where { (x) :: T }", "1:22"),
    ("module A where { (x) , y :: T }", "1:22"),
    ("module A where { x, (y) :: T }", "1:21"),
    ("module A where { x@y z = 1 }", "1:22"),
    ("module A where { x : }", "1:22"),
    ("module A where { (Just x) y = 1 }", "1:27"),
    ("module A where { (x, y) -> 1 }", "1:25"),
    ("module A where { _ _ = 1 }", "1:20"),
    ("module A where { ~x ~ y = 1 }", "1:21"),
    ("module A where { A.x = 1 }", "1:18"),
    ("module A where { = 1 }", "1:18"),
    ("module A where { (x, y) = 1 ; import B }", "1:31"),
    ("module A where { type S = Int ; import B }", "1:33"),
    ("module A where { (x = 1 }", "1:21"),
    ("module A where { [x = 1 }", "1:21"),
    ("module A where { (a,a,a,a,a,a,a,a,a,a,a,a,a,a,a,a) = 1 }", "1:48"),
    ("module A where { f (x) : y = 1 }", "1:24"),
    ("module A where { x = case y of { } }", "1:34"),
    ("module A where { x = case y of { ; ; } }", "1:38"),
    ("module A where { data T = C a -> b }", "1:31"),
    ("module A where { x = \\y -> y :: T :: U }", "1:35"),
    ("module A where { x = a let { } in b }", "1:24"),
    ("module A where { f (a : b = 1 }", "1:27"),
    ("module A where { x = (1 }", "1:25"),
    ("module A where { x = a : }", "1:26"),
    ("module A where { x :: a -> }", "1:28"),
    ("x", "1:1"),
    ("module A where {\nx = 1 ; import B }", "2:9"),
    ("module A where { import B x = 1 }", "1:27"),
    ("module A where { import B hiding }", "1:34"),
]

# sources and their plans
PLANNED = [
    ("", "0 modules\n"),
    ("{- -- -}", "0 modules\n"),
    ("module A where { import B ; x = y }\nmodule B where { y = 1 }\n", "module A\n  import B\nmodule B\n2 modules\n"),
    (
        "module B.C where { import A }\n"
        "module B where { }\n"
        "module A where { import B ; import Prelude ; import B as D }",
        "module A\n"
        "  import B\n"
        "module B\n"
        "module B.C\n"
        "  import A\n"
        "3 modules\n",
    ),
    (
        "module C where { import B ; import A ; import B }\n"
        "module B where { }\n"
        "module A where { }",
        "module A\n"
        "module B\n"
        "module C\n"
        "  import A\n"
        "  import B\n"
        "3 modules\n",
    ),
    ("module A where { x = 1 }", "module A\n1 modules\n"),
    (
        "module B.C where { import A } module B where { } module A where { import B }",
        "module A\n"
        "  import B\n"
        "module B\n"
        "module B.C\n"
        "  import A\n"
        "3 modules\n",
    ),
    (
        "module C where { import B ; import Prelude ; import A ; import B as D } module B where { } module A where { }",
        "module A\n"
        "module B\n"
        "module C\n"
        "  import A\n"
        "  import B\n"
        "3 modules\n",
    ),
    (
        "module A (,) where { import B (,) ; import C hiding (,) ; import B (x, T(..),) }\n"
        "module B (x,) where { }\n"
        "module C where { }",
        "module A\n"
        "  import B\n"
        "  import C\n"
        "module B\n"
        "module C\n"
        "3 modules\n",
    ),
    ("module A where { }", "module A\n1 modules\n"),
    ("module A where { } module A.B where { ; ; }", "module A\nmodule A.B\n2 modules\n"),
    ("module A (x, A.y, T, T(..), T(C, D), B.T(), module B,) where { x = ((A.y)) ; y = 1 }", "module A\n1 modules\n"),
    (
        "module A (,) where { ; import B ;; import qualified B.C as D hiding (as, T(..),) }\n"
        "module B where { }\n"
        "module B.C where { }",
        "module A\n"
        "  import B\n"
        "  import B.C\n"
        "module B\n"
        "module B.C\n"
        "3 modules\n",
    ),
    (
        "module A () where { import E () ; import F (,) ; import G as H (x) ; x = 1 }\n"
        "module E where { }\n"
        "module F where { }\n"
        "module G where { }",
        "module A\n"
        "  import E\n"
        "  import F\n"
        "  import G\n"
        "module E\n"
        "module F\n"
        "module G\n"
        "4 modules\n",
    ),
    ("module A where { as = hiding ; hiding = qualified ; qualified = as }", "module A\n1 modules\n"),
]

# characters and strings that are none, each with its line and column
NO_QUOTES = [
    ("x '\\&'", "1:3"),
    ("x ''", "1:3"),
    ("x '", "1:3"),
    ("x 'ab'", "1:3"),
    ("x 'a", "1:3"),
    ("x '''", "1:3"),
    ("x '\\'", "1:3"),
    ("x '\\ \\'", "1:3"),
    ("x '\n'", "1:3"),
    ("x '\x1f'", "1:3"),
    (b"x '\xc3'", "1:3"),
    (b"x '\xc3\xbc\xbc'", "1:3"),
    (b"x '\xed\xa0\x80'", "1:3"),
    ("x '\\1114112'", "1:3"),
    ("x '\\x110000'", "1:3"),
    ("x '\\o4200000'", "1:3"),
    ("x '\\99999999999999999999999999'", "1:3"),
    ("x '\\x'", "1:3"),
    ("x '\\o8'", "1:3"),
    ("x '\\NUL'", "1:3"),
    ("x '\\e'", "1:3"),
    ('x "', "1:3"),
    ('x "a', "1:3"),
    ('x "a\n"', "1:3"),
    ('x "\t"', "1:3"),
    ('x "\\"', "1:3"),
    ('x "\\q"', "1:3"),
    ('x "\\ x"', "1:3"),
    ('x "\\ ', "1:3"),
    ('x "\\^A"', "1:3"),
    ('x "\\x110000"', "1:3"),
    (b"x \"\xff\"", "1:3"),
    (b"x \"\xc3\"", "1:3"),
]
