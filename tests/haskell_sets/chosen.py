"""Sets of modules that were written for rules of names and types that random sets seldom meet.

A set is a text of modules, each from `module` to a line `}`. `%` stands for what makes the names of its modules unique.
"""
import re

TEXTS = """
module %A where {
data T = C | D;
f = 'a';
}
module %B (module %B) where {
import %A as %B;
g = f;
}
module %C where {
import %B;
x = (f, g, C);
}
----
module %A where {
data T = C | D;
}
module %B (T(C)) where {
import %A (T);
import qualified %A as Q (T(C));
}
module %C (T(..)) where {
import %A (T);
import qualified %A as Q (T(C));
}
module %D where {
import %C;
x :: T;
x = C;
y = D;
}
module %E (Q.T(..), C) where {
import qualified %A as Q;
}
----
module %A where {
data T = C | D;
}
module %B (module %A) where {
import %A hiding (T);
}
module %C where {
import %B;
x = C;
}
module %D where {
import %B (C);
}
module %E where {
import %B (T(C));
}
module %F where {
import %B hiding (C);
x = D;
}
module %G where {
import %B hiding (C);
x = C;
}
----
module %A where {
data C = D;
data T = C;
}
module %B where {
import %A hiding (C);
x = D;
y :: T;
y = undefined;
}
module %C where {
import %A hiding (C);
x = C;
}
module %D where {
import %A hiding (C);
x :: C;
x = D;
}
module %E where {
import %A hiding (C());
x = C;
}
module %F where {
import %A hiding (T(..));
x :: C;
x = C;
}
----
module %A where {
import Prelude ();
f x = x;
}
module %B where {
import qualified Prelude;
f = Prelude.map;
}
module %C where {
import qualified Prelude;
f = map;
}
module %D where {
import %A as Prelude;
g = (map f, Prelude.f, Prelude.map);
}
module %E (module Prelude) where {
}
module %F (module Prelude) where {
import qualified Prelude;
}
module %G (module P, module Prelude) where {
import Prelude as P (map, Maybe(Just));
}
----
module %A where {
f = 'a';
g = 'b';
}
module %B where {
f = 'a';
h = f;
}
module %C where {
import %A (f);
import %A hiding (f);
x = (f, g, %A.f);
}
module %D where {
import %A as Q;
import %B as Q;
x = (g, Q.g, Q.h);
}
module %E where {
import %A as Q;
import qualified %B as Q;
x = (f, g);
}
module %F where {
import %A as Q;
import qualified %B as Q;
x = Q.f;
}
module %G (module %A, module %B) where {
import %A;
import %B;
}
module %H (module %A, h, %B.f) where {
import %A hiding (f);
import %B;
}
----
module %A where {
data T = T | U;
type U = T;
t = T;
}
module %B (T, module %C, t) where {
import %A;
import %C;
}
module %C where {
t' :: Int;
t' = 1;
}
module %D (U(..), U()) where {
import %A;
}
module %E (U(T)) where {
import %A;
}
module %F where {
import %A (U(..), T(), t);
x :: U;
x = t;
}
module %G where {
import %A (U(T));
}
module %H where {
import %A hiding (U(..));
x = U;
}
----
module %A where {
id x = x;
f id = id;
id :: a -> a;
g = %A.id;
h = let { id = 'a' } in (id, %A.id);
}
module %B where {
id x = x;
f = id;
}
module %C (id) where {
id x = x;
}
module %D (module %D) where {
id x = x;
}
module %E (%E.id, Prelude.map) where {
id x = x;
}
module %F (%F.id, Prelude.id) where {
id x = x;
}
module %G where {
data Maybe a = Just a;
x = %G.Just;
y (%G.Just v) = v;
z :: %G.Maybe Int;
z = undefined;
}
module %H where {
data Maybe a = Just a;
x :: Maybe a;
x = undefined;
y (Just v) = v;
}
----
module %A where {
f :: a -> [Int];
f x = f [x];
g x = (h 'a', h True);
h :: a -> a;
h x = const x (g x);
}
module %B where {
f x = f [x];
even' n = odd' n;
odd' n = even' (n, n);
}
module %C where {
(p, q) = (id, \\ x -> x);
use = (p 'a', p True, q p, q q 'a');
[r, s] = [id, \\ x -> x];
}
module %D where {
f g = (g 'a', g True);
k = let { h = f } in h;
}
module %E where {
k = let { h x = x } in (h 'a', h h True);
l = (\\ h -> (h 'a', h True)) id;
}
module %F where {
f x = let { g y = (x, y) } in (g 'a', g True);
h x = let { g :: b -> (a, b) ; g y = (x, y) } in g;
}
module %G where {
f :: a -> a;
f x = (x :: a);
}
module %H where {
f :: a -> b -> a;
f x y = let { g :: a -> a ; g z = z } in g x;
k = ((\\ x -> x) :: a -> a) 'a';
l = (id :: Int -> Int, [] :: [a]);
m = (undefined :: a -> b, undefined :: b -> a);
}
----
module %A where {
type K a b = a;
type L b = K Int b;
f :: K Int a -> L b -> b -> K c a;
f = undefined;
}
module %B where {
type R = [S];
type S = (R, Int);
}
module %C where {
data R = R S;
type S = (R, Int);
f (R (r, n)) = f r;
}
module %D where {
data T a a = C;
}
module %E where {
data T a = C b;
}
module %F where {
type T a a = a;
}
module %G where {
type T a = b;
}
module %H where {
newtype T = T T;
f (T t) = t;
}
----
module %A where {
f 1 = 'a';
f :: Int -> Char;
f 2 = 'b';
}
module %B where {
f 1 = 'a';
f = undefined;
}
module %C where {
f = undefined;
f 1 = 'a';
}
module %D where {
f x = let { g 1 = 'a' ; h = g ; g 2 = 'b' } in x;
}
module %E where {
f x x = x;
}
module %F where {
f = \\ x (y, x) -> x;
}
module %G where {
(x, y, x) = undefined;
}
module %H where {
f y = case y of { x@(x : z) -> z };
}
----
module %A where {
f x | g = y | y = not g where { g = x ; y = not x };
h z = case z of { (a, b) | a -> c | b -> a | otherwise -> False where { c = b } };
}
module %B where {
h z = case z of { (a, b) | a -> c | otherwise -> False where { c = b } ; _ -> True };
k z = case z of { Just x | x -> 'a' ; _ | otherwise -> 'b' };
}
module %C where {
f x | 1 = x;
}
module %D where {
True = 'a';
}
module %E where {
_ = 'a' 'b';
}
module %F where {
~(x, y) | True = (1, 'a') | otherwise = undefined;
x' : y' = "abc";
z@(w : _) = [1, 2];
}
module %G where {
(x, y) = (y, [x]);
}
module %H where {
(x, f) = (f 'a', \\ y -> (y, 'b'));
(g, h) = (\\ y -> h y, \\ y -> g y);
}
----
module %A where {
f (,) = 'a';
}
module %B where {
f ((,) x y) = (,,) x;
g ((:) x xs) = (:) x;
h [] () = (() , []);
}
module %C where {
f (Just) = 'a';
}
module %D where {
f (Just x y) = 'a';
}
module %E where {
f :: Maybe;
f = undefined;
}
module %F where {
f :: [Maybe];
f = undefined;
}
module %G where {
f :: Int Int;
f = undefined;
}
module %H where {
data T = C Maybe Either;
f :: T a;
f = undefined;
}
----
module %A where {
f "abc" = 'a';
f ['a', 'b'] = 'b';
f ('a' : "b") = 'c';
f _ = 'd';
g 0x1F = "\\x41\\&1";
g 0o17 = "\\65\\&1";
}
module %B where {
f 'a' = 1;
f "a" = 2;
}
module %C where {
f _ _ = 1;
f x _ = x;
}
module %D where {
f as hiding qualified = (as, hiding, qualified);
g :: as -> hiding -> qualified -> as;
g = undefined;
forall x = x;
foreign x = x;
family role pattern = role;
}
module %E where {
_f _x' = _x';
f' f'' = f'';
}
module %F where {
f 1 2 = 3;
f 1 = 2;
}
module %G where {
f x = x x;
}
module %H where {
f :: a -> b;
f x = x;
}
"""




def chosen_sets():
    """For each set the texts of its modules, by name."""
    sets = []
    for number, text in enumerate(TEXTS.split("----\n")):
        modules = re.findall(r"module .*?^\}\n", text.replace("%", f"K{number}"), re.M | re.S)
        sets.append({each.split()[1]: each for each in modules})
    return sets
