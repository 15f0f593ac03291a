module Pairs (Pair, pair, first) where {
  data Pair a b = Pair a b ;
  pair x y = Pair x y ;
  first (Pair x y) = x
}
