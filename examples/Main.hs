module Main where {
  import Pairs ;
  one = first (pair 1 'c') ;
  twice f = f f
}
