module Put where {
  put :: Bool -> [Bool] -> [Bool] ;
  put b [] = b ;
  put b (x : xs) = not x : put xs
}
