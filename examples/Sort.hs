module Sort where {
  insert :: (a -> a -> Bool) -> a -> [a] -> [a] ;
  insert le x [] = [x] ;
  insert le x (y : ys) = if le x y then x : y : ys else y : insert x le ys
}
