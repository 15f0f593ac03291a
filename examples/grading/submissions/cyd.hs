module Reverse where {
  append xs x = foldr (:) x xs ;
  backwards [] = [] ;
  backwards (x : xs) = append (backwards xs) x
}
