module Reverse where {
  append xs x = foldr (:) [x] xs
}
