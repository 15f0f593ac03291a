-- What a submission has to define: each name, with this type or a more general one.
module Check where {
  import Reverse ;

  c1 :: [a] -> [a] ;
  c1 = Reverse.backwards ;

  c2 :: [a] -> a -> [a] ;
  c2 = Reverse.append
}
