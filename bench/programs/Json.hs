module Parser
  ( Parser, runParser, item, sat, result, failure, bindP, thenP, orElse, many', many1, sepBy, chainl1, option, between, mapP, apP
  , token, spaces, digit, letter, char', string', parseAll
  ) where {

newtype Parser a = Parser (String -> [(a, String)]) ;

runParser :: Parser a -> String -> [(a, String)] ;
runParser (Parser p) = p ;

result :: a -> Parser a ;
result a = Parser (\s -> [(a, s)]) ;

failure :: Parser a ;
failure = Parser (const []) ;

item :: Parser Char ;
item = Parser (\s -> case s of { [] -> [] ; c : cs -> [(c, cs)] }) ;

bindP :: Parser a -> (a -> Parser b) -> Parser b ;
bindP (Parser p) f = Parser (\s -> concatMap (\(a, r) -> runParser (f a) r) (p s)) ;

thenP :: Parser a -> Parser b -> Parser b ;
thenP p q = bindP p (\_ -> q) ;

mapP :: (a -> b) -> Parser a -> Parser b ;
mapP f p = bindP p (\a -> result (f a)) ;

apP :: Parser (a -> b) -> Parser a -> Parser b ;
apP pf pa = bindP pf (\f -> mapP f pa) ;

orElse :: Parser a -> Parser a -> Parser a ;
orElse (Parser p) (Parser q) = Parser (\s -> case p s of { [] -> q s ; rs -> rs }) ;

sat :: (Char -> Bool) -> Parser Char ;
sat ok = bindP item (\c -> if ok c then result c else failure) ;

many', many1 :: Parser a -> Parser [a] ;
many' p = orElse (many1 p) (result []) ;
many1 p = bindP p (\x -> bindP (many' p) (\xs -> result (x : xs))) ;

sepBy :: Parser a -> Parser b -> Parser [a] ;
sepBy p sep = orElse (bindP p (\x -> bindP (many' (thenP sep p)) (\xs -> result (x : xs)))) (result []) ;

chainl1 :: Parser a -> Parser (a -> a -> a) -> Parser a ;
chainl1 p op = bindP p rest where {
   rest x = orElse (bindP op (\f -> bindP p (\y -> rest (f x y)))) (result x)
} ;

option :: a -> Parser a -> Parser a ;
option a p = orElse p (result a) ;

between :: Parser o -> Parser c -> Parser a -> Parser a ;
between o c p = thenP o (bindP p (\a -> mapP (const a) c)) ;

isSpace, isDigit, isLetter :: Char -> Bool ;
isSpace ' ' = True ; isSpace '\t' = True ; isSpace '\n' = True ; isSpace _ = False ;
isDigit c = case c of { '0' -> True ; '1' -> True ; '2' -> True ; '3' -> True ; '4' -> True ;
                        '5' -> True ; '6' -> True ; '7' -> True ; '8' -> True ; '9' -> True ; _ -> False } ;
isLetter = flip elem' "abcdefghijklmnopqrstuvwxyz" ;

elem' :: Char -> String -> Bool ;
elem' _ [] = False ;
elem' c (d : ds) = if eqC c d then True else elem' c ds ;

eqC :: Char -> Char -> Bool ;
eqC 'a' 'a' = True ; eqC 'b' 'b' = True ; eqC '(' '(' = True ; eqC ')' ')' = True ; eqC _ _ = False ;

spaces :: Parser () ;
spaces = mapP (const ()) (many' (sat isSpace)) ;
token :: Parser a -> Parser a ;
token p = bindP p (\a -> thenP spaces (result a)) ;
digit, letter :: Parser Char ;
digit = sat isDigit ;
letter = sat isLetter ;
char' :: Char -> Parser Char ;
char' c = token (sat (eqC c)) ;
string' :: String -> Parser String ;
string' [] = result [] ;
string' (c : cs) = bindP (sat (eqC c)) (\_ -> bindP (string' cs) (\_ -> result (c : cs))) ;
parseAll :: Parser a -> String -> Maybe a ;
parseAll p s = case runParser (thenP spaces p) s of {
   [(a, "")] -> Just a ;
   _         -> Nothing }
}

module Json (Json (..), render, pretty, parseJson, depth) where {
import Parser ;
data Json = Null | Boolean Bool | Number String | Str String | Array [Json] | Object [(String, Json)] ;

render :: Json -> String ;
render Null = "null" ;
render (Boolean b) = if b then "true" else "false" ;
render (Number n) = n ;
render (Str s) = quote s ;
render (Array js) = concat ["[", commas (map render js), "]"] ;
render (Object fs) = concat ["{", commas (map field fs), "}"] where {
   field (k, v) = concat [quote k, ":", render v]
} ;

commas :: [String] -> String ;
commas [] = "" ;
commas ss = foldr1 (\a b -> concat [a, ",", b]) ss ;

quote :: String -> String ;
quote s = concat ["\"", concatMap escape s, "\""] where {
  escape '"' = "\\\"" ;
  escape '\\' = "\\\\" ;
  escape '\n' = "\\n" ;
  escape c = [c]
} ;

pretty :: Json -> [String] ;
pretty j = go "" j where {
   go ind (Array js) = concat [["["], concatMap (go (' ' : ' ' : ind)) js, [cat2 ind "]"]] ;
   go ind (Object fs) = "{" : concat [concatMap (\(k, v) -> cat2 ind k : go (' ' : ind) v) fs, [cat2 ind "}"]] ;
   go ind other = [cat2 ind (render other)]
} ;
cat2 :: [a] -> [a] -> [a] ;
cat2 xs ys = foldr (:) ys xs ;

depth :: Json -> Int ;
depth j = length (spine j) where {
   spine (Array js) = () : longest (map spine js) ;
   spine (Object fs) = () : longest (map (\f -> spine (snd f)) fs) ;
   spine _ = []
} ;
longest :: [[a]] -> [a] ;
longest = foldr longer [] where {
   longer a b = if shorter a b then b else a ;
   shorter [] _ = True ;
   shorter _ [] = False ;
   shorter (_ : p) (_ : q) = shorter p q
} ;

value, array, object, str, number :: Parser Json ;
value = foldr1 orElse [nullP, boolP, number, str, array, object] ;
nullP = mapP (const Null) (token (string' "null")) ;
boolP = orElse (mapP (const (Boolean True)) (token (string' "true"))) (mapP (const (Boolean False)) (token (string' "false"))) ;
number = mapP Number (token (many1 digit)) ;
str = mapP Str (between (char' '"') (char' '"') (many' letter)) ;
array = mapP Array (between (char' '[') (char' ']') (sepBy value (char' ','))) ;
object = mapP Object (between (char' '{') (char' '}') (sepBy field (char' ','))) where {
   field = bindP (many1 letter) (\k -> thenP (char' ':') (mapP ((,) k) value))
} ;
parseJson :: String -> Maybe Json ;
parseJson = parseAll value
}
