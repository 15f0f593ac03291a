-- A tiny compiler in seven modules of one source: tokens, characters, lexer, parser, code, machine, and what calls them.
module Compiler.Token (Token (..), Pos, Located, at, item) where {
  type Pos = ([()], [()]) ;
  data Token = TNum [()] | TId String | TLet | TIn | TIf | TThen | TElse | TFun | TArrow
             | TOpen | TClose | TEq | TPlus | TEnd ;
  type Located a = (Pos, a) ;
  at :: Pos -> a -> Located a ;
  at = (,) ;
  item :: Located a -> a ;
  item = snd
}

module Compiler.Chars where {
  isSpace, isDigit, isLetter :: Char -> Bool ;
  isSpace c = case c of { ' ' -> True ; '\n' -> True ; '\t' -> True ; _ -> False } ;
  isDigit c = not (null (digitValue c)) ;
  isLetter c = case c of { 'a' -> True ; 'b' -> True ; 'x' -> True ; 'y' -> True ; _ -> False } ;
  digitValue :: Char -> [[()]] ;
  digitValue c = case c of { '0' -> [[]] ; '1' -> [[()]] ; '2' -> [[(), ()]] ; _ -> [] } ;
  sameChar :: Char -> Char -> Bool ;
  sameChar 'a' 'a' = True ; sameChar 'b' 'b' = True ; sameChar 'x' 'x' = True ; sameChar 'y' 'y' = True ;
  sameChar _ _ = False ;
  sameString :: String -> String -> Bool ;
  sameString [] [] = True ;
  sameString (c : cs) (d : ds) = and [sameChar c d, sameString cs ds] ;
  sameString _ _ = False
}

module Compiler.Lexer (tokens, LexError (..)) where {
  import Compiler.Token ;
  import Compiler.Chars ;

  data LexError = BadChar Pos Char ;

  start :: Pos ;
  start = ([()], [()]) ;

  advance :: Char -> Pos -> Pos ;
  advance '\n' (l, _) = (() : l, [()]) ;
  advance _    (l, c) = (l, () : c) ;

  number :: String -> [()] ;
  number = concatMap (\c -> concat (digitValue c)) ;

  word :: String -> Token ;
  word s = case s of {
    "let"  -> TLet  ; "in"   -> TIn ;
    "if"   -> TIf   ; "then" -> TThen ; "else" -> TElse ;
    _      -> TId s } ;

  tokens :: String -> Either LexError [Located Token] ;
  tokens = go start where {
    go :: Pos -> String -> Either LexError [Located Token] ;
    go p [] = Right [at p TEnd] ;
    go p whole@(c : cs)
      | isSpace c  = go (advance c p) cs
      | isDigit c  = chunk isDigit (\ds -> TNum (number ds))
      | isLetter c = chunk isLetter word
      | otherwise  = case c of {
          '(' -> one TOpen ;
          ')' -> one TClose ;
          '=' -> one TEq ;
          '+' -> one TPlus ;
          '\\' -> one TFun ;
          '>' -> one TArrow ;
          _ -> Left (BadChar p c) }
      where {
        emit t = either Left (\ts -> Right (at p t : ts)) ;
        one t = emit t (go (advance c p) cs) ;
        chunk ok make =
          let { (front, rest) = span ok whole } in
          emit (make front) (go (foldl (flip advance) p front) rest) }
  }
}

module Compiler.Parser (Exp (..), parse, ParseError (..)) where {
  import Compiler.Token as T ;
  infixless = () ;
  data Exp = Num [()] | Var String | Add Exp Exp | App Exp Exp | Lam String Exp | Let String Exp Exp | If Exp Exp Exp ;
  data ParseError = Expected String T.Pos | Trailing Pos ;
  type Input = [Located Token] ;
  newtype P a = P (Input -> Either ParseError (a, Input)) ;

  run :: P a -> Input -> Either ParseError (a, Input) ;
  run (P f) = f ;
  ret a = P (\i -> Right (a, i)) ;
  with :: P a -> (a -> P b) -> P b ;
  with (P f) g = P (\i -> case f i of { Left e -> Left e ; Right (a, rest) -> run (g a) rest }) ;

  next, peek :: P Token ;
  next = P (\i -> case i of { [] -> Left (Expected "token" ([], [])) ; t : ts -> Right (item t, ts) }) ;
  peek = P (\i -> case i of { t : _ -> Right (item t, i) ; [] -> Right (TEnd, i) }) ;

  expect :: String -> (Token -> Bool) -> P () ;
  expect what ok = P (\i -> case i of {
    (p, t) : ts | ok t -> Right ((), ts)
                | otherwise -> Left (Expected what p) ;
    [] -> Left (Expected what ([], [])) }) ;

  isEq TEq = True ; isEq _ = False ;
  isIn TIn = True ; isIn _ = False ;
  isThen TThen = True ; isThen _ = False ;
  isElse TElse = True ; isElse _ = False ;
  isArrow TArrow = True ; isArrow _ = False ;
  isClose TClose = True ; isClose _ = False ;

  name :: P String ;
  name = P (\i -> case i of {
    (_, TId s) : ts -> Right (s, ts) ;
    (p, _) : _ -> Left (Expected "name" p) ;
    [] -> Left (Expected "name" ([], [])) }) ;

  expr :: P Exp ;
  expr = with peek (\t -> case t of {
    TLet -> with next (\_ -> with name (\x -> with (expect "=" isEq) (\_ -> with expr (\e ->
            with (expect "in" isIn) (\_ -> with expr (\b -> ret (Let x e b))))))) ;
    TIf  -> with next (\_ -> with expr (\c -> with (expect "then" isThen) (\_ -> with expr (\a ->
            with (expect "else" isElse) (\_ -> with expr (\b -> ret (If c a b))))))) ;
    TFun -> with next (\_ -> with name (\x -> with (expect ">" isArrow) (\_ -> with expr (\b -> ret (Lam x b))))) ;
    _    -> with application sums }) ;

  sums :: Exp -> P Exp ;
  sums l = with peek (\t -> case t of {
    TPlus -> with next (\_ -> with application (\r -> sums (Add l r))) ;
    _ -> ret l }) ;

  application, atom :: P Exp ;
  application = with atom more where {
    more f = with peek (\t -> if begins t then with atom (\a -> more (App f a)) else ret f) ;
    begins (TNum _) = True ; begins (TId _) = True ; begins TOpen = True ; begins _ = False } ;
  atom = with next (\t -> case t of {
    TNum n -> ret (Num n) ;
    TId x -> ret (Var x) ;
    TOpen -> with expr (\e -> with (expect ")" isClose) (\_ -> ret e)) ;
    _ -> P (\i -> Left (Expected "expression" (place i))) }) ;
  place ((p, _) : _) = p ; place [] = ([], []) ;

  parse :: Input -> Either ParseError Exp ;
  parse i = case run expr i of {
    Left e -> Left e ;
    Right (e, [(_, TEnd)]) -> Right e ;
    Right (_, rest) -> Left (Trailing (place rest)) }
}

module Compiler.Code (Instr (..), Code, compile) where {
  import Compiler.Parser ;
  import Compiler.Chars (sameString) ;
  data Instr = Push [()] | Access [()] | Closure Code | Apply | Plus | Branch Code Code | Bind | Unbind ;
  type Code = [Instr] ;
  type Names = [String] ;

  app :: [a] -> [a] -> [a] ;
  app xs ys = foldr (:) ys xs ;

  index :: Names -> String -> Maybe [()] ;
  index [] _ = Nothing ;
  index (y : ys) x | sameString x y = Just []
                   | otherwise = maybe Nothing (\n -> Just (() : n)) (index ys x) ;

  compile :: Exp -> Either String Code ;
  compile = go [] where {
    go _ (Num n) = Right [Push n] ;
    go env (Var x) = maybe (Left x) (\n -> Right [Access n]) (index env x) ;
    go env (Add a b) = both (\p q -> concat [p, q, [Plus]]) (go env a) (go env b) ;
    go env (App f a) = both (\p q -> concat [p, q, [Apply]]) (go env f) (go env a) ;
    go env (Lam x b) = each (\c -> [Closure c]) (go (x : env) b) ;
    go env (Let x e b) = both (\p q -> concat [p, [Bind], q, [Unbind]]) (go env e) (go (x : env) b) ;
    go env (If c a b) = both (\p k -> app p (k [])) (go env c) (both (\x y z -> Branch x y : z) (go env a) (go env b)) } ;
  both :: (a -> b -> c) -> Either e a -> Either e b -> Either e c ;
  both f (Right a) (Right b) = Right (f a b) ;
  both _ (Left e) _ = Left e ;
  both _ _ (Left e) = Left e ;
  each f = either Left (\a -> Right (f a))
}

module Compiler.Machine (Value (..), execute) where {
  import Compiler.Code hiding (compile) ;
  data Value = VNum [()] | VClosure Code [Value] ;
  data Frame = Frame Code [Value] ;

  execute :: Code -> Maybe Value ;
  execute code = loop code [] [] [] where {
    loop [] _ (v : _) [] = Just v ;
    loop [] _ (v : _) (Frame c env : fs) = loop c env [v] fs ;
    loop (i : c) env st fs = case (i, st) of {
      (Push n, _) -> loop c env (VNum n : st) fs ;
      (Access n, _) -> maybe Nothing (\v -> loop c env (v : st) fs) (nth n env) ;
      (Closure b, _) -> loop c env (VClosure b env : st) fs ;
      (Apply, v : VClosure b e : _) -> loop b (v : e) [] (Frame c env : fs) ;
      (Plus, VNum a : VNum b : rest) -> loop c env (VNum (foldr (:) a b) : rest) fs ;
      (Bind, v : rest) -> loop c (v : env) rest fs ;
      (Unbind, _) -> loop c (tail env) st fs ;
      (Branch a b, VNum [] : rest) -> loop (cat a c) env rest fs ;
      (Branch a b, _ : rest) -> loop (cat b c) env rest fs ;
      _ -> Nothing } ;
    loop _ _ _ _ = Nothing } ;
  nth [] (v : _) = Just v ;
  nth (_ : n) (_ : vs) = nth n vs ;
  nth _ _ = Nothing ;
  cat a b = foldr (:) b a
}

module Compiler.Main (main, pipeline, Failure (..)) where {
  import qualified Compiler.Lexer as L ;
  import qualified Compiler.Parser as P ;
  import Compiler.Code (compile) ;
  import Compiler.Machine ;
  data Failure = Lexing L.LexError | Parsing P.ParseError | Scoping String | Stuck ;
  pipeline :: String -> Either Failure Value ;
  pipeline s = case L.tokens s of {
    Left e -> Left (Lexing e) ;
    Right ts -> case P.parse ts of {
      Left e -> Left (Parsing e) ;
      Right e -> either (\x -> Left (Scoping x)) (\c -> maybe (Left Stuck) Right (execute c)) (compile e) } } ;
  main = map pipeline ["let x = 1 in x + x", "(\\x > x + 1) 2"]
}
