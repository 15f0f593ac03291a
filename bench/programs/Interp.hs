module State where {
newtype State s a = State (s -> (a, s)) ;
runState :: State s a -> s -> (a, s) ;
runState (State f) = f ;
evalState m s = fst (runState m s) ;
execState m s = snd (runState m s) ;
return' :: a -> State s a ;
return' a = State (\s -> (a, s)) ;
bind :: State s a -> (a -> State s b) -> State s b ;
bind (State f) k = State (\s -> let { (a, s') = f s } in runState (k a) s') ;
get :: State s s ;
get = State (\s -> (s, s)) ;
put s = State (\_ -> ((), s)) ;
modify f = bind get (\s -> put (f s)) ;
mapM_' f = foldr (\x m -> bind (f x) (\_ -> m)) (return' ()) ;
sequence' [] = return' [] ;
sequence' (m : ms) = bind m (\x -> bind (sequence' ms) (\xs -> return' (x : xs))) ;
replicateM' n m = sequence' (replicate n m) ;
-- label a tree
data Tree a = Leaf a | Node (Tree a) (Tree a) ;
label :: Tree a -> State [b] (Tree (a, b)) ;
label (Leaf a) = bind get (\(l : ls) -> bind (put ls) (\() -> return' (Leaf (a, l)))) ;
label (Node l r) = bind (label l) (\l' -> bind (label r) (\r' -> return' (Node l' r')))
}

module Interp (run, Program, Stmt (..), Ex (..), Value (..)) where {
-- a small imperative language, with a store as a function
import State ;
data Ex = Lit Value | Ref Ident | Call Prim [Ex] ;
data Value = IntV [()] | BoolV Bool | ListV [Value] | FunV ([Value] -> Either Error Value) ;
data Stmt = Assign Ident Ex | While Ex [Stmt] | If Ex [Stmt] [Stmt] | Print Ex | Return Ex ;
data Prim = PAdd | PLess | PCons | PHead ;
data Error = Unbound | BadArgs Prim Int | NotBool | NoReturn ;
type Ident = [Bool] ;
type Program = [Stmt] ;
type Store = Ident -> Maybe Value ;
type Machine a = State (Store, [Value]) (Either Error a) ;

ok :: a -> Machine a ;
ok a = return' (Right a) ;
fail' :: Error -> Machine a ;
fail' e = return' (Left e) ;
andThen :: Machine a -> (a -> Machine b) -> Machine b ;
andThen m k = bind m (either fail' k) ;

eqId :: Ident -> Ident -> Bool ;
eqId [] [] = True ;
eqId (a : as') (b : bs) = and [iff a b, eqId as' bs] ;
eqId _ _ = False ;
iff a b = if a then b else not b ;

eval :: Ex -> Machine Value ;
eval (Lit v) = ok v ;
eval (Ref x) = bind get (\(s, _) -> maybe (fail' Unbound) ok (s x)) ;
eval (Call p es) = andThen (evals es) (\vs -> return' (prim p vs)) ;

evals :: [Ex] -> Machine [Value] ;
evals [] = ok [] ;
evals (e : es) = andThen (eval e) (\v -> andThen (evals es) (\vs -> ok (v : vs))) ;

prim :: Prim -> [Value] -> Either Error Value ;
prim PAdd [IntV a, IntV b] = Right (IntV (foldr (:) b a)) ;
prim PLess [IntV a, IntV b] = Right (BoolV (less a b)) where {
  less _ [] = False ; less [] _ = True ; less (_ : x) (_ : y) = less x y } ;
prim PCons [v, ListV vs] = Right (ListV (v : vs)) ;
prim PHead [ListV (v : _)] = Right v ;
prim p vs = Left (BadArgs p (length vs)) ;

exec :: Stmt -> Machine (Maybe Value) ;
exec (Assign x e) = andThen (eval e) (\v ->
   bind (modify (\(s, out) -> (\y -> if eqId x y then Just v else s y, out))) (\_ -> ok Nothing)) ;
exec st@(While c body) = andThen (eval c) (\v -> case v of {
   BoolV True -> andThen (block body) (\r -> case r of { Nothing -> exec st ; done -> ok done }) ;
   BoolV False -> ok Nothing ;
   _ -> fail' NotBool }) ;
exec (If c t e) = andThen (eval c) (\v -> case v of {
   BoolV b -> block (if b then t else e) ; _ -> fail' NotBool }) ;
exec (Print e) = andThen (eval e) (\v -> bind (modify (\(s, out) -> (s, v : out))) (\_ -> ok Nothing)) ;
exec (Return e) = andThen (eval e) (\v -> ok (Just v)) ;

block :: [Stmt] -> Machine (Maybe Value) ;
block [] = ok Nothing ;
block (s : ss) = andThen (exec s) (maybe (block ss) (\v -> ok (Just v))) ;

run :: Program -> (Either Error Value, [Value]) ;
run p = case runState (block p) (const Nothing, []) of {
  (r, (_, out)) -> (either Left (maybe (Left NoReturn) Right) r, reverse out) }
}
