"""Sources of a file M.hs, each with the status of a check and its messages."""

# each kind of fault once, and modules that are skipped, with the messages for a file M.hs
KINDS = [
    # the letters of a signature, as they are written there
    (
        "module M where { data Tree elem = Leaf | Node (Tree elem) ; f :: elem->Tree elem ; f x = x }",
        1,
        "M.hs:1:84: error: type error in 'f' [type]\n"
        "No types fit this definition and those that refer back to it. All others that it refers to have types or signatures.\n"
        "...ule M where { data Tree elem = Leaf | Node (Tree elem) ; f :: elem->Tree elem ; f x = x }\n"
        "                                                                                   ^\n"
        "M.hs:1:90: note: this has type 'elem', but 'Tree elem' is expected (up to 1:90)\n"
        "...where { data Tree elem = Leaf | Node (Tree elem) ; f :: elem->Tree elem ; f x = x }\n"
        "                                                                                   ^\n"
        "M.hs:1:61: note: 'f' has type 'a -> a' without this signature (up to 1:80)\n"
        "module M where { data Tree elem = Leaf | Node (Tree elem) ; f :: elem->Tree elem ; f x = x }\n"
        "                                                            ^\n"
        "errors: 1, skipped modules: 0\n",
    ),
    # a variable that isn't in the signature gets another letter than that has
    (
        "module M where { pairUp :: b -> c -> [b] ; pairUp x y = map (\\z -> (z, x)) [] }",
        1,
        "M.hs:1:44: error: type error in 'pairUp' [type]\n"
        "No types fit this definition and those that refer back to it. All others that it refers to have types or signatures.\n"
        "module M where { pairUp :: b -> c -> [b] ; pairUp x y = map (\\z -> (z, x)) [] }\n"
        "                                           ^^^^^^\n"
        "M.hs:1:68: note: this has type '(d, b)', but 'b' is expected (up to 1:73)\n"
        "No type is both: it would contain itself, and so be infinite.\n"
        "module M where { pairUp :: b -> c -> [b] ; pairUp x y = map (\\z -> (z, x)) [] }\n"
        "                                                                   ^\n"
        "M.hs:1:18: note: 'pairUp' has type 'a -> b -> [(c, a)]' without this signature (up to 1:40)\n"
        "module M where { pairUp :: b -> c -> [b] ; pairUp x y = map (\\z -> (z, x)) [] }\n"
        "                 ^^^^^^\n"
        "errors: 1, skipped modules: 0\n",
    ),
    # a synonym with a parameter: the letters are those of the alphabet
    (
        "module M where { type Pair t = (t, t) ; f :: Pair elem -> elem ; f x = x }",
        1,
        "M.hs:1:66: error: type error in 'f' [type]\n"
        "No types fit this definition and those that refer back to it. All others that it refers to have types or signatures.\n"
        "module M where { type Pair t = (t, t) ; f :: Pair elem -> elem ; f x = x }\n"
        "                                                                 ^\n"
        "M.hs:1:72: note: this has type '(a, a)', but 'a' is expected (up to 1:72)\n"
        "No type is both: it would contain itself, and so be infinite.\n"
        "module M where { type Pair t = (t, t) ; f :: Pair elem -> elem ; f x = x }\n"
        "                                                                       ^\n"
        "M.hs:1:41: note: 'f' has type 'a -> a' without this signature (up to 1:62)\n"
        "module M where { type Pair t = (t, t) ; f :: Pair elem -> elem ; f x = x }\n"
        "                                        ^\n"
        "errors: 1, skipped modules: 0\n",
    ),
    (
        "module A where { surface x = x }\n"
        "module M where { import A (surfase) }",
        1,
        "M.hs:2:28: error: cannot import 'surfase': 'A' doesn't export it (did you mean 'surface'?) [not-exported]\n"
        "The imported module doesn't export this name, or not as a constructor of this type.\n"
        "module M where { import A (surfase) }\n"
        "                           ^^^^^^^\n"
        "errors: 1, skipped modules: 0\n",
    ),
    # the near name is a constructor of the type
    (
        "module A where { data Shape = Circle Int | Square Int }\n"
        "module M where { import A (Shape (Cirkle)) }",
        1,
        "M.hs:2:35: error: cannot import 'Cirkle': 'A' doesn't export it as a constructor of 'Shape' (did you mean 'Circle'?) [not-exported]\n"
        "The imported module doesn't export this name, or not as a constructor of this type.\n"
        "module M where { import A (Shape (Cirkle)) }\n"
        "                                  ^^^^^^\n"
        "errors: 1, skipped modules: 0\n",
    ),
    (
        "module A where { x = 1 }\n"
        "module B where { import A (y) }",
        1,
        "M.hs:2:28: error: cannot import 'y': 'A' doesn't export it [not-exported]\n"
        "The imported module doesn't export this name, or not as a constructor of this type.\n"
        "module B where { import A (y) }\n"
        "                           ^\n"
        "errors: 1, skipped modules: 0\n",
    ),
    (
        "module M where { f = 1 ; g = 2 ; f = 3 }",
        1,
        "M.hs:1:34: error: a second declaration of 'f': the first is at 1:18 [duplicate]\n"
        "A name has one declaration, one signature and one parameter in a list; the clauses of a function must stand together.\n"
        "module M where { f = 1 ; g = 2 ; f = 3 }\n"
        "                                 ^\n"
        "errors: 1, skipped modules: 0\n",
    ),
    (
        "module M where { f :: Int }",
        1,
        "M.hs:1:18: error: the signature of 'f' has no clauses [no-binding]\n"
        "A variable with a signature needs clauses in the same list; a variable of a pattern can't have a signature.\n"
        "module M where { f :: Int }\n"
        "                 ^\n"
        "errors: 1, skipped modules: 0\n",
    ),
    (
        "module M where { f = y }",
        1,
        "M.hs:1:22: error: 'y' isn't in scope [unbound]\n"
        "No declaration, import or parameter gives this name a meaning here.\n"
        "module M where { f = y }\n"
        "                     ^\n"
        "errors: 1, skipped modules: 0\n",
    ),
    (
        "module A where { x = 1 }\n"
        "module B where { x = 2 }\n"
        "module C where { import A ; import B ; y = x }",
        1,
        "M.hs:3:44: error: 'x' is ambiguous: write 'A.x' (imported in line 3) or 'B.x' (imported in line 3) [ambiguous]\n"
        "Several things in scope have this name. Write a qualifier that only one has, or hide the others in their imports.\n"
        "module C where { import A ; import B ; y = x }\n"
        "                                           ^\n"
        "errors: 1, skipped modules: 0\n",
    ),
    (
        # one qualifier for two imports: no name means either alone
        "module A where { x = 1 }\n"
        "module B where { x = 2 }\n"
        "module C where { import A as L ; import B as L ; y = x }",
        1,
        "M.hs:3:54: error: 'x' is ambiguous: 'x' of module 'A' or 'x' of module 'B' [ambiguous]\n"
        "Several things in scope have this name. Write a qualifier that only one has, or hide the others in their imports.\n"
        "module C where { import A as L ; import B as L ; y = x }\n"
        "                                                     ^\n"
        "errors: 1, skipped modules: 0\n",
    ),
    # the module's own qualifier is that of an import too: the import doesn't bring this name
    (
        "module B where { y = 1 }\n"
        "module C where { x = 1 }\n"
        "module A where { import B as A (y) ;\n"
        "  import C ; x = 1 ; z = x }",
        1,
        "M.hs:4:26: error: 'x' is ambiguous: write 'A.x' or 'C.x' (imported in line 4) [ambiguous]\n"
        "Several things in scope have this name. Write a qualifier that only one has, or hide the others in their imports.\n"
        "  import C ; x = 1 ; z = x }\n"
        "                         ^\n"
        "errors: 1, skipped modules: 0\n",
    ),
    (
        "module B where { foo = 1 }\n"
        "module A where {\n"
        "  import B as Prelude (foo) ;\n"
        "  map = 1 ; z = map }",
        1,
        "M.hs:4:17: error: 'map' is ambiguous: write 'A.map' or 'Prelude.map' [ambiguous]\n"
        "Several things in scope have this name. Write a qualifier that only one has, or hide the others in their imports.\n"
        "  map = 1 ; z = map }\n"
        "                ^^^\n"
        "errors: 1, skipped modules: 0\n",
    ),
    # another import brings Prelude's, so to hide it in Prelude isn't enough
    (
        "module B (map) where { }\n"
        "module A where {\n"
        "  import B ;\n"
        "  map = 1 ; z = map }",
        1,
        "M.hs:4:17: error: 'map' is ambiguous: write 'A.map' or 'B.map' (imported in line 3) [ambiguous]\n"
        "Several things in scope have this name. Write a qualifier that only one has, or hide the others in their imports.\n"
        "  map = 1 ; z = map }\n"
        "                ^^^\n"
        "errors: 1, skipped modules: 0\n",
    ),
    # no qualifier means either alone
    (
        "module B where { x = 1 }\n"
        "module A where { import B as A ; x = 2 ; z = A.x }",
        1,
        "M.hs:2:46: error: 'A.x' is ambiguous: 'x' of module 'A' or 'x' of module 'B' [ambiguous]\n"
        "Several things in scope have this name. Write a qualifier that only one has, or hide the others in their imports.\n"
        "module A where { import B as A ; x = 2 ; z = A.x }\n"
        "                                             ^^^\n"
        "errors: 1, skipped modules: 0\n",
    ),
    (
        # another type of the module has this constructor
        "module A where { data T = C ; data U = D }\n"
        "module B where { import A (T(C, D)) }",
        1,
        "M.hs:2:33: error: cannot import 'D': 'A' doesn't export it as a constructor of 'T' [not-exported]\n"
        "The imported module doesn't export this name, or not as a constructor of this type.\n"
        "module B where { import A (T(C, D)) }\n"
        "                                ^\n"
        "errors: 1, skipped modules: 0\n",
    ),
    (
        "module A (x, B.x) where { import qualified B ; x = 1 }\n"
        "module B where { x = 2 }",
        1,
        "M.hs:1:14: error: two different things are exported as 'x' [export-clash]\n"
        "An export list gives each name to one thing.\n"
        "module A (x, B.x) where { import qualified B ; x = 1 }\n"
        "             ^^^\n"
        "errors: 1, skipped modules: 0\n",
    ),
    (
        "module M (module N) where { }",
        1,
        "M.hs:1:18: error: no import is called 'N' [not-imported]\n"
        "`module N` in an export list exports what the imports called N give.\n"
        "module M (module N) where { }\n"
        "                 ^\n"
        "errors: 1, skipped modules: 0\n",
    ),
    (
        "module M where { f x x = x }",
        1,
        "M.hs:1:22: error: 'x' occurs twice in these patterns: the first is at 1:20 [non-linear]\n"
        "The patterns of one clause, lambda, alternative or binding have each variable once.\n"
        "module M where { f x x = x }\n"
        "                     ^\n"
        "errors: 1, skipped modules: 0\n",
    ),
    (
        "module M where { f :: Maybe ; f = f }",
        1,
        "M.hs:1:23: error: wrong number of arguments for 'Maybe': it has 0 here, but takes 1 [arity]\n"
        "A type, synonym or constructor takes as many arguments as its declaration gives it.\n"
        "module M where { f :: Maybe ; f = f }\n"
        "                      ^^^^^\n"
        "errors: 1, skipped modules: 0\n",
    ),
    (
        "module M where { f x = x ; f x y = x }",
        1,
        "M.hs:1:28: error: the clauses of 'f' have different numbers of patterns: 2 here, but 1 in the first [clause-length]\n"
        "Each clause of a function has as many patterns as the first one.\n"
        "module M where { f x = x ; f x y = x }\n"
        "                           ^\n"
        "errors: 1, skipped modules: 0\n",
    ),
    (
        "module M where { twice f = f f }",
        1,
        "M.hs:1:18: error: type error in 'twice' [type]\n"
        "No types fit this definition and those that refer back to it. All others that it refers to have types or signatures.\n"
        "module M where { twice f = f f }\n"
        "                 ^^^^^\n"
        "M.hs:1:30: note: this has type 'a -> b', but 'a' is expected (up to 1:30)\n"
        "No type is both: it would contain itself, and so be infinite.\n"
        "module M where { twice f = f f }\n"
        "                             ^\n"
        "errors: 1, skipped modules: 0\n",
    ),
    # the first of three, and not the one before
    (
        "module M where { f = 1 ; g = 2 ; f = 3 ; g = 4 ; f = 5 }",
        1,
        "M.hs:1:34: error: a second declaration of 'f': the first is at 1:18 [duplicate]\n"
        "A name has one declaration, one signature and one parameter in a list; the clauses of a function must stand together.\n"
        "module M where { f = 1 ; g = 2 ; f = 3 ; g = 4 ; f = 5 }\n"
        "                                 ^\n"
        "M.hs:1:42: error: a second declaration of 'g': the first is at 1:26 [duplicate]\n"
        "A name has one declaration, one signature and one parameter in a list; the clauses of a function must stand together.\n"
        "module M where { f = 1 ; g = 2 ; f = 3 ; g = 4 ; f = 5 }\n"
        "                                         ^\n"
        "M.hs:1:50: error: a second declaration of 'f': the first is at 1:18 [duplicate]\n"
        "A name has one declaration, one signature and one parameter in a list; the clauses of a function must stand together.\n"
        "module M where { f = 1 ; g = 2 ; f = 3 ; g = 4 ; f = 5 }\n"
        "                                                 ^\n"
        "errors: 3, skipped modules: 0\n",
    ),
    # types and their parameters, constructors, signatures
    (
        "module M where { data T a a = A | A ; type T = Int ; f, f :: Int ; f = 1 }",
        1,
        "M.hs:1:27: error: a second declaration of 'a': the first is at 1:25 [duplicate]\n"
        "A name has one declaration, one signature and one parameter in a list; the clauses of a function must stand together.\n"
        "module M where { data T a a = A | A ; type T = Int ; f, f :: Int ; f = 1 }\n"
        "                          ^\n"
        "M.hs:1:35: error: a second declaration of 'A': the first is at 1:31 [duplicate]\n"
        "A name has one declaration, one signature and one parameter in a list; the clauses of a function must stand together.\n"
        "module M where { data T a a = A | A ; type T = Int ; f, f :: Int ; f = 1 }\n"
        "                                  ^\n"
        "M.hs:1:44: error: a second declaration of 'T': the first is at 1:23 [duplicate]\n"
        "A name has one declaration, one signature and one parameter in a list; the clauses of a function must stand together.\n"
        "module M where { data T a a = A | A ; type T = Int ; f, f :: Int ; f = 1 }\n"
        "                                           ^\n"
        "M.hs:1:57: error: a second declaration of 'f': the first is at 1:54 [duplicate]\n"
        "A name has one declaration, one signature and one parameter in a list; the clauses of a function must stand together.\n"
        "module M where { data T a a = A | A ; type T = Int ; f, f :: Int ; f = 1 }\n"
        "                                                        ^\n"
        "errors: 4, skipped modules: 0\n",
    ),
    # a local list, with a pattern; a comment that isn't ASCII
    (
        "module M where {\n"
        "  f = 1 ;\n"
        "  g = let { (x, y) = (1, 2) ; {- é -} z = 1 ; x = 2 } in x where { z = 1 ; {- é -} z = 2 }\n"
        "}",
        1,
        "M.hs:3:47: error: a second declaration of 'x': the first is at 3:14 [duplicate]\n"
        "A name has one declaration, one signature and one parameter in a list; the clauses of a function must stand together.\n"
        "  g = let { (x, y) = (1, 2) ; {- é -} z = 1 ; x = 2 } in x where { z = 1 ; {- é -} z = 2 }\n"
        "                                              ^\n"
        "M.hs:3:84: error: a second declaration of 'z': the first is at 3:68 [duplicate]\n"
        "A name has one declaration, one signature and one parameter in a list; the clauses of a function must stand together.\n"
        "... let { (x, y) = (1, 2) ; {- é -} z = 1 ; x = 2 } in x where { z = 1 ; {- é -} z = 2 }\n"
        "                                                                                 ^\n"
        "errors: 2, skipped modules: 0\n",
    ),
    # a lambda, and an alternative with a nested pattern
    (
        "module M where { f = \\ x (y, x) -> x ; g z = case z of { (a : b : a) -> a } }",
        1,
        "M.hs:1:30: error: 'x' occurs twice in these patterns: the first is at 1:24 [non-linear]\n"
        "The patterns of one clause, lambda, alternative or binding have each variable once.\n"
        "module M where { f = \\ x (y, x) -> x ; g z = case z of { (a : b : a) -> a } }\n"
        "                             ^\n"
        "M.hs:1:67: error: 'a' occurs twice in these patterns: the first is at 1:59 [non-linear]\n"
        "The patterns of one clause, lambda, alternative or binding have each variable once.\n"
        "module M where { f = \\ x (y, x) -> x ; g z = case z of { (a : b : a) -> a } }\n"
        "                                                                  ^\n"
        "errors: 2, skipped modules: 0\n",
    ),
    # constructors in patterns, special ones too, and one with a qualifier
    (
        "module M where { data R = R Int Int ; f (R a) = a ; g ((:) x) = x ; h (Prelude.Just) = 1 ; i ((,) a b c) = a }",
        1,
        "M.hs:1:42: error: wrong number of arguments for 'R': it has 1 here, but takes 2 [arity]\n"
        "A type, synonym or constructor takes as many arguments as its declaration gives it.\n"
        "module M where { data R = R Int Int ; f (R a) = a ; g ((:) x) = x ; h (Prelude.Just) = 1 ; i ((,) a b c) = a }\n"
        "                                         ^\n"
        "M.hs:1:56: error: wrong number of arguments for ':': it has 1 here, but takes 2 [arity]\n"
        "A type, synonym or constructor takes as many arguments as its declaration gives it.\n"
        "module M where { data R = R Int Int ; f (R a) = a ; g ((:) x) = x ; h (Prelude.Just) = 1 ; i ((,) a b c) = a }\n"
        "                                                       ^\n"
        "M.hs:1:72: error: wrong number of arguments for 'Prelude.Just': it has 0 here, but takes 1 [arity]\n"
        "A type, synonym or constructor takes as many arguments as its declaration gives it.\n"
        "module M where { data R = R Int Int ; f (R a) = a ; g ((:) x) = x ; h (Prelude.Just) = 1 ; i ((,) a b c) = a }\n"
        "                                                                       ^^^^^^^^^^^^\n"
        "M.hs:1:95: error: wrong number of arguments for '(,)': it has 3 here, but takes 2 [arity]\n"
        "A type, synonym or constructor takes as many arguments as its declaration gives it.\n"
        "... { data R = R Int Int ; f (R a) = a ; g ((:) x) = x ; h (Prelude.Just) = 1 ; i ((,) a b c) = a }\n"
        "                                                                                   ^\n"
        "errors: 4, skipped modules: 0\n",
    ),
    # types, where a synonym has parameters
    (
        "module M where { type P a b = (a, b) ; f :: [P Int] -> Int Int ; f = f }",
        1,
        "M.hs:1:46: error: wrong number of arguments for 'P': it has 1 here, but takes 2 [arity]\n"
        "A type, synonym or constructor takes as many arguments as its declaration gives it.\n"
        "module M where { type P a b = (a, b) ; f :: [P Int] -> Int Int ; f = f }\n"
        "                                             ^\n"
        "M.hs:1:56: error: wrong number of arguments for 'Int': it has 1 here, but takes 0 [arity]\n"
        "A type, synonym or constructor takes as many arguments as its declaration gives it.\n"
        "module M where { type P a b = (a, b) ; f :: [P Int] -> Int Int ; f = f }\n"
        "                                                       ^^^\n"
        "errors: 2, skipped modules: 0\n",
    ),
    # a local function: the first clause counts, and not the one before
    (
        "module M where { f = g where { g x y = x ; g x = x ; g x y z = x } }",
        1,
        "M.hs:1:44: error: the clauses of 'g' have different numbers of patterns: 1 here, but 2 in the first [clause-length]\n"
        "Each clause of a function has as many patterns as the first one.\n"
        "module M where { f = g where { g x y = x ; g x = x ; g x y z = x } }\n"
        "                                           ^\n"
        "M.hs:1:54: error: the clauses of 'g' have different numbers of patterns: 3 here, but 2 in the first [clause-length]\n"
        "Each clause of a function has as many patterns as the first one.\n"
        "module M where { f = g where { g x y = x ; g x = x ; g x y z = x } }\n"
        "                                                     ^\n"
        "errors: 2, skipped modules: 0\n",
    ),
    # either branch would do: a literal is likelier than another expression
    (
        "module M where { f x = if x then 1 else (2 : []) }",
        1,
        "M.hs:1:18: error: type error in 'f' [type]\n"
        "No types fit this definition and those that refer back to it. All others that it refers to have types or signatures.\n"
        "module M where { f x = if x then 1 else (2 : []) }\n"
        "                 ^\n"
        "M.hs:1:34: note: this has type 'Int', but '[Int]' is expected (up to 1:34)\n"
        "module M where { f x = if x then 1 else (2 : []) }\n"
        "                                 ^\n"
        "errors: 1, skipped modules: 0\n",
    ),
    # a pattern of a clause
    (
        "module M where { f True = 1 ; f 'c' = 2 }",
        1,
        "M.hs:1:18: error: type error in 'f' [type]\n"
        "No types fit this definition and those that refer back to it. All others that it refers to have types or signatures.\n"
        "module M where { f True = 1 ; f 'c' = 2 }\n"
        "                 ^\n"
        "M.hs:1:33: note: 'f' has a type if this pattern is '_' and its variables have every type (up to 1:35)\n"
        "module M where { f True = 1 ; f 'c' = 2 }\n"
        "                                ^^^\n"
        "errors: 1, skipped modules: 0\n",
    ),
    # a part of a pattern of an alternative, whose variable its `where` refers to
    (
        "module M where { f :: Maybe Bool -> Bool ; f x = case x of { Just [y] -> z where { z = not y } ; Nothing -> True } }",
        1,
        "M.hs:1:44: error: type error in 'f' [type]\n"
        "No types fit this definition and those that refer back to it. All others that it refers to have types or signatures.\n"
        "module M where { f :: Maybe Bool -> Bool ; f x = case x of { Just [y] -> z where { z = not y } ; Nothing -> True } }\n"
        "                                           ^\n"
        "M.hs:1:67: note: 'f' has a type if this pattern is '_' and its variables have every type (up to 1:69)\n"
        "module M where { f :: Maybe Bool -> Bool ; f x = case x of { Just [y] -> z where { z = not y } ; Nothing -> True } }\n"
        "                                                                  ^\n"
        "M.hs:1:18: note: 'f' has type 'Maybe [Bool] -> Bool' without this signature (up to 1:40)\n"
        "module M where { f :: Maybe Bool -> Bool ; f x = case x of { Just [y] -> z where { z = not y } ; ...\n"
        "                 ^\n"
        "errors: 1, skipped modules: 0\n",
    ),
    # no part alone is to blame, but two are
    (
        "module M where { f x = not 'c' ; f y = not 'd' }",
        1,
        "M.hs:1:18: error: type error in 'f' [type]\n"
        "No types fit this definition and those that refer back to it. All others that it refers to have types or signatures.\n"
        "module M where { f x = not 'c' ; f y = not 'd' }\n"
        "                 ^\n"
        "M.hs:1:28: note: 'f' has a type with other expressions both here (up to 1:30) and at 1:44\n"
        "module M where { f x = not 'c' ; f y = not 'd' }\n"
        "                           ^^^\n"
        "M.hs:1:44: note: 'f' has a type with other expressions both here (up to 1:46) and at 1:28\n"
        "module M where { f x = not 'c' ; f y = not 'd' }\n"
        "                                           ^^^\n"
        "errors: 1, skipped modules: 0\n",
    ),
    # an imported variable
    (
        "module A where { k :: Int ; k = 1 }\n"
        "module B where { import A ; y = not k }",
        1,
        "M.hs:2:29: error: type error in 'y' [type]\n"
        "No types fit this definition and those that refer back to it. All others that it refers to have types or signatures.\n"
        "module B where { import A ; y = not k }\n"
        "                            ^\n"
        "M.hs:2:37: note: this has type 'Int', but 'Bool' is expected (up to 2:37)\n"
        "module B where { import A ; y = not k }\n"
        "                                    ^\n"
        "errors: 1, skipped modules: 0\n",
    ),
    # in a list below a local binding: the last element, with the brackets that are too many
    (
        "module M where { f x = g where { g = (x, h) ; h = [x, [x]] } }",
        1,
        "M.hs:1:18: error: type error in 'f' [type]\n"
        "No types fit this definition and those that refer back to it. All others that it refers to have types or signatures.\n"
        "module M where { f x = g where { g = (x, h) ; h = [x, [x]] } }\n"
        "                 ^\n"
        "M.hs:1:55: note: this has type '[a]', but 'a' is expected (up to 1:57)\n"
        "No type is both: it would contain itself, and so be infinite.\n"
        "module M where { f x = g where { g = (x, h) ; h = [x, [x]] } }\n"
        "                                                      ^\n"
        "errors: 1, skipped modules: 0\n",
    ),
    # a type that would be infinite as a whole, and one whose result would
    (
        "module M where { k xs = xs : xs }",
        1,
        "M.hs:1:18: error: type error in 'k' [type]\n"
        "No types fit this definition and those that refer back to it. All others that it refers to have types or signatures.\n"
        "module M where { k xs = xs : xs }\n"
        "                 ^\n"
        "M.hs:1:30: note: this has type 'a', but '[a]' is expected (up to 1:31)\n"
        "No type is both: it would contain itself, and so be infinite.\n"
        "module M where { k xs = xs : xs }\n"
        "                             ^^\n"
        "errors: 1, skipped modules: 0\n",
    ),
    (
        "module M where { rev [] = [] ; rev (x : xs) = rev xs : x }",
        1,
        "M.hs:1:18: error: type error in 'rev' [type]\n"
        "No types fit this definition and those that refer back to it. All others that it refers to have types or signatures.\n"
        "module M where { rev [] = [] ; rev (x : xs) = rev xs : x }\n"
        "                 ^^^\n"
        "M.hs:1:47: note: 'rev' has a type with this side of ':' and the one at 1:56 exchanged\n"
        "module M where { rev [] = [] ; rev (x : xs) = rev xs : x }\n"
        "                                              ^^^\n"
        "errors: 1, skipped modules: 0\n",
    ),
    # arguments that are exchanged
    (
        "module M where { f :: Bool -> Maybe Bool -> Bool ; f x y = maybe not x y }",
        1,
        "M.hs:1:52: error: type error in 'f' [type]\n"
        "No types fit this definition and those that refer back to it. All others that it refers to have types or signatures.\n"
        "module M where { f :: Bool -> Maybe Bool -> Bool ; f x y = maybe not x y }\n"
        "                                                   ^\n"
        "M.hs:1:66: note: 'f' has a type with this expression and the one at 1:70 exchanged\n"
        "module M where { f :: Bool -> Maybe Bool -> Bool ; f x y = maybe not x y }\n"
        "                                                                 ^^^\n"
        "M.hs:1:18: note: 'f' has type '(a -> Bool -> Bool) -> Maybe a -> Bool -> Bool' without this signature (up to 1:48)\n"
        "module M where { f :: Bool -> Maybe Bool -> Bool ; f x y = maybe not x y }\n"
        "                 ^\n"
        "errors: 1, skipped modules: 0\n",
    ),
    # an argument that is given twice
    (
        "module M where { f :: Bool -> Bool ; f x = not x x }",
        1,
        "M.hs:1:38: error: type error in 'f' [type]\n"
        "No types fit this definition and those that refer back to it. All others that it refers to have types or signatures.\n"
        "module M where { f :: Bool -> Bool ; f x = not x x }\n"
        "                                     ^\n"
        "M.hs:1:50: note: too many arguments: 'not' has 2 here, and 'f' has a type with 1, without this (up to 1:50)\n"
        "module M where { f :: Bool -> Bool ; f x = not x x }\n"
        "                                                 ^\n"
        "errors: 1, skipped modules: 0\n",
    ),
    # an argument that is missing
    (
        "module M where { f :: Bool ; f = maybe True not }",
        1,
        "M.hs:1:30: error: type error in 'f' [type]\n"
        "No types fit this definition and those that refer back to it. All others that it refers to have types or signatures.\n"
        "module M where { f :: Bool ; f = maybe True not }\n"
        "                             ^\n"
        "M.hs:1:34: note: too few arguments: 'maybe' has 2 here, and 'f' has a type with 3, one more after this (up to 1:47)\n"
        "module M where { f :: Bool ; f = maybe True not }\n"
        "                                 ^^^^^\n"
        "M.hs:1:18: note: 'f' has type 'Maybe Bool -> Bool' without this signature (up to 1:26)\n"
        "module M where { f :: Bool ; f = maybe True not }\n"
        "                 ^\n"
        "errors: 1, skipped modules: 0\n",
    ),
    # brackets that are missing
    (
        "module M where { f :: [Bool] -> [Bool] ; f xs = map not map not xs }",
        1,
        "M.hs:1:42: error: type error in 'f' [type]\n"
        "No types fit this definition and those that refer back to it. All others that it refers to have types or signatures.\n"
        "module M where { f :: [Bool] -> [Bool] ; f xs = map not map not xs }\n"
        "                                         ^\n"
        "M.hs:1:57: note: 'f' has a type with brackets around this (up to 1:66)\n"
        "module M where { f :: [Bool] -> [Bool] ; f xs = map not map not xs }\n"
        "                                                        ^^^\n"
        "errors: 1, skipped modules: 0\n",
    ),
    # a `;` that is missing before a signature
    (
        "module M where { f :: Bool -> Bool ; f x = not x g :: Bool ; g = True }",
        1,
        "M.hs:1:38: error: type error in 'f' [type]\n"
        "No types fit this definition and those that refer back to it. All others that it refers to have types or signatures.\n"
        "module M where { f :: Bool -> Bool ; f x = not x g :: Bool ; g = True }\n"
        "                                     ^\n"
        "M.hs:1:50: note: 'f' has a type with ';' before this\n"
        "module M where { f :: Bool -> Bool ; f x = not x g :: Bool ; g = True }\n"
        "                                                 ^\n"
        "errors: 1, skipped modules: 0\n",
    ),
    # a `,` that is missing in a list
    (
        "module M where { f :: [(Bool, Char)] ; f = [(True, 'a') (False, 'b')] }",
        1,
        "M.hs:1:40: error: type error in 'f' [type]\n"
        "No types fit this definition and those that refer back to it. All others that it refers to have types or signatures.\n"
        "module M where { f :: [(Bool, Char)] ; f = [(True, 'a') (False, 'b')] }\n"
        "                                       ^\n"
        "M.hs:1:57: note: 'f' has a type with ',' before this\n"
        "module M where { f :: [(Bool, Char)] ; f = [(True, 'a') (False, 'b')] }\n"
        "                                                        ^\n"
        "errors: 1, skipped modules: 0\n",
    ),
    # a `,` that is missing in a tuple
    (
        "module M where { f :: (Bool, Char, Bool) ; f = (True, 'a' False) }",
        1,
        "M.hs:1:44: error: type error in 'f' [type]\n"
        "No types fit this definition and those that refer back to it. All others that it refers to have types or signatures.\n"
        "module M where { f :: (Bool, Char, Bool) ; f = (True, 'a' False) }\n"
        "                                           ^\n"
        "M.hs:1:59: note: 'f' has a type with ',' before this\n"
        "module M where { f :: (Bool, Char, Bool) ; f = (True, 'a' False) }\n"
        "                                                          ^^^^^\n"
        "errors: 1, skipped modules: 0\n",
    ),
    # brackets of a list that are missing
    (
        "module M where { f :: [a] -> a -> [a] ; f xs x = concat (xs : x : []) }",
        1,
        "M.hs:1:41: error: type error in 'f' [type]\n"
        "No types fit this definition and those that refer back to it. All others that it refers to have types or signatures.\n"
        "module M where { f :: [a] -> a -> [a] ; f xs x = concat (xs : x : []) }\n"
        "                                        ^\n"
        "M.hs:1:63: note: 'f' has a type with '[' and ']' around this (up to 1:63)\n"
        "module M where { f :: [a] -> a -> [a] ; f xs x = concat (xs : x : []) }\n"
        "                                                              ^\n"
        "M.hs:1:18: note: 'f' has type '[a] -> [a] -> [a]' without this signature (up to 1:37)\n"
        "module M where { f :: [a] -> a -> [a] ; f xs x = concat (xs : x : []) }\n"
        "                 ^\n"
        "errors: 1, skipped modules: 0\n",
    ),
    # a constructor that is missing
    (
        "module M where { data P a = P (a -> a) | Q ; f :: (a -> a) -> P a ; f g = \\x -> g (g x) }",
        1,
        "M.hs:1:69: error: type error in 'f' [type]\n"
        "No types fit this definition and those that refer back to it. All others that it refers to have types or signatures.\n"
        "module M where { data P a = P (a -> a) | Q ; f :: (a -> a) -> P a ; f g = \\x -> g (g x) }\n"
        "                                                                    ^\n"
        "M.hs:1:75: note: 'f' has a type with 'P' in front of this (up to 1:87)\n"
        "module M where { data P a = P (a -> a) | Q ; f :: (a -> a) -> P a ; f g = \\x -> g (g x) }\n"
        "                                                                          ^\n"
        "M.hs:1:46: note: 'f' has type '(a -> a) -> a -> a' without this signature (up to 1:65)\n"
        "module M where { data P a = P (a -> a) | Q ; f :: (a -> a) -> P a ; f g = \\x -> g (g x) }\n"
        "                                             ^\n"
        "errors: 1, skipped modules: 0\n",
    ),
    # Just that is missing
    (
        "module M where { f :: [a] -> Maybe a ; f [] = Nothing ; f (x : xs) = x }",
        1,
        "M.hs:1:40: error: type error in 'f' [type]\n"
        "No types fit this definition and those that refer back to it. All others that it refers to have types or signatures.\n"
        "module M where { f :: [a] -> Maybe a ; f [] = Nothing ; f (x : xs) = x }\n"
        "                                       ^\n"
        "M.hs:1:70: note: 'f' has a type with 'Just' in front of this (up to 1:70)\n"
        "module M where { f :: [a] -> Maybe a ; f [] = Nothing ; f (x : xs) = x }\n"
        "                                                                     ^\n"
        "M.hs:1:18: note: 'f' has type '[Maybe a] -> Maybe a' without this signature (up to 1:36)\n"
        "module M where { f :: [a] -> Maybe a ; f [] = Nothing ; f (x : xs) = x }\n"
        "                 ^\n"
        "errors: 1, skipped modules: 0\n",
    ),
    # the sides of a `:`
    (
        "module M where { f :: [a] -> [a] ; f [] = [] ; f (x : xs) = f xs : x }",
        1,
        "M.hs:1:36: error: type error in 'f' [type]\n"
        "No types fit this definition and those that refer back to it. All others that it refers to have types or signatures.\n"
        "module M where { f :: [a] -> [a] ; f [] = [] ; f (x : xs) = f xs : x }\n"
        "                                   ^\n"
        "M.hs:1:61: note: 'f' has a type with this side of ':' and the one at 1:68 exchanged\n"
        "module M where { f :: [a] -> [a] ; f [] = [] ; f (x : xs) = f xs : x }\n"
        "                                                            ^\n"
        "errors: 1, skipped modules: 0\n",
    ),
    # two patterns of a lambda
    (
        "module M where { f :: [Bool] -> Int ; f = foldr (\\n b -> if b then n else 0) 0 }",
        1,
        "M.hs:1:39: error: type error in 'f' [type]\n"
        "No types fit this definition and those that refer back to it. All others that it refers to have types or signatures.\n"
        "module M where { f :: [Bool] -> Int ; f = foldr (\\n b -> if b then n else 0) 0 }\n"
        "                                      ^\n"
        "M.hs:1:51: note: 'f' has a type with this pattern and the one at 1:53 exchanged\n"
        "module M where { f :: [Bool] -> Int ; f = foldr (\\n b -> if b then n else 0) 0 }\n"
        "                                                  ^\n"
        "errors: 1, skipped modules: 0\n",
    ),
    # two patterns of a clause
    (
        "module M where { f :: Bool -> Int -> Int ; f n b = if b then n else 0 }",
        1,
        "M.hs:1:44: error: type error in 'f' [type]\n"
        "No types fit this definition and those that refer back to it. All others that it refers to have types or signatures.\n"
        "module M where { f :: Bool -> Int -> Int ; f n b = if b then n else 0 }\n"
        "                                           ^\n"
        "M.hs:1:46: note: 'f' has a type with this pattern and the one at 1:48 exchanged\n"
        "module M where { f :: Bool -> Int -> Int ; f n b = if b then n else 0 }\n"
        "                                             ^\n"
        "M.hs:1:18: note: 'f' has type 'Int -> Bool -> Int' without this signature (up to 1:40)\n"
        "module M where { f :: Bool -> Int -> Int ; f n b = if b then n else 0 }\n"
        "                 ^\n"
        "errors: 1, skipped modules: 0\n",
    ),
    # an argument that is missing in the middle
    (
        "module M where { f :: [Bool] -> Bool ; f xs = foldr (\\x y -> x) xs }",
        1,
        "M.hs:1:40: error: type error in 'f' [type]\n"
        "No types fit this definition and those that refer back to it. All others that it refers to have types or signatures.\n"
        "module M where { f :: [Bool] -> Bool ; f xs = foldr (\\x y -> x) xs }\n"
        "                                       ^\n"
        "M.hs:1:47: note: too few arguments: 'foldr' has 2 here, and 'f' has a type with 3, one more after this (up to 1:63)\n"
        "module M where { f :: [Bool] -> Bool ; f xs = foldr (\\x y -> x) xs }\n"
        "                                              ^^^^^\n"
        "M.hs:1:18: note: 'f' has type 'a -> [a] -> a' without this signature (up to 1:36)\n"
        "module M where { f :: [Bool] -> Bool ; f xs = foldr (\\x y -> x) xs }\n"
        "                 ^\n"
        "errors: 1, skipped modules: 0\n",
    ),
    # a pattern of a lambda
    (
        "module M where { f :: [Bool] -> [Bool] ; f = map (\\[x] -> not x) }",
        1,
        "M.hs:1:42: error: type error in 'f' [type]\n"
        "No types fit this definition and those that refer back to it. All others that it refers to have types or signatures.\n"
        "module M where { f :: [Bool] -> [Bool] ; f = map (\\[x] -> not x) }\n"
        "                                         ^\n"
        "M.hs:1:52: note: 'f' has a type if this pattern is '_' and its variables have every type (up to 1:54)\n"
        "module M where { f :: [Bool] -> [Bool] ; f = map (\\[x] -> not x) }\n"
        "                                                   ^\n"
        "M.hs:1:18: note: 'f' has type '[[Bool]] -> [Bool]' without this signature (up to 1:38)\n"
        "module M where { f :: [Bool] -> [Bool] ; f = map (\\[x] -> not x) }\n"
        "                 ^\n"
        "errors: 1, skipped modules: 0\n",
    ),
    # a signature without which the module is good: its note is first, and a fault that follows from it has that note alone
    (
        "module M where { f :: Bool -> Char ; f x = not x ; g = not (f True) }",
        1,
        "M.hs:1:38: error: type error in 'f' [type]\n"
        "No types fit this definition and those that refer back to it. All others that it refers to have types or signatures.\n"
        "module M where { f :: Bool -> Char ; f x = not x ; g = not (f True) }\n"
        "                                     ^\n"
        "M.hs:1:18: note: 'f' has type 'Bool -> Bool' without this signature (up to 1:34)\n"
        "module M where { f :: Bool -> Char ; f x = not x ; g = not (f True) }\n"
        "                 ^\n"
        "M.hs:1:44: note: this has type 'Bool -> Bool', but 'Bool -> Char' is expected (up to 1:46)\n"
        "module M where { f :: Bool -> Char ; f x = not x ; g = not (f True) }\n"
        "                                           ^^^\n"
        "M.hs:1:52: error: type error in 'g' [type]\n"
        "No types fit this definition and those that refer back to it. All others that it refers to have types or signatures.\n"
        "module M where { f :: Bool -> Char ; f x = not x ; g = not (f True) }\n"
        "                                                   ^\n"
        "M.hs:1:18: note: 'g' and 'f' have types without this signature (up to 1:34)\n"
        "module M where { f :: Bool -> Char ; f x = not x ; g = not (f True) }\n"
        "                 ^\n"
        "errors: 2, skipped modules: 0\n",
    ),
    # arguments that are exchanged, though another expression in place of the first one would do too
    (
        "module M where { n = foldr 0 (\\x y -> y) \"abc\" }",
        1,
        "M.hs:1:18: error: type error in 'n' [type]\n"
        "No types fit this definition and those that refer back to it. All others that it refers to have types or signatures.\n"
        "module M where { n = foldr 0 (\\x y -> y) \"abc\" }\n"
        "                 ^\n"
        "M.hs:1:28: note: 'n' has a type with this expression and the one at 1:30 exchanged\n"
        "module M where { n = foldr 0 (\\x y -> y) \"abc\" }\n"
        "                           ^\n"
        "errors: 1, skipped modules: 0\n",
    ),
    # the place leaves out brackets
    (
        "module M where { f = not ('c') }",
        1,
        "M.hs:1:18: error: type error in 'f' [type]\n"
        "No types fit this definition and those that refer back to it. All others that it refers to have types or signatures.\n"
        "module M where { f = not ('c') }\n"
        "                 ^\n"
        "M.hs:1:27: note: this has type 'Char', but 'Bool' is expected (up to 1:29)\n"
        "module M where { f = not ('c') }\n"
        "                          ^^^\n"
        "errors: 1, skipped modules: 0\n",
    ),
    # brackets without a last component, and an argument that could be to blame too
    (
        "module M where { f :: ([((), ())] -> ()) -> [()] -> () ; f g xs = g (map (\\x -> (x)) xs) }",
        1,
        "M.hs:1:58: error: type error in 'f' [type]\n"
        "No types fit this definition and those that refer back to it. All others that it refers to have types or signatures.\n"
        "module M where { f :: ([((), ())] -> ()) -> [()] -> () ; f g xs = g (map (\\x -> (x)) xs) }\n"
        "                                                         ^\n"
        "M.hs:1:81: note: this has type '()', but '((), ())' is expected (up to 1:83)\n"
        "module M where { f :: ([((), ())] -> ()) -> [()] -> () ; f g xs = g (map (\\x -> (x)) xs) }\n"
        "                                                                                ^\n"
        "M.hs:1:18: note: 'f' has type '([a] -> b) -> [a] -> b' without this signature (up to 1:54)\n"
        "module M where { f :: ([((), ())] -> ()) -> [()] -> () ; f g xs = g (map (\\x -> (x)) xs) }\n"
        "                 ^\n"
        "errors: 1, skipped modules: 0\n",
    ),
    # two faults: each other definition is a hole where types are found, and the module has an export list
    (
        "module M (f, g) where { f :: Bool -> Bool ; f x = 'c' ; g = not 1 }",
        1,
        "M.hs:1:45: error: type error in 'f' [type]\n"
        "No types fit this definition and those that refer back to it. All others that it refers to have types or signatures.\n"
        "module M (f, g) where { f :: Bool -> Bool ; f x = 'c' ; g = not 1 }\n"
        "                                            ^\n"
        "M.hs:1:51: note: this has type 'Char', but 'Bool' is expected (up to 1:53)\n"
        "module M (f, g) where { f :: Bool -> Bool ; f x = 'c' ; g = not 1 }\n"
        "                                                  ^^^\n"
        "M.hs:1:25: note: 'f' has type 'a -> Char' without this signature (up to 1:41)\n"
        "module M (f, g) where { f :: Bool -> Bool ; f x = 'c' ; g = not 1 }\n"
        "                        ^\n"
        "M.hs:1:57: error: type error in 'g' [type]\n"
        "No types fit this definition and those that refer back to it. All others that it refers to have types or signatures.\n"
        "module M (f, g) where { f :: Bool -> Bool ; f x = 'c' ; g = not 1 }\n"
        "                                                        ^\n"
        "M.hs:1:65: note: this has type 'Int', but 'Bool' is expected (up to 1:65)\n"
        "module M (f, g) where { f :: Bool -> Bool ; f x = 'c' ; g = not 1 }\n"
        "                                                                ^\n"
        "errors: 2, skipped modules: 0\n",
    ),
    # a synonym of a signature is shown in place of its type
    (
        "module M where { type Pos = (Int, Int) ; f :: Pos -> Pos ; f p = 'c' }",
        1,
        "M.hs:1:60: error: type error in 'f' [type]\n"
        "No types fit this definition and those that refer back to it. All others that it refers to have types or signatures.\n"
        "module M where { type Pos = (Int, Int) ; f :: Pos -> Pos ; f p = 'c' }\n"
        "                                                           ^\n"
        "M.hs:1:66: note: this has type 'Char', but 'Pos' is expected (up to 1:68)\n"
        "module M where { type Pos = (Int, Int) ; f :: Pos -> Pos ; f p = 'c' }\n"
        "                                                                 ^^^\n"
        "M.hs:1:42: note: 'f' has type 'a -> Char' without this signature (up to 1:56)\n"
        "module M where { type Pos = (Int, Int) ; f :: Pos -> Pos ; f p = 'c' }\n"
        "                                         ^\n"
        "errors: 1, skipped modules: 0\n",
    ),
    # each time that the type stands there
    (
        "module M where { type Pos = (Int, Int) ; f :: Pos -> Bool ; f = g ; g :: Pos -> Pos ; g p = p }",
        1,
        "M.hs:1:61: error: type error in 'f' [type]\n"
        "No types fit this definition and those that refer back to it. All others that it refers to have types or signatures.\n"
        "module M where { type Pos = (Int, Int) ; f :: Pos -> Bool ; f = g ; g :: Pos -> Pos ; g p = p }\n"
        "                                                            ^\n"
        "M.hs:1:65: note: this has type 'Pos -> Pos', but 'Pos -> Bool' is expected (up to 1:65)\n"
        "module M where { type Pos = (Int, Int) ; f :: Pos -> Bool ; f = g ; g :: Pos -> Pos ; g p = p }\n"
        "                                                                ^\n"
        "M.hs:1:42: note: 'f' has type 'Pos -> Pos' without this signature (up to 1:57)\n"
        "module M where { type Pos = (Int, Int) ; f :: Pos -> Bool ; f = g ; g :: Pos -> Pos ; g p = p }\n"
        "                                         ^\n"
        "errors: 1, skipped modules: 0\n",
    ),
    # the longest type first
    (
        "module M where { type P = (Int, Int) ; type Q = [P] ; f :: Q -> P ; f p = p }",
        1,
        "M.hs:1:69: error: type error in 'f' [type]\n"
        "No types fit this definition and those that refer back to it. All others that it refers to have types or signatures.\n"
        "module M where { type P = (Int, Int) ; type Q = [P] ; f :: Q -> P ; f p = p }\n"
        "                                                                    ^\n"
        "M.hs:1:75: note: this has type 'Q', but 'P' is expected (up to 1:75)\n"
        "module M where { type P = (Int, Int) ; type Q = [P] ; f :: Q -> P ; f p = p }\n"
        "                                                                          ^\n"
        "M.hs:1:55: note: 'f' has type 'a -> a' without this signature (up to 1:65)\n"
        "module M where { type P = (Int, Int) ; type Q = [P] ; f :: Q -> P ; f p = p }\n"
        "                                                      ^\n"
        "errors: 1, skipped modules: 0\n",
    ),
    # two synonyms of signatures stand for the type
    (
        "module M where { type P = [Int] ; type Q = [Int] ; f :: P -> Q ; f p = 'c' }",
        1,
        "M.hs:1:66: error: type error in 'f' [type]\n"
        "No types fit this definition and those that refer back to it. All others that it refers to have types or signatures.\n"
        "module M where { type P = [Int] ; type Q = [Int] ; f :: P -> Q ; f p = 'c' }\n"
        "                                                                 ^\n"
        "M.hs:1:72: note: this has type 'Char', but '[Int]' is expected (up to 1:74)\n"
        "module M where { type P = [Int] ; type Q = [Int] ; f :: P -> Q ; f p = 'c' }\n"
        "                                                                       ^^^\n"
        "M.hs:1:52: note: 'f' has type 'a -> Char' without this signature (up to 1:62)\n"
        "module M where { type P = [Int] ; type Q = [Int] ; f :: P -> Q ; f p = 'c' }\n"
        "                                                   ^\n"
        "errors: 1, skipped modules: 0\n",
    ),
    # no signature names one synonym, and the other one has a parameter
    (
        "module M where { type P = [Int] ; type L a = [a] ; f :: [Int] -> L Int ; f p = 'c' }",
        1,
        "M.hs:1:74: error: type error in 'f' [type]\n"
        "No types fit this definition and those that refer back to it. All others that it refers to have types or signatures.\n"
        "module M where { type P = [Int] ; type L a = [a] ; f :: [Int] -> L Int ; f p = 'c' }\n"
        "                                                                         ^\n"
        "M.hs:1:80: note: this has type 'Char', but '[Int]' is expected (up to 1:82)\n"
        "module M where { type P = [Int] ; type L a = [a] ; f :: [Int] -> L Int ; f p = 'c' }\n"
        "                                                                               ^^^\n"
        "M.hs:1:52: note: 'f' has type 'a -> Char' without this signature (up to 1:70)\n"
        "module M where { type P = [Int] ; type L a = [a] ; f :: [Int] -> L Int ; f p = 'c' }\n"
        "                                                   ^\n"
        "errors: 1, skipped modules: 0\n",
    ),
    # the module doesn't export the synonym
    (
        "module M (f) where { type P = [Int] ; f :: P -> Bool ; f p = p }",
        1,
        "M.hs:1:56: error: type error in 'f' [type]\n"
        "No types fit this definition and those that refer back to it. All others that it refers to have types or signatures.\n"
        "module M (f) where { type P = [Int] ; f :: P -> Bool ; f p = p }\n"
        "                                                       ^\n"
        "M.hs:1:62: note: this has type 'P', but 'Bool' is expected (up to 1:62)\n"
        "module M (f) where { type P = [Int] ; f :: P -> Bool ; f p = p }\n"
        "                                                             ^\n"
        "M.hs:1:39: note: 'f' has type 'a -> a' without this signature (up to 1:52)\n"
        "module M (f) where { type P = [Int] ; f :: P -> Bool ; f p = p }\n"
        "                                      ^\n"
        "errors: 1, skipped modules: 0\n",
    ),
    # String of Prelude
    (
        "module M where { f :: String -> Bool ; f s = s }",
        1,
        "M.hs:1:40: error: type error in 'f' [type]\n"
        "No types fit this definition and those that refer back to it. All others that it refers to have types or signatures.\n"
        "module M where { f :: String -> Bool ; f s = s }\n"
        "                                       ^\n"
        "M.hs:1:46: note: this has type 'String', but 'Bool' is expected (up to 1:46)\n"
        "module M where { f :: String -> Bool ; f s = s }\n"
        "                                             ^\n"
        "M.hs:1:18: note: 'f' has type 'a -> a' without this signature (up to 1:36)\n"
        "module M where { f :: String -> Bool ; f s = s }\n"
        "                 ^\n"
        "errors: 1, skipped modules: 0\n",
    ),
    # no signature names String
    (
        "module M where { f :: [Char] -> Bool ; f s = s }",
        1,
        "M.hs:1:40: error: type error in 'f' [type]\n"
        "No types fit this definition and those that refer back to it. All others that it refers to have types or signatures.\n"
        "module M where { f :: [Char] -> Bool ; f s = s }\n"
        "                                       ^\n"
        "M.hs:1:46: note: this has type '[Char]', but 'Bool' is expected (up to 1:46)\n"
        "module M where { f :: [Char] -> Bool ; f s = s }\n"
        "                                             ^\n"
        "M.hs:1:18: note: 'f' has type 'a -> a' without this signature (up to 1:36)\n"
        "module M where { f :: [Char] -> Bool ; f s = s }\n"
        "                 ^\n"
        "errors: 1, skipped modules: 0\n",
    ),
    # the module means the type by its bare name
    (
        "module A where { data T = C } module M where { import A ; f :: T -> Bool ; f x = not x }",
        1,
        "M.hs:1:76: error: type error in 'f' [type]\n"
        "No types fit this definition and those that refer back to it. All others that it refers to have types or signatures.\n"
        "module A where { data T = C } module M where { import A ; f :: T -> Bool ; f x = not x }\n"
        "                                                                           ^\n"
        "M.hs:1:86: note: this has type 'T', but 'Bool' is expected (up to 1:86)\n"
        "...e A where { data T = C } module M where { import A ; f :: T -> Bool ; f x = not x }\n"
        "                                                                                   ^\n"
        "M.hs:1:59: note: 'f' has type 'Bool -> Bool' without this signature (up to 1:72)\n"
        "module A where { data T = C } module M where { import A ; f :: T -> Bool ; f x = not x }\n"
        "                                                          ^\n"
        "errors: 1, skipped modules: 0\n",
    ),
    # it doesn't
    (
        "module A where { data T = C } module M where { import qualified A ; f :: A.T -> Bool ; f x = not x }",
        1,
        "M.hs:1:88: error: type error in 'f' [type]\n"
        "No types fit this definition and those that refer back to it. All others that it refers to have types or signatures.\n"
        "...A where { data T = C } module M where { import qualified A ; f :: A.T -> Bool ; f x = not x }\n"
        "                                                                                   ^\n"
        "M.hs:1:98: note: this has type 'A.T', but 'Bool' is expected (up to 1:98)\n"
        "...data T = C } module M where { import qualified A ; f :: A.T -> Bool ; f x = not x }\n"
        "                                                                                   ^\n"
        "M.hs:1:69: note: 'f' has type 'Bool -> Bool' without this signature (up to 1:84)\n"
        "module A where { data T = C } module M where { import qualified A ; f :: A.T -> Bool ; f x = not x }\n"
        "                                                                    ^\n"
        "errors: 1, skipped modules: 0\n",
    ),
    # Prelude has a type of that name, which it hides
    (
        "module M where { import Prelude hiding (Maybe) ; data Maybe = C ; f :: Maybe -> Bool ; f x = not x }",
        1,
        "M.hs:1:88: error: type error in 'f' [type]\n"
        "No types fit this definition and those that refer back to it. All others that it refers to have types or signatures.\n"
        "...M where { import Prelude hiding (Maybe) ; data Maybe = C ; f :: Maybe -> Bool ; f x = not x }\n"
        "                                                                                   ^\n"
        "M.hs:1:98: note: this has type 'M.Maybe', but 'Bool' is expected (up to 1:98)\n"
        "...import Prelude hiding (Maybe) ; data Maybe = C ; f :: Maybe -> Bool ; f x = not x }\n"
        "                                                                                   ^\n"
        "M.hs:1:67: note: 'f' has type 'Bool -> Bool' without this signature (up to 1:84)\n"
        "module M where { import Prelude hiding (Maybe) ; data Maybe = C ; f :: Maybe -> Bool ; f x = not x }\n"
        "                                                                  ^\n"
        "errors: 1, skipped modules: 0\n",
    ),
    # brackets around a row of `:`
    (
        "module M where { data S a = S [a] ; f :: a -> S a -> S a ; f x (S xs) = S x : xs }",
        1,
        "M.hs:1:60: error: type error in 'f' [type]\n"
        "No types fit this definition and those that refer back to it. All others that it refers to have types or signatures.\n"
        "module M where { data S a = S [a] ; f :: a -> S a -> S a ; f x (S xs) = S x : xs }\n"
        "                                                           ^\n"
        "M.hs:1:75: note: 'f' has a type with brackets around this (up to 1:80)\n"
        "module M where { data S a = S [a] ; f :: a -> S a -> S a ; f x (S xs) = S x : xs }\n"
        "                                                                          ^\n"
        "M.hs:1:37: note: 'f' has type '[a] -> S (S a) -> [S a]' without this signature (up to 1:56)\n"
        "module M where { data S a = S [a] ; f :: a -> S a -> S a ; f x (S xs) = S x : xs }\n"
        "                                    ^\n"
        "errors: 1, skipped modules: 0\n",
    ),
    # one of many elements
    (
        "module M where { f x = [1, 2, 3, 4, x, 'c', 7, 8] }",
        1,
        "M.hs:1:18: error: type error in 'f' [type]\n"
        "No types fit this definition and those that refer back to it. All others that it refers to have types or signatures.\n"
        "module M where { f x = [1, 2, 3, 4, x, 'c', 7, 8] }\n"
        "                 ^\n"
        "M.hs:1:40: note: this has type 'Char', but 'Int' is expected (up to 1:42)\n"
        "module M where { f x = [1, 2, 3, 4, x, 'c', 7, 8] }\n"
        "                                       ^^^\n"
        "errors: 1, skipped modules: 0\n",
    ),
    (
        "module M where { type S = S }",
        1,
        "M.hs:1:23: error: the type synonym 'S' is defined by itself [recursive]\n"
        "A synonym is replaced by its right side, so that would never end; use `data` or `newtype`.\n"
        "module M where { type S = S }\n"
        "                      ^\n"
        "errors: 1, skipped modules: 0\n",
    ),
    (
        "module B where { twice f = f f }\n"
        "module C where { import B ; y = twice }\n"
        "module D where { import C }",
        1,
        "M.hs:1:18: error: type error in 'twice' [type]\n"
        "No types fit this definition and those that refer back to it. All others that it refers to have types or signatures.\n"
        "module B where { twice f = f f }\n"
        "                 ^^^^^\n"
        "M.hs:1:30: note: this has type 'a -> b', but 'a' is expected (up to 1:30)\n"
        "No type is both: it would contain itself, and so be infinite.\n"
        "module B where { twice f = f f }\n"
        "                             ^\n"
        "M.hs:2:25: note: skipped, since 'B' has errors\n"
        "module C where { import B ; y = twice }\n"
        "                        ^\n"
        "M.hs:3:25: note: skipped, since 'C' is skipped\n"
        "module D where { import C }\n"
        "                        ^\n"
        "errors: 1, skipped modules: 2\n",
    ),
    (
        "module C where { c = x }\n"
        "module A where { a = y ; b = z }",
        1,
        "M.hs:2:22: error: 'y' isn't in scope [unbound]\n"
        "No declaration, import or parameter gives this name a meaning here.\n"
        "module A where { a = y ; b = z }\n"
        "                     ^\n"
        "M.hs:2:30: error: 'z' isn't in scope [unbound]\n"
        "No declaration, import or parameter gives this name a meaning here.\n"
        "module A where { a = y ; b = z }\n"
        "                             ^\n"
        "M.hs:1:22: error: 'x' isn't in scope [unbound]\n"
        "No declaration, import or parameter gives this name a meaning here.\n"
        "module C where { c = x }\n"
        "                     ^\n"
        "errors: 3, skipped modules: 0\n",
    ),
    (
        "module D where { import C ; import B }\n"
        "module B where { b = x }\n"
        "module C where { c = y }",
        1,
        "M.hs:2:22: error: 'x' isn't in scope [unbound]\n"
        "No declaration, import or parameter gives this name a meaning here.\n"
        "module B where { b = x }\n"
        "                     ^\n"
        "M.hs:3:22: error: 'y' isn't in scope [unbound]\n"
        "No declaration, import or parameter gives this name a meaning here.\n"
        "module C where { c = y }\n"
        "                     ^\n"
        "M.hs:1:36: note: skipped, since 'B' has errors\n"
        "module D where { import C ; import B }\n"
        "                                   ^\n"
        "M.hs:1:25: note: skipped, since 'C' has errors\n"
        "module D where { import C ; import B }\n"
        "                        ^\n"
        "errors: 2, skipped modules: 1\n",
    ),
    # the notes of A come after the error of Z, for which it is skipped
    (
        "module A where { import Z }\n"
        "module Z where { z = x }",
        1,
        "M.hs:2:22: error: 'x' isn't in scope [unbound]\n"
        "No declaration, import or parameter gives this name a meaning here.\n"
        "module Z where { z = x }\n"
        "                     ^\n"
        "M.hs:1:25: note: skipped, since 'Z' has errors\n"
        "module A where { import Z }\n"
        "                        ^\n"
        "errors: 1, skipped modules: 1\n",
    ),
    # of eight skipped modules all have notes, and of nine the first eight
    *(
        (
            "module B where { b = x }\n" + "".join(f"module C{n} where {{ import B }}\n" for n in range(count)),
            1,
            "M.hs:1:22: error: 'x' isn't in scope [unbound]\n"
            "No declaration, import or parameter gives this name a meaning here.\n"
            "module B where { b = x }\n"
            "                     ^\n"
            + "".join(
                f"M.hs:{n + 2}:26: note: skipped, since 'B' has errors\n"
                f"module C{n} where {{ import B }}\n"
                "                         ^\n"
                for n in range(8)
            )
            + further
            + f"errors: 1, skipped modules: {count}\n",
        )
        for count, further in ((8, ""), (9, "note: further skipped modules: 1; they have no notes\n"))
    ),
    # a module that is skipped for nine imports has notes at the first eight
    (
        "module D where {\n" + "".join(f"  import E{n} ;\n" for n in range(9)) + "}\n" + "".join(f"module E{n} where {{ e = x }}\n" for n in range(9)),
        1,
        "".join(
            f"M.hs:{n + 12}:23: error: 'x' isn't in scope [unbound]\n"
            "No declaration, import or parameter gives this name a meaning here.\n"
            f"module E{n} where {{ e = x }}\n"
            "                      ^\n"
            for n in range(9)
        )
        + "".join(
            f"M.hs:{n + 2}:10: note: skipped, since 'E{n}' has errors\n"
            f"  import E{n} ;\n"
            "         ^^\n"
            for n in range(8)
        )
        + "errors: 9, skipped modules: 1\n",
    ),
    # g has no type that differs from what is expected there: in its group it has another one than beside a hole for f
    (
        "module A where { f x = ['c', x, g 1] ; g y = f y }",
        1,
        "M.hs:1:18: error: type error in 'f' [type]\n"
        "No types fit this definition and those that refer back to it. All others that it refers to have types or signatures.\n"
        "module A where { f x = ['c', x, g 1] ; g y = f y }\n"
        "                 ^\n"
        "M.hs:1:33: note: 'f' has a type with another expression here (up to 1:33)\n"
        "module A where { f x = ['c', x, g 1] ; g y = f y }\n"
        "                                ^\n"
        "errors: 1, skipped modules: 0\n",
    ),
    (
        "module A where { f x = h (g x) 1 ; h :: Bool -> Int -> Int ; h a b = b ; g y = f y }",
        1,
        "M.hs:1:18: error: type error in 'f' [type]\n"
        "No types fit this definition and those that refer back to it. All others that it refers to have types or signatures.\n"
        "module A where { f x = h (g x) 1 ; h :: Bool -> Int -> Int ; h a b = b ; g y = f y }\n"
        "                 ^\n"
        "M.hs:1:27: note: 'f' has a type with another expression here (up to 1:27)\n"
        "module A where { f x = h (g x) 1 ; h :: Bool -> Int -> Int ; h a b = b ; g y = f y }\n"
        "                          ^\n"
        "errors: 1, skipped modules: 0\n",
    ),
    # two parts: neither is enough by itself. The second one is the application, because its function has too few arguments
    (
        "module A where { f :: Bool -> [Bool] -> [Bool] ; f b [] = b ; f b (x : xs) = not x : f xs }",
        1,
        "M.hs:1:50: error: type error in 'f' [type]\n"
        "No types fit this definition and those that refer back to it. All others that it refers to have types or signatures.\n"
        "module A where { f :: Bool -> [Bool] -> [Bool] ; f b [] = b ; f b (x : xs) = not x : f xs }\n"
        "                                                 ^\n"
        "M.hs:1:59: note: 'f' has a type with other expressions both here (up to 1:59) and at 1:86\n"
        "module A where { f :: Bool -> [Bool] -> [Bool] ; f b [] = b ; f b (x : xs) = not x : f xs }\n"
        "                                                          ^\n"
        "M.hs:1:86: note: 'f' has a type with other expressions both here (up to 1:89) and at 1:59\n"
        "...e A where { f :: Bool -> [Bool] -> [Bool] ; f b [] = b ; f b (x : xs) = not x : f xs }\n"
        "                                                                                   ^\n"
        "errors: 1, skipped modules: 0\n",
    ),
    # two patterns: the hole in place of the right side doesn't help
    (
        "module M where { f :: (a -> b) -> a -> b ; f [g] [x] = g x }",
        1,
        "M.hs:1:44: error: type error in 'f' [type]\n"
        "No types fit this definition and those that refer back to it. All others that it refers to have types or signatures.\n"
        "module M where { f :: (a -> b) -> a -> b ; f [g] [x] = g x }\n"
        "                                           ^\n"
        "M.hs:1:18: note: 'f' has type '[a -> b] -> [a] -> b' without this signature (up to 1:40)\n"
        "module M where { f :: (a -> b) -> a -> b ; f [g] [x] = g x }\n"
        "                 ^\n"
        "M.hs:1:46: note: 'f' has a type if this pattern (up to 1:48) and the one at 1:50 are '_' and their variables have every type\n"
        "module M where { f :: (a -> b) -> a -> b ; f [g] [x] = g x }\n"
        "                                             ^\n"
        "M.hs:1:50: note: 'f' has a type if this pattern (up to 1:52) and the one at 1:46 are '_' and their variables have every type\n"
        "module M where { f :: (a -> b) -> a -> b ; f [g] [x] = g x }\n"
        "                                                 ^\n"
        "errors: 1, skipped modules: 0\n",
    ),
    # an expression and a pattern
    (
        "module M where { f :: [Bool] -> Bool -> Bool ; f [] y = not 'c' ; f (x : xs) [y] = x }",
        1,
        "M.hs:1:48: error: type error in 'f' [type]\n"
        "No types fit this definition and those that refer back to it. All others that it refers to have types or signatures.\n"
        "module M where { f :: [Bool] -> Bool -> Bool ; f [] y = not 'c' ; f (x : xs) [y] = x }\n"
        "                                               ^\n"
        "M.hs:1:61: note: 'f' has a type with another expression here (up to 1:63) if the pattern at 1:78 is '_' and its variables have every type\n"
        "module M where { f :: [Bool] -> Bool -> Bool ; f [] y = not 'c' ; f (x : xs) [y] = x }\n"
        "                                                            ^^^\n"
        "M.hs:1:78: note: 'f' has a type if this pattern is '_' and its variables have every type (up to 1:80), with another expression at 1:61\n"
        "module M where { f :: [Bool] -> Bool -> Bool ; f [] y = not 'c' ; f (x : xs) [y] = x }\n"
        "                                                                             ^\n"
        "errors: 1, skipped modules: 0\n",
    ),
    # two wrong right sides may be a wrong signature, which is reported first
    (
        "module A where { f :: Bool -> Bool ; f True = 'a' ; f False = 'b' }",
        1,
        "M.hs:1:38: error: type error in 'f' [type]\n"
        "No types fit this definition and those that refer back to it. All others that it refers to have types or signatures.\n"
        "module A where { f :: Bool -> Bool ; f True = 'a' ; f False = 'b' }\n"
        "                                     ^\n"
        "M.hs:1:18: note: 'f' has type 'Bool -> Char' without this signature (up to 1:34)\n"
        "module A where { f :: Bool -> Bool ; f True = 'a' ; f False = 'b' }\n"
        "                 ^\n"
        "M.hs:1:47: note: 'f' has a type with other expressions both here (up to 1:49) and at 1:63\n"
        "module A where { f :: Bool -> Bool ; f True = 'a' ; f False = 'b' }\n"
        "                                              ^^^\n"
        "M.hs:1:63: note: 'f' has a type with other expressions both here (up to 1:65) and at 1:47\n"
        "module A where { f :: Bool -> Bool ; f True = 'a' ; f False = 'b' }\n"
        "                                                              ^^^\n"
        "errors: 1, skipped modules: 0\n",
    ),
    # a type in small letters is a type variable. Each that is named like a type has a note at its first place
    (
        'module M where { shout :: string -> string -> int -> other ; shout x y n = concat [x, y, "!"] }',
        1,
        "M.hs:1:62: error: type error in 'shout' [type]\n"
        "No types fit this definition and those that refer back to it. All others that it refers to have types or signatures.\n"
        'module M where { shout :: string -> string -> int -> other ; shout x y n = concat [x, y, "!"] }\n'
        "                                                             ^^^^^\n"
        "M.hs:1:76: note: this has type '[Char]', but 'b' is expected (up to 1:93)\n"
        'module M where { shout :: string -> string -> int -> other ; shout x y n = concat [x, y, "!"] }\n'
        "                                                                           ^^^^^^\n"
        "M.hs:1:18: note: 'shout' has type '[Char] -> [Char] -> a -> [Char]' without this signature (up to 1:58)\n"
        'module M where { shout :: string -> string -> int -> other ; shout x y n = concat [x, y, "!"] }\n'
        "                 ^^^^^\n"
        "M.hs:1:27: note: 'string' is a type variable; a type 'String' is in scope\n"
        'module M where { shout :: string -> string -> int -> other ; shout x y n = concat [x, y, "!"] }\n'
        "                          ^^^^^^\n"
        "M.hs:1:47: note: 'int' is a type variable; a type 'Int' is in scope\n"
        'module M where { shout :: string -> string -> int -> other ; shout x y n = concat [x, y, "!"] }\n'
        "                                              ^^^\n"
        "errors: 1, skipped modules: 0\n",
    ),
    # a synonym and a type of the module are in scope
    (
        "module M where { type Age = Int ; data Color = Red ; f :: age -> [color] ; f x = [Red] }",
        1,
        "M.hs:1:76: error: type error in 'f' [type]\n"
        "No types fit this definition and those that refer back to it. All others that it refers to have types or signatures.\n"
        "module M where { type Age = Int ; data Color = Red ; f :: age -> [color] ; f x = [Red] }\n"
        "                                                                           ^\n"
        "M.hs:1:83: note: this has type 'Color', but 'color' is expected (up to 1:85)\n"
        "...dule M where { type Age = Int ; data Color = Red ; f :: age -> [color] ; f x = [Red] }\n"
        "                                                                                   ^^^\n"
        "M.hs:1:54: note: 'f' has type 'a -> [Color]' without this signature (up to 1:72)\n"
        "module M where { type Age = Int ; data Color = Red ; f :: age -> [color] ; f x = [Red] }\n"
        "                                                     ^\n"
        "M.hs:1:59: note: 'age' is a type variable; a type 'Age' is in scope\n"
        "module M where { type Age = Int ; data Color = Red ; f :: age -> [color] ; f x = [Red] }\n"
        "                                                          ^^^\n"
        "M.hs:1:67: note: 'color' is a type variable; a type 'Color' is in scope\n"
        "module M where { type Age = Int ; data Color = Red ; f :: age -> [color] ; f x = [Red] }\n"
        "                                                                  ^^^^^\n"
        "errors: 1, skipped modules: 0\n",
    ),
    # a type that is in scope with a qualifier alone has another name
    (
        "module A where { data Tree = Leaf }\n"
        "module M where { import qualified A ; f :: tree -> tree ; f x = A.Leaf }",
        1,
        "M.hs:2:59: error: type error in 'f' [type]\n"
        "No types fit this definition and those that refer back to it. All others that it refers to have types or signatures.\n"
        "module M where { import qualified A ; f :: tree -> tree ; f x = A.Leaf }\n"
        "                                                          ^\n"
        "M.hs:2:65: note: this has type 'A.Tree', but 'tree' is expected (up to 2:70)\n"
        "module M where { import qualified A ; f :: tree -> tree ; f x = A.Leaf }\n"
        "                                                                ^^^^^^\n"
        "M.hs:2:39: note: 'f' has type 'a -> A.Tree' without this signature (up to 2:55)\n"
        "module M where { import qualified A ; f :: tree -> tree ; f x = A.Leaf }\n"
        "                                      ^\n"
        "errors: 1, skipped modules: 0\n",
    ),
    # Int isn't imported, so it isn't in scope
    (
        "module M where { import Prelude (Bool(True)) ; f :: int -> bool ; f x = True }",
        1,
        "M.hs:1:67: error: type error in 'f' [type]\n"
        "No types fit this definition and those that refer back to it. All others that it refers to have types or signatures.\n"
        "module M where { import Prelude (Bool(True)) ; f :: int -> bool ; f x = True }\n"
        "                                                                  ^\n"
        "M.hs:1:73: note: this has type 'Bool', but 'bool' is expected (up to 1:76)\n"
        "module M where { import Prelude (Bool(True)) ; f :: int -> bool ; f x = True }\n"
        "                                                                        ^^^^\n"
        "M.hs:1:48: note: 'f' has type 'a -> Bool' without this signature (up to 1:63)\n"
        "module M where { import Prelude (Bool(True)) ; f :: int -> bool ; f x = True }\n"
        "                                               ^\n"
        "M.hs:1:60: note: 'bool' is a type variable; a type 'Bool' is in scope\n"
        "module M where { import Prelude (Bool(True)) ; f :: int -> bool ; f x = True }\n"
        "                                                           ^^^^\n"
        "errors: 1, skipped modules: 0\n",
    ),
    # without the signature there is no type either, so nothing is said of its variables
    (
        "module M where { f :: int -> bool ; f x = not (not 'c' 'd') 'e' }",
        1,
        "M.hs:1:37: error: type error in 'f' [type]\n"
        "No types fit this definition and those that refer back to it. All others that it refers to have types or signatures.\n"
        "module M where { f :: int -> bool ; f x = not (not 'c' 'd') 'e' }\n"
        "                                    ^\n"
        "M.hs:1:43: note: 'f' has a type with another expression here (up to 1:63)\n"
        "module M where { f :: int -> bool ; f x = not (not 'c' 'd') 'e' }\n"
        "                                          ^^^\n"
        "errors: 1, skipped modules: 0\n",
    ),
    # the signature is that of a local definition
    (
        "module M where { f x = g x where { g :: int -> bool ; g y = True } }",
        1,
        "M.hs:1:18: error: type error in 'f' [type]\n"
        "No types fit this definition and those that refer back to it. All others that it refers to have types or signatures.\n"
        "module M where { f x = g x where { g :: int -> bool ; g y = True } }\n"
        "                 ^\n"
        "M.hs:1:61: note: 'f' has a type with another expression here (up to 1:64)\n"
        "module M where { f x = g x where { g :: int -> bool ; g y = True } }\n"
        "                                                            ^^^^\n"
        "errors: 1, skipped modules: 0\n",
    ),
    # an import whose list leaves the name out
    (
        "module A where { area x = x }\n"
        "module M where { import A () ; f = area }",
        1,
        "M.hs:2:36: error: 'area' isn't in scope [unbound]\n"
        "No declaration, import or parameter gives this name a meaning here.\n"
        "module M where { import A () ; f = area }\n"
        "                                   ^^^^\n"
        "M.hs:2:25: note: 'A' exports 'area', but this import doesn't bring 'area' into scope\n"
        "module M where { import A () ; f = area }\n"
        "                        ^\n"
        "errors: 1, skipped modules: 0\n",
    ),
    # an import that hides the name, of Prelude too
    (
        "module A where { data T = C }\n"
        "module M where { import A hiding (T(..)) ; import Prelude hiding (id) ; f = C ; g = id }",
        1,
        "M.hs:2:77: error: 'C' isn't in scope [unbound]\n"
        "No declaration, import or parameter gives this name a meaning here.\n"
        "module M where { import A hiding (T(..)) ; import Prelude hiding (id) ; f = C ; g = id }\n"
        "                                                                            ^\n"
        "M.hs:2:25: note: 'A' exports 'C', but this import doesn't bring 'C' into scope\n"
        "module M where { import A hiding (T(..)) ; import Prelude hiding (id) ; f = C ; g = id }\n"
        "                        ^\n"
        "M.hs:2:85: error: 'id' isn't in scope [unbound]\n"
        "No declaration, import or parameter gives this name a meaning here.\n"
        "...le M where { import A hiding (T(..)) ; import Prelude hiding (id) ; f = C ; g = id }\n"
        "                                                                                   ^^\n"
        "M.hs:2:51: note: 'Prelude' exports 'id', but this import doesn't bring 'id' into scope\n"
        "module M where { import A hiding (T(..)) ; import Prelude hiding (id) ; f = C ; g = id }\n"
        "                                                  ^^^^^^^\n"
        "errors: 2, skipped modules: 0\n",
    ),
    # a qualified import brings only qualified names into scope
    (
        "module A where { area x = x }\n"
        "module M where { import qualified A ; f = area }",
        1,
        "M.hs:2:43: error: 'area' isn't in scope [unbound]\n"
        "No declaration, import or parameter gives this name a meaning here.\n"
        "module M where { import qualified A ; f = area }\n"
        "                                          ^^^^\n"
        "M.hs:2:35: note: 'A' exports 'area', but this import doesn't bring 'area' into scope\n"
        "module M where { import qualified A ; f = area }\n"
        "                                  ^\n"
        "errors: 1, skipped modules: 0\n",
    ),
    # an imported module doesn't export the constructor, and another one the variable
    (
        "module A (T) where { data T = C }\n"
        "module B () where { area = () }\n"
        "module M where { import A ; import B ; f = C ; g = area }",
        1,
        "M.hs:3:44: error: 'C' isn't in scope [unbound]\n"
        "No declaration, import or parameter gives this name a meaning here.\n"
        "module M where { import A ; import B ; f = C ; g = area }\n"
        "                                           ^\n"
        "M.hs:1:31: note: 'A' declares 'C' here, but doesn't export it\n"
        "module A (T) where { data T = C }\n"
        "                              ^\n"
        "M.hs:3:52: error: 'area' isn't in scope [unbound]\n"
        "No declaration, import or parameter gives this name a meaning here.\n"
        "module M where { import A ; import B ; f = C ; g = area }\n"
        "                                                   ^^^^\n"
        "M.hs:2:21: note: 'B' declares 'area' here, but doesn't export it\n"
        "module B () where { area = () }\n"
        "                    ^^^^\n"
        "errors: 2, skipped modules: 0\n",
    ),
    # one import leaves the name out, and the module of another one doesn't export its own
    (
        "module A where { area = () }\n"
        "module B () where { area = () }\n"
        "module M where { import B ; import A () ; f = area }",
        1,
        "M.hs:3:47: error: 'area' isn't in scope [unbound]\n"
        "No declaration, import or parameter gives this name a meaning here.\n"
        "module M where { import B ; import A () ; f = area }\n"
        "                                              ^^^^\n"
        "M.hs:3:36: note: 'A' exports 'area', but this import doesn't bring 'area' into scope\n"
        "module M where { import B ; import A () ; f = area }\n"
        "                                   ^\n"
        "M.hs:2:21: note: 'B' declares 'area' here, but doesn't export it\n"
        "module B () where { area = () }\n"
        "                    ^^^^\n"
        "errors: 1, skipped modules: 0\n",
    ),
    # modules that aren't imported: a variable that two of them export, a type and its constructor of the same name
    (
        "module A where { area = () ; data T = T }\n"
        "module B where { area = () }\n"
        "module M where { f = area ; g :: T ; g = T }",
        1,
        "M.hs:3:22: error: 'area' isn't in scope [unbound]\n"
        "No declaration, import or parameter gives this name a meaning here.\n"
        "module M where { f = area ; g :: T ; g = T }\n"
        "                     ^^^^\n"
        "M.hs:3:22: note: 'A' exports 'area', but this module doesn't import 'A'\n"
        "module M where { f = area ; g :: T ; g = T }\n"
        "                     ^^^^\n"
        "M.hs:3:22: note: 'B' exports 'area', but this module doesn't import 'B'\n"
        "module M where { f = area ; g :: T ; g = T }\n"
        "                     ^^^^\n"
        "M.hs:3:34: error: 'T' isn't in scope [unbound]\n"
        "No declaration, import or parameter gives this name a meaning here.\n"
        "module M where { f = area ; g :: T ; g = T }\n"
        "                                 ^\n"
        "M.hs:3:34: note: 'A' exports 'T', but this module doesn't import 'A'\n"
        "module M where { f = area ; g :: T ; g = T }\n"
        "                                 ^\n"
        "M.hs:3:42: error: 'T' isn't in scope [unbound]\n"
        "No declaration, import or parameter gives this name a meaning here.\n"
        "module M where { f = area ; g :: T ; g = T }\n"
        "                                         ^\n"
        "M.hs:3:42: note: 'A' exports 'T', but this module doesn't import 'A'\n"
        "module M where { f = area ; g :: T ; g = T }\n"
        "                                         ^\n"
        "errors: 3, skipped modules: 0\n",
    ),
    # a module that isn't good has no exports: this one imports the faulty module, and so could not be imported
    (
        "module A where { import M ; area = () }\n"
        "module M where { f = area }",
        1,
        "M.hs:2:22: error: 'area' isn't in scope [unbound]\n"
        "No declaration, import or parameter gives this name a meaning here.\n"
        "module M where { f = area }\n"
        "                     ^^^^\n"
        "M.hs:1:25: note: skipped, since 'M' has errors\n"
        "module A where { import M ; area = () }\n"
        "                        ^\n"
        "errors: 1, skipped modules: 1\n",
    ),
    # a type isn't meant by a constructor, nor a name with a qualifier
    (
        "module A where { data T = C ; area = () }\n"
        "module M where { f = T ; g = A.area }",
        1,
        "M.hs:2:22: error: 'T' isn't in scope [unbound]\n"
        "No declaration, import or parameter gives this name a meaning here.\n"
        "module M where { f = T ; g = A.area }\n"
        "                     ^\n"
        "M.hs:2:30: error: 'A.area' isn't in scope [unbound]\n"
        "No declaration, import or parameter gives this name a meaning here.\n"
        "module M where { f = T ; g = A.area }\n"
        "                             ^^^^^^\n"
        "errors: 2, skipped modules: 0\n",
    ),
    # columns are counted in characters
    (
        "module A where { g x = 'é' : x ; f :: Bool -> [Char] ; f True = g 'ö' ; f False = 'ü' }",
        1,
        "M.hs:1:56: error: type error in 'f' [type]\n"
        "No types fit this definition and those that refer back to it. All others that it refers to have types or signatures.\n"
        "module A where { g x = 'é' : x ; f :: Bool -> [Char] ; f True = g 'ö' ; f False = 'ü' }\n"
        "                                                       ^\n"
        "M.hs:1:67: note: 'f' has a type with other expressions both here (up to 1:69) and at 1:83\n"
        "module A where { g x = 'é' : x ; f :: Bool -> [Char] ; f True = g 'ö' ; f False = 'ü' }\n"
        "                                                                  ^\n"
        "M.hs:1:83: note: 'f' has a type with other expressions both here (up to 1:85) and at 1:67\n"
        "...le A where { g x = 'é' : x ; f :: Bool -> [Char] ; f True = g 'ö' ; f False = 'ü' }\n"
        "                                                                                 ^\n"
        "errors: 1, skipped modules: 0\n",
    ),
    # two slips in a right side of more than 40 bytes, and in a shorter one
    (
        "module A where { f x = if not x then (not 'a', not True) else (x, not 'b') }",
        1,
        "M.hs:1:18: error: type error in 'f' [type]\n"
        "No types fit this definition and those that refer back to it. All others that it refers to have types or signatures.\n"
        "module A where { f x = if not x then (not 'a', not True) else (x, not 'b') }\n"
        "                 ^\n"
        "M.hs:1:43: note: 'f' has a type with other expressions both here (up to 1:45) and at 1:71\n"
        "module A where { f x = if not x then (not 'a', not True) else (x, not 'b') }\n"
        "                                          ^^^\n"
        "M.hs:1:71: note: 'f' has a type with other expressions both here (up to 1:73) and at 1:43\n"
        "module A where { f x = if not x then (not 'a', not True) else (x, not 'b') }\n"
        "                                                                      ^^^\n"
        "errors: 1, skipped modules: 0\n",
    ),
    (
        "module A where { f = (not 'a', not True, not 'b') }",
        1,
        "M.hs:1:18: error: type error in 'f' [type]\n"
        "No types fit this definition and those that refer back to it. All others that it refers to have types or signatures.\n"
        "module A where { f = (not 'a', not True, not 'b') }\n"
        "                 ^\n"
        "M.hs:1:22: note: 'f' has a type with another expression here (up to 1:49)\n"
        "module A where { f = (not 'a', not True, not 'b') }\n"
        "                     ^\n"
        "errors: 1, skipped modules: 0\n",
    ),
    # `()` clashes with both right sides after it, and is the slip
    (
        "module A where { f 0 = not 'a' ; f 1 = () ; f 2 = True ; f _ = False }",
        1,
        "M.hs:1:18: error: type error in 'f' [type]\n"
        "No types fit this definition and those that refer back to it. All others that it refers to have types or signatures.\n"
        "module A where { f 0 = not 'a' ; f 1 = () ; f 2 = True ; f _ = False }\n"
        "                 ^\n"
        "M.hs:1:28: note: 'f' has a type with other expressions both here (up to 1:30) and at 1:40\n"
        "module A where { f 0 = not 'a' ; f 1 = () ; f 2 = True ; f _ = False }\n"
        "                           ^^^\n"
        "M.hs:1:40: note: 'f' has a type with other expressions both here (up to 1:41) and at 1:28\n"
        "module A where { f 0 = not 'a' ; f 1 = () ; f 2 = True ; f _ = False }\n"
        "                                       ^\n"
        "errors: 1, skipped modules: 0\n",
    ),
    # three wrong right sides have no note
    (
        "module A where { f :: Bool -> Bool -> Bool ; f True True = 'a' ; f True False = () ; f False y = [y] }",
        1,
        "M.hs:1:46: error: type error in 'f' [type]\n"
        "No types fit this definition and those that refer back to it. All others that it refers to have types or signatures.\n"
        "module A where { f :: Bool -> Bool -> Bool ; f True True = 'a' ; f True False = () ; f False y = [y] }\n"
        "                                             ^\n"
        "errors: 1, skipped modules: 0\n",
    ),
    # a definition that uses itself at another type has its declared type there
    (
        "module A where { f :: a -> Int -> Int ; f x n = g (f (fst (1, 2)) n) x ; g :: Int -> Bool -> Int ; g a b = a }",
        1,
        "M.hs:1:41: error: type error in 'f' [type]\n"
        "No types fit this definition and those that refer back to it. All others that it refers to have types or signatures.\n"
        "module A where { f :: a -> Int -> Int ; f x n = g (f (fst (1, 2)) n) x ; g :: Int -> Bool -> Int ; g a b = a }\n"
        "                                        ^\n"
        "M.hs:1:70: note: this has type 'a', but 'Bool' is expected (up to 1:70)\n"
        "module A where { f :: a -> Int -> Int ; f x n = g (f (fst (1, 2)) n) x ; g :: Int -> Bool -> Int ; g a b = a }\n"
        "                                                                     ^\n"
        "errors: 1, skipped modules: 0\n",
    ),
    # a type fault that the report leaves out
    (
        "module M where { f = y ; g = not 'c' }",
        1,
        "M.hs:1:22: error: 'y' isn't in scope [unbound]\n"
        "No declaration, import or parameter gives this name a meaning here.\n"
        "module M where { f = y ; g = not 'c' }\n"
        "                     ^\n"
        "M.hs:1:26: note: type error in 'g', whatever the names that aren't in scope mean\n"
        "module M where { f = y ; g = not 'c' }\n"
        "                         ^\n"
        "errors: 1, skipped modules: 0\n",
    ),
    # f and g have a type if y is right, and h has none. Its y is another one
    (
        "module M where {\n"
        "f = y 1 ;\n"
        "g = not (y 'c') ;\n"
        "h y = not (y (y y)) }",
        1,
        "M.hs:2:5: error: 'y' isn't in scope [unbound]\n"
        "No declaration, import or parameter gives this name a meaning here.\n"
        "f = y 1 ;\n"
        "    ^\n"
        "M.hs:3:10: error: 'y' isn't in scope [unbound]\n"
        "No declaration, import or parameter gives this name a meaning here.\n"
        "g = not (y 'c') ;\n"
        "         ^\n"
        "M.hs:4:1: note: type error in 'h', whatever the names that aren't in scope mean\n"
        "h y = not (y (y y)) }\n"
        "^\n"
        "errors: 2, skipped modules: 0\n",
    ),
    # faults of patterns come before those of types
    (
        "module M where { f = y ; g x = x ; g x z = x ; h = not 'c' }",
        1,
        "M.hs:1:22: error: 'y' isn't in scope [unbound]\n"
        "No declaration, import or parameter gives this name a meaning here.\n"
        "module M where { f = y ; g x = x ; g x z = x ; h = not 'c' }\n"
        "                     ^\n"
        "M.hs:1:36: note: the clauses of 'g' have different numbers of patterns, whatever the names that aren't in scope mean\n"
        "module M where { f = y ; g x = x ; g x z = x ; h = not 'c' }\n"
        "                                   ^\n"
        "errors: 1, skipped modules: 0\n",
    ),
    # the second module of a source, with an export list that has a name which isn't in scope
    (
        "module A where { y = 1 }\n"
        "module M (f, z) where { import A ; f = not y }",
        1,
        "M.hs:2:14: error: 'z' isn't in scope [unbound]\n"
        "No declaration, import or parameter gives this name a meaning here.\n"
        "module M (f, z) where { import A ; f = not y }\n"
        "             ^\n"
        "M.hs:2:36: note: type error in 'f', whatever the names that aren't in scope mean\n"
        "module M (f, z) where { import A ; f = not y }\n"
        "                                   ^\n"
        "errors: 1, skipped modules: 0\n",
    ),
    # a definition with a constructor that isn't in scope is replaced
    (
        "module M where { f = Y ; g = not 'c' }",
        1,
        "M.hs:1:22: error: 'Y' isn't in scope [unbound]\n"
        "No declaration, import or parameter gives this name a meaning here.\n"
        "module M where { f = Y ; g = not 'c' }\n"
        "                     ^\n"
        "M.hs:1:26: note: type error in 'g', whatever the names that aren't in scope mean\n"
        "module M where { f = Y ; g = not 'c' }\n"
        "                         ^\n"
        "errors: 1, skipped modules: 0\n",
    ),
    # all clauses are replaced, with what is local in them. So f and h have every type, and g and i have none or one as they stand
    (
        "module M where {\n"
        "f True = N.y (not 'c') where {\n"
        "  y = N.z } ;\n"
        "f x = False ;\n"
        "g = not (f 'c') ;\n"
        "h y = f (N.z y) ;\n"
        "i = not 'c' }",
        1,
        "M.hs:2:10: error: 'N.y' isn't in scope [unbound]\n"
        "No declaration, import or parameter gives this name a meaning here.\n"
        "f True = N.y (not 'c') where {\n"
        "         ^^^\n"
        "M.hs:3:7: error: 'N.z' isn't in scope [unbound]\n"
        "No declaration, import or parameter gives this name a meaning here.\n"
        "  y = N.z } ;\n"
        "      ^^^\n"
        "M.hs:6:10: error: 'N.z' isn't in scope [unbound]\n"
        "No declaration, import or parameter gives this name a meaning here.\n"
        "h y = f (N.z y) ;\n"
        "         ^^^\n"
        "M.hs:7:1: note: type error in 'i', whatever the names that aren't in scope mean\n"
        "i = not 'c' }\n"
        "^\n"
        "errors: 3, skipped modules: 0\n",
    ),
    # the signature of f stays, so g has no type
    (
        "module M where {\n"
        "f :: Bool -> Int ;\n"
        "f True = Y ;\n"
        "f x = 'c' ;\n"
        "g = f 'c' }",
        1,
        "M.hs:3:10: error: 'Y' isn't in scope [unbound]\n"
        "No declaration, import or parameter gives this name a meaning here.\n"
        "f True = Y ;\n"
        "         ^\n"
        "M.hs:5:1: note: type error in 'g', whatever the names that aren't in scope mean\n"
        "g = f 'c' }\n"
        "^\n"
        "errors: 1, skipped modules: 0\n",
    ),
    # a signature with a type that isn't in scope goes with its definition, so g has a type
    (
        "module M where {\n"
        "f :: T -> Int ;\n"
        "f x = not 'c' ;\n"
        "g = f 'c' ;\n"
        "h = not 'c' }",
        1,
        "M.hs:2:6: error: 'T' isn't in scope [unbound]\n"
        "No declaration, import or parameter gives this name a meaning here.\n"
        "f :: T -> Int ;\n"
        "     ^\n"
        "M.hs:5:1: note: type error in 'h', whatever the names that aren't in scope mean\n"
        "h = not 'c' }\n"
        "^\n"
        "errors: 1, skipped modules: 0\n",
    ),
    # variables and a constructor, and a place behind a comment
    (
        "module M where {\n"
        "f = Y x ;\n"
        "{- a comment -} g = z (let { y = not 'c' } in y) }",
        1,
        "M.hs:2:5: error: 'Y' isn't in scope [unbound]\n"
        "No declaration, import or parameter gives this name a meaning here.\n"
        "f = Y x ;\n"
        "    ^\n"
        "M.hs:2:7: error: 'x' isn't in scope [unbound]\n"
        "No declaration, import or parameter gives this name a meaning here.\n"
        "f = Y x ;\n"
        "      ^\n"
        "M.hs:3:21: error: 'z' isn't in scope [unbound]\n"
        "No declaration, import or parameter gives this name a meaning here.\n"
        "{- a comment -} g = z (let { y = not 'c' } in y) }\n"
        "                    ^\n"
        "M.hs:3:17: note: type error in 'g', whatever the names that aren't in scope mean\n"
        "{- a comment -} g = z (let { y = not 'c' } in y) }\n"
        "                ^\n"
        "errors: 3, skipped modules: 0\n",
    ),
    # a declaration of a type isn't replaced
    (
        "module M where { data D = D T ; g = not 'c' }",
        1,
        "M.hs:1:29: error: 'T' isn't in scope [unbound]\n"
        "No declaration, import or parameter gives this name a meaning here.\n"
        "module M where { data D = D T ; g = not 'c' }\n"
        "                            ^\n"
        "errors: 1, skipped modules: 0\n",
    ),
    # nor is a pattern binding
    (
        "module M where { (a, b) = Y ; g = not 'c' }",
        1,
        "M.hs:1:27: error: 'Y' isn't in scope [unbound]\n"
        "No declaration, import or parameter gives this name a meaning here.\n"
        "module M where { (a, b) = Y ; g = not 'c' }\n"
        "                          ^\n"
        "errors: 1, skipped modules: 0\n",
    ),
    # nor a signature of two variables
    (
        "module M where { a, b :: T ; a = 1 ; b = 1 ; g = not 'c' }",
        1,
        "M.hs:1:26: error: 'T' isn't in scope [unbound]\n"
        "No declaration, import or parameter gives this name a meaning here.\n"
        "module M where { a, b :: T ; a = 1 ; b = 1 ; g = not 'c' }\n"
        "                         ^\n"
        "errors: 1, skipped modules: 0\n",
    ),
    # nor one that isn't right before the clauses of its variable
    (
        "module M where { a :: T ; b = 1 ; a = 1 ; g = not 'c' }",
        1,
        "M.hs:1:23: error: 'T' isn't in scope [unbound]\n"
        "No declaration, import or parameter gives this name a meaning here.\n"
        "module M where { a :: T ; b = 1 ; a = 1 ; g = not 'c' }\n"
        "                      ^\n"
        "errors: 1, skipped modules: 0\n",
    ),
    # an export list has no definition
    (
        "module M (T, g) where { g = not 'c' }",
        1,
        "M.hs:1:11: error: 'T' isn't in scope [unbound]\n"
        "No declaration, import or parameter gives this name a meaning here.\n"
        "module M (T, g) where { g = not 'c' }\n"
        "          ^\n"
        "errors: 1, skipped modules: 0\n",
    ),
    ("module M where { f = 1 }", 0, ""),
    ("", 0, ""),
]

# each reason for a refusal once, with the messages
REASONS = [
    # a module and Prelude have near names
    (
        "module A where { import Lists ; import Prelud }\n"
        "module List where { }",
        2,
        "M.hs:1:25: error: no module 'Lists' is given (did you mean 'List'?) [missing]\n"
        "An import names a module of the set or `Prelude`; there is no other library.\n"
        "module A where { import Lists ; import Prelud }\n"
        "                        ^^^^^\n"
        "M.hs:1:40: error: no module 'Prelud' is given (did you mean 'Prelude'?) [missing]\n"
        "An import names a module of the set or `Prelude`; there is no other library.\n"
        "module A where { import Lists ; import Prelud }\n"
        "                                       ^^^^^^\n"
        "errors: 2, skipped modules: 0\n",
    ),
    # the importing module's own name is near too, but isn't meant
    (
        "module List where { import Lists }\n"
        "module Lista where { }",
        2,
        "M.hs:1:28: error: no module 'Lists' is given (did you mean 'Lista'?) [missing]\n"
        "An import names a module of the set or `Prelude`; there is no other library.\n"
        "module List where { import Lists }\n"
        "                           ^^^^^\n"
        "errors: 1, skipped modules: 0\n",
    ),
    # each import that names no module, and no other one
    (
        "module A where { import B ; import Prelude ; import C }\n"
        "module D where { import A ; import B }",
        2,
        "M.hs:1:25: error: no module 'B' is given [missing]\n"
        "An import names a module of the set or `Prelude`; there is no other library.\n"
        "module A where { import B ; import Prelude ; import C }\n"
        "                        ^\n"
        "M.hs:1:53: error: no module 'C' is given [missing]\n"
        "An import names a module of the set or `Prelude`; there is no other library.\n"
        "module A where { import B ; import Prelude ; import C }\n"
        "                                                    ^\n"
        "M.hs:2:36: error: no module 'B' is given [missing]\n"
        "An import names a module of the set or `Prelude`; there is no other library.\n"
        "module D where { import A ; import B }\n"
        "                                   ^\n"
        "errors: 3, skipped modules: 0\n",
    ),
    (
        "module M where { f = # }",
        2,
        "M.hs:1:22: error: the operator '#' isn't supported: the only one is ':' [lexeme]\n"
        "A comment begins with `--`.\n"
        "module M where { f = # }\n"
        "                     ^\n"
        "errors: 1, skipped modules: 0\n",
    ),
    (
        "module M where { f = g % 2 }",
        2,
        "M.hs:1:24: error: the operator '%' isn't supported: the only one is ':' [lexeme]\n"
        "Define a function with a name, and write it before its arguments.\n"
        "module M where { f = g % 2 }\n"
        "                       ^\n"
        "errors: 1, skipped modules: 0\n",
    ),
    # further lexical faults: an operator in a string or a comment is none, and after a string without an end there is none
    (
        "module M where {\n  f x y = x ++ y `M.or` 2.5 {- + -} ; s = \"a + b\" -- + c\n  ; t = 'a' +'b' ; u = \"open\n  ; v = 1 + 2 }",
        2,
        "M.hs:2:13: error: the operator '++' isn't supported: the only one is ':' [lexeme]\n"
        "Write `concat [xs, ys]` for `xs ++ ys`.\n"
        "  f x y = x ++ y `M.or` 2.5 {- + -} ; s = \"a + b\" -- + c\n"
        "            ^^\n"
        "M.hs:2:18: error: a function between backquotes isn't supported [lexeme]\n"
        "Write it before its arguments: `f x y`.\n"
        "  f x y = x ++ y `M.or` 2.5 {- + -} ; s = \"a + b\" -- + c\n"
        "                 ^\n"
        "M.hs:2:25: error: numbers with a fraction or an exponent aren't supported [lexeme]\n"
        "All numbers are of type Int.\n"
        "  f x y = x ++ y `M.or` 2.5 {- + -} ; s = \"a + b\" -- + c\n"
        "                        ^^^\n"
        "M.hs:3:13: error: the operator '+' isn't supported: the only one is ':' [lexeme]\n"
        "There is no arithmetic: declare a function, such as `plus :: Int -> Int -> Int ; plus = undefined`.\n"
        "  ; t = 'a' +'b' ; u = \"open\n"
        "            ^\n"
        "M.hs:3:24: error: this string isn't closed on its line [lexeme]\n"
        "Write `\"` at its end.\n"
        "  ; t = 'a' +'b' ; u = \"open\n"
        "                       ^\n"
        "errors: 5, skipped modules: 0\n",
    ),
    # a number with an exponent and a lone backquote end the search, and so do 20 further faults
    *(
        (
            f"module M where {{ f = 1 % {text} % 2 }}",
            2,
            "M.hs:1:24: error: the operator '%' isn't supported: the only one is ':' [lexeme]\n"
            "Define a function with a name, and write it before its arguments.\n"
            f"module M where {{ f = 1 % {text} % 2 }}\n"
            "                       ^\n"
            f"M.hs:1:26: error: {first} [lexeme]\n{second}\n"
            f"module M where {{ f = 1 % {text} % 2 }}\n"
            f"                         {mark}\n"
            "errors: 2, skipped modules: 0\n",
        )
        for text, first, second, mark in (
            ("2.5e3", "numbers with a fraction or an exponent aren't supported", "All numbers are of type Int.", "^^^^^"),
            ("`div 2", "a function between backquotes isn't supported", "Write it before its arguments: `f x y`.", "^"),
        )
    ),
    (
        "module M where {\n" + "# ;\n" * 30 + "}",
        2,
        "".join(f"M.hs:{n}:1: error: the operator '#' isn't supported: the only one is ':' [lexeme]\nA comment begins with `--`.\n# ;\n^\n" for n in range(2, 23)) + "errors: 21, skipped modules: 0\n",
    ),
    (
        "module M where { {- }",
        2,
        "M.hs:1:18: error: this comment isn't closed [open-comment]\n"
        "A comment ends with `-}`; a `{-` within it begins another one.\n"
        "module M where { {- }\n"
        "                 ^\n"
        "errors: 1, skipped modules: 0\n",
    ),
    (
        "(" * 201,
        2,
        "M.hs:1:201: error: too many open brackets [too-deep]\n"
        "At most 200 brackets may be open at once.\n"
        "...(((((((((((((((((((((((((((((((((((((((((((((((((((((((((((((((((((((((((((((((((\n"
        "                                                                                   ^\n"
        "errors: 1, skipped modules: 0\n",
    ),
    (
        "module M where { f = }",
        2,
        "M.hs:1:22: error: unexpected '}' [syntax]\n"
        "No module can go on with this here.\n"
        "module M where { f = }\n"
        "                     ^\n"
        "errors: 1, skipped modules: 0\n",
    ),
    (
        "module A where { }\n"
        "module A where { }",
        2,
        "M.hs:2:8: error: the module name 'A' is taken [twice]\n"
        "Each module of a set has a name of its own, and `Prelude` is built in.\n"
        "module A where { }\n"
        "       ^\n"
        "M.hs:1:8: note: this module has the name 'A' too\n"
        "module A where { }\n"
        "       ^\n"
        "errors: 1, skipped modules: 0\n",
    ),
    (
        "module Prelude where { }",
        2,
        "M.hs:1:8: error: the module name 'Prelude' is taken [twice]\n"
        "Each module of a set has a name of its own, and `Prelude` is built in.\n"
        "module Prelude where { }\n"
        "       ^^^^^^^\n"
        "errors: 1, skipped modules: 0\n",
    ),
    (
        "module A where { import B }",
        2,
        "M.hs:1:25: error: no module 'B' is given [missing]\n"
        "An import names a module of the set or `Prelude`; there is no other library.\n"
        "module A where { import B }\n"
        "                        ^\n"
        "errors: 1, skipped modules: 0\n",
    ),
    (
        "module A where { import A }",
        2,
        "M.hs:1:25: error: the imports of module 'A' lead back to it [cycle]\n"
        "Modules may not import each other in a circle.\n"
        "module A where { import A }\n"
        "                        ^\n"
        "M.hs:1:25: note: 'A' imports 'A'\n"
        "errors: 1, skipped modules: 0\n",
    ),
    (
        "module A where { import B }\n"
        "module B where { import C }\n"
        "module C where { import D ; import A }\n"
        "module D where { }",
        2,
        "M.hs:1:25: error: the imports of module 'A' lead back to it [cycle]\n"
        "Modules may not import each other in a circle.\n"
        "module A where { import B }\n"
        "                        ^\n"
        "M.hs:1:25: note: 'A' imports 'B'\n"
        "M.hs:2:25: note: 'B' imports 'C'\n"
        "M.hs:3:36: note: 'C' imports 'A'\n"
        "errors: 1, skipped modules: 0\n",
    ),
]

# tabs, long lines, characters of several bytes, ends of texts, and bytes that are no text
EXCERPTS = [
    (
        "module M where {\n"
        "\tf = y }\n",
        1,
        "M.hs:2:6: error: 'y' isn't in scope [unbound]\n"
        "No declaration, import or parameter gives this name a meaning here.\n"
        "    f = y }\n"
        "        ^\n"
        "errors: 1, skipped modules: 0\n",
    ),
    (
        "module M where { " + "".join(f"x{n:03} = 1 ; " for n in range(20)) + "f = y ; " + "".join(f"y{n:03} = 1 ; " for n in range(20)) + "}",
        1,
        "M.hs:1:242: error: 'y' isn't in scope [unbound]\n"
        "No declaration, import or parameter gives this name a meaning here.\n"
        "...013 = 1 ; x014 = 1 ; x015 = 1 ; x016 = 1 ; x017 = 1 ; x018 = 1 ; x019 = 1 ; f = y ; y000 = 1 ; y001 = 1 ; y002 = 1 ; y003 = 1 ; y004 = 1 ; y005 = 1 ; y006 = 1 ;...\n"
        "                                                                                   ^\n"
        "errors: 1, skipped modules: 0\n",
    ),
    (
        "module M where { {- " + "é" * 100 + " -}  f = y {- " + "é" * 100 + " -} }",
        1,
        "M.hs:1:130: error: 'y' isn't in scope [unbound]\n"
        "No declaration, import or parameter gives this name a meaning here.\n"
        "...ééééééééééééééééééééééééééééééééééé -}  f = y {- ééééééééééééééééééééééééééééééééééééé...\n"
        "                                               ^\n"
        "errors: 1, skipped modules: 0\n",
    ),
    (
        "module M where { {- é€𝄞 -} f = y }",
        1,
        "M.hs:1:32: error: 'y' isn't in scope [unbound]\n"
        "No declaration, import or parameter gives this name a meaning here.\n"
        "module M where { {- é€𝄞 -} f = y }\n"
        "                               ^\n"
        "errors: 1, skipped modules: 0\n",
    ),
    (
        # two columns for each of these characters, none for the combining one
        "module M where { {- 日本 e\u0301 -} f = lenght }\r\n",
        1,
        "M.hs:1:34: error: 'lenght' isn't in scope (did you mean 'length'?) [unbound]\n"
        "No declaration, import or parameter gives this name a meaning here.\n"
        "module M where { {- 日本 e\u0301 -} f = lenght }\n"
        "                                  ^^^^^^\n"
        "errors: 1, skipped modules: 0\n",
    ),
    (
        # what would turn the reading order
        "module M where { {- \u202e -} f = A.lenght }",
        1,
        "M.hs:1:30: error: 'A.lenght' isn't in scope [unbound]\n"
        "No declaration, import or parameter gives this name a meaning here.\n"
        "module M where { {- \\u{202e} -} f = A.lenght }\n"
        "                                    ^^^^^^^^\n"
        "errors: 1, skipped modules: 0\n",
    ),
    (
        "module M where { f = 1",
        2,
        "M.hs:1:23: error: expected '}' before the end of the source [syntax]\n"
        "With it this can be read.\n"
        "module M where { f = 1\n"
        "                      ^\n"
        "errors: 1, skipped modules: 0\n",
    ),
    (
        "module M where { f = 1\n",
        2,
        "M.hs:2:1: error: expected '}' before the end of the source [syntax]\n"
        "With it this can be read.\n"
        "\n"
        "^\n"
        "errors: 1, skipped modules: 0\n",
    ),
    (
        b"module M where { {- \xff -} }",
        2,
        b"M.hs:1:18: error: this comment isn't UTF-8 [lexeme]\nSave the file as UTF-8.\nmodule M where { {- \\xff -} }\n                 ^\nerrors: 1, skipped modules: 0\n",
    ),
    (
        b"-- caf\xe9\nmodule M where { x = 1 }",
        2,
        b"M.hs:1:1: error: this comment isn't UTF-8 [lexeme]\nSave the file as UTF-8.\n-- caf\\xe9\n^^\nerrors: 1, skipped modules: 0\n",
    ),
]

# a module of these declarations, with the notes of expected types: the column, the name and the type of each
EXPECTED = [
    # a function, by the signature of its definition
    ("f :: [Int] -> Int ; f xs = total xs", [(45, "total", "[Int] -> Int")]),
    # without a signature
    ("f xs = not (total xs)", [(30, "total", "a -> Bool")]),
    # an argument
    ("f :: Int -> Char ; f n = 'c' ; g = f y", [(55, "y", "Int")]),
    # a value
    ("f :: Maybe Int ; f = y", [(39, "y", "Maybe Int")]),
    # a constructor
    ("f :: Int -> Maybe Int ; f n = Some n", [(48, "Some", "Int -> Maybe Int")]),
    # beside a near name
    ("f :: Int -> Maybe Int ; f n = Jsut n", [(48, "Jsut", "Int -> Maybe Int")]),
    # a name with a qualifier
    ("f :: Int -> Int ; f n = N.next n", [(42, "N.next", "Int -> Int")]),
    # a local name under a lambda
    ("f :: [Int] -> [Bool] ; f xs = map (\\x -> isBig x) xs", [(59, "isBig", "Int -> Bool")]),
    # in a `where`, with a signature and without: g has its most general type then
    ("f :: Int -> Bool ; f n = g where { g :: Bool ; g = test n }", [(69, "test", "Int -> Bool")]),
    ("f :: Int -> Bool ; f n = g where { g = test n }", [(57, "test", "Int -> a")]),
    # in a local function of every type
    ("f :: Char -> Bool ; f s = let { h c = good c } in h s", [(56, "good", "a -> b")]),
    # a condition
    ("f :: Int -> Int ; f n = if big n then n else 0", [(45, "big", "Int -> Bool")]),
    # an expression of alternatives
    ("f :: Int -> Int ; f n = case find n of { Just m -> m ; Nothing -> n }", [(47, "find", "Int -> Maybe Int")]),
    # in a recursive definition
    ("f :: Int -> Int ; f n = f (next n)", [(45, "next", "Int -> Int")]),
    # in a pattern binding
    ("(a, b) = (not y, 'c')", [(32, "y", "Bool")]),
    # the letters of the signature
    ("f :: elem -> [elem] ; f x = wrap x", [(46, "wrap", "elem -> [elem]")]),
    # two in one definition: what is between them has any type
    ("f :: Char -> Int ; f c = size (shape c)", [(43, "size", "a -> Int"), (49, "shape", "Char -> a")]),
    # one name at two types
    ("f :: Int -> Bool ; f n = test n ; g :: Char -> Bool ; g c = test c", [(43, "test", "Int -> Bool"), (78, "test", "Char -> Bool")]),
    # a constructor in another definition
    ("f :: Int -> Int ; f n = next n ; g = Y", [(42, "next", "Int -> Int")]),
    # the definition is replaced for the constructor, except in the trial of that
    ("f :: Int -> Maybe Int ; f n = Some (next n)", [(48, "Some", "a -> Maybe Int")]),
    # and so for the other constructor
    ("f :: Int -> Maybe Int ; f n = Some (Some n)", []),
    # every value has a variable for a type
    ("f = y", []),
    ("f x = y", []),
    # a pattern and a type
    ("f (Y n) = g n ; g :: Int -> Int ; g n = n", []),
    ("f Y = not True", []),
    ("f :: T -> Int ; f x = 1", []),
    # a type fault
    ("f :: [Int] -> Int ; f xs = total xs ; g = not 'c'", []),
    # a fault of another kind
    ("f :: Int -> Int ; f n = next n ; f :: Int -> Int", []),
]

# a module of these imports and declarations, with the place of its one fault and the first line of its message
DETAILS = [
    ("f xs = lenght xs", "1:25", "'lenght' isn't in scope (did you mean 'length'?) [unbound]"),
    # a name that is ambiguous isn't proposed
    ("null = 1 ; x = nullP", "1:33", "'nullP' isn't in scope [unbound]"),
    ("filtre = 1 ; f = filter1", "1:35", "'filter1' isn't in scope (did you mean 'filter'?) [unbound]"),
    ("f = Prelude.mpa", "1:22", "'Prelude.mpa' isn't in scope (did you mean 'Prelude.map'?) [unbound]"),
    ("x = true", "1:22", "'true' isn't in scope (did you mean 'True'?) [unbound]"),
    ("x = Prelude.nothing", "1:22", "'Prelude.nothing' isn't in scope (did you mean 'Prelude.Nothing'?) [unbound]"),
    ("x = Filter", "1:22", "'Filter' isn't in scope [unbound]"),
    ("x :: Mabye Int ; x = Nothing", "1:23", "'Mabye' isn't in scope (did you mean 'Maybe'?) [unbound]"),
    ("x = Noting", "1:22", "'Noting' isn't in scope (did you mean 'Nothing'?) [unbound]"),
    # a name that can't stand at the place isn't meant: a value for a type variable or a type, a constructor for a type
    ("data T a = C log", "1:31", "'log' isn't in scope [unbound]"),
    ("alphb1 = 1 ; data T alpha = C alphb", "1:48", "'alphb' isn't in scope [unbound]"),
    ("data T a = C true", "1:31", "'true' isn't in scope [unbound]"),
    ("data S = Circle ; f :: Circl -> Int ; f = f", "1:41", "'Circl' isn't in scope [unbound]"),
    ("x = Maybee", "1:22", "'Maybee' isn't in scope [unbound]"),
    # a type variable that is no parameter
    ("data T = Leaf | Node T int T", "1:41", "'int' isn't in scope (did you mean 'Int'?) [unbound]"),
    ("type S = [string]", "1:28", "'string' isn't in scope (did you mean 'String'?) [unbound]"),
    # a name of two letters is near dozens
    ("x = ie", "1:22", "'ie' isn't in scope [unbound]"),
    # two edits are too many, and a capital letter isn't a small one
    ("f = mpas", "1:22", "'mpas' isn't in scope [unbound]"),
    ("f = Maps", "1:22", "'Maps' isn't in scope [unbound]"),
    # a local variable comes before a name of the top or of Prelude, and an inner one before an outer one
    ("f list = length lsit", "1:34", "'lsit' isn't in scope (did you mean 'list'?) [unbound]"),
    ("lisp = 1 ; f lift = lifp", "1:38", "'lifp' isn't in scope (did you mean 'lift'?) [unbound]"),
    ("f lift = \\lifu -> lifo", "1:36", "'lifo' isn't in scope (did you mean 'lifu'?) [unbound]"),
    ("f = let { total = 1 } in totla", "1:43", "'totla' isn't in scope (did you mean 'total'?) [unbound]"),
    ("f = let { (one, total) = (1, totl) } in one", "1:47", "'totl' isn't in scope (did you mean 'total'?) [unbound]"),
    ("f x = totl where { total = x }", "1:24", "'totl' isn't in scope (did you mean 'total'?) [unbound]"),
    ("f x = case x of { Just word -> wrod ; word -> 1 }", "1:49", "'wrod' isn't in scope (did you mean 'word'?) [unbound]"),
    ("f xs | null xss = 1 | True = 2", "1:30", "'xss' isn't in scope (did you mean 'xs'?) [unbound]"),
    ("f list | null lst = 1 | True = 2", "1:32", "'lst' isn't in scope (did you mean 'list'?) [unbound]"),
    # the scope of these variables ends before the place
    ("f list = 1 ; g = lsit", "1:35", "'lsit' isn't in scope [unbound]"),
    ("f = (\\list -> list) lsit", "1:38", "'lsit' isn't in scope [unbound]"),
    ("f x = case x of { word -> 1 ; _ -> wrod }", "1:53", "'wrod' isn't in scope [unbound]"),
    # a name with a qualifier is no local variable
    ("f list = M.lsit", "1:27", "'M.lsit' isn't in scope [unbound]"),
    # what is hidden isn't in scope
    ("import Prelude hiding (length) ; f = lenght", "1:55", "'lenght' isn't in scope [unbound]"),
    ("f = catch", "1:22", "'catch' isn't in scope: this Prelude leaves it out [unbound]"),
    ("f = putStrLn", "1:22", "'putStrLn' isn't in scope: this Prelude leaves it out [unbound]"),
    ("x :: Integer ; x = 1", "1:23", "'Integer' isn't in scope: this Prelude leaves it out [unbound]"),
    # the Report's Prelude has these as types alone
    ("x = Integer 1", "1:22", "'Integer' isn't in scope [unbound]"),
    ("f (Double n) = n", "1:21", "'Double' isn't in scope [unbound]"),
    # the namespace of the name
    ("x = Int", "1:22", "'Int' isn't in scope: a type has this name, but can't stand here [unbound]"),
    ("x :: Just ; x = x", "1:23", "'Just' isn't in scope: a constructor has this name, but can't stand here [unbound]"),
    ("data T = C ; f (T) = 1", "1:34", "'T' isn't in scope: a type has this name, but can't stand here [unbound]"),
    ("filter = 1 ; f = filter", "1:35", "'filter' is ambiguous: write 'M.filter' or 'Prelude.filter', or add 'import Prelude hiding (filter)' [ambiguous]"),
    ("data T = Left ; f = Left", "1:38", "'Left' is ambiguous: write 'M.Left' or 'Prelude.Left', or add 'import Prelude hiding (Left)' [ambiguous]"),
    ("data Int = I ; f :: Int ; f = 1", "1:38", "'Int' is ambiguous: write 'M.Int' or 'Prelude.Int', or add 'import Prelude hiding (Int)' [ambiguous]"),
    # an import names Prelude, so another one wouldn't hide a name of it
    ("import Prelude ; filter = 1 ; f = filter", "1:52", "'filter' is ambiguous: write 'M.filter' or 'Prelude.filter' (imported in line 1) [ambiguous]"),
    # the names that a list binds, less those with a signature; a near name of another list isn't meant
    # a variable of a pattern
    ("(p, q) = (1, 2) ; p :: Int", "1:36", "the signature of 'p' has no clauses: a pattern binds it [no-binding]"),
    ("f = q where { q :: Int ; Just (_, q) = Nothing }", "1:32", "the signature of 'q' has no clauses: a pattern binds it [no-binding]"),
    ("fooBar :: Int -> Int ; foobar x = x", "1:18", "the signature of 'fooBar' has no clauses (did you mean 'foobar'?) [no-binding]"),
    ("foo1 :: Int ; foo2 :: Int ; foo2 = 2 ; foo3 = 3", "1:18", "the signature of 'foo1' has no clauses (did you mean 'foo3'?) [no-binding]"),
    ("foo1 :: Int ; foo2 :: Int ; foo2 = 2", "1:18", "the signature of 'foo1' has no clauses [no-binding]"),
    ("f = 1 where { foo1 :: Int } ; foo2 = 2", "1:32", "the signature of 'foo1' has no clauses [no-binding]"),
    ("f = g where { foo1 :: Int ; (foo2, g) = (1, 2) }", "1:32", "the signature of 'foo1' has no clauses (did you mean 'foo2'?) [no-binding]"),
]

# what has no lexemes, with the place and the first line of its message, less its word
LEXEMES = [
    ("\ufeffmodule M where { }", "1:1", "the file begins with a byte order mark"),
    ("module M where { x = f `g` y }", "1:24", "a function between backquotes isn't supported"),
    ('module M where { s = "ab ;\n}', "1:22", "this string isn't closed on its line"),
    ('module M where { s = "a\\q" }', "1:22", "this string has an escape or a character that isn't supported"),
    ("module M where { c = 'ab' }", "1:22", "this isn't a character that can be read"),
    ("module M where { c = '\\NUL' }", "1:22", "this isn't a character that can be read"),
    # a quote within an escape doesn't close a string, and a line may end within a gap; the string is longer than what is shown of its line
    ('module M where { s = "a\\" }', "1:22", "this string isn't closed on its line"),
    ('module M where { s = "abc\\\n  \\de\\q" }', "1:22", "this string has an escape or a character that isn't supported"),
    (
        'module M where { s = "the quick brown fox jumps over the lazy dog and runs away from it; 95% of dogs \\^A sleep" }',
        "1:22",
        "this string has an escape or a character that isn't supported",
    ),
    ("module M where { s = \ufeff1 }", "1:22", "a character that isn't ASCII isn't allowed here"),
    ("module M where { x = 3.14 }", "1:22", "numbers with a fraction or an exponent aren't supported"),
    ("module M where { x = M.where }", "1:22", "a qualified name can't end in a reserved word"),
    ("module M where { x = 1 } --| y", "1:26", "'--|' is an operator, and begins no comment"),
    ("module M where { x = 1 + 2 }", "1:24", "the operator '+' isn't supported: the only one is ':'"),
    ("module M where { x = xs ++ ys }", "1:25", "the operator '++' isn't supported: the only one is ':'"),
    ("module M where { na\u00efve = 1 }", "1:20", "a character that isn't ASCII isn't allowed here"),
    ("module M where { \0 }", "1:18", "this byte isn't allowed here"),
    ("module M where { s = \u201chi\u201d }", "1:22", "this curly quote isn't a quote of Haskell"),
]

# what is read in no module, with the place and the first line of its message, less its word
HINTS = [
    ("x = 1", "1:1", "a file begins with 'module NAME where {'"),
    ("module m where { }", "1:8", "'m' must begin with a capital letter here"),
    ("module M wehre { }", "1:10", "expected 'where', found 'wehre'"),
    ("module M where x = 1", "1:16", "expected '{' before 'x': layout isn't supported"),
    ("module M where { x = 1 } }", "1:26", "the module ends at the '}' before this, and only another 'module' may follow"),
    ("module M where { x = 1", "1:23", "expected '}' before the end of the source"),
    ("module M where { class C a where { } }", "1:18", "classes aren't supported"),
    ("module M where { instance C Int where { } }", "1:18", "instances aren't supported, because there are no classes"),
    ("module M where { data T = A deriving Eq }", "1:29", "'deriving' isn't supported, because there are no classes"),
    ("module M where { default (Int) }", "1:18", "'default' is a reserved word, and isn't supported"),
    ("module M where { infixl 5 x }", "1:18", "operators can't be defined"),
    ("module M where { f :: C a => a ; f = f }", "1:27", "a type can't have a context, because there are no classes"),
    ("module M where { x = do { } }", "1:22", "'do' isn't supported, because there is no IO and no monad"),
    ("module M where { f x | True <- x = 1 }", "1:29", "'<-' isn't supported: a guard is an expression of type Bool"),
    ("module M where { x = [y | y] }", "1:25", "list comprehensions aren't supported"),
    ("module M where { x = [1 .. 2] }", "1:25", "'[a .. b]' isn't supported"),
    ("module M where { data colour = Red }", "1:23", "'colour' must begin with a capital letter here"),
    ("module M where { data P = P { x :: Int } }", "1:29", "fields with names aren't supported"),
    ("module M where { f x = x { a = 1 } }", "1:26", "record update isn't supported: is 'where' missing before '{'?"),
    ("module M where { f x = (g x) { a = 1, b = x } }", "1:30", "record update isn't supported: is 'where' missing before '{'?"),
    ("module M where { f x = case x { y -> y } }", "1:31", "expected 'of' before '{'"),
    ("module M where { x = case 1 of { } }", "1:34", "a 'case' needs at least one alternative"),
    ("module M where { f x = if x then 1 }", "1:36", "an 'if' before '}' has no 'else'"),
    ("module M where { g x = (h x where { h y = y }) }", "1:29", "'where' can't be within parentheses or square brackets"),
    ("module M where { data T f = C (f (T f)) }", "1:34", "a type variable takes no arguments: is '->' or ',' missing before '('?"),
    ("module M where { data T = A | b }", "1:31", "'b' must begin with a capital letter here"),
    ("module M where { f x = case x of { 1 -> 2 ; g y = f y ; k = let { a = 1 in a }", "1:47", "unexpected 'y' in a pattern of a 'case'"),
    ("module M where { x = (1 ; y = 2 }", "1:25", "expected ')' before ';'"),
    ("module M where { x = [1 ; y = 2 }", "1:25", "expected ']' before ';'"),
    ("module M where { x = 1) }", "1:23", "unexpected ')'"),
    ("module M where { x = 1\ny = 2 }", "2:3", "expected ';' before 'y' at 2:1"),
    ("module M where { x = \\y 1 }", "1:27", "expected '->' before '1' at 1:25"),
    ("module M where { x = \\y = 1 }", "1:25", "expected '->', found '='"),
    ("module M where { x = if True then 1 2 }", "1:39", "expected 'else' before '2' at 1:37"),
    ("module M where { x = case 1 { y -> y } }", "1:29", "expected 'of' before '{'"),
    ("module M where { x = let { y = 1 } y }", "1:36", "expected 'in' before 'y'"),
    ("module M where { data S = S Int ; area (square s) = s }", "1:48", "a variable takes no arguments in a pattern: is ',' missing before 's'?"),
    ("module M where { f = foldr (\\(just x) y -> y) 0 }", "1:36", "a variable takes no arguments in a pattern: is ',' missing before 'x'?"),
    ("module M where { f [g 1] = 1 }", "1:23", "a variable takes no arguments in a pattern: is ',' missing before '1'?"),
    ("module M where { import A (f g) }", "1:30", "expected ',' before 'g'"),
    ("module M where { f :: a -> a\nf x = x }", "2:1", "expected ';' before 'f'"),
    ("module M where { newtype P a P (a -> a) }", "1:30", "expected '=' before 'P'"),
    ("module M where { newtype P = P Int Int }", "1:36", "a 'newtype' has one constructor with one argument"),
    ("module M where { newtype P = P Int | Q Int }", "1:36", "a 'newtype' has one constructor with one argument"),
    ("module M where { data C = Red, Green }", "1:30", "unexpected ',' between constructors"),
    ("module M where { x = 1,000 }", "1:23", "unexpected ',' after a number"),
    ("module M where { f x = y ; where { y = x } }", "1:28", "unexpected ';' before 'where'"),
    ("module M where { import A qualified ; x = 1 }", "1:27", "'qualified' comes before the name of the module"),
    ("module M where { import qualified qualified A }", "1:35", "unexpected 'qualified'"),
    ("module M where { x = 1 ; import A }", "1:26", "an import can't follow a declaration"),
    ("module M where { import A ; data T = T ; import B ; }", "1:42", "an import can't follow a declaration"),
    ("module M where { f x ; | x = 1 }", "1:22", "unexpected ';'"),
    ("module M where { f x | x = 1 ; | True = 2 }", "1:32", "unexpected ';' before '|'"),
    ("module M where { f x = case x of { y | y -> 1 ; | True -> 2 } }", "1:49", "unexpected ';' before '|'"),
    ("module M where { f :: Bool -> Bool ; f x = not _ }", "1:48", "'_' can only be in a pattern"),
    ("module M where { f = 1\n f _ = 2 }", "2:4", "expected ';' before 'f' at 2:2"),
    ("module M where { f x = if x = 1 then 2 else 3 }", "1:29", "unexpected '=' in the condition of an 'if'"),
    ("module M where { f x = if x = 1 else 3 }", "1:29", "expected 'then', found '='"),
    ("module M where { f x | x = 1 | else = 2 }", "1:32", "a guard can't be 'else'"),
    ("module M where { f = let { x = 1 } ; g = 2 }", "1:36", "a 'let' before ';' has no 'in'"),
    ("module M where { f = let { x = 1 } (x, x) }", "1:36", "expected 'in' before '('"),
    ("module M where { f = x where { x = 1 } where { y = 2 } }", "1:40", "a second 'where' right after the first one"),
    ("module M where { f x = case x of { y -> z where { z = y } where { w = y } } }", "1:59", "a second 'where' right after the first one"),
    ("module M where { f x = { x } }", "1:24", "an expression can't begin with '{'"),
    ("module M where { f x = if x then { 1 } else { 2 } }", "1:34", "an expression can't begin with '{'"),
    ("module M where { data T = { x :: Int } }", "1:27", "unexpected '{'"),
    ("module M where { f x = case x of { y | y = 1 ; | True -> 2 } }", "1:42", "expected '->' after the guard, found '='"),
    ("module M where { f x = case x of { y | if y = 1 -> 2 } }", "1:45", "unexpected '=' in the condition of an 'if'"),
    ("module M where { f x | if x -> 1 ; z = 2 }", "1:29", "unexpected '->'"),
    ("module M where { x = [1, 2, ] }", "1:29", "unexpected ',' before ']'"),
    ("module M where { x = (1, 2,) }", "1:28", "unexpected ',' before ')'"),
    ("module M where { data T a Int = C }", "1:27", "unexpected 'Int'"),
    ("module M where { newtype T a Int = C a }", "1:30", "unexpected 'Int'"),
    ("module M where { type S = | A }", "1:27", "unexpected '|'"),
    ("module M where { f x = case x of { y | if y then True -> 1 ; z -> 2 } }", "1:55", "unexpected '->'"),
    ("module M where { f x = x @ (y : ys) }", "1:26", "'@' can only follow a variable in a pattern"),
    ("module M where { f x = | x = 1 }", "1:24", "a guard can't follow '='"),
    ("module M where { f x | x -> 1 | True -> 2 }", "1:26", "expected '=' after the guard, found '->'"),
    ("module M where { f (x :: Int) = x }", "1:23", "'::' can't follow a pattern"),
    ("module M where { f x = case x of { True = 1 } }", "1:41", "expected '->', found '='"),
    ("module M where { f x : xs }", "1:22", "expected '=', found ':'"),
    ("module M where { f x : xs = x }", "1:22", "unexpected ':' after a pattern"),
    ("module M where { f x = if x { 1 } else { 2 } }", "1:29", "an 'if' before '{' has no 'then'"),
    ("module M where { f : Int -> Int }", "1:26", "expected '::', found ':' at 1:20"),
    ("module M where { f = map (x -> x) [1] }", "1:29", "expected '\\' before 'x' at 1:27"),
    ("module M where { f = map (\\x => x) [1] }", "1:30", "expected '->', found '=>'"),
    ("module M where { import prelude ; }", "1:25", "'prelude' must begin with a capital letter here"),
    ("module M where { f x = case x of { square n -> n ; _ -> 0 } }", "1:43", "unexpected 'n' in a pattern of a 'case'"),
    ("module M where { f x = case x of { True = 1 ; False = 0 } }", "1:41", "unexpected '=' in a pattern of a 'case'"),
    ("module M where { f x = case x of { 0 -> 1 ; default -> 2 } }", "1:45", "'default' is a reserved word, and isn't supported"),
]
