"""Sources of files 0.hs, 1.hs .., with parts of the objects that `--report-format json` prints of their modules.

A part is a path into the object and its value there. The values are read off the sources by hand.
"""

ROWS = [
    (
        ["module A (T (..), S, f) where { data T b a = C a (T b a) | A b | B ; newtype N = N Int ; type S a b = (b, [a] -> (a -> b)) ;\n f, g :: T a a -> a ; f (C x y) = x ;\n f _ = undefined ; g = f ; (p, ~[q]) = (1, [B]) }"],
        0,
        {
            "A": {
                "file": "0.hs",
                "verdict": "good",
                "imports": [],
                "faults": [],
                "skippedBy": [],
                "defines.types.0.kind": "data",
                "defines.types.0.name": {"line": 1, "column": 38, "name": "T"},
                "defines.types.0.parameters": [{"line": 1, "column": 40, "name": "b"}, {"line": 1, "column": 42, "name": "a"}],
                "defines.types.0.constructors": [
                    {"arguments": 2, "name": {"line": 1, "column": 46, "name": "C"}},
                    {"arguments": 1, "name": {"line": 1, "column": 60, "name": "A"}},
                    {"arguments": 0, "name": {"line": 1, "column": 66, "name": "B"}},
                ],
                "defines.types.0.type": None,
                "defines.types.1.kind": "newtype",
                "defines.types.1.constructors": [{"arguments": 1, "name": {"line": 1, "column": 82, "name": "N"}}],
                "defines.types.2.kind": "synonym",
                "defines.types.2.constructors": [],
                "defines.types.2.type": "(b, [a] -> a -> b)",
                "defines.values": [
                    {"line": 2, "column": 23, "name": "f"},
                    {"line": 3, "column": 20, "name": "g"},
                    {"line": 3, "column": 29, "name": "p"},
                    {"line": 3, "column": 34, "name": "q"},
                ],
                "interface.types": [{"entity": {"module": "A", "name": "T"}, "name": "T", "parameters": 2}],
                "interface.synonyms": [{"entity": {"module": "A", "name": "S"}, "name": "S", "parameters": 2}],
                "interface.constructors.2": {
                    "arguments": 2,
                    "entity": {"module": "A", "name": "C"},
                    "name": "C",
                    "owner": {"module": "A", "name": "T"},
                    "type": "a -> A.T b a -> A.T b a",
                    "variables": 2,
                },
                "interface.values": [{"entity": {"module": "A", "name": "f"}, "name": "f", "type": "A.T a a -> a", "variables": 1}],
            },
            "": {"kind": "end", "modules": 1, "good": 1, "faulty": 0, "skipped": 0},
        },
    ),
    (
        # the order is that of the names, and each module has the file of its source
        ["module C where { import A ; import B ; import A }\nmodule D where { import qualified C as X }", "module B where { x = y ; y = x x ; z = y }\nmodule A where { f = g }"],
        1,
        {
            "A": {
                "file": "1.hs",
                "verdict": "faulty",
                "interface": None,
                "faults": [{"line": 2, "column": 22, "kind": "unbound", "name": "g"}],
                "defines.values": [{"line": 2, "column": 18, "name": "f"}],
            },
            "B": {"file": "1.hs", "verdict": "faulty", "faults": [{"line": 1, "column": 18, "kind": "type", "name": "x"}]},
            "C": {
                "file": "0.hs",
                "verdict": "skipped",
                "interface": None,
                "faults": [],
                "skippedBy": ["A", "B"],
                "imports": [{"line": 1, "column": 25, "name": "A"}, {"line": 1, "column": 36, "name": "B"}, {"line": 1, "column": 47, "name": "A"}],
            },
            "D": {"file": "0.hs", "skippedBy": ["C"], "imports": [{"line": 2, "column": 35, "name": "C"}]},
            "": {"kind": "end", "modules": 4, "good": 0, "faulty": 2, "skipped": 2},
        },
    ),
    (
        ["module A where { type F a = (Prelude.Maybe (Maybe a), Either [a] (a -> a), (), (a -> Int) -> Int) ; import' = 1 }"],
        0,
        {"A": {"defines.types.0.type": "(Prelude.Maybe (Maybe a), Either [a] (a -> a), (), (a -> Int) -> Int)"}},
    ),
    ([""], 0, {"": {"kind": "end", "modules": 0, "good": 0, "faulty": 0, "skipped": 0}}),
]

REFUSED = [
    (["module A where { }", "module B where { x = 1 + 2 }"], {"reason": "lexeme", "source": 2, "place": {"line": 1, "column": 24}, "module": None, "import": None}),
    (["module A where {\n {- }"], {"reason": "open-comment", "source": 1, "place": {"line": 2, "column": 2}, "module": None, "import": None}),
    (["(" * 201], {"reason": "too-deep", "source": 1, "place": {"line": 1, "column": 201}, "module": None, "import": None}),
    (["module A"], {"reason": "syntax", "source": 1, "place": {"line": 1, "column": 9}, "module": None, "import": None}),
    ([" " * 1_048_577], {"reason": "too-long", "source": 1, "place": None, "module": None, "import": None}),
    (["module A where { }", "module A where { }"], {"reason": "twice", "source": None, "place": None, "module": "A", "import": None}),
    (["module A where { import B }"], {"reason": "missing", "source": None, "place": None, "module": "A", "import": "B"}),
    (["module A where { import A }"], {"reason": "cycle", "source": None, "place": None, "module": "A", "import": None}),
    (["".join(f"module M{number} where {{ }}\n" for number in range(4097))], {"reason": "too-many-modules", "source": None, "place": None, "module": None, "import": None}),
]
