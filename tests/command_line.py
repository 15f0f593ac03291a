#!/usr/bin/env python3
"""Runs the program with the words of each row, and compares its status and both outputs with docs/LANGUAGE.md.

`command_line.py [PROGRAM]`: without a word, the script `hmc` beside this folder is run. Ends with 1 where a row differs.
"""
# Why: docs/DECISIONS.md, "Types that are too large", "Version".
import contextlib
import os
import pty
import re
import resource
import subprocess
import sys
import tempfile
import time

TOP = os.path.dirname(os.path.dirname(os.path.abspath(__file__)))
PROGRAM = os.path.abspath(sys.argv[1]) if len(sys.argv) > 1 else os.path.join(TOP, "hmc")
# The program of the gate is proved, and any other isn't. README has the kit's line.
IS_PROVED = os.path.realpath(PROGRAM) == os.path.join(TOP, "crates", "hmc", "out", "hmc")
LOGIC = re.search(r"logic ([0-9a-f]{16})", open(os.path.join(TOP, "README.md"), encoding="utf-8").read())[1]
VERSION = f"hmc 0.1 (proved, logic {LOGIC})\n" if IS_PROVED else "hmc 0.1 (NOT PROVED; ./prove proves hmc)\n"
SMALL = 2_000_000 << 10
LITTLE = 200_000_000
TINY = 30_000 << 10

A = "module A where { import B ; x = y }"
B = "module B where { y = 1 }"
PLAN = "module A\n  import B\nmodule B\n2 modules\n"
REPORT = "module A\n  val x = A.x :: Int\nmodule B\n  val y = B.y :: Int\n2 modules: 2 good, 0 faulty, 0 skipped\n"

# a module behind the one that it imports, and what one worker does
BEHIND = "module A where { import B ; x = y }\nmodule B where { y = 'c' }"
JOURNAL = "module A\n  val x = A.x :: Char\nmodule B\n  val y = B.y :: Char\n2 modules: 2 good, 0 faulty, 0 skipped\nclaim 0 B\npublish 0 B 0\nclaim 0 A\npublish 0 A 1\n"

# what the help shows
PAIR = "module A where { pair x = (x, x) }"
TWICE = "module B where { twice f = f f }"
USER = "module C where { import B ; y = twice }"
EXAMPLE = """module A
  val pair = A.pair :: a -> (a, a)
faulty B
  1:18 type twice
skipped C
  by B
3 modules: 1 good, 1 faulty, 1 skipped
"""


def untyped(file):
    """Its message in the source that has this name."""
    return f"""{file}:1:18: error: type error in 'twice' [type]
No types fit this definition and those that refer back to it. All others that it refers to have types or signatures.
module B where {{ twice f = f f }}
                 ^^^^^
{file}:1:30: note: this has type 'a -> b', but 'a' is expected (up to 1:30)
No type is both: it would contain itself, and so be infinite.
module B where {{ twice f = f f }}
                             ^
"""


def coloured(messages):
    return messages.replace(" error: ", " \x1b[1;31merror\x1b[0m: ").replace(" note: ", " \x1b[1;36mnote\x1b[0m: ")


DEEPER = """wrong/a/z.hs:1:18: error: expected ';', found '=' [syntax]
With it this can be read.
module C where { = }
                 ^
wrong/b.hs:1:18: error: expected ';', found '=' [syntax]
With it this can be read.
module C where { = }
                 ^
errors: 2, skipped modules: 0
"""
BLAMED = """user.hs:1:25: note: skipped, since 'B' has errors
module C where { import B ; y = twice }
                        ^
"""
TOO_LONG = """<stdin>:1:1: error: the source is too long [too-long]
A source has at most 1,048,576 bytes.
""" + "x" * 80 + "...\n" + "^" * 80 + """
errors: 1, skipped modules: 0
"""
TOO_MANY = """<stdin>:4097:8: error: too many modules [too-many-modules]
A set has at most 4,096 modules.
module M4096 where { }
       ^^^^^
errors: 1, skipped modules: 0
"""
TWO_FAULTS = """bad.hs:1:18: error: expected ';', found '=' [syntax]
With it this can be read.
module C where { = }
                 ^
<stdin>:1:22: error: the operator '#' isn't supported: the only one is ':' [lexeme]
A comment begins with `--`.
module D where { z = # ! }
                     ^
<stdin>:1:24: error: the operator '!' isn't supported: the only one is ':' [lexeme]
Write `not x` for `!x`. Leave it out before an argument of a constructor: no argument is strict.
module D where { z = # ! }
                       ^
errors: 3, skipped modules: 0
"""
LATER_FAULTS = """<stdin>:1:22: error: the operator '#' isn't supported: the only one is ':' [lexeme]
A comment begins with `--`.
module D where { z = # ! }
                     ^
<stdin>:1:24: error: the operator '!' isn't supported: the only one is ':' [lexeme]
Write `not x` for `!x`. Leave it out before an argument of a constructor: no argument is strict.
module D where { z = # ! }
                       ^
bad.hs:1:18: error: expected ';', found '=' [syntax]
With it this can be read.
module C where { = }
                 ^
errors: 3, skipped modules: 0
"""
MISSING = """a.hs:1:25: error: no module 'B' is given [missing]
An import names a module of the set or `Prelude`; there is no other library.
module A where { import B ; x = y }
                        ^
"""

# the same as objects
OBJECTS = """{"edits":[],"end":{"byte":23,"character":23,"line":1,"utf16":23},"expected":null,"file":"twice.hs","hint":"No types fit this definition and those that refer back to it. All others that it refers to have types or signatures.","kind":"type","level":"error","module":"B","name":"twice","other":null,"part":null,"second":null,"start":{"byte":18,"character":18,"line":1,"utf16":18},"text":"type error in 'twice'","type":null}
{"edits":[],"end":{"byte":31,"character":31,"line":1,"utf16":31},"expected":"a","file":"twice.hs","hint":"No type is both: it would contain itself, and so be infinite.","kind":"mistyped","level":"note","module":"B","name":"twice","other":null,"part":{"end":{"byte":31,"character":31,"line":1,"utf16":31},"start":{"byte":30,"character":30,"line":1,"utf16":30}},"second":null,"start":{"byte":30,"character":30,"line":1,"utf16":30},"text":"this has type 'a -> b', but 'a' is expected (up to 1:30)","type":"a -> b"}
{"edits":[],"end":{"byte":26,"character":26,"line":1,"utf16":26},"expected":null,"file":"user.hs","hint":null,"kind":"skipped","level":"note","module":"C","name":"B","other":null,"part":null,"second":null,"start":{"byte":25,"character":25,"line":1,"utf16":25},"text":"skipped, since 'B' has errors","type":null}
{"errors":1,"format":1,"level":"end","skipped":1}
"""

# names after `data`, in a message for a reader and in one for a program
def small_name(told):
    return f"""<stdin>:1:23: error: {told} [syntax]
The names of modules, types and constructors begin with a capital letter, and no others do.
module A where {{ data {"b" * 80}...
{" " * 22}{"^" * 80}
errors: 1, skipped modules: 0
"""


LONG_NAME = small_name("'" + "b" * 499 + "..." + "b" * 461 + "' must begin with a capital letter here")
WHOLE_NAME = small_name("'" + "b" * 960 + "' must begin with a capital letter here")
LONG_OBJECT = (
    '{"edits":[],"end":{"byte":2023,"character":2023,"line":1,"utf16":2023},"expected":null,"file":"<stdin>","hint":"The names of modules, types and constructors'
    ' begin with a capital letter, and no others do.","kind":"syntax","level":"error","module":null,"name":null,"other":null,"part":null,"second":null,"start":{"byte":23,"character":23,"line":1,"utf16":23},"text":"\''
    + "b" * 2000
    + '\' must begin with a capital letter here","type":null}\n{"errors":1,"format":1,"level":"end","skipped":0}\n'
)


def cannot_open(name, why="no such file"):
    return f"hmc: cannot open {name}\nhmc: {name}: {why}\n"


FOLDER = cannot_open("folder", "no file *.hs in this folder")
DEEP = "folders more than 16 deep, or more than 65,536"
NO_LIST = "a list of sources is text of at most 16 MiB"


# name: words, standard input, status, standard output, standard error
ROWS = {
    "a plan of standard input": (["--plan"], A + B, 0, PLAN, ""),
    "a plan of files": (["--plan", "a.hs", "b.hs"], "", 0, PLAN, ""),
    "files before the word": (["b.hs", "--plan", "a.hs"], "", 0, PLAN, ""),
    "a file alone": (["--plan", "a.hs"], B, 2, "refused: module A imports missing B\n", ""),
    "nothing to read": (["--plan"], "", 0, "0 modules\n", ""),
    "a fault in the second file": (["--plan", "a.hs", "bad.hs"], "", 2, "refused: source 2 at 1:18: syntax\n", ""),
    "a check of standard input": ([], A + B, 0, REPORT, ""),
    "a check of files": (["a.hs", "b.hs"], "", 0, REPORT, ""),
    "a check of a file alone": (["a.hs"], B, 2, "refused: module A imports missing B\n", ""),
    "a check with a fault in the second file": (["a.hs", "bad.hs"], "", 2, "refused: source 2 at 1:18: syntax\n", ""),
    "a check of no such file": (["none.hs"], "", 4, "", cannot_open("none.hs")),
    "a check of a folder": (["folder"], "", 4, "", FOLDER),
    "the example of the help": (["pair.hs", "twice.hs", "user.hs"], "", 1, EXAMPLE, ""),
    "messages of a faulty set": (
        ["--explain", "pair.hs", "twice.hs", "user.hs"],
        "",
        1,
        EXAMPLE,
        untyped("twice.hs") + BLAMED + "errors: 1, skipped modules: 1\n",
    ),
    "messages of standard input": (
        ["--explain"],
        TWICE,
        1,
        "faulty B\n  1:18 type twice\n1 modules: 0 good, 1 faulty, 0 skipped\n",
        untyped("<stdin>") + "errors: 1, skipped modules: 0\n",
    ),
    "messages of a refused set": (
        ["--explain", "a.hs"],
        "",
        2,
        "refused: module A imports missing B\n",
        MISSING + "errors: 1, skipped modules: 0\n",
    ),
    "messages of two faulty sources": (["--explain", "bad.hs", "b.hs", "-"], "module D where { z = # ! }", 2, "refused: source 1 at 1:18: syntax\n", TWO_FAULTS),
    "a long name in a message": (["--explain"], f"module A where {{ data {'b' * 2000} }}", 2, "refused: source 1 at 1:23: syntax\n", LONG_NAME),
    "a name in a text of 1,000 bytes": (["--explain"], f"module A where {{ data {'b' * 960} }}", 2, "refused: source 1 at 1:23: syntax\n", WHOLE_NAME),
    "a long name in an object": (["--message-format", "json"], f"module A where {{ data {'b' * 2000} }}", 2, "refused: source 1 at 1:23: syntax\n", LONG_OBJECT),
    "messages of a source that is too long": (["--explain"], "x" * 1_048_577, 2, "refused: source 1 too long\n", TOO_LONG),
    "messages of too many modules": (
        ["--explain"],
        "".join(f"module M{n} where {{ }}\n" for n in range(4097)),
        2,
        "refused: too many modules\n",
        TOO_MANY,
    ),
    "messages of a good set": (["a.hs", "--explain", "b.hs"], "", 0, REPORT, ""),
    "messages and a journal": (
        ["--jobs", "1", "--journal", "--explain"],
        BEHIND,
        0,
        JOURNAL,
        "",
    ),
    "messages of a plan": (["--plan", "--explain"], A + B, 0, PLAN, ""),
    "messages of a refused plan": (["--plan", "-e", "a.hs"], "", 2, "refused: module A imports missing B\n", MISSING + "errors: 1, skipped modules: 0\n"),
    "messages of further faults, the refused source first": (["--explain", "-", "b.hs", "bad.hs"], "module D where { z = # ! }", 2, "refused: source 1 at 1:22: lexeme\n", LATER_FAULTS),
    "messages of a plan of two faulty sources": (["--plan", "-e", "bad.hs", "b.hs", "-"], "module D where { z = # ! }", 2, "refused: source 1 at 1:18: syntax\n", TWO_FAULTS),
    "messages of a plan, quiet": (["--plan", "-eq", "a.hs"], "", 2, "", MISSING + "errors: 1, skipped modules: 0\n"),
    "objects of a plan": (["--plan", "--message-format", "json", "a.hs", "b.hs"], "", 0, PLAN, '{"errors":0,"format":1,"level":"end","skipped":0}\n'),
    "messages of a plan of no such file": (["--plan", "-e", "none.hs"], "", 4, "", cannot_open("none.hs")),
    "messages of no such file": (["--explain", "none.hs"], "", 4, "", cannot_open("none.hs")),
    "a name for standard input": (
        ["--explain", "--stdin-name", "B.hs"],
        TWICE,
        1,
        "faulty B\n  1:18 type twice\n1 modules: 0 good, 1 faulty, 0 skipped\n",
        untyped("B.hs") + "errors: 1, skipped modules: 0\n",
    ),
    "standard input among files": (["--explain", "pair.hs", "-", "--stdin-name", "twice.hs", "user.hs"], TWICE, 1, EXAMPLE, untyped("twice.hs") + BLAMED + "errors: 1, skipped modules: 1\n"),
    "standard input among files without a name": (["--explain", "pair.hs", "-", "user.hs"], TWICE, 1, EXAMPLE, untyped("<stdin>") + BLAMED + "errors: 1, skipped modules: 1\n"),
    "standard input twice": (["--plan", "-", "-"], B, 0, "module B\n1 modules\n", ""),
    "a name for standard input that isn't read": (["--explain", "a.hs", "b.hs", "--stdin-name", "C.hs"], "", 0, REPORT, ""),
    "standard input without a name behind the word": (["--stdin-name"], "", 2, "", None),
    "messages as objects": (["--message-format", "json", "pair.hs", "twice.hs", "user.hs"], "", 1, EXAMPLE, OBJECTS),
    "messages as objects, of a name with marks": (
        ["--message-format=json", "--stdin-name", 'a "b"\n\x1b.hs'],
        TWICE,
        1,
        "faulty B\n  1:18 type twice\n1 modules: 0 good, 1 faulty, 0 skipped\n",
        "".join(OBJECTS.splitlines(True)[:2]).replace("twice.hs", 'a \\"b\\"\\n\\u001b.hs') + '{"errors":1,"format":1,"level":"end","skipped":0}\n',
    ),
    "objects of a good set": (["--message-format", "json", "a.hs", "b.hs"], "", 0, REPORT, '{"errors":0,"format":1,"level":"end","skipped":0}\n'),
    "messages for readers": (["--message-format", "human", "--explain", "twice.hs", "user.hs", "pair.hs"], "", 1, EXAMPLE, untyped("twice.hs") + BLAMED + "errors: 1, skipped modules: 1\n"),
    "messages by a letter": (["-e", "-j2", "pair.hs", "twice.hs", "user.hs"], "", 1, EXAMPLE, untyped("twice.hs") + BLAMED + "errors: 1, skipped modules: 1\n"),
    "messages with colours": (["--color", "always", "-e", "twice.hs", "pair.hs", "user.hs"], "", 1, EXAMPLE, coloured(untyped("twice.hs") + BLAMED) + "errors: 1, skipped modules: 1\n"),
    "messages without colours": (["--color=never", "-e", "twice.hs", "pair.hs", "user.hs"], "", 1, EXAMPLE, untyped("twice.hs") + BLAMED + "errors: 1, skipped modules: 1\n"),
    "objects have no colours": (["--color=always", "--message-format", "json", "a.hs", "b.hs"], "", 0, REPORT, '{"errors":0,"format":1,"level":"end","skipped":0}\n'),
    "colours at no such time": (["--color", "often", "a.hs"], "", 2, "", None),
    "a quiet check": (["-q", "twice.hs"], "", 1, "", ""),
    "a quiet check with messages": (["--quiet", "-e", "twice.hs"], "", 1, "", untyped("twice.hs") + "errors: 1, skipped modules: 0\n"),
    "a quiet plan": (["-q", "--plan", "a.hs"], "", 2, "", ""),
    "a quiet version": (["-q", "--version"], "", 0, VERSION, ""),
    # folders and lists
    "the files of a folder": (["set"], "", 0, REPORT, ""),
    "the files of a folder with a slash": (["--plan", "set/"], "", 0, PLAN, ""),
    "the files of a folder in the order of their paths": (["-e", "wrong"], "", 2, "refused: source 1 at 1:18: syntax\n", DEEPER),
    "a folder and a file": (["--plan", "a.hs", "set/deep"], "", 0, PLAN, ""),
    "a folder twice": (["--plan", "set", "set"], "", 2, "refused: module A twice\n", ""),
    "a folder without sources": (["--plan", "b.hs", "empty"], "", 4, "", cannot_open("empty", "no file *.hs in this folder")),
    "a folder of folders that are 17 deep": (["--plan", "levels"], "", 4, "", cannot_open("levels", DEEP)),
    "a folder of folders that are 16 deep": (["--plan", "levels/0"], "", 0, "module B\n1 modules\n", ""),
    "a list of sources": (["--plan", "@list"], "", 0, PLAN, ""),
    "a list and a file": (["--plan", "a.hs", "@one"], "", 0, PLAN, ""),
    "a list of nothing": (["--plan", "@empty.hs"], B, 0, "0 modules\n", ""),
    "a list that isn't there": (["@none"], "", 4, "", cannot_open("none")),
    "a list that is a folder": (["@folder"], "", 4, "", cannot_open("folder", "is a directory")),
    "a list that isn't text": (["@bytes"], "", 4, "", cannot_open("bytes", NO_LIST)),
    "a list without an end": (["@/dev/zero"], "", 4, "", cannot_open("/dev/zero", NO_LIST)),
    "a list that names no such file": (["@listed"], "", 4, "", cannot_open("@nothing.hs")),
    "a file whose name begins with @": (["--plan", "./@at.hs"], "", 0, "module B\n1 modules\n", ""),
    "a report as objects of nothing": (["--report-format", "json"], "", 0, '{"faulty":0,"good":0,"kind":"end","modules":0,"skipped":0}\n', ""),
    "a report as text": (["--report-format=text", "--jobs", "1", "--journal"], BEHIND, 0, JOURNAL, ""),
    "a report as objects without its journal": (["--report-format", "json", "--journal"], "", 0, '{"faulty":0,"good":0,"kind":"end","modules":0,"skipped":0}\n', ""),
    "a report as objects of no such file": (["--report-format", "json", "none.hs"], "", 4, "", cannot_open("none.hs")),
    "a plan in place of objects": (["--report-format", "json", "--plan", "a.hs", "b.hs"], "", 0, PLAN, ""),
    "a report in no such format": (["--report-format", "xml", "a.hs"], "", 2, "", None),
    "a format alone": (["--message-format", "human", "pair.hs", "twice.hs", "user.hs"], "", 1, EXAMPLE, ""),
    "a format that isn't there": (["--message-format", "xml", "a.hs"], "", 2, "", None),
    "objects of a folder": (["--message-format", "json", "folder"], "", 4, "", FOLDER),
    "messages twice": (["--explain", "--explain"], "", 2, "", None),
    "no such file": (["--plan", "a.hs", "none.hs"], "", 4, "", cannot_open("none.hs")),
    "a folder": (["--plan", "folder"], "", 4, "", FOLDER),
    "one worker and its journal": (["--jobs", "1", "--journal"], BEHIND, 0, JOURNAL, ""),
    "a journal of nothing": (["--journal"], "", 0, "0 modules: 0 good, 0 faulty, 0 skipped\n", ""),
    "a refused set with a journal": (["--journal"], "module A where { import A }", 2, "refused: module A in a cycle\n", ""),
    "one worker": (["--jobs", "1", "a.hs", "b.hs"], "", 0, REPORT, ""),
    "sixteen workers": (["--jobs=16", "a.hs", "b.hs"], "", 0, REPORT, ""),
    "a plan by one worker": (["--plan", "--jobs", "1", "--journal"], A + B, 0, PLAN, ""),
    "no worker": (["--jobs", "0", "a.hs"], "", 2, "", None),
    "seventeen workers": (["--jobs", "17", "a.hs"], "", 2, "", None),
    "workers that are no number": (["--jobs", "many", "a.hs"], "", 2, "", None),
    "an unknown word": (["--plan", "--nothing"], "", 2, "", None),
    "help": (["--help"], "", 0, None, ""),
    "help by a letter": (["-h"], "", 0, None, ""),
    "help behind what is refused otherwise": (["--jobs", "2", "a.hs", "--help"], "", 0, None, ""),
    "the version": (["--version"], "", 0, VERSION, ""),
    "the version by a letter": (["-V"], "", 0, VERSION, ""),
    "the version before what is read": (["--version", "none.hs"], "", 0, VERSION, ""),
    # a place
    "the name at a place": (["--at", "a.hs:1:33", "a.hs", "b.hs"], "", 0, "variable y\n  bound at b.hs:1:18\n  type Int\n  here Int\n  in x :: Int\n", ""),
    "a declaration at a place": (["--at", "a.hs:1:29", "a.hs", "b.hs"], "", 0, "variable x\n  bound at a.hs:1:29\n  type Int\n", ""),
    "an import at a place": (["--at", "a.hs:1:25", "a.hs", "b.hs"], "", 0, "module B\n  bound at b.hs:1:8\n", ""),
    "a variable of Prelude at a place": (["--at=-:1:22"], "module A where { x = not True }", 0, "variable not\n  bound in Prelude\n  type Bool -> Bool\n  here Bool -> Bool\n  in x :: Bool\n", ""),
    "a constructor of Prelude at a place": (["--at", "<stdin>:1:29"], "module A where { x = not True }", 0, "constructor True\n  bound in Prelude\n  type Bool\n  here Bool\n  in x :: Bool\n", ""),
    "a type of Prelude at a place": (["--at", "A.hs:1:23", "--stdin-name", "A.hs"], "module A where { x :: Bool ; x = True }", 0, "type Bool\n  bound in Prelude\n", ""),
    "a type variable at a place": (["--at", "<stdin>:1:31"], "module A where { data T a = C a a }", 0, "type variable a\n  bound at <stdin>:1:25\n", ""),
    "a name after an accent": (["--at", "<stdin>:1:40"], "module A where { {- é -} x = 'é' ; y = x }", 0, "variable x\n  bound at <stdin>:1:26\n  type Char\n  here Char\n  in y :: Char\n", ""),
    "a use in a clause with a bracketed name": (["--at", "<stdin>:1:63"], "module M where { h :: a -> Bool -> a ; (h) = let { x = 1 } in h }", 0, "variable h\n  bound at <stdin>:1:41\n  type a -> Bool -> a\n  here a -> Bool -> a\n  in h :: a -> Bool -> a\n", ""),
    "a parameter in a clause with a bracketed name": (["--at", "<stdin>:1:45"], "module M where { h :: Int -> Int ; ((h)) = \\x -> x }", 0, "variable x\n  bound at <stdin>:1:45\n  type Int\n  in h :: Int -> Int\n", ""),
    "a parameter that another definition restricts": (["--at", "<stdin>:1:29"], "module M where { (p, q) = (\\y -> case f of { _ -> y }, 'c') ; f = p True }", 0, "variable y\n  bound at <stdin>:1:29\n  type Bool\n", ""),
    "a parameter that another local definition restricts": (["--at", "<stdin>:1:39"], "module M where { g = let { (p, q) = (\\y -> case f of { _ -> y }, 'c') ; f = p True } in q }", 0, "variable y\n  bound at <stdin>:1:39\n  type Bool\n  in g :: Char\n", ""),
    "a name of a qualifier": (["--at", "<stdin>:2:38"], "module A where { x = 1 }\nmodule B where { import A as Q ; y = Q.x }", 0, "variable Q.x\n  bound at <stdin>:1:18\n  type Int\n  here Int\n  in y :: Int\n", ""),
    "an alias at a place": (["--at", "<stdin>:2:30"], "module A where { x = 1 }\nmodule B where { import A as Q ; y = Q.x }", 0, "module Q\n  a prefix of qualified names\n", ""),
    "two names at a place": (["--at", "<stdin>:2:35"], "module A where { data T = C }\nmodule B where { import A hiding (C) }", 0, "type C\n  bound nowhere\nconstructor C\n  bound at <stdin>:1:27\n  type A.T\n", ""),
    "an unbound name at a place": (["--at", "<stdin>:1:22"], "module A where { x = y }", 0, "variable y\n  bound nowhere\n", ""),
    "an ambiguous name at a place": (["--at", "<stdin>:3:44"], "module A where { x = 1 }\nmodule B where { x = 1 }\nmodule C where { import A ; import B ; y = x }", 0, "variable x\n  ambiguous\n", ""),
    "a name of a faulty module": (["--at", "twice.hs:1:30", "twice.hs"], "", 0, "variable f\n  bound at twice.hs:1:24\n  no type is found\n", ""),
    "a name of a skipped module": (["--at", "user.hs:1:33", "twice.hs", "user.hs"], "", 0, "a name in module C, which is skipped\n", ""),
    "a variable that isn't exported": (["--at", "<stdin>:1:26"], "module A (x) where { x = y ; y = 1 }", 0, "variable y\n  bound at <stdin>:1:30\n  type Int\n  here Int\n  in x :: Int\n", ""),
    "a constructor that isn't exported": (["--at", "<stdin>:1:25"], "module A () where { x = C ; data T = C }", 0, "constructor C\n  bound at <stdin>:1:38\n  type A.T\n  here A.T\n  in x :: A.T\n", ""),
    "a variable of a faulty module": (["--at", "twice.hs:1:18", "twice.hs"], "", 0, "variable twice\n  bound at twice.hs:1:18\n  no type: module B isn't good\n", ""),
    "no name at a place": (["--at", "a.hs:1:31", "a.hs", "b.hs"], "", 1, "a.hs:1:31: no name is here\n", ""),
    "the byte after a name": (["--at", "a.hs:1:34", "a.hs", "b.hs"], "", 1, "a.hs:1:34: no name is here\n", ""),
    "a place after the end of its line": (["--at", "a.hs:1:99", "a.hs", "b.hs"], "", 1, "a.hs:1:99: no name is here\n", ""),
    "a place below the last line": (["--at", "a.hs:9:1", "a.hs", "b.hs"], "", 1, "a.hs:9:1: no name is here\n", ""),
    "a place of a refused set": (["--at", "a.hs:1:8", "a.hs"], "", 2, "refused: module A imports missing B\n", ""),
    "a quiet place": (["-q", "--at", "a.hs:1:33", "a.hs", "b.hs"], "", 0, "", ""),
    "a place with words for messages": (["-e", "--journal", "--at", "twice.hs:1:8", "twice.hs"], "", 0, "module B\n  bound at twice.hs:1:8\n", ""),
    "a place of another file": (["--at", "none.hs:1:1", "a.hs"], "", 2, "", "hmc: --at none.hs:1:1: this file isn't among the sources\n"),
    "a place without a column": (["--at", "a.hs:1", "a.hs"], "", 2, "", "hmc: --at a.hs:1: not FILE:LINE:COLUMN, with numbers from 1\n"),
    "a place in line 0": (["--at", "a.hs:0:1", "a.hs"], "", 2, "", "hmc: --at a.hs:0:1: not FILE:LINE:COLUMN, with numbers from 1\n"),
    "a column that is no number": (["--at", "a.hs:1:x", "a.hs"], "", 2, "", "hmc: --at a.hs:1:x: not FILE:LINE:COLUMN, with numbers from 1\n"),
    "a place of no such file": (["--at", "a.hs:1:1", "a.hs", "none.hs"], "", 4, "", cannot_open("none.hs")),
    # words that are refused
    "workers below zero": (["--jobs", "-1", "a.hs"], "", 2, "", None),
    "workers beyond any number": (["--jobs", "99999999999999999999999999", "a.hs"], "", 2, "", None),
    "workers that aren't given": (["a.hs", "--jobs"], "", 2, "", None),
    "workers of no text": (["--jobs=", "a.hs"], "", 2, "", None),
    "workers twice": (["--jobs", "1", "--jobs", "2", "a.hs"], "", 2, "", None),
    "a plan twice": (["--plan", "--plan"], "", 2, "", None),
    "a plan of some value": (["--plan=1"], "", 2, "", None),
    "an unknown letter": (["-x"], "", 2, "", None),
    "a word that is cut": (["--jo", "1"], "", 2, "", None),
    "an unknown word before no such file": (["--nothing", "none.hs"], "", 2, "", None),
    # files
    "a file of no name": ([""], "", 4, "", cannot_open("")),
    "a file behind the end of the words": (["--plan", "--", "--plan.hs"], "", 0, "module B\n1 modules\n", ""),
    "no such file behind the end of the words": (["--", "--plan"], "", 4, "", cannot_open("--plan")),
    "a file twice": (["--plan", "b.hs", "b.hs"], "", 2, "refused: module B twice\n", ""),
    "an empty file": (["--plan", "empty.hs", "b.hs"], "", 0, "module B\n1 modules\n", ""),
    "no such folder": (["none/a.hs"], "", 4, "", cannot_open("none/a.hs")),
    "a file as a folder": (["a.hs/b.hs"], "", 4, "", cannot_open("a.hs/b.hs", "not a directory")),
    "a link to nothing": (["nowhere.hs"], "", 4, "", cannot_open("nowhere.hs")),
    "a link to itself": (["round.hs"], "", 4, "", cannot_open("round.hs", "filesystem loop or indirection limit (e.g. symlink loop)")),
    "a link to a file": (["--plan", "link.hs"], "", 0, "module B\n1 modules\n", ""),
    "a name that is too long": (["a" * 5000], "", 4, "", cannot_open("a" * 5000, "invalid filename")),
    "a fault before what can't be opened": (["bad.hs", "none.hs"], "", 4, "", cannot_open("none.hs")),
    "a folder behind a fault": (["bad.hs", "folder"], "", 4, "", FOLDER),
    "a device of no bytes": (["--plan", "/dev/null"], "", 0, "0 modules\n", ""),
    "a device without an end": (["--plan", "/dev/zero"], "", 2, "refused: source 1 too long\n", ""),
    "a device without an end behind a file": (["a.hs", "/dev/zero"], "", 2, "refused: source 2 too long\n", ""),
    "memory of another process": (["/proc/1/mem"], "", 4, "", None),
}


def run(folder, words, given, stdout=subprocess.PIPE, before=None):
    return subprocess.run(
        [PROGRAM, *words],
        cwd=folder,
        input=given.encode(),
        stdout=stdout,
        stderr=subprocess.PIPE,
        preexec_fn=before,
    )


def run_of(folder, name):
    """A plan of a folder as standard input."""
    given = os.open(os.path.join(folder, name), os.O_RDONLY)
    try:
        return subprocess.run([PROGRAM, "--plan"], stdin=given, stdout=subprocess.PIPE, stderr=subprocess.PIPE)
    finally:
        os.close(given)


def doubling(folder):
    """Levels of types that double: the last report has this many brackets, or there is no memory."""
    for count, good in ((3, True), (15, True), (16, False), (19, False), (30, False)):
        more = range(1, count + 1)
        values = " ; ".join(["c f g = \\x -> f (g x) ; f0 x = [x]"] + [f"f{n} = c f{n - 1} f{n - 1}" for n in more])
        synonyms = " ; ".join(["type Nest0 a = [a]"] + [f"type Nest{n} a = Nest{n - 1} (Nest{n - 1} a)" for n in more] + [f"f :: Nest{count} a -> Int ; f x = 1"])
        for kind, text, brackets in (("values", values, 2 ** (count + 1) - 1), ("synonyms", synonyms, 2 ** (count + 1) - 1 + 2**count)):
            ran = run(folder, ["--jobs", "1"], "module A where { " + text + " }")
            ran.stdout = f"{ran.stdout.count(b'[')} brackets".encode()
            wanted = (0, f"{brackets} brackets", "") if good else (3, "0 brackets", "hmc: no memory\n")
            yield f"{kind} whose levels double {count} times", ran, wanted


def in_a_gigabyte():
    resource.setrlimit(resource.RLIMIT_AS, (1 << 30, 1 << 30))


def growing(folder):
    """Nodes of types that double: the last report has this many commas, or there is no memory. All in 1 GB of addresses."""
    for count, good in ((3, True), (16, True), (19, False), (30, False), (150, False)):
        nested = "D (" * count + "Int" + ")" * count
        synonyms = f"type D a = (a, a) ; x :: {nested} ; x = x"
        values = " ; ".join(["p x = (x, x) ; q f = 1 ; a0 = 1"] + [f"a{n} = p a{n - 1}" for n in range(1, count + 1)])
        commas = 2**count - 1
        for kind, text, wanted in (("synonyms", synonyms, 1 + commas), ("values", values, 1 + sum(2**n - 1 for n in range(1, count + 1)))):
            ran = run(folder, ["--jobs", "1"], "module A where { " + text + " }", before=in_a_gigabyte)
            ran.stdout = f"{ran.stdout.count(b', ') - 2 if ran.stdout else 0} commas".encode()
            yield f"{kind} whose size doubles {count} times", ran, (0, f"{wanted} commas", "") if good else (3, "0 commas", "hmc: no memory\n")
    # what isn't written out isn't printed, and takes part in no type
    squared = " ; ".join(["f0 x = (x, x)"] + [f"f{n} x = f{n - 1} (f{n - 1} x)" for n in range(1, 6)])
    unused = " ; ".join(["type S0 = Int"] + [f"type S{n} = (S{n - 1}, S{n - 1})" for n in range(1, 31)])
    many = "p x = (x, x) ; a0 = 1 ; " + " ; ".join(f"a{n} = p a{n - 1}" for n in range(1, 17))
    named = many + " ; " + "@".join(f"b{n}" for n in range(200)) + "@_ = a16"
    copied = many + " ; " + " ; ".join(f"b{n} = a16" for n in range(100))
    signed = "type D a = (a, a) ; " + ", ".join(f"a{n}" for n in range(100)) + " :: " + "D (" * 16 + "Int" + ")" * 16 + " ; " + " ; ".join(f"a{n} = a{n}" for n in range(100))
    long = "data " + "T" * 400 + " = C ; " + many.replace("a0 = 1", "a0 = C")
    for kind, text in (("squared values", squared), ("synonyms of no use", unused), ("names of one value", named), ("copies", copied), ("names of one signature", signed), ("types of a long name", long)):
        ran = run(folder, ["--jobs", "1"], "module A where { " + text + " }", before=in_a_gigabyte)
        yield kind + " that are too large", ran, (3, "", "hmc: no memory\n")
    # each module by itself is small enough
    shared = "module A where { " + " ; ".join(["a x = (x, x)"] + [f"{after} x = {before} ({before} x)" for before, after in ("ab", "bc", "cd", "de")]) + " }\n"
    ran = run(folder, ["--jobs", "1"], shared + "".join(f"module B{n} where {{ import A ; b = e }}\n" for n in range(26)), before=in_a_gigabyte)
    yield "a set whose types add up", ran, (3, "", "hmc: no memory\n")


def faulty_and_growing(folder):
    """A module whose synonyms stand for types that are too large is told of its faults, and so are the others."""
    nested = "D (" * 30 + "Int" + ")" * 30
    for kind, synonym, at, fault in (("an unbound name", "(a, a)", 156, "unbound y"), ("a recursive synonym", "(D a, a)", 23, "recursive D")):
        body = f"type D a = {synonym} ; x :: {nested} ; x = {'y' if 'unbound' in fault else 'x'}"
        text = f"module A where {{ {body} }}\nmodule B where {{ z = 1 }}\n"
        place = text.index("= y") + 3 if "unbound" in fault else at
        ran = run(folder, ["--jobs", "1"], text, before=in_a_gigabyte)
        wanted = f"faulty A\n  1:{place} {fault}\nmodule B\n  val z = B.z :: Int\n2 modules: 1 good, 1 faulty, 0 skipped\n"
        yield f"{kind} beside types that are too large", ran, (1, wanted, "")


NO_ROOM_FOR_C = """\
<stdin>:3:8: error: there is no memory to check module 'C' [no-memory]
Its types grow too large, its imports or exports repeat too much, or the machine has no more memory.
hmc: no memory
"""


def refused_check(folder):
    """Of four modules one needs a type of too many levels: its worker stops the build, and nothing is printed, whatever the others came to."""
    values = " ; ".join(["c f g = \\x -> f (g x) ; f0 x = [x]"] + [f"f{n} = c f{n - 1} f{n - 1}" for n in range(1, 17)])
    bodies = {"A": "x = 1", "B": "x = 1", "C": values, "D": "x = 1"}
    text = "".join(f"module {name} where {{ {body} }}\n" for name, body in bodies.items())
    for workers in ("1", "2", "4"):
        for words in ([], ["--journal"]):
            ran = run(folder, ["--jobs", workers, *words], text)
            yield f"a check without memory, {workers} workers {words}", ran, (3, "", "hmc: no memory\n")
        # the message names the module, in front of the line of the status
        ran = run(folder, ["--jobs", workers, "--explain"], text)
        told = ran.stderr.decode().split("\n")
        ran.stderr = "\n".join(told[:2] + told[-2:]).encode()
        yield f"the message of a check without memory, {workers} workers", ran, (3, "", NO_ROOM_FOR_C)


def many_messages(folder):
    """A message of four lines for each of 10,000 faults, and notes of the first of the modules that are skipped in a chain."""
    text = "module A where { " + " ; ".join(f"f{n} = y" for n in range(10_000)) + " }"
    text += "".join(f"\nmodule M{n} where {{ import {f'M{n - 1}' if n else 'A'} }}" for n in range(1000))
    ran = run(folder, ["--explain"], text)
    report, messages = ran.stdout.decode().splitlines(), ran.stderr.decode().splitlines()
    ran.stdout = f"{len(report)} lines, {report[-1]}".encode()
    errors, notes = (sum(word in line for line in messages) for word in (": error: 'y' isn't in scope [unbound]", ": note: skipped, since "))
    ran.stderr = f"{errors} errors and {notes} notes in {len(messages)} lines, {', '.join(messages[-2:])}".encode()
    wanted = "12002 lines, 1001 modules: 0 good, 1 faulty, 1000 skipped", "10000 errors and 8 notes in 40026 lines, note: further skipped modules: 992; they have no notes, errors: 10000, skipped modules: 1000"
    yield "ten thousand faults and a thousand skipped modules", ran, (1, *wanted)


def on_a_terminal(folder):
    """Where standard error is a terminal `error` and `note` have a colour, unless NO_COLOR is set and not empty."""
    plain = untyped("twice.hs") + BLAMED + "errors: 1, skipped modules: 1\n"
    for name, colour, wanted in (("without NO_COLOR", None, coloured(plain)), ("with an empty NO_COLOR", "", coloured(plain)), ("with NO_COLOR", "1", plain)):
        words = {word: value for word, value in os.environ.items() if word != "NO_COLOR"}
        if colour is not None:
            words["NO_COLOR"] = colour
        reading, terminal = pty.openpty()
        ran = subprocess.run([PROGRAM, "--explain", "pair.hs", "twice.hs", "user.hs"], cwd=folder, env=words, stdout=subprocess.PIPE, stderr=terminal)
        os.close(terminal)
        ran.stderr = os.read(reading, 1 << 16).replace(b"\r\n", b"\n")
        os.close(reading)
        yield f"messages on a terminal {name}", ran, (1, EXAMPLE, wanted)


def broken_pipe():
    """A pipe that nobody reads."""
    reading, writing = os.pipe()
    os.close(reading)
    return writing


def unreadable(folder):
    """A file that may not be read, by a user who isn't the root."""
    path = os.path.join(folder, "locked.hs")
    with open(path, "w", encoding="utf-8") as it:
        it.write(B)
    os.chmod(path, 0)
    if os.access(path, os.R_OK) and os.geteuid() == 0:
        os.chmod(folder, 0o755)
        yield "a file that may not be read", run(folder, ["locked.hs"], "", before=lambda: os.setuid(65534)), (4, "", cannot_open("locked.hs", "permission denied"))
    else:
        yield "a file that may not be read", run(folder, ["locked.hs"], ""), (4, "", cannot_open("locked.hs", "permission denied"))


def until_open(child, path):
    """Returns once the program has the file open, or has ended, or a minute is over."""
    descriptors, end = f"/proc/{child.pid}/fd", time.monotonic() + 60
    while child.poll() is None and time.monotonic() < end:
        with contextlib.suppress(OSError):
            if any(os.path.realpath(os.path.join(descriptors, name)) == os.path.realpath(path) for name in os.listdir(descriptors)):
                return
        time.sleep(0.001)


def vanishing(folder):
    """A named pipe that is gone, and has other bytes, as soon as it is open; its bytes come by and by."""
    path = os.path.join(folder, "pipe.hs")
    os.mkfifo(path)
    child = subprocess.Popen([PROGRAM, "--plan", "pipe.hs"], cwd=folder, stdout=subprocess.PIPE, stderr=subprocess.PIPE)
    with open(path, "wb", buffering=0) as it:
        os.remove(path)
        for byte in B.encode():
            it.write(bytes([byte]))
    out, err = child.communicate()
    yield "a pipe that is removed while it is read", subprocess.CompletedProcess([], child.returncode, out, err), (0, "module B\n1 modules\n", "")
    path = os.path.join(folder, "late.hs")
    os.mkfifo(os.path.join(folder, "wait.hs"))
    with open(path, "w", encoding="utf-8") as it:
        it.write(A)
    child = subprocess.Popen([PROGRAM, "--plan", "wait.hs", "late.hs"], cwd=folder, stdout=subprocess.PIPE, stderr=subprocess.PIPE)
    # (a program that ended before it was written to is told of by its row)
    with open(os.path.join(folder, "wait.hs"), "wb", buffering=0) as it, contextlib.suppress(BrokenPipeError):
        until_open(child, path)
        os.remove(path)
        it.write(B.encode())
    out, err = child.communicate()
    yield "a file that is removed once it is open", subprocess.CompletedProcess([], child.returncode, out, err), (0, PLAN, "")


def make_folders(folder):
    """Folders of sources, a set of them with links, and lists."""
    levels = "/".join(str(n) for n in range(17))
    for name in ("folder", "empty/none", "set/deep/.hidden", "wrong/a", f"levels/{levels}"):
        os.makedirs(os.path.join(folder, name))
    bad = "module C where { = }"
    files = {
        **{"set/deep/b.hs": B, "set/a.hs": A, "set/.c.hs": bad, "set/c.txt": bad, "set/deep/.hidden/d.hs": bad, "empty/a.txt": bad},
        **{"wrong/b.hs": bad, "wrong/a/z.hs": bad, f"levels/{levels}/b.hs": B, "@at.hs": B},
        **{"list": "a.hs\r\n\n./b.hs\n", "one": "b.hs", "listed": "@nothing.hs\n"},
    }
    for name, text in files.items():
        with open(os.path.join(folder, name), "w", encoding="utf-8", newline="") as it:
            it.write(text)
    with open(os.path.join(folder, "bytes"), "wb") as it:
        it.write(b"b.hs\n\xff\n")
    # A link to a folder isn't followed, so this one is no loop.
    os.symlink("..", os.path.join(folder, "set", "deep", "again"))


def many_files(folder):
    """More files than a process may have open."""
    os.mkdir(os.path.join(folder, "many"))
    for number in range(600):
        with open(os.path.join(folder, "many", f"M{number}.hs"), "w", encoding="utf-8") as it:
            it.write(f"module M{number} where {{ x = {number} }}")
    few = lambda: resource.setrlimit(resource.RLIMIT_NOFILE, (300, 300))
    ran = run(folder, ["many"], "", before=few)
    ran.stdout = ran.stdout.splitlines(True)[-1]
    yield "more files than a process may have open", ran, (0, "600 modules: 600 good, 0 faulty, 0 skipped\n", "")


def input_of_a_terminal(folder):
    """A terminal as standard input, at its end."""
    for name, words, wanted in (("is read", [], "hmc: reading standard input, to its end (Ctrl-D); hmc --help has the options\n"), ("isn't read", ["b.hs"], "")):
        writing, terminal = pty.openpty()
        os.write(writing, b"\x04")
        ran = subprocess.run([PROGRAM, "--plan", *words], cwd=folder, stdin=terminal, stdout=subprocess.PIPE, stderr=subprocess.PIPE)
        os.close(terminal)
        os.close(writing)
        yield f"a terminal that {name}", ran, (0, "module B\n1 modules\n" if words else "0 modules\n", wanted)


def told(output, wanted):
    """Whether this is the text, or, where none is wanted, help or a line of the parser of the words or of a file."""
    text = (output or b"").decode(errors="replace")
    return text == wanted if wanted is not None else "Usage" in text or text.startswith(("error: ", "hmc: cannot open ", "hmc: read fault"))


def main():
    failed = 0
    with tempfile.TemporaryDirectory() as folder:
        sources = {"a.hs": A, "b.hs": B, "bad.hs": "module C where { = }", "pair.hs": PAIR, "twice.hs": TWICE, "user.hs": USER, "empty.hs": "", "--plan.hs": B}
        for name, text in sources.items():
            with open(os.path.join(folder, name), "w", encoding="utf-8") as it:
                it.write(text)
        make_folders(folder)
        os.symlink("none.hs", os.path.join(folder, "nowhere.hs"))
        os.symlink("round.hs", os.path.join(folder, "round.hs"))
        os.symlink("b.hs", os.path.join(folder, "link.hs"))
        runs = [(name, run(folder, row[0], row[1]), row[2:]) for name, row in ROWS.items()]
        with open("/dev/full", "wb") as full:
            runs.append(("a full device", run(folder, ["--plan"], A + B, stdout=full), (4, "", "hmc: write fault\n")))
            runs.append(("a check on a full device", run(folder, [], "", stdout=full), (4, "", "hmc: write fault\n")))
            runs.append(("help on a full device", run(folder, ["--help"], "", stdout=full), (4, "", "hmc: write fault\n")))
            runs.append(("the version on a full device", run(folder, ["--version"], "", stdout=full), (4, "", "hmc: write fault\n")))
            runs.append(("a refusal on a full device", run(folder, ["bad.hs"], "", stdout=full), (4, "", "hmc: write fault\n")))
            runs.append(("a journal on a full device", run(folder, ["--journal", "a.hs", "b.hs"], "", stdout=full), (4, "", "hmc: write fault\n")))
            runs.append(("objects on a full device", run(folder, ["--report-format", "json", "a.hs", "b.hs"], "", stdout=full), (4, "", "hmc: write fault\n")))
            runs.append(("words that are refused, on a full device", run(folder, ["--nothing"], "", stdout=full), (2, "", None)))
        closed = lambda: os.close(1)
        for name, words in (("a plan", ["--plan"]), ("help", ["--help"]), ("a plan of a file", ["--plan", "b.hs"]), ("a check", ["--jobs", "2"]), ("objects", ["--report-format", "json"]), ("the version", ["--version"])):
            runs.append((name + " on a closed output", run(folder, words, B, before=closed), (4, "", "hmc: write fault\n")))
        errors_closed = lambda: os.close(2)
        runs.append(
            (
                "messages on a closed standard error",
                run(folder, ["--explain", "pair.hs", "twice.hs", "user.hs"], "", before=errors_closed),
                (1, EXAMPLE, ""),
            )
        )
        input_closed = lambda: os.close(0)
        runs.append(("a plan of a closed input", run(folder, ["--plan"], "", before=input_closed), (4, "", "hmc: read fault\nhmc: <stdin>: uncategorized error\n")))
        runs.append(("a plan of files on a closed input", run(folder, ["--plan", "b.hs"], "", before=input_closed), (0, "module B\n1 modules\n", "")))
        runs.append(("a folder as input", run_of(folder, "folder"), (4, "", "hmc: read fault\nhmc: <stdin>: is a directory\n")))
        runs.append(("a check whose reader is gone", run(folder, ["a.hs", "b.hs"], "", stdout=broken_pipe()), (4, "", "hmc: write fault\n")))
        runs.extend(unreadable(folder))
        runs.extend(vanishing(folder))
        runs.append(("a word that is no text", run(folder, [b"--plan", b"\xff"], ""), (2, "", "hmc: invalid data\n")))
        limit = lambda size: lambda: resource.setrlimit(resource.RLIMIT_AS, (size, size))
        runs.append(("a small set in little memory", run(folder, ["--plan"], A + B, before=limit(SMALL)), (0, PLAN, "")))
        runs.append(("a small check in little memory", run(folder, [], "", before=limit(SMALL)), (0, "0 modules: 0 good, 0 faulty, 0 skipped\n", "")))
        runs.append(("one worker in 200 MB", run(folder, ["--jobs", "1"], A + B, before=limit(LITTLE)), (0, REPORT, "")))
        runs.extend(doubling(folder))
        runs.extend(growing(folder))
        runs.extend(faulty_and_growing(folder))
        runs.extend(many_messages(folder))
        runs.extend(on_a_terminal(folder))
        runs.extend(input_of_a_terminal(folder))
        runs.extend(many_files(folder))
        runs.extend(refused_check(folder))
        runs.append(("no room for the stack", run(folder, ["--plan"], A + B, before=limit(TINY)), (3, "", "hmc: no memory\n")))
        runs.append(("no room for a worker", run(folder, [], A + B, before=limit(TINY)), (6, "", "hmc: no worker\n")))
        made = subprocess.run([sys.executable, os.path.join(TOP, "tools", "completions.py"), "--check", PROGRAM], stdout=subprocess.PIPE, stderr=subprocess.PIPE)
        runs.append(("the completions and the man page", made, (0, "", "")))
        for name, ran, (status, out, err) in runs:
            if ran.returncode == status and told(ran.stdout, out) and told(ran.stderr, err):
                print(f"{name}: as wanted")
            else:
                failed += 1
                print(f"{name}: status {ran.returncode}, {ran.stdout!r}, {ran.stderr!r}")
    sys.exit(1 if failed else 0)


if __name__ == "__main__":
    main()
