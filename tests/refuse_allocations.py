#!/usr/bin/env python3
"""Runs the program, the language server, and tests of single calls, with each of their allocations refused in turn.

`refuse_allocations.py [--program PROGRAM] [--server SERVER] [--tests TESTS..]`: without words, the proved program beside this folder. With SERVER, the
language server too. With TESTS, the tests of the crates `test_calls`, `test_builds` and `test_uses` too whose names are `refused::..`
(`crates/NAME/out/NAME_tests`, after `rt ci`).

A run of the program, with 1 and with 4 workers, must print the right text and end with the right status, or print nothing, say `hmc: no memory` and
end with 3, or, where a thread could not be started, say `hmc: no worker` and end with 6. With messages, for readers and for programs, it may also
leave out the note of a type fault, its types, or the note on the expected type of a name. Or it names the module whose check was refused before it
says `hmc: no memory`. Of a set whose types grow, the first, second, fourth, eighth .. allocation is refused, and of a run with messages and of a
session with the server one in some.

The server must send what it sends where nothing is refused. In place of a reply, or of diagnostics, it may say that there is no memory, and the note
on the expected type of a name may be left out. Or it sends the first messages of that, and ends with 3. A test must pass or end for want of memory,
and the call that it is about must have been refused by some of the refusals. Ends with 1 where anything else came of a refusal.
"""
# Why: docs/DECISIONS.md, "Refused allocations", "Results of refusals".
import argparse
import collections
import concurrent.futures
import itertools
import json
import os
import re
import subprocess
import sys
import tempfile

TOP = os.path.dirname(os.path.dirname(os.path.abspath(__file__)))
sys.path.insert(0, os.path.join(TOP, "tools"))
import lsp  # noqa: E402

SKIPPED = b"""module A where { x = y }
module B where { import A ; import C }
module C where { f x = x x }
module D where { import B }
"""
SKIPPED_REPORT = b"""faulty A
  1:22 unbound y
skipped B
  by A
  by C
faulty C
  3:18 type f
skipped D
  by B
4 modules: 0 good, 2 faulty, 2 skipped
"""
IMPORTED = b"module A where { import B ; x = y }\nmodule B where { y = 'c' }\n"
IMPORTED_REPORT = b"module A\n  val x = A.x :: Char\nmodule B\n  val y = B.y :: Char\n2 modules: 2 good, 0 faulty, 0 skipped\n"
IMPORTED_PLACE = b"variable y\n  bound at <stdin>:2:18\n  type Char\n  here Char\n  in x :: Char\n"
FAULTY = b"""module A where { twice f = f f }
module B where { n = lenght [] }
module C where { import A }
"""
FAULTY_REPORT = b"""faulty A
  1:18 type twice
faulty B
  2:22 unbound lenght
skipped C
  by A
3 modules: 0 good, 2 faulty, 1 skipped
"""
# How many seconds a run may take. A worker that waits for ever would hold up the gate.
LIMIT = 60
# How many runs with messages, and sessions of the server, have an allocation refused, at least.
EXPLAINED_RUNS = 1000
# What a test prints first that ends for want of memory: before the call that it is about, or at that call.
ERRORS = {
    'error: "no memory"': "no memory",
    "error: AllocError": "no memory",
    "error: AllocFailed { .. }": "no memory",
    "error: Memory": "no memory",
    "error: NoReader": "no memory",
    'error: "the call is refused"': "the call is refused",
    'error: "no reader"': "no reader",
}
# The tests that must be there.
TESTS = ["parse", "scope", "check_module", "new_store", "shared", "publish", "audit", "report", "journal_text", "declaration_uses", "candidates_of"]
DOUBLING = b"module A where { a x = (x, x) ; b x = a (a x) ; c x = b (b x) ; d x = c (c x) ; e x = d (d x) }"


def pairs(levels):
    return "a" if levels == 0 else "({0}, {0})".format(pairs(levels - 1))


def doubling_report():
    values = "".join(f"  val {name} = A.{name} :: a -> {pairs(2 ** place)}\n" for place, name in enumerate("abcde"))
    return f"module A\n{values}1 modules: 1 good, 0 faulty, 0 skipped\n".encode()


class Refusing:
    """Runs a command with one allocation refused."""

    def __init__(self, work):
        self.library, self.count = os.path.join(work, "refuse.so"), os.path.join(work, "count")
        source = os.path.join(TOP, "tests", "refuse_allocations.c")
        subprocess.run(["gcc", "-shared", "-fPIC", "-O1", "-o", self.library, source], check=True)

    def run(self, words, given, number):
        """How the command ends with this allocation refused, or with none for 0, which is counted."""
        environment = dict(os.environ, LD_PRELOAD=self.library, REFUSED_ALLOCATION=str(number))
        if not number:
            environment["ALLOCATION_COUNT"] = self.count
        try:
            return subprocess.run(words, input=given, capture_output=True, env=environment, timeout=LIMIT)
        except subprocess.TimeoutExpired:
            return subprocess.CompletedProcess(words, -9, b"", f"no end after {LIMIT} s".encode())

    def runs(self, words, given, numbers):
        """How the command ends with each of these allocations refused, as many side by side as there are processors."""
        with concurrent.futures.ThreadPoolExecutor(len(os.sched_getaffinity(0))) as pool:
            yield from zip(numbers, pool.map(lambda number: self.run(words, given, number), numbers))

    def total(self):
        with open(self.count) as told:
            return int(told.read())


def numbers(total, doubles):
    """The allocations to refuse: all, or the first, second, fourth and so on."""
    return [2**k for k in range(total.bit_length()) if 2**k <= total] if doubles else range(1, total + 1)


TYPES = b"this has type 'a -> b', but 'a' is expected"
INFINITE = b"No type is both: it would contain itself, and so be infinite."
ANOTHER = b"'twice' has a type with another expression here"
EXPECTED = b"'lenght' is expected to have type '[b] -> a'"


def without(messages, part, length):
    """The messages without those whose first line has this part: so many lines for readers, and one for programs."""
    lines = messages.splitlines(True)
    notes = [number for number, line in enumerate(lines) if part in line]
    lost = {number + more for number in notes for more in range(1 if lines[number].startswith(b"{") else length)}
    return b"".join(line for number, line in enumerate(lines) if number not in lost)


def without_notes(messages):
    """The messages without the note of a type fault."""
    return without(messages, TYPES, 4)


def without_expected_types(messages):
    """The messages without the note on the expected type of a name."""
    return without(messages, EXPECTED, 3)


def without_types(messages):
    """The messages with a note that doesn't have the two types."""
    lines = [line.replace(TYPES, ANOTHER) for line in messages.splitlines(True) if line.strip() != INFINITE]
    objects = [(b'"hint":"' + INFINITE + b'"', b'"hint":null'), (b'"expected":"a"', b'"expected":null'), (b'"type":"a -> b"', b'"type":null'), (b'"mistyped"', b'"replaceable"')]
    for old, new in objects:
        lines = [line.replace(old, new) if line.startswith(b"{") else line for line in lines]
    return b"".join(lines)


def ending_of_explained(ran, messages):
    """What came of a run with messages, which are these where nothing is refused; none where it may not end so."""
    if (ran.returncode, ran.stdout) == (1, FAULTY_REPORT):
        shorter = {without_types(messages): "no types", without_notes(messages): "no note", without_expected_types(messages): "no expected type"}
        return {messages: "right", **shorter}.get(ran.stderr)
    names_a_module = re.match(rb"(<stdin>:[12]:8: error: there is no memory to check module '[AB]' \[no-memory\]\n(.*\n){3}|\{.*\"no-memory\".*\}\n)hmc: no memory\n\Z", ran.stderr)
    if (ran.returncode, ran.stdout) == (3, b"") and names_a_module:
        return "no memory, with the module"
    return ending(ran, 1, None)


def ending(ran, status, report):
    """What came of a run of the program; none where it may not end so."""
    found = ran.returncode, ran.stdout, ran.stderr
    endings = {
        (status, report, b""): "right",
        (3, b"", b"hmc: no memory\n"): "no memory",
        (6, b"", b"hmc: no worker\n"): "no worker",
    }
    return endings.get(found)


def refuse_in_program(refusing, program):
    sets = [
        ("imported", [], IMPORTED, 0, IMPORTED_REPORT, False),
        ("skipped", [], SKIPPED, 1, SKIPPED_REPORT, False),
        ("doubling", [], DOUBLING, 0, doubling_report(), True),
        ("objects", ["--report-format", "json"], SKIPPED, 1, None, False),
        ("a place", ["--at", "<stdin>:1:33"], IMPORTED, 0, IMPORTED_PLACE, False),
    ]
    well = True
    for name, more, source, status, report, doubles in sets:
        for workers in ("1", "4"):
            words = [program, "--jobs", workers, *more]
            ran = refusing.run(words, source, 0)
            report = report or ran.stdout
            first = ending(ran, status, report)
            total = refusing.total()
            found = collections.Counter()
            for number, ran in refusing.runs(words, source, numbers(total, doubles)):
                end = ending(ran, status, report)
                found[end or "WRONG"] += 1
                if end is None:
                    print(f"{name}, {workers} workers, allocation {number}: status {ran.returncode}: {ran.stderr[:200]!r}")
            well &= first == "right" and not found["WRONG"]
            print(f"{name}, {workers} workers: {total} allocations: {dict(found)}", flush=True)
    return well


def refuse_in_messages(refusing, program):
    well = True
    for words in (["--explain"], ["--message-format", "json"]):
        for workers in ("1", "4"):
            command = [program, "--jobs", workers, *words]
            first = refusing.run(command, FAULTY, 0)
            total = refusing.total()
            found = collections.Counter()
            for number, ran in refusing.runs(command, FAULTY, range(1, total + 1, max(1, total // EXPLAINED_RUNS))):
                end = ending_of_explained(ran, first.stderr)
                found[end or "WRONG"] += 1
                if end is None:
                    print(f"{' '.join(words)}, {workers} workers, allocation {number}: status {ran.returncode}: {ran.stderr[:300]!r}")
            is_right = (first.returncode, first.stdout) == (1, FAULTY_REPORT) and without_notes(first.stderr) != first.stderr
            well &= is_right and not found["WRONG"] and all(found[it] for it in ("no note", "no expected type", "no memory, with the module"))
            print(f"{' '.join(words)}, {workers} workers: {total} allocations: {dict(found)}", flush=True)
    return well


def session():
    """Returns what a client sends that opens two documents, asks for a name, changes what it is, and asks again and more. Then it asks for the fixes of
    a name, and the input ends."""

    def about(name, **params):
        return {"textDocument": {"uri": f"file:///{name}.hs", "languageId": "haskell", "version": 1}, **params}

    def opening(name, text):
        return {"method": "textDocument/didOpen", "params": {"textDocument": {**about(name)["textDocument"], "text": text}}}

    def hover(number):
        return {"id": number, "method": "textDocument/hover", "params": about("A", position={"line": 0, "character": 31})}

    def ask(number, method, **params):
        return {"id": number, "method": method, "params": about("A", position={"line": 0, "character": 17}, **params)}

    more = [ask(4, "textDocument/references"), ask(5, "textDocument/documentSymbol"), ask(6, "workspace/symbol", query="z"), ask(7, "textDocument/rename", newName="v"), ask(8, "textDocument/completion")]
    fix = {"id": 9, "method": "textDocument/codeAction", "params": about("B", range={"start": {"line": 0, "character": 21}, "end": {"line": 0, "character": 27}})}
    change = {"method": "textDocument/didChange", "params": about("A", contentChanges=[lsp.change((0, 21), (0, 24), "(1)")])}
    start = [{"id": 1, "method": "initialize", "params": {}}, {"method": "initialized", "params": {}}]
    texts = [opening("A", "module A where { x = 'c' ; y = x }"), opening("B", "module B where { z = lenght [] }")]
    return b"".join(map(lsp.frame, [*start, *texts, hover(2), change, hover(3), *more, fix]))


def messages_in(printed):
    """Returns the messages in what a server wrote; none if it isn't whole."""
    found = []
    while printed:
        size = re.match(rb"Content-Length: (\d+)\r\n\r\n", printed)
        if not size or len(printed) < size.end() + int(size[1]):
            return None
        found.append(json.loads(printed[size.end() : size.end() + int(size[1])]))
        printed = printed[size.end() + int(size[1]) :]
    return found


def is_without_memory(message):
    """Whether a message says that there is no memory for a reply, or for a check."""
    return message.get("error", {}).get("code") == -32603 or message.get("method") == "window/showMessage"


def without_expected(message):
    """A message of the server without the notes on the expected types of names."""
    if message.get("method") != lsp.PUBLISHED:
        return message
    params = message["params"]
    return {**message, "params": {**params, "diagnostics": [it for it in params["diagnostics"] if it["code"] != "expected"]}}


def ending_of_session(ran, messages):
    """What came of a session, which has these messages where nothing is refused; none where it may not end so."""
    found = messages_in(ran.stdout)
    if found is None or len(found) > len(messages) or ran.stderr:
        return None
    shorter = [without_expected(it) for it in messages]
    if ran.returncode == 1 and found == shorter != messages:
        return "no note"
    lost = [number for number, (one, other) in enumerate(itertools.zip_longest(found, messages)) if one != other and one != shorter[number]]
    if any(number < len(found) and not is_without_memory(found[number]) for number in lost):
        return None
    # The documents have other texts at the first two questions, so one of these has its reply.
    if ran.returncode == 1 and len(found) == len(messages) and not {2, 3} <= {messages[number].get("id") for number in lost}:
        return "no memory for a message" if lost else "right"
    return "no memory" if ran.returncode == 3 else None


def refuse_in_server(refusing, server):
    """Refuses an allocation in some of a session."""
    with tempfile.TemporaryDirectory() as folder:
        words, given = [server, folder], session()
        first = refusing.run(words, given, 0)
        messages = messages_in(first.stdout) or []
        total = refusing.total()
        found = collections.Counter()
        for number, ran in refusing.runs(words, given, range(1, total + 1, max(1, total // EXPLAINED_RUNS))):
            end = ending_of_session(ran, messages)
            found[end or "WRONG"] += 1
            if end is None:
                print(f"the server, allocation {number}: status {ran.returncode}: {ran.stderr[:200]!r} {ran.stdout[:400]!r}")
    hovers = [it["result"]["contents"]["value"] for it in messages if it.get("id") in (2, 3)]
    shown = [(it["params"]["uri"], [one["code"] for one in it["params"]["diagnostics"]]) for it in messages if it.get("method") == lsp.PUBLISHED]
    sizes = [len(it["result"]) for it in messages if it.get("id") in (4, 5, 6)]
    renamed = [it["result"]["documentChanges"][0]["edits"] for it in messages if it.get("id") == 7]
    fixes = [[one["title"] for one in it["result"]] for it in messages if it.get("id") == 9]
    is_right = first.returncode == 1 and ["type Char" in it for it in hovers] == [True, False] and shown == [("file:///B.hs", ["unbound", "expected"])]
    is_right &= sizes == [2, 3, 1] and [len(it) for it in renamed] == [2] and fixes == [["write 'length'"]]
    print(f"the server: {total} allocations: {dict(found)}{'' if is_right else ', FAILS where nothing is refused'}", flush=True)
    return is_right and bool(found["no note"]) and not found["WRONG"]


def names_of(tests):
    listed = subprocess.run([tests, "--list"], capture_output=True, text=True).stdout
    return [line.split(": test")[0] for line in listed.splitlines() if line.startswith("refused::") and line.endswith(": test")]


def refuse_in_tests(refusing, programs):
    found_tests = [(tests, name) for tests in programs for name in names_of(tests)]
    well = {f"refused::{each}_alone" for each in TESTS} <= {name for _, name in found_tests}
    for tests, name in found_tests:
        passes = ending_of_test(refusing.run([tests, name], b"", 0)) == "right"
        total = refusing.total()
        found = collections.Counter()
        for number, ran in refusing.runs([tests, name], b"", range(1, total + 1)):
            end = ending_of_test(ran)
            found[end or "WRONG"] += 1
            if end is None:
                print(f"{name}, allocation {number}: status {ran.returncode}: {ran.stderr[:200]!r}")
        met = found["the call is refused"] > 0
        well &= passes and met and not found["WRONG"]
        faults = ", FAILS where nothing is refused" * (not passes) + ", its call was never refused" * (not met)
        print(f"{name}: {total} allocations: {dict(found)}{faults}", flush=True)
    return well


def ending_of_test(ran):
    """What came of a run of a test: it passed, or ended by its own error, which is want of memory; none where it may not end so."""
    if ran.returncode == 0:
        return "right"
    said = (ran.stderr.decode(errors="replace").splitlines() or [""])[0]
    return ERRORS.get(said) if ran.returncode > 0 else None


def main():
    words = argparse.ArgumentParser(description=__doc__, formatter_class=argparse.RawDescriptionHelpFormatter)
    words.add_argument("--program", default=os.path.join(TOP, "crates", "hmc", "out", "hmc"))
    words.add_argument("--server")
    words.add_argument("--tests", nargs="+", default=[])
    given = words.parse_args()
    with tempfile.TemporaryDirectory() as work:
        refusing = Refusing(work)
        program = os.path.abspath(given.program)
        well = refuse_in_program(refusing, program)
        well &= refuse_in_messages(refusing, program)
        well &= not given.server or refuse_in_server(refusing, os.path.abspath(given.server))
        well &= not given.tests or refuse_in_tests(refusing, [os.path.abspath(tests) for tests in given.tests])
    print("as they must be" if well else "NOT as they must be")
    return 0 if well else 1


if __name__ == "__main__":
    sys.exit(main())
