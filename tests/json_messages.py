#!/usr/bin/env python3
"""Runs the program with `--message-format json` on the sources of tests/rows/messages.py, and compares its lines with tests/message.schema.json
and with the messages of `--explain`.

`json_messages.py [PROGRAM]`: without a word, the script `hmc` beside this folder is run. Ends with 1 where a line differs.
"""
import collections
import json
import os
import re
import subprocess
import sys
import tempfile

from rows import messages

TOP = os.path.dirname(os.path.dirname(os.path.abspath(__file__)))
PROGRAM = os.path.abspath(sys.argv[1]) if len(sys.argv) > 1 else os.path.join(TOP, "hmc")
FILE = "M.hs"
HEADING = re.compile(r"^(?P<file>[^:\n]*):(?P<line>\d+):(?P<column>\d+): (?P<level>error|note): (?P<text>.*?)(?: \[(?P<kind>[a-z-]+)\])?$", re.MULTILINE)
FURTHER = re.compile(r"^note: further skipped modules: (\d+); they have no notes$", re.MULTILINE)
# How many skipped modules, and how many imports of each, have notes for a reader.
MOST_NOTED = 8
# The kinds of notes that are about a part, and those that are about two.
PARTS = {"replaceable", "both", "pattern", "exchange", "removal", "brackets", "argument", "mark", "constructor", "mistyped", "signature", "follows"}
PAIRS = {"both", "exchange"}
UP_TO = re.compile(r"\(up to (\d+):(\d+)\)")
# More type faults than a run has trials for.
LIMIT = "module M where {\n" + " ;\n".join(f"f{n} = not 'c'" for n in range(2000)) + "\n}\n"
# Sources, and what the edits of each message that has some make of them. The checker hasn't accepted these edits.
EDITED = [
    ("module M where { f xs = lenght xs }", ["module M where { f xs = length xs }"]),
    ("module M where { f = Prelude.mpa }", ["module M where { f = Prelude.map }"]),
    ("module M where { f = let { more = 1 } in moer }", ["module M where { f = let { more = 1 } in more }"]),
    ("module M where { foo :: Int ; fop = 1 }", ["module M where { fop :: Int ; fop = 1 }"]),
    ("module M where { f = nothing }", ["module M where { f = Nothing }"]),
    ("module M where { f = (1 ; g = 2 }", ["module M where { f = (1 ); g = 2 }"]),
    ("module M where { f x = case x { y -> y } }", ["module M where { f x = case x  of { y -> y } }"]),
    ("module M where { f : Int ; f = 1 }", ["module M where { f  ::  Int ; f = 1 }"]),
    ("module M where { f = 1) ; g = 2 }", ["module M where { f = 1 ; g = 2 }"]),
    ("module M where { f = 1 -- one", ["module M where { f = 1 -- one\n}"]),
    ("module M where { f :: Int -> Int ; f x = not x }", ["module M where { f :: Bool -> Bool ; f x = not x }"]),
    ("module M where { f  :: Int -> Int ; f x = not x }", []),
    ("module M where { f = xyzzy }", []),
    ("module M where { f = 1 + 2 }", []),
]
TYPES = {"object": dict, "array": list, "string": str, "integer": int, "boolean": bool, "null": type(None)}


def differs(value, schema, root, at="line"):
    """Why the value isn't of this schema, or nothing. It reads the words of JSON schemas that those of this folder have, and refuses others."""
    left = set(schema) - {"$schema", "title", "$defs", "$ref", "oneOf", "type", "minimum", "enum", "items", "properties", "required", "additionalProperties"}
    if left:
        return f"{at}: the schema has {sorted(left)}"
    if "$ref" in schema:
        return differs(value, root["$defs"][schema["$ref"].removeprefix("#/$defs/")], root, at)
    if "oneOf" in schema and sum(differs(value, each, root, at) is None for each in schema["oneOf"]) != 1:
        return f"{at}: not of one kind: " + "; ".join(differs(value, each, root, at) or "" for each in schema["oneOf"])
    types = schema.get("type", [])
    types = [types] if isinstance(types, str) else types
    if types and not any(type(value) is TYPES[each] for each in types):
        return f"{at}: {value!r} is no {types}"
    if "enum" in schema and value not in schema["enum"]:
        return f"{at}: {value!r} is none of {schema['enum']}"
    if "minimum" in schema and value is not None and value < schema["minimum"]:
        return f"{at}: {value} is less than {schema['minimum']}"
    for number, each in enumerate(value if "items" in schema else []):
        if why := differs(each, schema["items"], root, f"{at}.{number}"):
            return why
    if "properties" in schema:
        if lacking := set(schema["required"]) - set(value):
            return f"{at}: no {sorted(lacking)}"
        # The schema allows members that it doesn't name, for programs. hmc writes none.
        if more := set(value) - set(schema["properties"]):
            return f"{at}: {sorted(more)} besides"
        for name, each in value.items():
            if why := differs(each, schema["properties"][name], root, f"{at}.{name}"):
                return why
    return None


def position_fault(source, position):
    """Why the columns of a position aren't those of one place, or nothing."""
    line = source.split(b"\n")[position["line"] - 1] if position["line"] <= source.count(b"\n") + 1 else None
    if line is None or not 1 <= position["byte"] <= len(line) + 1:
        return f"no such place: {position}"
    before = line[: position["byte"] - 1].decode()
    wanted = {"character": len(before) + 1, "utf16": len(before.encode("utf-16-le")) // 2 + 1}
    return None if all(position[name] == count for name, count in wanted.items()) else f"{position}, wanted {wanted}"


def at(source, position):
    """The number of bytes before a position."""
    return sum(len(line) + 1 for line in source.split(b"\n")[: position["line"] - 1]) + position["byte"] - 1


def range_fault(source, value):
    """Why the parts and the edits of a message aren't ranges of the source, or those that its kind has, or nothing."""
    for each in (*filter(None, (value["part"], value["second"])), *value["edits"]):
        for position in (each["start"], each["end"]):
            if why := position_fault(source, position):
                return why
        if at(source, each["end"]) < at(source, each["start"]):
            return f"an end before its start: {each}"
    is_note = value["level"] == "note"
    if (value["part"] is not None) != (is_note and value["kind"] in PARTS) or (value["second"] is not None) != (is_note and value["kind"] in PAIRS):
        return f"other parts than those of its kind: {value}"
    if value["part"] and value["part"]["start"] != value["start"]:
        return f"a part elsewhere: {value}"
    if (end := UP_TO.search(value["text"])) and (int(end[1]), int(end[2]) + 1) != (value["part"]["end"]["line"], value["part"]["end"]["character"]):
        return f"another end of the part: {value}"
    return None


def module_at(source, position):
    """The last module whose name isn't behind a position."""
    line_starts = [0] + [at + 1 for at, byte in enumerate(source) if byte == 10]
    at = line_starts[position["line"] - 1] + position["byte"] - 1
    starts = [each for each in re.finditer(rb"(?<![(,] )(?<![(,])\bmodule\s+([A-Z][\w.']*)", source) if each.start(1) <= at]
    return starts[-1].group(1).decode() if starts else None


def for_readers(values):
    """The messages without the notes that only programs get: of the first skipped modules each the first notes."""
    notes = collections.defaultdict(list)
    for value in values:
        if value["kind"] == "skipped":
            notes[value["module"]].append(value)
    shown = [value for its in list(notes.values())[:MOST_NOTED] for value in its[:MOST_NOTED]]
    return [value for value in values if value["kind"] != "skipped"] + shown


def row_fault(source, status, run, schema):
    """What is wrong with a run on a row's source, or nothing."""
    objects, plain = run("--message-format", "json"), run("--explain")
    if objects.returncode != status or objects.stdout != plain.stdout:
        return "another status or report"
    lines = objects.stderr.decode().split("\n")
    if lines.pop():
        return "a line without an end"
    values = [json.loads(line) for line in lines]
    for value in values:
        if why := differs(value, schema, schema):
            return why
    if not values or values[-1]["level"] != "end" or any(value["level"] == "end" for value in values[:-1]):
        return "no end"
    last = values.pop()
    if len({value["module"] for value in values if value["kind"] == "skipped"}) != last["skipped"]:
        return "notes of other modules than those that are skipped"
    further = max(0, last["skipped"] - MOST_NOTED)
    if FURTHER.findall(plain.stderr.decode()) != ([str(further)] if further else []):
        return f"another number than {further} of further skipped modules"
    if sorted(values, key=lambda value: value["kind"] == "skipped") != values:
        return "a note of a skipped module before another message"
    values = for_readers(values)
    told = list(HEADING.finditer(plain.stderr.decode()))
    if [value["level"] for value in values] != [each["level"] for each in told]:
        return "other levels than those of the messages"
    for value, each in zip(values, told):
        start = value["start"]
        if (value["file"], start["line"], start["character"]) != (FILE, int(each["line"]), int(each["column"])):
            return f"another place: {value}"
        if value["text"] != each["text"] or value["level"] == "error" and value["kind"] != each["kind"]:
            return f"another text: {value}"
        for position in (start, value["end"]):
            if why := position_fault(source, position):
                return why
        if why := range_fault(source, value):
            return why
        if (value["end"]["line"], value["end"]["byte"]) < (start["line"], start["byte"]):
            return f"an end before its start: {value}"
        if value["module"] != (None if status == 2 else module_at(source, start)):
            return f"another module: {value}"
        if other := value["other"]:
            if why := position_fault(source, other):
                return why
            said = " at" if value["kind"] == "syntax" else ": the first is at"
            if not value["text"].endswith(f"{said} {other['line']}:{other['character']}"):
                return f"another first place: {value}"
        if value["hint"] is not None and value["hint"] + "\n" not in plain.stderr.decode():
            return f"another hint: {value}"
    errors = sum(value["level"] == "error" for value in values)
    return None if last["errors"] == errors else f"{last}, with {errors} errors"


def edited_fault(source, wanted, run):
    """Why the edits of the messages of a source make something else of it, or nothing."""
    made = []
    for value in map(json.loads, run("--message-format", "json").stderr.decode().splitlines()):
        changed = source.encode()
        for edit in reversed(value.get("edits", [])):
            if edit["checked"]:
                return f"a checked edit: {value}"
            changed = changed[: at(source.encode(), edit["start"])] + edit["text"].encode() + changed[at(source.encode(), edit["end"]) :]
        made += [changed.decode()] if value.get("edits") else []
    return None if made == wanted else f"the edits make {made}"


def limit_fault(run):
    """Why a run with more type faults than it has trials for doesn't say once, behind all other notes, that the limit is reached, or nothing."""
    lines = run("--message-format", "json").stderr.decode().splitlines()
    kinds = [value["kind"] for value in map(json.loads, lines) if value["level"] == "note"]
    return None if kinds[-1:] == ["limit"] and kinds.count("limit") == 1 and "mistyped" in kinds else f"notes at the end: {kinds[-4:]}"


def main():
    with open(os.path.join(TOP, "tests", "message.schema.json"), encoding="utf-8") as it:
        schema = json.load(it)
    rows = [row for table in (messages.KINDS, messages.EXCERPTS) for row in table if len(row) == 4 or len(row) == 3]
    rows.append(("module M where { f = 1 }", 0, ""))
    rows.append((LIMIT, 1, ""))
    failed = 0
    with tempfile.TemporaryDirectory() as folder:
        for source, status, *_ in rows:
            source = source if isinstance(source, bytes) else source.encode()
            with open(os.path.join(folder, FILE), "wb") as it:
                it.write(source)
            run = lambda *words: subprocess.run([PROGRAM, *words, FILE], cwd=folder, capture_output=True)
            why = row_fault(source, status, run, schema) or (limit_fault(run) if source == LIMIT.encode() else None)
            if why:
                failed += 1
                print(f"{source[:200]!r}: {why}")
        for source, wanted in EDITED:
            with open(os.path.join(folder, FILE), "wb") as it:
                it.write(source.encode())
            if why := edited_fault(source, wanted, run):
                failed += 1
                print(f"{source!r}: {why}")
    count = len(rows) + len(EDITED)
    print(f"json messages: {count - failed} of {count} as wanted")
    sys.exit(1 if failed else 0)


if __name__ == "__main__":
    main()
