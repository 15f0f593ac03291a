#!/usr/bin/env python3
"""Runs the program with `--at PLACE --message-format json`, and compares its line with tests/place.schema.json, with what it prints without the second
word, and with the objects of tests/rows/at_places.py. For each name of sets of modules, what the object says is compared with a reading of names in
Python (name_reading.py).

`json_places.py [PROGRAM]`: without a word, the script `hmc` beside this folder is run. Ends with 1 where a run differs.
"""
import concurrent.futures
import json
import os
import pathlib
import subprocess
import sys
import tempfile

from json_messages import differs, position_fault
from name_reading import uses_of
from rows import at_places

TOP = pathlib.Path(__file__).resolve().parent.parent
PROGRAM = os.path.abspath(sys.argv[1]) if len(sys.argv) > 1 else str(TOP / "hmc")
REFUSED = 2
FORMAT = 1
# Sources of several modules, each after those that it imports. Each of their names is asked for.
READ = [
    "module A (T (..), f, x) where { data T a = C a | D ; f (C y) = y ; f D = x ; x = let { z = 'c' } in (z, g) ; g = \\h -> h }\n"
    "module B where { import A (T (C), f) ; import qualified A as Q ; k :: T a -> a ; k t = case t of { C u -> u ; Q.D -> f t ; other -> w } }\n",
    "module M where { {- é😀 -} a = b ; b c = (c, 'é', a) }\n",
]


def run(folder, sources, *words):
    """Runs the program on sources in files 0.hs, 1.hs and so on."""
    files = [f"{number}.hs" for number in range(len(sources))]
    for file, source in zip(files, sources):
        pathlib.Path(folder, file).write_bytes(source.encode() if isinstance(source, str) else source)
    return subprocess.run([PROGRAM, *words, *files], cwd=folder, capture_output=True)


def asked(folder, sources, spot):
    """The run with the object of a place, and that without the word for objects."""
    return run(folder, sources, "--at", spot, "--message-format", "json"), run(folder, sources, "--at", spot)


def object_of(listed, plain, schema):
    """The object of a run, or why it has none or another status than the run without the word for objects."""
    if (listed.returncode, listed.stderr) != (plain.returncode, plain.stderr):
        return None, f"status {listed.returncode}, {listed.stderr[:200]!r}"
    text = listed.stdout.decode()
    if not text.endswith("\n") or text.count("\n") != 1:
        return None, f"not one line: {text[:200]!r}"
    value = json.loads(text)
    if text != json.dumps(value, ensure_ascii=False, sort_keys=True, separators=(",", ":")) + "\n":
        return None, f"members in another order: {text[:200]!r}"
    if value["text"] != plain.stdout.decode() or value["format"] != FORMAT:
        return None, f"another text: {value['text']!r} in place of {plain.stdout!r}"
    return value, differs(value, schema, schema)


def name_lines(value):
    """The lines of a name's object, as they are printed without the word for objects."""
    if value["kind"] == "skipped":
        return f"a name in module {value['module']}, which is skipped\n"
    lines = [f"{value['kind']} {value['name']}", f"  {value['bound']['text']}"]
    lines += [f"  type {value['type']}"] if value["type"] is not None else []
    lines += [f"  {value['untyped']}"] if value["untyped"] is not None else []
    is_local = value["kind"] == "variable" and value["type"] is None and value["untyped"] is None
    lines += [f"  {'type' if is_local else 'here'} {value['here']}"] if value["here"] is not None else []
    lines += ["  in {name} :: {type}".format(**value["definition"])] if value["definition"] else []
    return "".join(line + "\n" for line in lines)


def prose(value):
    """What is printed without the word for objects, by the names of a place's object."""
    return "".join(map(name_lines, value["names"])) or f"{value['file']}:{value['line']}:{value['column']}: no name is here\n"


def positions_of(value):
    """The positions in an object, each with its file."""
    for each in value["names"]:
        if each.get("range"):
            yield from ((value["file"], each["range"][end]) for end in ("start", "end"))
        if each.get("bound", {}).get("position"):
            yield each["bound"]["file"], each["bound"]["position"]


def place_fault(folder, sources, spot, schema):
    """The object of a place, and why it is wrong by itself, or nothing."""
    value, why = object_of(*asked(folder, sources, spot), schema)
    if why:
        return value, why
    if (value["file"], str(value["line"]), str(value["column"])) != tuple(spot.rsplit(":", 2)):
        return value, f"another place: {value}"
    for file, position in positions_of(value):
        source = sources[int(file.partition(".")[0])]
        if why := position_fault(source.encode() if isinstance(source, str) else source, position):
            return value, why
    return value, None if prose(value) == value["text"] else f"{prose(value)!r} in place of {value['text']!r}"


def row_fault(folder, row, schema):
    """Why the object of a row's place isn't the wanted one, or nothing."""
    sources, source, line, column, status, names = row
    spot = f"{source}.hs:{line}:{column}"
    value, why = place_fault(folder, sources, spot, schema)
    if why:
        return f"{spot}: {why}"
    if run(folder, sources, "--at", spot, "--message-format", "json").returncode != status:
        return f"{spot}: another status than {status}"
    wanted = {"format": FORMAT, "kind": "place", "file": f"{source}.hs", "line": line, "column": column, "names": names, "text": value["text"]}
    return None if value == wanted else f"{spot}: {value} in place of {wanted}"


def refused_fault(folder, sources, text):
    """Why the object of a refused set isn't the wanted one, or nothing."""
    done = run(folder, sources, "--at", "0.hs:1:1", "--message-format", "json")
    wanted = {"format": FORMAT, "kind": "refused", "text": text}
    return None if (done.returncode, json.loads(done.stdout), done.stderr) == (REFUSED, wanted, b"") else f"{done}"


def read_fault(source, use, value, binders):
    """Why an object doesn't say what the reading of names says of a use, or nothing."""
    rows = source.split("\n")
    each = next((it for it in value["names"] if it["kind"] == use.kind), None)
    if not each or each["name"] != use.text:
        return f"no {use.kind} {use.text}: {value}"
    front = rows[use.line - 1][:use.column - 1]
    start = {"line": use.line, "byte": len(front.encode()) + 1, "character": len(front) + 1, "utf16": len(front.encode("utf-16-le")) // 2 + 1}
    width = {"line": 0, "byte": len(use.text.encode()), "character": len(use.text), "utf16": len(use.text.encode("utf-16-le")) // 2}
    if each["range"] != {"start": start, "end": {unit: start[unit] + width[unit] for unit in start}}:
        return f"another range: {each}"
    word, _, what = use.meaning.partition(" ")
    home = what.rpartition(".")[0] if word == "entity" else what
    place = what if word in ("local", "tyvar") else binders.get((home, use.kind, use.meaning)) if word in ("entity", "module") else None
    position = each["bound"]["position"]
    if (f"{position['line']}:{position['character']}" if position else None) != place:
        return f"bound elsewhere than at {place}: {each}"
    wanted = home if word in ("entity", "module") and not place else None
    return None if each["bound"]["module"] == wanted else f"another module than {wanted}: {each}"


def reading_faults(folder, source, schema):
    """What is wrong with the objects of a source's names, and how many there are."""
    uses, binders, faults = uses_of([source]), {}, []
    for use in uses:
        if use.binds:
            binders.setdefault((use.module, use.kind, use.meaning), f"{use.line}:{use.column}")
    for use in uses:
        value, why = place_fault(folder, [source], f"0.hs:{use.line}:{use.column}", schema)
        why = why or read_fault(source, use, value, binders)
        faults += [f"{use}: {why}"] if why else []
    return faults, len(uses)


def words_fault(folder):
    """Why other words beside these aren't as in prose, or nothing."""
    source, spot = ["module A where { x = 1 }"], "0.hs:1:18"
    listed = run(folder, source, "--at", spot, "--message-format", "json")
    for words in (["--report-format", "json"], ["--journal"], ["--explain"], ["--color", "always"], ["--jobs", "1"]):
        if run(folder, source, "--at", spot, "--message-format", "json", *words).stdout != listed.stdout:
            return f"{words} changes what is printed"
    if run(folder, source, "--at", spot, "--message-format", "human").stdout != run(folder, source, "--at", spot).stdout:
        return "human is another text"
    if run(folder, source, "--at", spot, "--message-format", "json", "--quiet").stdout:
        return "a quiet run prints"
    named = subprocess.run([PROGRAM, "--at", "x y.hs:1:18", "--message-format", "json", "--stdin-name", "x y.hs"], input=source[0].encode(), capture_output=True)
    if json.loads(named.stdout)["names"][0]["bound"]["file"] != "x y.hs":
        return f"{named}"
    with open("/dev/full", "wb") as full:
        closed = subprocess.run([PROGRAM, "--at", spot, "--message-format", "json", "0.hs"], cwd=folder, stdout=full, stderr=subprocess.PIPE)
    return None if (closed.returncode, closed.stderr) == (4, b"hmc: write fault\n") else f"{closed}"


def main():
    schema = json.loads((TOP / "tests" / "place.schema.json").read_text(encoding="utf-8"))
    found = []
    with concurrent.futures.ThreadPoolExecutor(4) as pool:
        jobs = [(row_fault, row, schema) for row in at_places.ROWS] + [(refused_fault, *row) for row in at_places.REFUSED] + [(words_fault,)]

        def alone(job):
            with tempfile.TemporaryDirectory() as folder:
                return job[0](folder, *job[1:])

        found = list(pool.map(alone, jobs))
        read = list(pool.map(lambda it: alone((reading_faults, it, schema)), READ))
    count = len(found) + sum(number for _, number in read)
    faults = [why for why in found if why] + [why for faults, _ in read for why in faults]
    for why in faults:
        print(why)
    print(f"json places: {count - len(faults)} of {count} as wanted")
    sys.exit(1 if faults else 0)


if __name__ == "__main__":
    main()
