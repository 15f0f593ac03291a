#!/usr/bin/env python3
"""Runs the program with `--report-format json`, and compares its lines with tests/report.schema.json, with the report without this word, and with
tests/rows/objects.py.

`json_reports.py [PROGRAM]`: without a word, the script `hmc` beside this folder is run. Ends with 1 where a run differs.
"""
import json
import os
import re
import subprocess
import sys
import tempfile

from json_messages import differs
from rows import objects, plans, reports

TOP = os.path.dirname(os.path.dirname(os.path.abspath(__file__)))
PROGRAM = os.path.abspath(sys.argv[1]) if len(sys.argv) > 1 else os.path.join(TOP, "hmc")
REFUSED = 2
TABLES = (reports.TYPED, reports.DECLARED, reports.EXPORTED, reports.UNTYPED, reports.ILL_FORMED, reports.SETS, reports.WRITTEN, reports.PRELUDE)
REASONS = {"open-comment": "open comment", "too-deep": "too deep", "too-many-modules": "too many modules"}


def run(folder, sources, *words):
    """Runs the program on sources in files 0.hs, 1.hs and so on."""
    files = [f"{number}.hs" for number in range(len(sources))]
    for name, source in zip(files, sources):
        with open(os.path.join(folder, name), "wb") as it:
            it.write(source.encode() if isinstance(source, str) else source)
    return subprocess.run([PROGRAM, *words, *files], cwd=folder, capture_output=True)


def objects_of(done):
    """The objects of a run, or None if a line isn't whole."""
    lines = done.stdout.decode().split("\n")
    return [json.loads(line) for line in lines] if not lines.pop() else None


def meaning(entry):
    """The entity of an entry, as the report writes it."""
    return f"{entry['entity']['module']}.{entry['entity']['name']}"


def block(value):
    """The lines of the report for an object. That of a synonym ends before its type."""
    if value["kind"] == "end":
        return [f"{value['modules']} modules: {value['good']} good, {value['faulty']} faulty, {value['skipped']} skipped"]
    if value["verdict"] == "faulty":
        return [f"faulty {value['module']}", *(f"  {it['line']}:{it['column']} {it['kind']} {it['name']}" for it in value["faults"])]
    if value["verdict"] == "skipped":
        return [f"skipped {value['module']}", *(f"  by {name}" for name in value["skippedBy"])]
    exports = value["interface"]
    return [
        f"module {value['module']}",
        *(f"  type {it['name']}/{it['parameters']} = {meaning(it)}" for it in exports["types"]),
        *(f"  syn {it['name']}/{it['parameters']} = {meaning(it)}" for it in exports["synonyms"]),
        *(f"  con {it['name']} = {meaning(it)} :: {it['type']}" for it in exports["constructors"]),
        *(f"  val {it['name']} = {meaning(it)} :: {it['type']}" for it in exports["values"]),
    ]


def refusal(value):
    """The line of a refusal for its object."""
    reason = REASONS.get(value["reason"], value["reason"])
    if value["place"]:
        return f"refused: source {value['source']} at {value['place']['line']}:{value['place']['column']}: {reason}"
    if value["source"]:
        return f"refused: source {value['source']} too long"
    texts = {"twice": " twice", "missing": f" imports missing {value['import']}", "cycle": " in a cycle"}
    return f"refused: module {value['module']}{texts[reason]}" if value["module"] else f"refused: {reason}"


def report_fault(folder, sources, schema):
    """Why the objects of these sources don't say what the report says, or nothing."""
    plain, listed = run(folder, sources), run(folder, sources, "--report-format", "json")
    if (plain.returncode, plain.stderr) != (listed.returncode, listed.stderr):
        return f"status {listed.returncode}, {listed.stderr[:200]!r}"
    values = objects_of(listed)
    if values is None:
        return "a line without an end"
    for value in values:
        if why := differs(value, schema, schema):
            return why
    text = "".join(line + "\n" for value in values for line in (block(value) if value["kind"] != "refused" else [refusal(value)]))
    wanted = re.sub(r"(?m)^(  syn .*?) :: .*$", r"\1", plain.stdout.decode())
    if text != wanted:
        return f"{text[:300]!r} in place of {wanted[:300]!r}"
    for value in values:
        exports = value.get("interface")
        for entry in exports["constructors"] + exports["values"] if exports else []:
            variables = set(re.findall(r"(?<![\w.'])[a-z]\d*(?![\w'])", entry["type"]))
            if len(variables) != entry["variables"]:
                return f"another number of variables: {entry}"
    return None


def at(value, path):
    """What is at a path in an object."""
    for step in path.split("."):
        value = value[int(step)] if isinstance(value, list) else value[step]
    return value


def row_fault(folder, sources, status, parts):
    """Why the objects of a row's sources don't have these parts, or nothing."""
    done = run(folder, sources, "--report-format", "json")
    values = {value.get("module", ""): value for value in objects_of(done)}
    if done.returncode != status:
        return f"status {done.returncode}"
    for name, wanted in parts.items():
        for path, part in wanted.items():
            if at(values[name], path) != part:
                return f"{name}: {path} is {at(values[name], path)!r}"
    return None


def refused_fault(folder, sources, parts):
    """Why the object of a refused set doesn't have these members, or nothing."""
    done = run(folder, sources, "--report-format", "json")
    return None if (done.returncode, objects_of(done)) == (REFUSED, [{"kind": "refused", **parts}]) else f"{done.stdout[:300]!r}"


def words_fault(folder):
    """Why messages beside the objects, or a quiet run, aren't as without them, or nothing."""
    source = ["module A where { f = g }"]
    for words in (["--explain"], ["--message-format", "json"]):
        plain, listed = run(folder, source, *words), run(folder, source, *words, "--report-format", "json")
        if plain.stderr != listed.stderr or objects_of(listed)[0]["kind"] != "module":
            return f"{words}: {listed}"
    if run(folder, source, "--report-format", "text").stdout != run(folder, source).stdout:
        return "the text is another one"
    if run(folder, source, "--report-format", "json", "--quiet").stdout:
        return "a quiet run prints"
    named = subprocess.run([PROGRAM, "--report-format", "json", "--stdin-name", "x y.hs"], input=source[0].encode(), capture_output=True)
    if json.loads(named.stdout.split(b"\n")[0])["file"] != "x y.hs":
        return f"{named}"
    with open("/dev/full", "wb") as full:
        closed = subprocess.run([PROGRAM, "--report-format", "json", "0.hs"], cwd=folder, stdout=full, stderr=subprocess.PIPE)
    return None if (closed.returncode, closed.stderr) == (4, b"hmc: write fault\n") else f"{closed}"


def main():
    with open(os.path.join(TOP, "tests", "report.schema.json"), encoding="utf-8") as it:
        schema = json.load(it)
    faults, count = [], 0
    with tempfile.TemporaryDirectory() as folder:
        sets = [[row[0]] for table in TABLES for row in table] + [sources for sources, *_ in objects.ROWS + objects.REFUSED] + [[row[0]] for row in plans.REFUSED]
        for sources in sets:
            count += 1
            faults += [(sources, why)] if (why := report_fault(folder, sources, schema)) else []
        found = [(row[0], row_fault(folder, *row)) for row in objects.ROWS]
        found += [(sources, refused_fault(folder, sources, parts)) for sources, parts in objects.REFUSED]
        found.append(("words", words_fault(folder)))
        count += len(found)
        faults += [each for each in found if each[1]]
    for sources, why in faults:
        print(f"{str(sources)[:200]}: {why}")
    print(f"json reports: {count - len(faults)} of {count} as wanted")
    sys.exit(1 if faults else 0)


if __name__ == "__main__":
    main()
