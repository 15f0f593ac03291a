#!/usr/bin/env python3
"""Asks the program by `--at` what is at places of the programs of bench/programs and of random sets, and compares its texts with a reading of names in
Python (name_reading.py). The types of declared names are compared with those of the report, for names that aren't exported with that of their module
without its export list. Types of uses are to be instances of these. A type without variables is tried: with it after the use the report is the same,
and with another type it isn't.

`at.py [PROGRAM [SEED N]]`: without a word, the script `hmc` beside this folder is run. N random sets are made by the seed, 40 by seed 1 if these words
aren't given. Ends with 1 where a text differs, or if fewer places were asked for than the programs have names.
"""
import concurrent.futures
import os
import pathlib
import random
import re
import subprocess
import sys
import tempfile

from haskell_sets.modules import RandomSet
from name_reading import uses_of
from type_texts import has_variables, is_instance

TOP = pathlib.Path(__file__).resolve().parent.parent
PROGRAM = os.path.abspath(sys.argv[1]) if len(sys.argv) > 1 else str(TOP / "hmc")
SEED, SETS = (sys.argv[2], int(sys.argv[3])) if len(sys.argv) > 3 else ("1", 40)
# Names of each random set that are asked for.
MOST_ASKED = 12
# Types of each program or set that are tried.
MOST_TRIED = 120
LEAST_PLACES = 3000
LEAST_TRIED = 300
IMPORT = re.compile(r"\bimport\s+(?:qualified\s+)?([A-Z][\w.']*)")
HEADER = re.compile(r"\bmodule\s+[A-Z][\w.']*\s*\(")
BLOCK = re.compile(r"^(module|faulty|skipped) (\S+)$|^  (val|con|syn) \S+ = (\S+) :: (.*)$|^  \d+:\d+ (?!type )([\w-]+) ", re.M)
KINDS = {"val": "variable", "con": "constructor"}
PRELUDE = "module Types_of_Prelude ( module Prelude ) where { import Prelude }"


class Report:
    """What a report says: the verdict of each module, the modules with faults of names or declarations, the type of each entity that its own module exports, and what its
    synonyms stand for."""

    def __init__(self, text):
        self.verdicts, self.unread, self.types, self.synonyms = {}, set(), {}, {}
        for verdict, name, word, entity, of_type, fault in BLOCK.findall(text):
            if name:
                self.verdicts[name] = verdict
                home = name
            elif fault:
                self.unread.add(home)
            elif word == "syn":
                self.synonyms[entity] = of_type
            elif entity.rpartition(".")[0] in (home, "Prelude"):
                self.types[KINDS[word], entity] = of_type


def report_text(texts):
    """The report of the modules of these texts, or none if they are refused."""
    ran = subprocess.run([PROGRAM], input="\n".join(texts), capture_output=True, text=True)
    return ran.stdout if ran.returncode < 2 else None


def report_of(texts):
    """What the report of these texts says, with the types of Prelude, and with those of names that aren't exported."""
    texts = list(texts)
    text = report_text([*texts, PRELUDE])
    if text is None:
        return None
    report = Report(text)
    for number, it in enumerate(texts):
        for head in HEADER.finditer(it):
            more = report_text([*texts[:number], without_list(it, head.end() - 1), *texts[number + 1:]])
            if more:
                report.types = {**Report(more).types, **report.types}
                report.synonyms = {**Report(more).synonyms, **report.synonyms}
    return report


def expanded(of_type, module, report):
    """A type with what the synonyms of its module stand for."""
    return re.sub(r"(?<![\w.'])[A-Z][\w']*(?![\w.'])", lambda it: f"({report.synonyms[key]})" if (key := f"{module}.{it[0]}") in report.synonyms else it[0], of_type)


def without_list(text, start):
    """A text without the list in brackets that starts here."""
    depth = 0
    for at in range(start, len(text)):
        depth += {"(": 1, ")": -1}.get(text[at], 0)
        if not depth:
            return text[:start] + text[at + 1:]
    return text


def type_line(use, report):
    """The line of the type of a name, if a module declares it. In a module that isn't good it may be another one, and is none then. Only one with no other faults than
    types has types."""
    word, _, entity = use.meaning.partition(" ")
    if word != "entity" or use.kind not in KINDS.values():
        return ""
    home = entity.rpartition(".")[0]
    if home in report.unread:
        return f"  no type: module {home} isn't good\n"
    found = report.types.get((use.kind, entity))
    if report.verdicts.get(home, "module") != "module":
        return f"  type {found}\n" if found else None
    return f"  type {found}\n" if found else f"  no type: module {home} doesn't export it\n"


def bound_line(use, files, binders):
    """The line that says where a name is bound. `files` has the file of each module."""
    word, _, what = use.meaning.partition(" ")
    if word in ("local", "tyvar"):
        return f"  bound at {files[use.module]}:{what}\n"
    if word in ("entity", "module"):
        home = what.rpartition(".")[0] if word == "entity" else what
        place = binders.get((home, use.kind, use.meaning))
        return f"  bound at {files[home]}:{place}\n" if place else f"  bound in {home}\n"
    return {"prefix": "  a prefix of qualified names\n", "unbound": "  bound nowhere\n", "ambiguous": "  ambiguous\n"}[word]


def expected(uses, files, report):
    """What is printed for each place on a name, by its file, line and column: the name, where it is bound and its type, and the use. `hiding (C)` has two names at one
    place."""
    binders = {}
    for use in uses:
        if use.binds:
            binders.setdefault((use.module, use.kind, use.meaning), f"{use.line}:{use.column}")
    texts = {}
    for use in uses:
        text = f"{use.kind} {use.text}\n" + bound_line(use, files, binders)
        for column in range(use.column, use.column + len(use.text)):
            place = files[use.module], use.line, column
            texts[place] = [*texts.get(place, []), (text, type_line(use, report), use)]
    return texts


def asked_of(texts, sources, whole):
    """The places of some sources that are asked for, with what is to be printed: on names at their first and last bytes, and on none."""
    firsts = [it for it in texts if (it[0], it[1], it[2] - 1) not in texts or texts[it[0], it[1], it[2] - 1] != texts[it]]
    lasts = [it for it in texts if (it[0], it[1], it[2] + 1) not in texts]
    none = [(file, line, column) for file, text in sources.items() for line, row in enumerate(text.split("\n"), 1) for column in range(1, len(row) + 3)]
    none = [it for it in none if it not in texts]
    chance = random.Random(f"{SEED} {sorted(sources)}")
    some = (lambda places, n: chance.sample(places, min(n, len(places))))
    places = firsts + some(lasts, len(lasts) // 8) + some(none, 60) if whole else some(firsts, MOST_ASKED) + some(lasts, 4) + some(none, 4)
    return [(it, texts.get(it)) for it in places]


def take(lines, start):
    """The rest of the first of these lines, which is taken away, if it begins so."""
    return lines.pop(0)[len(start):] if lines and lines[0].startswith(start) else None


def difference(lines, names, report, types, must_have):
    """What differs between the lines that are printed and the names at a place. `types` gets the type of each use. Local variables have a type if they must."""
    for text, of_type, use in names:
        home = use.meaning.partition(" ")[2].rpartition(".")[0]
        count = text.count("\n")
        if "".join(f"{it}\n" for it in lines[:count]) != text:
            return f"wanted was {text!r}"
        del lines[:count]
        is_local = use.meaning.startswith("local ")
        scheme = None if is_local else take(lines, "  type ")
        reason = take(lines, "  no type: ")
        line = f"  type {scheme}\n" if scheme else f"  no type: {reason}\n" if reason else ""
        if not is_local and of_type is not None and line != shown(of_type, scheme, expanded(scheme or "", home, report)):
            return f"wanted was {of_type!r}"
        here = take(lines, "  type " if is_local else "  here ")
        if is_local and here is None and (take(lines, "  no type is found") is None or must_have):
            return "a local variable has no type"
        definition = take(lines, "  in ")
        if here is not None and scheme is not None and not is_instance(expanded(here, use.module, report), expanded(scheme, home, report)):
            return f"{here} is no instance of {scheme}"
        if definition:
            name, _, own = definition.partition(" :: ")
            wanted = report.types.get(("variable", f"{use.module}.{name}"))
            own = expanded(own, use.module, report)
            if wanted and not (is_instance(own, wanted) and is_instance(wanted, own)):
                return f"{name} has the type {wanted}"
        if here is not None:
            types.append((use, here))
    return f"more lines: {lines}" if lines else None


def shown(of_type, scheme, meant):
    """The line that is wanted, or that of the scheme if this has names of synonyms and means the same type."""
    wanted = of_type[len("  type "):-1]
    same = scheme and of_type.startswith("  type ") and is_instance(meant, wanted) and is_instance(wanted, meant)
    return f"  type {scheme}\n" if same else of_type


def ask(folder, sources, report, place, names):
    """The difference at a place, or none, and the types of the uses. Where no name is, the status is 1."""
    spot = ":".join(map(str, place))
    ran = subprocess.run([PROGRAM, "--at", spot, *sources], cwd=folder, capture_output=True, text=True)
    types = []
    if names:
        # In `(\x -> x) :: a -> a` the type of x is a constant of the signature, which no other type may have.
        must_have = report.verdicts.get(names[0][2].module) == "module" and not re.search(r"\) :: [^;]*\b[a-z]\w*\b", sources[place[0]].split("\n")[place[1] - 1])
        differs = "status" if ran.returncode or ran.stderr else difference(ran.stdout.splitlines(), names, report, types, must_have)
    else:
        differs = None if (ran.returncode, ran.stdout, ran.stderr) == (1, f"{spot}: no name is here\n", "") else "no name is here"
    return (f"{spot}: {ran.returncode} {ran.stdout!r} {ran.stderr!r}: {differs}" if differs else None), types


def try_type(sources, use, of_type):
    """Whether a type of a use was tried, and what was wrong with it. With the type after the use the report is the same, and with a list of it the module is faulty."""
    file = next(it for it, text in sources.items() if re.search(rf"\bmodule\s+{re.escape(use.module)}\b", text))
    rows = sources[file].split("\n")
    row, at = rows[use.line - 1], use.column - 1
    reports = []
    for it in (of_type, f"[{of_type}]"):
        rows[use.line - 1] = f"{row[:at]}({use.text} :: {it}){row[at + len(use.text):]}"
        reports.append(report_text({**sources, file: "\n".join(rows)}.values()))
    before = report_text(sources.values())
    if reports[0] is None or re.search(r"^  \d+:\d+ (unbound|ambiguous) ", reports[0], re.M):
        return False, None
    right = reports[0] == before and reports[1] != before
    return True, None if right else f"{file}:{use.line}:{use.column}: {use.text} :: {of_type} isn't the type there"


def compare(pool, sources, texts, report, whole=False):
    """Asks for places of sources, and returns how many were asked for, the differences, and how many types were tried."""
    with tempfile.TemporaryDirectory() as folder:
        for file, text in sources.items():
            pathlib.Path(folder, file).write_text(text)
        asked = asked_of(texts, sources, whole)
        answers = list(pool.map(lambda it: ask(folder, sources, report, *it), asked))
    uses = dict.fromkeys((use, it) for _, types in answers for use, it in types if not use.binds and not has_variables(it))
    uses = random.Random(f"{SEED} {sorted(sources)}").sample(list(uses), min(len(uses), MOST_TRIED))
    tried = list(pool.map(lambda it: try_type(sources, *it), uses))
    return len(asked), [it for it, _ in [*answers, *((wrong, done) for done, wrong in tried)] if it], sum(done for done, _ in tried)


def random_texts(number):
    """The sources of a random set, and what is to be printed for their places. Names of skipped modules aren't read."""
    texts = RandomSet(random.Random(f"{SEED} {number}"), number).texts
    report = report_of(texts.values())
    if not report or "skipped" in report.verdicts.values():
        return None
    order, left = [], list(texts)
    while left:
        ready = [it for it in left if not set(IMPORT.findall(texts[it])) & set(left) - {it}]
        order, left = order + ready, [it for it in left if it not in ready]
    sources = {f"{name}.hs": text for name, text in texts.items()}
    found = [use for name in order for use in uses_of_one(name, order, texts)]
    return sources, expected(found, {name: f"{name}.hs" for name in texts}, report), report


def uses_of_one(name, order, texts):
    """The uses of a module, with the lines of its own text."""
    before = order[: order.index(name)]
    above = sum(texts[it].count("\n") + 1 for it in before)
    return [use._replace(line=use.line - above, meaning=moved(use.meaning, above)) for use in uses_of([texts[it] for it in [*before, name]]) if use.module == name]


def moved(meaning, above):
    """A meaning with the line of the module's own text."""
    word, _, what = meaning.partition(" ")
    if word not in ("local", "tyvar"):
        return meaning
    line, column = what.split(":")
    return f"{word} {int(line) - above}:{column}"


def main():
    count, tried, faults = 0, 0, []
    with concurrent.futures.ThreadPoolExecutor(4) as pool:
        for path in sorted((TOP / "bench" / "programs").glob("*.hs")):
            text = path.read_text()
            uses, report = uses_of([text]), report_of([text])
            texts = expected(uses, {use.module: path.name for use in uses}, report)
            asked, differ, done = compare(pool, {path.name: text}, texts, report, True)
            count, tried, faults = count + asked, tried + done, faults + differ
        in_programs = count
        for number in range(SETS):
            made = random_texts(number)
            if made:
                asked, differ, done = compare(pool, *made)
                count, tried, faults = count + asked, tried + done, faults + differ
    for it in faults:
        print(it)
    print(f"{count} places, {in_programs} of them of programs, {tried} types tried: {len(faults)} differ")
    return 1 if faults or in_programs < LEAST_PLACES or tried < LEAST_TRIED else 0


if __name__ == "__main__":
    sys.exit(main())
