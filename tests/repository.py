#!/usr/bin/env python3
"""Checks that what is written down beside the code agrees with it, in seconds and without a proof.

`repository.py` ends with 1 where something differs; `repository.py --write` rewrites the columns of
docs/ARCHITECTURE.md that say what each crate does and what it depends on.

1. The tables of crates in docs/ARCHITECTURE.md have each crate of crates.txt once, under the same headings and in the
   same order. What they say a crate does is the first sentence of its root file, without sections of the Report. What
   they say it depends on are the crates of this repository that crates.txt lists for it, except those on which another
   of them depends. Each crate comes after those that it depends on, and crates.txt says why it is
   a crate of its own. The crates under a heading depend on no heading whose crates depend on them.
2. Each generator (crates/NAME/gen/*.py) writes the very files that are checked in.
3. Each edit in a folder must-fail/ changes a text that occurs once in the file that it names, and names in one line
   the goal that it is refused at.
4. Each file that README.md or a document names by its path exists. If they say "`f` of `hm_c`", the sources or definitions
   of `hm_c` have the word `f`. In PROMISES each file of a table, also by its short name, is a file of a crate that its
   section names, and each name with an underscore is a word of the crates.
5. Each piece of Rust in docs/EMBEDDING.md is a part of the example program.
6. README.md trusts the crates of the kit that crates.txt names, and no others.
7. The help, the constants of the program and LANGUAGE list the exit statuses of the definitions.
8. Each decision that code cites (docs/DECISIONS.md, "NAME") is in DECISIONS, where a name stands once. Each decision is cited, except those on style
   and on what the program costs.
9. No crate has more than 2,500 lines of code. In no crate do files use one another in a circle, except in those of CIRCLES.
10. Each kind of fault has its word in LANGUAGE, in the schema of messages and in the comparison with GHC. The schema has the kinds of messages that the
    code writes, and no others, and LANGUAGE has those of notes.
"""
import pathlib
import re
import subprocess
import sys

TOP = pathlib.Path(__file__).resolve().parent.parent
PAGE = TOP / "docs" / "ARCHITECTURE.md"
MOST_LINES = 2500
# Crates with a circle of files that is older than the test.
CIRCLES = {"hm_lex", "hm_graph_components", "hm_run_sources"}
ROW = re.compile(r"^\| `(\w+)` \|([^|]*)\|([^|]*)\|([^|]*)\|$", re.M)


def rows():
    """Returns the rows of crates.txt: a crate, the libraries that it lists, and why it is a crate of its own."""
    parts = [line.partition("#")[::2] for line in (TOP / "crates.txt").read_text().splitlines() if line[:1].isalpha()]
    return [(row.split()[0].rstrip(":"), row.partition(":")[2].split(), why.strip()) for row, why in parts]


def listed():
    """Returns what crates.txt lists for each crate: crates of the repository alone."""
    names = {name for name, _, _ in rows()}
    return {name: [it for it in libraries if it in names] for name, libraries, _ in rows()}


def headings(text, heading, name):
    """Returns the crates of a text by the headings above them, in order."""
    found = {}
    for line in re.finditer(rf"^(?:{heading}(?P<heading>.*)|{name}.*)$", text, re.M):
        if line["heading"]:
            found[line["heading"]] = []
        elif found:
            found[list(found)[-1]].append(line["name"])
    return {it: names for it, names in found.items() if names}


def room_faults():
    """Returns where crates.txt and ARCHITECTURE have other headings, headings that depend on one another, and crates without a reason."""
    ours = headings((TOP / "crates.txt").read_text(), "# ", r"(?P<name>[a-z]\w*)")
    theirs = headings(PAGE.read_text().partition("## The crates")[2].partition("\n## ")[0], "### ", r"\| `(?P<name>\w+)` \|")
    faults = [] if list(ours.items()) == list(theirs.items()) else ["crates.txt and docs/ARCHITECTURE.md have other headings, or other crates under them"]
    room = {name: it for it, names in ours.items() for name in names}
    below = {it: {room.get(other) for name in names for other in listed()[name]} - {it} for it, names in ours.items()}
    while free := {it for it, others in below.items() if not others & below.keys()}:
        below = {it: others for it, others in below.items() if it not in free}
    faults += [f"crates.txt: the crates under {', '.join(below)} depend on one another in a circle"] if below else []
    return faults + [f"crates.txt doesn't say why {name} is a crate of its own" for name, _, why in rows() if not why]


def closure(crates, name):
    return {name}.union(*(closure(crates, it) for it in crates[name]))


def directly(crates, name):
    """Returns the crates that a crate depends on, without those that another of them depends on."""
    return [it for it in crates[name] if not any(it in closure(crates, other) for other in crates[name] if other != it)]


def purpose(name):
    """Returns the first sentence at the head of a crate's root file, without the sections of the Report in brackets."""
    root = next(it for it in (TOP / "crates" / name / "src" / file for file in ("lib.rt", "main.rt")) if it.is_file())
    head = re.match(r"(?://! .+\n)*", root.read_text())[0]
    sentence = re.match(r"(.*?)\.(?: |$)", re.sub(r" *\n?//! ", " ", head).strip())
    return re.sub(r" \([^)]*(?:Report|Milner)[^)]*\)|\[(?=`)|(?<=`)\]", "", sentence[1]) if sentence else ""


def table_faults(write):
    crates, text = listed(), PAGE.read_text()
    wanted = {name: (purpose(name), ", ".join(f"`{it}`" for it in directly(crates, name))) for name in crates}
    if write:
        put = lambda row: f"| `{row[1]}` | {' | '.join(wanted[row[1]])} |{row[4]}|".replace("|  |", "| |") if row[1] in wanted else row[0]
        PAGE.write_text(ROW.sub(put, text))
        return []
    table = [(it[1], (it[2].strip(), it[3].strip())) for it in ROW.finditer(text) if it[1] in crates]
    names = [name for name, _ in table]
    faults = [f"docs/ARCHITECTURE.md has {names.count(name)} rows of {name}" for name in crates if names.count(name) != 1]
    order = {name: place for place, name in enumerate(names)}
    faults += [f"docs/ARCHITECTURE.md has {name} before {it}, on which it depends" for name in names for it in crates[name] if order.get(it, 0) > order[name]]
    for name, (does, below) in table:
        if does != wanted[name][0] or not does:
            faults.append(f"docs/ARCHITECTURE.md says that {name} does this: {does}; its root file says: {wanted[name][0]}")
        if below != wanted[name][1]:
            faults.append(f"docs/ARCHITECTURE.md says that {name} depends on {below}, and crates.txt {wanted[name][1]}")
    return faults


def generated_faults():
    faults = []
    for script in sorted(TOP.glob("crates/*/gen/*.py")):
        folder = script.parent.parent
        files = sorted(folder.glob("specs/**/*.antt"))
        before = {file: file.read_bytes() for file in files}
        ran = subprocess.run([sys.executable, str(script)], cwd=folder, stdin=subprocess.DEVNULL)
        changed = [file for file in files if file.read_bytes() != before[file]]
        for file in changed:
            file.write_bytes(before[file])
        if ran.returncode:
            faults.append(f"{script.relative_to(TOP)} ends with {ran.returncode}")
        faults += [f"{script.relative_to(TOP)} writes another {file.relative_to(TOP)}" for file in changed]
    return faults


def edit_faults():
    faults = []
    for edit in sorted(TOP.glob("crates/*/must-fail/*.edit")):
        texts, path, old, goals = {}, None, None, 0
        for line in edit.read_text().splitlines():
            word, _, rest = line.partition(": ")
            if word == "file":
                path = edit.parent.parent / rest.strip()
                texts.setdefault(path, path.read_text() if path.is_file() else "")
            elif word == "goal" and rest.strip():
                goals += 1
            elif word == "old":
                old = rest
            elif line.startswith("new:") and path and old:
                if texts[path].count(old) != 1:
                    faults.append(f"{edit.relative_to(TOP)}: its old text stands {texts[path].count(old)} times")
                texts[path] = texts[path].replace(old, line[5:])
        if goals != 1:
            faults.append(f"{edit.relative_to(TOP)} names {goals} goals")
    return faults


def is_file(path):
    """Whether a file or folder exists, perhaps with the ending of a source or a definition."""
    return any((path.parent / (path.name + ending)).exists() for ending in ("", ".antt", ".rt"))


def words_of(crate):
    """Returns the words of a crate's sources, definitions and proofs."""
    files = [it for part in ("src", "specs", "proofs") for it in (TOP / "crates" / crate / part).rglob("*") if it.is_file()]
    return set().union(*(re.findall(r"\w+", it.read_text()) for it in files)) if files else set()


def cited_faults():
    crates, faults, words = listed(), [], {}
    for page in [TOP / "README.md", *sorted((TOP / "docs").glob("*.md"))]:
        text, name = page.read_text(), page.relative_to(TOP)
        for cited in set(re.findall(r"(?:crates/)?(\w+/(?:src|specs|proofs|gen)/[\w+/]+(?:\.\w+)?)", text)):
            if cited.split("/")[0] in crates and not is_file(TOP / "crates" / cited):
                faults.append(f"{name} names {cited}, which doesn't exist")
        for cited in set(re.findall(r"\b((?:tests|bench|build|docs|\.ci)/\w[\w/]*(?:\.\w+)*)", text)):
            if not is_file(TOP / cited):
                faults.append(f"{name} names {cited}, which doesn't exist")
        for word, crate in set(re.findall(r"`(\w+)`(?: and `\w+`)? of `(\w+)`", text) + re.findall(r"`(\w+)` of `(\w+)`", text)):
            if crate in crates and word not in words.setdefault(crate, words_of(crate)):
                faults.append(f"{name} speaks of {word} of {crate}, which has no such word")
    return faults


def promise_faults():
    """Returns the files and names in PROMISES that no crate of their section has."""
    crates, faults = listed(), []
    everything = set().union(*map(words_of, crates))
    for section in re.split(r"^## ", (TOP / "docs" / "PROMISES.md").read_text(), flags=re.M)[1:]:
        heading, near = section.split("\n")[0], [it for it in dict.fromkeys(re.findall(r"\b\w+\b", section)) if it in crates]
        for row in re.findall(r"^\|.*\|([^|]*)\|$", section, re.M):
            for cited in re.findall(r"`([A-Z]\w*(?:/\w+)*)`", row):
                if not any(is_file(TOP / "crates" / it / "specs" / cited) or is_file(TOP / "crates" / it / "specs" / "Faults" / cited) for it in near):
                    faults.append(f"docs/PROMISES.md, {heading}: no crate has specs/{cited}")
        for word in set(re.findall(r"`([a-z0-9]+_\w+)`", section)):
            if word not in everything and word not in crates:
                faults.append(f"docs/PROMISES.md, {heading}: no crate has the word {word}")
    return faults


def trusted_faults():
    """README.md trusts the crates of the kit that crates.txt names, and no others."""
    crates = listed()
    kit = {word for _, libraries, _ in rows() for word in libraries if word not in crates}
    said = re.search(r"ported crates \(([^)]*)\)", (TOP / "README.md").read_text())
    differing = kit.symmetric_difference(re.findall(r"`(\w+)`", said[1]) if said else ())
    return [f"README.md trusts other crates of the kit than crates.txt names: {' '.join(sorted(differing))}"] if differing else []


def example_faults():
    """Returns the pieces of Rust in EMBEDDING that the example program doesn't have."""
    program = (TOP / "crates" / "hm_example" / "src" / "main.rt").read_text()
    pieces = re.findall(r"^```rust\n(.*?)^```", (TOP / "docs" / "EMBEDDING.md").read_text(), re.M | re.S)
    return [f"docs/EMBEDDING.md shows what hm_example doesn't have:\n{it}" for it in pieces if it not in program]


def status_faults():
    """Returns the texts that list other exit statuses than the definitions have."""
    texts = {
        "hmc/specs/Statuses": (TOP / "crates/hmc/specs/Statuses.antt", r"^code_of\w* \w+ = (\d+)$"),
        "hmc/src/main.rt, the constants": (TOP / "crates/hmc/src/main.rt", r"^const \w+: u8 = (\d+);$"),
        "hmc_words/src/lib.rt, the help": (TOP / "crates/hmc_words/src/lib.rt", r"^ +(\d) {2,}\w"),
        "docs/LANGUAGE.md, the table": (TOP / "docs/LANGUAGE.md", r"^\| (\d) \|"),
    }
    found = {name: {0, *map(int, re.findall(pattern, path.read_text(), re.M))} for name, (path, pattern) in texts.items()}
    wanted = found["hmc/specs/Statuses"]
    return [f"{name}: statuses {sorted(it)}, and hmc/specs/Statuses has {sorted(wanted)}" for name, it in found.items() if it != wanted or len(it) < 2]


def decision_faults():
    """Returns the decisions that are cited and don't exist, and those that no code cites."""
    sections = re.split(r"^## (.*)$", (TOP / "docs" / "DECISIONS.md").read_text(), flags=re.M)
    places = dict(zip(sections[1::2], sections[2::2]))
    plain = lambda name: name.replace("`", "").rstrip(".")
    named = {section: [plain(it) for it in re.findall(r"^(?:- )?\*\*(.+?)\*\*", text, re.M)] for section, text in places.items()}
    names = sum(named.values(), [])
    files = [it for part in ("build", "tests", "bench", "tools") for it in (TOP / part).rglob("*.py")]
    files += [TOP / "crates.txt", TOP / "prove", TOP / "hmc", *TOP.glob("crates/*/gen/*.py")]
    files += [it for ending in ("rt", "antt") for it in TOP.glob(f"crates/*/s*/**/*.{ending}")]
    cited = {name for it in files for line in re.findall(r'Why: docs/DECISIONS\.md((?:, "[^"\n]+")+)', it.read_text()) for name in re.findall(r'"(.+?)"', line)}
    faults = [f"docs/DECISIONS.md has {name} more than once" for name in sorted({it for it in names if names.count(it) > 1})]
    faults += [f"no decision is named {name}, which code cites" for name in sorted(cited - {*names})]
    wanted = [name for section, its in named.items() if section != "Speed" for name in its if name != "Width"]
    return faults + [f"docs/DECISIONS.md has {name}, which no code cites" for name in wanted if name not in cited]


def circle(files, root):
    """Returns the files of a crate that use one another in a circle, and those between two circles. `root` is the text of its root file."""
    homes = {name: name for name in files}
    for module, names in re.findall(r"\buse (?:crate::)?(\w+)::(\{[^}]*\}|\w+);", root):
        homes |= {name: module for name in re.findall(r"\w+", names) if module in files}
    names_in = lambda text: re.findall(r"\bcrate::(\{[^}]*\}|\w+)", text)
    used = {name: {homes[it] for part in names_in(text) for it in re.findall(r"\w+", part) if it in homes} - {name} for name, text in files.items()}
    while free := {name for name, others in used.items() if not others & used.keys() or not any(name in its for its in used.values())}:
        used = {name: others for name, others in used.items() if name not in free}
    return sorted(used)


def size_faults():
    """Returns the crates with too many lines of code, and those whose files use one another in a circle."""
    faults = []
    for name in listed():
        texts = {it.stem: it.read_text() for it in (TOP / "crates" / name / "src").rglob("*.rt")}
        lines = sum(len(it.splitlines()) for it in texts.values())
        faults += [f"{name} has {lines} lines of code, and {MOST_LINES} are the limit"] if lines > MOST_LINES else []
        # Ghost imports and citations of proofs name files of definitions and proofs.
        code = {it: re.sub(r"^(?:ghost use|#\[tactic).*$|//.*$", "", text, flags=re.M) for it, text in texts.items()}
        root = code.pop("lib", "") + code.pop("main", "")
        found = circle(code, root)
        if bool(found) != (name in CIRCLES):
            faults.append(f"{name}: " + (f"these files use one another in a circle: {' '.join(found)}" if found else "no circle of files is left, so take it out of CIRCLES"))
    return faults


def kind_faults():
    """Returns where documents and tests have other kinds of faults and of messages than the code."""
    text = lambda path: (TOP / path).read_text()
    language, notices = text("docs/LANGUAGE.md"), text("crates/hm_messages/src/notices.rt")
    words = set(re.findall(r'Kind::\w+ => "([\w-]+)"', text("crates/hm_verdicts/src/kinds.rt")))
    tables = ["".join(it) for it in re.findall(r"^(\| Word \| (?:Phase|First line) \|.*\n)((?:\|.*\n)+)", language, re.M) if "`unbound`" in it[1]]
    found = {f"docs/LANGUAGE.md, the table {it.splitlines()[0]}": set(re.findall(r"^\| `([\w-]+)` \|", it, re.M)) for it in tables}
    found["tests/haskell_sets/faults.py"] = set(re.findall(r'"([\w-]+)"', "".join(re.findall(r"^[A-Z]+ = \{.*\}$", text("tests/haskell_sets/faults.py"), re.M))))
    faults = [f"{place}: other kinds of faults than hm_verdicts/src/kinds.rt: {' '.join(sorted(its ^ words))}" for place, its in found.items() if its != words]
    faults += [] if len(tables) == 2 and words else ["docs/LANGUAGE.md doesn't have two tables of the kinds of faults"]
    notes = set(re.findall(r'\bnote\(\s*"([\w-]+)"|kind: "([\w-]+)"', notices))
    notes = {one or other for one, other in notes}
    # Those of changes have a function of their own.
    ways = set(re.findall(r'Way::\w+(?:\((?:_, )*_\))? => "([\w-]+)"', notices))
    kinds = words | notes | ways | set(re.findall(r'\berror\(\s*"([\w-]+)"', notices))
    of_schema = re.search(r'"kind": \{\s*"enum": \[(.*?)\]', text("tests/message.schema.json"), re.S)
    differing = kinds ^ set(re.findall(r'"([\w-]+)"', of_schema[1] if of_schema else ""))
    faults += [f"tests/message.schema.json has other kinds of messages than the code: {' '.join(sorted(differing))}"] if differing else []
    row = re.search(r"^\| `kind` \|.*$", language, re.M)
    missing = notes - set(re.findall(r"`([\w-]+)`", row[0] if row else ""))
    return faults + ([f"docs/LANGUAGE.md, the member kind, lacks {' '.join(sorted(missing))}"] if missing else [])


def main():
    write = sys.argv[1:] == ["--write"]
    faults = table_faults(write) + room_faults() + generated_faults() + edit_faults() + cited_faults() + promise_faults() + trusted_faults() + decision_faults() + status_faults() + example_faults()
    faults += size_faults() + kind_faults()
    print(*faults, sep="\n", end="\n" if faults else "")
    print(f"the repository agrees with itself: {'no' if faults else 'yes'}")
    return bool(faults)


if __name__ == "__main__":
    sys.exit(main())
