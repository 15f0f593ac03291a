#!/usr/bin/env python3
"""Compares the documents with the program and with its figures.

`documents.py` ends with 1 if README.md's table of speeds has a figure that docs/FIGURES.md doesn't have.

`documents.py --program PROGRAM` runs the documents' examples instead: each command after `$ ` must print what follows it,
and each module in a block of Haskell must be good.
"""
import pathlib
import re
import subprocess
import sys
import tempfile

TOP = pathlib.Path(__file__).resolve().parent.parent
PAGES = [TOP / "README.md", *sorted((TOP / "docs").glob("*.md"))]


NUMBER = re.compile(r"\d[\d,.]*\d|\d")


def figures_by_script():
    """Returns the figures of docs/FIGURES.md by the script whose heading they are under."""
    page = TOP / "docs" / "FIGURES.md"
    parts = re.split(r"^## `(\S+?\.py)[^`]*`$", page.read_text() if page.exists() else "", flags=re.M)
    found = {}
    for script, text in zip(parts[1::2], parts[2::2]):
        found.setdefault(script, set()).update(NUMBER.findall(text))
    return found


def copied_figures():
    """Returns the figures of README's table of speeds that docs/FIGURES.md doesn't have under the script of their row, and the number of rows.

    A row without a script has that of the row above.
    """
    speed = (TOP / "README.md").read_text().partition("\n## Speed\n")[2].partition("\n## ")[0]
    rows, known, script, lost = re.findall(r"^\|.*\|$", speed, re.M)[2:], figures_by_script(), None, []
    for row in rows:
        named = re.search(r"`(\S+\.py)`", row)
        script = named[1] if named else script
        lost += [it for it in NUMBER.findall(row.split("|")[-2]) if it not in known.get(script, ())]
    return lost, len(rows)


def shown_examples(page):
    """Returns the commands of a page's blocks of code, each with what the page says that it prints, and its blocks of Haskell."""
    blocks = re.findall(r"^```(\w*)\n(.*?)^```", page.read_text(), re.M | re.S)
    shells = [re.split(r"^\$ ", text, flags=re.M)[1:] for _, text in blocks if text.startswith("$ ")]
    return [[it.partition("\n")[::2] for it in shell] for shell in shells], [text for kind, text in blocks if kind == "haskell"]


def run_examples(program):
    """Runs the examples of all documents. Returns those that print something else."""
    faults, count = [], 0
    for page in PAGES:
        shells, modules = shown_examples(page)
        for shell in shells + [[("cat A.hs", text), ("./hmc A.hs >/dev/null", "")] for text in modules]:
            with tempfile.TemporaryDirectory() as room:
                (pathlib.Path(room) / "hmc").symlink_to(program)
                for command, wanted in shell:
                    if command.startswith("cat "):
                        (pathlib.Path(room) / command[4:]).write_text(wanted)
                        kept = TOP / "examples" / command[4:]
                        if page.name == "README.md" and (not kept.is_file() or kept.read_text() != wanted):
                            faults.append(f"README.md: examples/{command[4:]} isn't as the page shows it")
                        continue
                    ran = subprocess.run(command, shell=True, cwd=room, stdout=subprocess.PIPE, stderr=subprocess.STDOUT, text=True)
                    count += 1
                    if ran.stdout != wanted or (not wanted and ran.returncode):
                        faults.append(f"{page.relative_to(TOP)}: {command} prints\n{ran.stdout}in place of\n{wanted}")
    print(*faults, sep="\n", end="\n" if faults else "")
    print(f"{count} examples of the documents, {len(faults)} differ")
    return bool(faults) or not count


def main():
    if sys.argv[1:2] == ["--program"]:
        return run_examples(pathlib.Path(sys.argv[2]).resolve())
    unknown, rows = copied_figures()
    if unknown or not rows:
        print(f"README.md: docs/FIGURES.md doesn't have {', '.join(unknown) or 'a table of speeds'}")
    print(f"README.md: {rows} cells with figures, {len(unknown)} not in docs/FIGURES.md")
    return bool(unknown) or not rows


if __name__ == "__main__":
    sys.exit(main())
