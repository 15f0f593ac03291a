#!/usr/bin/env python3
"""Checks that a look-up can't wait: the prover's word for it is `proved`, and not `proved, may wait`.

`looks.py --printed FILE`, where FILE has what `rt ci` printed. A function may wait only by a bound `Wait` of its own or of its block, so the files
of the look-ups must not name that bound either. That is looked at too, since `rt ci` doesn't print the functions of a crate that an earlier run
proved. Ends with 1 where a look-up may wait.
"""
import argparse
import pathlib
import re
import sys

TOP = pathlib.Path(__file__).resolve().parent.parent
LOOKS = {
    "hm_store_published/src/published.rt": ["hm_store_published::published::Published::found"],
    "hm_store_published/src/reading.rt": ["hm_store_published::reading::Reader::look", "hm_store_published::reading::enter"],
    "hm_store_shared/src/passes.rt": [f"hm_store_shared::passes::Pass::{it}" for it in ("look", "look_at_seen", "look_at_all")],
}
WORD = re.compile(r"^fn ([\w:+]+): (.*)$", re.M)


def main():
    words = argparse.ArgumentParser(description=__doc__, formatter_class=argparse.RawDescriptionHelpFormatter)
    words.add_argument("--printed", required=True)
    printed = pathlib.Path(words.parse_args().printed).read_text(encoding="utf-8", errors="replace")
    said = {}
    for name, state in WORD.findall(printed):
        said.setdefault(name, set()).add(state.strip())
    faults = []
    for file, names in LOOKS.items():
        if re.search(r"\bWait\b", (TOP / "crates" / file).read_text(encoding="utf-8")):
            faults.append(f"{file} names the bound `Wait`")
        is_printed = any(it.startswith(names[0].partition("::")[0] + "::") for it in said)
        for name in names:
            states = said.get(name, {"not printed"} if is_printed else {"proved"})
            if states != {"proved"}:
                faults.append(f"{name}: {', '.join(sorted(states))}")
    for fault in faults:
        print(fault)
    if not faults:
        print(f"{sum(map(len, LOOKS.values()))} look-ups, of which none may wait")
    sys.exit(1 if faults else 0)


if __name__ == "__main__":
    main()
