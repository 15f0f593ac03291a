#!/usr/bin/env python3
"""Tells where the instructions of a check go: 64 modules in layers of 16, by one worker.

`profile.py [PROGRAM]`: without PROGRAM, the proved program is run. First the stages, each with all that it calls; then the instructions by the part
that owns them: an allocator, a kind of table, a group of crates. `valgrind --tool=callgrind` counts, so other work on the machine doesn't matter.
Ends with 2 if there is no `valgrind`.
"""
# Why: docs/DECISIONS.md, "Blocks of memory".
import collections
import os
import re
import shutil
import subprocess
import sys
import tempfile

sys.path.insert(0, os.path.join(os.path.dirname(os.path.dirname(os.path.abspath(__file__))), "tools"))
from measuring import PROVED, measured  # noqa: E402
from sets import layered  # noqa: E402

# The crate of each stage. The stage is the function of the crate that takes most, with what it calls: the compiler may have put others into it.
STAGES = {"lexing": "hm_lex", "parsing": "hm_parse", "scope": "hm_scope", "inference": "hm_infer", "interface": "hm_scope_interface"}
# The first pattern that a function's line matches is its part.
OWNERS = {
    "allocation": r"malloc|rattle_(?:alloc|dealloc|realloc)|\bfree\b|std_alloc::(?:alloc|boxed|raw)",
    "copies and comparisons of bytes": r"mem(?:move|cpy|set|cmp)|core::cmp|core::slice",
    "tables and hashes": r"indexmap|std_collections|core::hash",
    "vectors": r"std_alloc::vec|vec",
    "lexer and parser": r"hm_(?:lex|texts|syntax|parse|run)\w*::",
    "types and solver": r"hm_(?:unify|types)\w*::",
    "scope": r"hm_(?:scope|names)\w*::",
    "inference": r"hm_(?:infer|check|typing)\w*::",
    "builds and the store": r"hm_(?:build|store|verdicts|graph)\w*::",
    "the rest": "",
}
LINE = re.compile(r"^ *([\d,]+) \( *[\d.]+%\) +(.*)$", re.M)


def lines(folder, *words):
    """Returns the functions of the profile with their instructions."""
    page = subprocess.run(["callgrind_annotate", "--threshold=100", "--auto=no", *words, f"{folder}/profile"], stdout=subprocess.PIPE, text=True, check=True).stdout
    return [(int(count.replace(",", "")), name) for count, name in LINE.findall(page)]


def main(program=PROVED):
    if not shutil.which("valgrind"):
        print("there is no valgrind on the PATH")
        return 2
    with tempfile.TemporaryDirectory() as folder:
        run = measured(["valgrind", "--tool=callgrind", f"--callgrind-out-file={folder}/profile", program, "--jobs", "1"], layered(36, 64))
        if run.status:
            print(f"a run fails: {run.told.decode(errors='replace')}")
            return 1
        owned, whole = lines(folder), lines(folder, "--inclusive=yes")
    total = whole[0][0]
    print(f"64 modules, --jobs 1: {total / 1e6:,.1f} million instructions")
    for stage, crate in STAGES.items():
        count = max((it for it, name in whole if re.search(rf":{crate}::", name)), default=0)
        print(f"{stage}, with what it calls: {count / 1e6:,.1f} million, {100 * count / total:.0f} %")
    sums = collections.Counter()
    for count, name in owned[1:]:
        sums[next(owner for owner, pattern in OWNERS.items() if re.search(pattern, name))] += count
    for owner, count in sums.most_common():
        print(f"own instructions of {owner}: {count / 1e6:,.1f} million, {100 * count / total:.0f} %")
    return 0


if __name__ == "__main__":
    sys.exit(main(*sys.argv[1:]))
