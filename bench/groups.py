#!/usr/bin/env python3
"""Builds the program bench/groups over hm_graph, in a copy of the crates that it needs, and runs it.

It prints how long `Digraph::groups` takes on large graphs. The copy keeps what was proved, so that only the program is
proved; it stands apart from the repository's crates, since the gate needn't prove it.
"""
import os
import shutil
import subprocess
import sys
import tempfile

TOP = os.path.dirname(os.path.dirname(os.path.abspath(__file__)))
BELOW = ["hm_lex", "hm_texts", "hm_syntax", "hm_graph_components", "hm_graph"]


def main():
    with open(os.path.join(TOP, "crates.txt")) as file:
        lines = [line for line in file if line.split(":")[0] in BELOW]
    with tempfile.TemporaryDirectory() as work:
        for name in BELOW:
            shutil.copytree(os.path.join(TOP, "crates", name), os.path.join(work, "crates", name))
        program = os.path.join(work, "crates", "groups")
        os.makedirs(os.path.join(program, "src"))
        shutil.copy(os.path.join(TOP, "bench", "groups", "main.text"), os.path.join(program, "src", "main.rt"))
        with open(os.path.join(work, "crates.txt"), "w") as file:
            file.write("".join(lines) + "groups: hm_graph anyhow\n")
        sys.exit(subprocess.run(["rt", "run"], cwd=program).returncode)


if __name__ == "__main__":
    main()
