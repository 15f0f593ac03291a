#!/usr/bin/env python3
"""Runs the language server hmc_lsp for a folder, as ready.py runs hmc.

`server.py FOLDER` and `server.py --start FOLDER` run the proved program with these words if `rt ci` built it from the sources as they are now. Otherwise it runs the unproved one, which it
builds first if need be.
"""
# Why: docs/DECISIONS.md, "Unproved first".
import os
import sys

sys.dont_write_bytecode = True
sys.path.insert(0, os.path.dirname(os.path.abspath(__file__)))
import ready  # noqa: E402
import sources  # noqa: E402

ready.NAME, ready.SPEAKER = "hmc_lsp", "hmc-lsp"
ready.PROVED = sources.TOP / "crates" / ready.NAME / "out" / ready.NAME
ready.UNPROVED = ready.OUT / "unproved" / ready.NAME
ready.NOT_PROVED = "this program is not proved yet: rt ci proves and builds it"

if __name__ == "__main__":
    try:
        sys.exit(ready.main(sys.argv[1:3]))
    except KeyboardInterrupt:
        sys.exit(127)
