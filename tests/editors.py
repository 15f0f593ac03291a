#!/usr/bin/env python3
"""Runs the set-ups of editors/ in Vim, Neovim and Emacs, each without a window, on files with faults.

`editors.py PROGRAM`: an editor that isn't installed is passed over with a line. Ends with 1 if an editor shows something else.
"""
import json
import os
import pathlib
import re
import shutil
import subprocess
import sys
import tempfile

TOP = pathlib.Path(__file__).resolve().parent.parent
EDITORS = TOP / "editors"
# The place of 'other' is after characters outside ASCII, one of them outside Unicode's first plane.
FILES = {"A.hs": "module A where { import B ; x = y }\n", "B.hs": "module B where {\n  y = 1 ; {- \u00e4\U0001f600 -} z = other\n}\n"}
# Buffer, line, columns from 1 in characters, and the text.
WANTED = [["A.hs", 1, 25, 26, "skipped, since 'B' has errors"], ["B.hs", 2, 24, 29, "'other' isn't in scope"]]
VIM = """
set encoding=utf-8
let g:hmc_program = $PROGRAM
compiler! hmc
Hmc
call writefile([json_encode(map(getqflist(), {_, it -> [bufname(it.bufnr), it.lnum, it.col, it.end_col, it.text]}))], "shown")
qall!
"""
NVIM = """
vim.g.hmc_program = os.getenv("PROGRAM")
vim.cmd("edit B.hs")
local job = require("hmc").check(0)
vim.fn.jobwait({ job }, 20000)
vim.wait(2000, function() return #vim.diagnostic.get() == 2 end)
local shown = {}
for _, it in ipairs(vim.diagnostic.get()) do
  table.insert(shown, { vim.fn.fnamemodify(vim.api.nvim_buf_get_name(it.bufnr), ":t"), it.lnum + 1, it.col + 1, it.end_col + 1, it.message })
end
vim.fn.writefile({ vim.json.encode(shown) }, "shown")
vim.cmd("qall!")
"""
EMACS = """
(setq load-path (cons (getenv "SETUP") load-path) hmc-program (getenv "PROGRAM") hmc-shown nil)
(set-language-environment "UTF-8")
(require 'hmc-flymake)
(dolist (name '("A.hs" "B.hs"))
  (with-current-buffer (find-file-noselect name)
    (let ((answer nil))
      (hmc-flymake (lambda (found &rest _) (setq answer (list found))))
      (with-timeout (20 nil) (while (not answer) (accept-process-output nil 0.1)))
      (dolist (it (car answer))
        (save-excursion
          (goto-char (flymake-diagnostic-beg it))
          (push (vector name (line-number-at-pos) (1+ (current-column-in-characters)) (+ 1 (current-column-in-characters) (- (flymake-diagnostic-end it) (flymake-diagnostic-beg it)))
                        (flymake-diagnostic-text it)) hmc-shown))))))
(with-temp-file "shown" (insert (json-encode (vconcat (reverse hmc-shown)))))
"""
EMACS_COLUMN = "(defun current-column-in-characters () (- (point) (line-beginning-position)))\n"


def characters(row):
    """Returns a row of Vim or Neovim with its columns in characters."""
    name, line, start, end, text = row
    said = FILES[name].splitlines()[line - 1].encode()
    return [name, line, *(len(said[: it - 1].decode()) + 1 for it in (start, end)), text]


def plain(rows):
    """Returns rows without the kinds and the second lines of their texts, in order."""
    return sorted([*row[:4], re.sub(r"( \[[\w-]+\]|\n.*)$", "", row[4], flags=re.S)] for row in rows)


def shown(words, room, **env):
    """Runs an editor, and returns the rows that it wrote."""
    ran = subprocess.run(words, cwd=room, env={**os.environ, **env}, stdin=subprocess.DEVNULL, stdout=subprocess.PIPE, stderr=subprocess.STDOUT, timeout=60)
    file = pathlib.Path(room) / "shown"
    if not file.exists():
        return [["", 0, 0, 0, ran.stdout.decode(errors="replace")[-500:]]]
    return json.loads(file.read_text(encoding="utf-8"))


def vim(room, program):
    (room / "run.vim").write_text(VIM)
    words = ["vim", "-N", "-u", "NONE", "-i", "NONE", "-es", "--cmd", f"set runtimepath^={EDITORS}/vim", "-S", "run.vim"]
    return [characters(row) for row in shown(words, room, PROGRAM=program)]


def first_in_vim(room, program):
    """The entry that Vim jumps to is the error, and not the note of a module that is skipped for it."""
    return vim(room, program)[:1]


def vim_without_program(room, _):
    """A run without a result leaves the list alone, and says so."""
    (room / "run.vim").write_text(
        'let g:hmc_program = "/nonexistent/hmc"\ncompiler! hmc\ncall setqflist([{"text": "kept"}])\nredir => said\nHmc\nredir END\n'
        'call writefile([json_encode([["", 0, 0, 0, getqflist()[0].text . (said =~# "hmc: no result: " ? " and said" : said)]])], "shown")\nqall!\n'
    )
    words = ["vim", "-N", "-u", "NONE", "-i", "NONE", "-es", "--cmd", f"set runtimepath^={EDITORS}/vim", "-S", "run.vim"]
    return shown(words, room)


def vim_at(room, program):
    """The type of the name under the cursor, which is after a character outside ASCII."""
    (room / "C.hs").write_text("module C where {\n  f x y = {- \u00e4 -} x\n}\n", encoding="utf-8")
    (room / "run.vim").write_text(
        'set encoding=utf-8\nlet g:hmc_program = $PROGRAM\ncompiler! hmc\nedit C.hs\ncall cursor(2, 20)\n'
        'call writefile([json_encode([["C.hs", 2, 20, 20, join(HmcAt([]), ";")]])], "shown")\nqall!\n'
    )
    words = ["vim", "-N", "-u", "NONE", "-i", "NONE", "-es", "--cmd", f"set runtimepath^={EDITORS}/vim", "-S", "run.vim"]
    return shown(words, room, PROGRAM=program)


def neovim(room, program):
    (room / "run.lua").write_text(NVIM)
    words = ["nvim", "--headless", "-u", "NONE", "-n", "--cmd", f"set runtimepath^={EDITORS}/nvim", "-c", "luafile run.lua"]
    return [characters(row) for row in shown(words, room, PROGRAM=program)]


def emacs(room, program):
    (room / "run.el").write_text(EMACS_COLUMN + EMACS)
    return shown(["emacs", "-Q", "-batch", "-l", "run.el"], room, PROGRAM=program, SETUP=str(EDITORS / "emacs"))


CASES = (
    ("vim", "Vim's list", vim, WANTED),
    ("vim", "Vim's first entry", first_in_vim, WANTED[1:]),
    ("vim", "Vim without the program", vim_without_program, [["", 0, 0, 0, "kept and said"]]),
    ("vim", "Vim's type under the cursor", vim_at, [["C.hs", 2, 20, 20, "variable x;  bound at C.hs:2:5;  type a;  in f :: a -> b -> a"]]),
    ("nvim", "Neovim's diagnostics", neovim, WANTED),
    ("emacs", "Emacs's diagnostics", emacs, WANTED),
)


def main():
    program, failed = str(pathlib.Path(sys.argv[1]).resolve()), 0
    for editor, name, run, wanted in CASES:
        if not shutil.which(editor):
            print(f"{name}: {editor} isn't installed")
            continue
        with tempfile.TemporaryDirectory() as folder:
            room = pathlib.Path(folder)
            for file, text in FILES.items():
                (room / file).write_text(text, encoding="utf-8")
            found = plain(run(room, program))
        print(f"{name}: {'as wanted' if found == wanted else found}")
        failed += found != wanted
    return 1 if failed else 0


if __name__ == "__main__":
    sys.exit(main())
