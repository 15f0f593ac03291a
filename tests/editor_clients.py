#!/usr/bin/env python3
"""Drives the language server by the clients of Neovim and Emacs, each without a window.

`editor_clients.py PROGRAM`: PROGRAM is `hmc_lsp`, or the script `hmc-lsp`. A client that isn't installed is passed over with a line. Ends with 1 if a
client shows something else than what the protocol and the language say.

Each client opens B.hs, in which two arguments are exchanged. It shows the fault, the text of a hover and the place of a definition. The exchange is
undone by typing, which removes the fault, and made again. Then the server's own change is applied, and removes it too. At last a definition is renamed.
"""
import json
import os
import pathlib
import shutil
import subprocess
import sys
import tempfile

A = "module A where { f x = x ; g = f 1 }\n"
RIGHT = "module B where { import A ; h :: Char -> Bool -> Char ; h c b = c ; k = h 'c' True ; m = g }\n"
B = RIGHT.replace("'c' True", "True 'c'")
# The change exchanges the arguments, each in brackets, as LANGUAGE says of the note.
MENDED = RIGHT.replace("'c' True", "('c') (True)")
# Errors are places of line 0, and columns count from 0. A fault of types is at the first name of its definition.
WANTED = {
    "errors": [B.index("k =")],
    "hover": True,
    "definition": ["A.hs", A.index("g =")],
    "errors after typing": [],
    "errors after typing back": [B.index("k =")],
    "errors after a fix": [],
    "text after a fix": MENDED.strip(),
    "text after a rename": MENDED.replace("h ::", "first ::").replace("h c b", "first c b").replace("h (", "first (").strip(),
}
NVIM = """
local shown, folder, program = {}, vim.env.FOLDER, vim.env.PROGRAM
local id = vim.lsp.start_client({ name = "hmc", cmd = { program, folder }, root_dir = folder })
vim.cmd("edit " .. folder .. "/B.hs")
local buffer = vim.api.nvim_get_current_buf()
vim.lsp.buf_attach_client(buffer, id)
vim.wait(20000, function() return vim.lsp.buf_is_attached(buffer, id) and vim.lsp.get_client_by_id(id).initialized end, 10)
local function errors(count)
  local found
  vim.wait(20000, function()
    found = vim.diagnostic.get(buffer, { severity = vim.diagnostic.severity.ERROR })
    return #found == count
  end, 10)
  return #found == 0 and vim.empty_dict() or vim.tbl_map(function(it) return it.col end, found)
end
local function text() return vim.api.nvim_buf_get_lines(buffer, 0, 1, false)[1] end
local function ask(method, part, more)
  local at = { line = 0, character = text():find(part, 1, true) - 1 }
  local params = vim.tbl_extend("force", { textDocument = { uri = vim.uri_from_bufnr(buffer) }, position = at }, more or {})
  return vim.lsp.buf_request_sync(buffer, method, params, 20000)[id].result
end
local function type_in(old, new)
  local at = text():find(old, 1, true) - 1
  vim.api.nvim_buf_set_text(buffer, 0, at, 0, at + #old, { new })
end
shown["errors"] = errors(1)
shown["hover"] = ask("textDocument/hover", "g }").contents.value:find("variable g", 1, true) ~= nil
local place = ask("textDocument/definition", "g }")
shown["definition"] = { vim.fn.fnamemodify(vim.uri_to_fname(place.uri), ":t"), place.range.start.character }
type_in("True 'c'", "'c' True")
shown["errors after typing"] = errors(0)
type_in("'c' True", "True 'c'")
shown["errors after typing back"] = errors(1)
local at = text():find("h True", 1, true) - 1
local range = { start = { line = 0, character = at }, ["end"] = { line = 0, character = at + 10 } }
local actions = ask("textDocument/codeAction", "h True", { range = range, context = { diagnostics = {} } })
vim.lsp.util.apply_workspace_edit(actions[1].edit, vim.lsp.get_client_by_id(id).offset_encoding)
shown["errors after a fix"] = errors(0)
shown["text after a fix"] = text()
local renamed = ask("textDocument/rename", "h ::", { newName = "first" })
vim.lsp.util.apply_workspace_edit(renamed, vim.lsp.get_client_by_id(id).offset_encoding)
shown["text after a rename"] = text()
vim.fn.writefile({ vim.json.encode(shown) }, vim.env.SHOWN)
vim.lsp.stop_client(id)
vim.wait(5000, function() return vim.lsp.client_is_stopped(id) end, 10)
vim.cmd("qall!")
"""
# What both clients of Emacs need: the text is typed and read in the same way.
EMACS = """
(require 'package)
(add-to-list 'package-directory-list "/usr/share/emacs/site-lisp/elpa")
(package-initialize)
(require 'json)
(define-derived-mode hs-mode prog-mode "Hs")
(add-to-list 'auto-mode-alist '("\\\\.hs\\\\'" . hs-mode))
(defvar shown nil)
(defun show (name value) (push (cons name value) shown))
(defun wait-for (test) (with-timeout (20 nil) (while (not (funcall test)) (accept-process-output nil 0.02) (sit-for 0.01))))
(defun go-to (part) (goto-char (point-min)) (search-forward part) (goto-char (match-beginning 0)))
(defun type-in (old new) (go-to old) (delete-char (length old)) (insert new))
(defun text () (string-trim (buffer-substring-no-properties (point-min) (point-max))))
(defun name-of (uri) (file-name-nondirectory uri))
(defun errors (count)
  (let (found)
    (wait-for (lambda () (setq found (error-columns)) (= (length found) count)))
    (vconcat found)))
(defun steps ()
  (show "errors" (errors 1))
  (go-to "g }")
  (show "hover" (if (string-match-p "variable g" (hover-text)) t :json-false))
  (go-to "g }")
  (show "definition" (definition-place))
  (type-in "True 'c'" "'c' True") (send-changes)
  (show "errors after typing" (errors 0))
  (type-in "'c' True" "True 'c'") (send-changes)
  (show "errors after typing back" (errors 1))
  (go-to "h True")
  (apply-first-action (point) (+ (point) 10)) (send-changes)
  (show "errors after a fix" (errors 0))
  (show "text after a fix" (text))
  (go-to "h ::")
  (rename-to "first")
  (show "text after a rename" (text))
  (with-temp-file (getenv "SHOWN") (insert (json-encode shown))))
"""
EGLOT = """
(require 'eglot)
(add-to-list 'eglot-server-programs (list 'hs-mode (getenv "PROGRAM") (getenv "FOLDER")))
(setq eglot-confirm-server-initiated-edits nil eglot-sync-connect 20 eglot-events-buffer-size 0)
(setq project-find-functions (list (lambda (_) (cons 'transient (file-name-as-directory (getenv "FOLDER"))))))
(defun server () (eglot--current-server-or-lose))
(defun send-changes () (eglot--signal-textDocument/didChange))
(defun error-columns ()
  (flymake-start)
  (accept-process-output nil 0.1)
  (sort (delq nil (mapcar (lambda (it) (and (eq (flymake-diagnostic-type it) 'eglot-error) (1- (flymake-diagnostic-beg it)))) (flymake-diagnostics))) #'<))
(defun hover-text () (plist-get (plist-get (jsonrpc-request (server) :textDocument/hover (eglot--TextDocumentPositionParams)) :contents) :value))
(defun definition-place ()
  (let ((place (jsonrpc-request (server) :textDocument/definition (eglot--TextDocumentPositionParams))))
    (list (name-of (plist-get place :uri)) (plist-get (plist-get (plist-get place :range) :start) :character))))
(defun apply-first-action (start end)
  (let ((actions (jsonrpc-request (server) :textDocument/codeAction
          (list :textDocument (eglot--TextDocumentIdentifier) :context (list :diagnostics [])
                :range (list :start (eglot--pos-to-lsp-position start) :end (eglot--pos-to-lsp-position end))))))
    (eglot--apply-workspace-edit (plist-get (elt actions 0) :edit))))
(defun rename-to (name) (eglot-rename name))
(find-file (expand-file-name "B.hs" (getenv "FOLDER")))
(apply #'eglot (eglot--guess-contact))
(wait-for #'eglot-managed-p)
(steps)
(ignore-errors (eglot-shutdown (server)))
"""
LSP_MODE = """
(require 'lsp-mode)
(add-to-list 'lsp-language-id-configuration '(hs-mode . "haskell"))
(lsp-register-client (make-lsp-client :new-connection (lsp-stdio-connection (lambda () (list (getenv "PROGRAM") (getenv "FOLDER")))) :major-modes '(hs-mode) :server-id 'hmc))
(setq lsp-auto-guess-root t lsp-session-file (make-temp-name (getenv "SHOWN")) lsp-diagnostics-provider :none lsp-enable-snippet nil lsp-restart 'ignore
      lsp-idle-delay 0.05 lsp-debounce-full-sync-notifications nil lsp-warn-no-matched-clients nil)
(defun send-changes () (accept-process-output nil 0.1))
(defun rename-to (name) (lsp-rename name))
(defun start-of (place) (gethash "character" (gethash "start" (gethash "range" place))))
(defun error-columns ()
  (let ((found (append (gethash (lsp--fix-path-casing (file-truename buffer-file-name)) (lsp-diagnostics t)) nil)))
    (sort (delq nil (mapcar (lambda (it) (and (eql (gethash "severity" it) 1) (start-of it))) found)) #'<)))
(defun hover-text () (gethash "value" (gethash "contents" (lsp-request "textDocument/hover" (lsp--text-document-position-params)))))
(defun definition-place ()
  (let ((place (lsp-request "textDocument/definition" (lsp--text-document-position-params))))
    (list (name-of (gethash "uri" place)) (start-of place))))
(defun apply-first-action (start end)
  (let ((actions (lsp-request "textDocument/codeAction"
          (list :textDocument (lsp--text-document-identifier) :context (list :diagnostics [])
                :range (list :start (lsp--point-to-position start) :end (lsp--point-to-position end))))))
    (lsp-execute-code-action (elt actions 0))))
(find-file (expand-file-name "B.hs" (getenv "FOLDER")))
(lsp-workspace-folders-add (getenv "FOLDER"))
(lsp)
(wait-for (lambda () (lsp-workspaces)))
(steps)
(ignore-errors (lsp-workspace-shutdown (car (lsp-workspaces))))
"""


def is_emacs_package(name):
    """Returns whether Emacs finds a package."""
    words = ["emacs", "-Q", "-batch", "--eval", '(progn (require \'package) (add-to-list \'package-directory-list "/usr/share/emacs/site-lisp/elpa") (package-initialize))']
    return shutil.which("emacs") and subprocess.run([*words, "--eval", f"(require '{name})"], capture_output=True).returncode == 0


def neovim(room):
    (room / "run.lua").write_text(NVIM)
    return ["nvim", "--headless", "-u", "NONE", "-n", "-c", f"luafile {room}/run.lua"]


def emacs(room, more):
    (room / "run.el").write_text(EMACS + more)
    return ["emacs", "-Q", "-batch", "-l", str(room / "run.el")]


CLIENTS = (
    ("Neovim", lambda: shutil.which("nvim"), neovim),
    ("Eglot", lambda: is_emacs_package("eglot"), lambda room: emacs(room, EGLOT)),
    ("lsp-mode", lambda: is_emacs_package("lsp-mode"), lambda room: emacs(room, LSP_MODE)),
)


def shown_by(make, program):
    """Runs a client on a folder with A.hs and B.hs, and returns what it shows."""
    with tempfile.TemporaryDirectory() as room:
        room = pathlib.Path(room).resolve()
        folder = room / "set"
        folder.mkdir()
        (folder / "A.hs").write_text(A)
        (folder / "B.hs").write_text(B)
        env = {**os.environ, "FOLDER": str(folder), "PROGRAM": program, "SHOWN": str(room / "shown"), "HOME": str(room)}
        ran = subprocess.run(make(room), cwd=folder, env=env, stdin=subprocess.DEVNULL, stdout=subprocess.PIPE, stderr=subprocess.STDOUT, timeout=300)
        if not (room / "shown").exists():
            return {"ended": ran.stdout.decode(errors="replace")[-800:]}
        # A client may write an empty list as an object.
        found = json.loads((room / "shown").read_text(encoding="utf-8"))
        return {name: [] if value == {} else value for name, value in found.items()}


def main():
    program, failed = os.path.abspath(sys.argv[1]), 0
    for name, is_there, make in CLIENTS:
        if not is_there():
            print(f"{name}: isn't installed")
            continue
        found = shown_by(make, program)
        wrong = {step: (found.get(step), wanted) for step, wanted in WANTED.items() if found.get(step) != wanted}
        for step, (value, wanted) in wrong.items():
            print(f"{name}, {step}: {value!r} in place of {wanted!r}")
        if wrong:
            failed += 1
            print(f"{name}: {found.get('ended', 'ran to its end')}")
        else:
            print(f"{name}: all {len(WANTED)} steps as wanted")
    sys.exit(1 if failed else 0)


if __name__ == "__main__":
    main()
