#!/usr/bin/env python3
"""Talks to the language server as an editor does, and compares what it sends with what the protocol and the language say.

`server.py [PROGRAM]`: without PROGRAM, the proved program is run. Ends with 1 where a row differs.
"""
import os
import resource
import sys
import tempfile
import threading

sys.path.insert(0, os.path.join(os.path.dirname(os.path.dirname(os.path.abspath(__file__))), "tools"))
import lsp  # noqa: E402

A = "module A where { f x = x ; g = f 1 }\n"
B = "module B where { import A ; h :: Char -> Bool -> Char ; h c b = c ; k = h True 'c' ; m = g }\n"
# The most seconds of processor time for the references and the symbols of a source of 1 MB.
LONGEST = 15
# The most bytes of addresses for a server that may read a file without an end: 1 GiB of them is its stack.
MOST_MEMORY = 4 << 30
# A module whose names begin with what no name of Prelude begins with, after a letter of two units of UTF-16 and four of UTF-8.
V = "module V where { import A ; {- \U0001F600 -} data Wot = Wog Int | Woh ; vombat x = x ; vomble = A.g }"
TYPED = "p = case f 1 of { 0 -> True ; _ -> False } ; "


class Client(lsp.Client):
    """A client of a server that is started for a folder with A.hs and B.hs, with what each row found."""

    def __init__(self, program, folder, words=None):
        super().__init__(program, folder, words)
        self.program, self.rows, self.wrong = program, 0, 0

    def reply(self):
        """Returns the next reply, and passes over notifications."""
        while "method" in (message := self.receive()):
            pass
        return message

    def ask(self, method, **params):
        """Sends a request, and returns its reply, which is the next one."""
        self.last += 1
        self.send({"id": self.last, "method": method, "params": params})
        reply = self.reply()
        self.row(f"{method} has one reply", reply.get("id"), self.last)
        return reply

    def notify(self, method, **params):
        super().notify(method, params)

    def settle(self):
        """Waits until the diagnostics of all messages were sent."""
        for _ in range(2):
            self.ask("hmc/nothing")

    def published(self, count):
        """Returns the diagnostics of the next notifications, by the name of the file."""
        found = {}
        for _ in range(count):
            message = self.receive()
            self.row("a notification has no id", (message.get("method"), "id" in message), (lsp.PUBLISHED, False))
            found[message["params"]["uri"].rpartition("/")[2]] = message["params"]["diagnostics"]
        return found

    def row(self, what, found, wanted):
        self.rows += 1
        if found != wanted:
            self.wrong += 1
            print(f"{what}: {found!r} in place of {wanted!r}")


def position(text, part, after=0):
    return {"line": 0, "character": text.index(part) + after}


def between(text, part, size=None):
    return {"start": position(text, part), "end": position(text, part, len(part) if size is None else size)}


def codes(diagnostics):
    return [it["code"] for it in diagnostics if it["severity"] == 1]


def start_and_check(it):
    it.row("before initialize", it.ask("textDocument/hover")["error"]["code"], -32002)
    made = it.ask("initialize", capabilities={"general": {"positionEncodings": ["utf-16"]}})["result"]["capabilities"]
    it.row("encoding", made["positionEncoding"], "utf-16")
    it.row("renames", made["renameProvider"], True)
    it.row("completions", made["completionProvider"], {"triggerCharacters": ["."]})
    it.notify("initialized")
    found = it.published(1)
    it.row("diagnostics of the folder", codes(found["B.hs"]), ["type"])
    it.row("the marked name", found["B.hs"][0]["range"]["start"], position(B, "k ="))


def refer(it, doc):
    """Asks where 'g' of A is written, which B imports and uses once, and where the parameter 'c' is."""
    at = {"textDocument": doc, "position": position(B, "m = g", 4)}
    places = [{"uri": it.uri("A.hs"), "range": between(A, "g")}, {"uri": it.uri("B.hs"), "range": between(B, "g }", 1)}]
    it.row("references in both files", it.ask("textDocument/references", **at, context={"includeDeclaration": True})["result"], places)
    it.row("references without the declaration", it.ask("textDocument/references", **at, context={"includeDeclaration": False})["result"], places[1:])
    it.row("highlights in one file", it.ask("textDocument/documentHighlight", **at)["result"], [{"kind": 2, "range": places[1]["range"]}])
    local = it.ask("textDocument/documentHighlight", textDocument=doc, position=position(B, "c b"))["result"]
    wanted = [(3, between(B, "c b", 1)), (2, between(B, "c ; k", 1))]
    it.row("highlights of a parameter", [(one["kind"], one["range"]) for one in local], wanted)
    it.row("no references at a bracket", it.ask("textDocument/references", textDocument=doc, position=position(B, "{"), context={})["result"], None)
    it.row("no position", it.ask("textDocument/references", textDocument=doc)["error"]["code"], -32602)


def outline(it, doc):
    """Asks what B declares. Its signature and its import declare nothing."""
    names = [("B", 2, "B where"), ("h", 12, "h c b"), ("k", 12, "k ="), ("m", 12, "m =")]
    wanted = [{"kind": kind, "name": name, "range": where, "selectionRange": where} for name, kind, part in names for where in [between(B, part, 1)]]
    it.row("symbols of a document", it.ask("textDocument/documentSymbol", textDocument=doc)["result"], wanted)
    found = it.ask("workspace/symbol", query="K")["result"]
    it.row("symbols of the folder", found, [{"kind": 12, "location": {"range": between(B, "k =", 1), "uri": it.uri("B.hs")}, "name": "k"}])
    it.row("no query", it.ask("workspace/symbol")["error"]["code"], -32602)
    it.row("symbols of no document", it.ask("textDocument/documentSymbol", textDocument={"uri": it.uri("C.hs")})["error"]["code"], -32602)


def in_units(text, offset, encoding="utf-16"):
    """Returns the position after so many letters of a text of one line."""
    size = {"utf-8": 1, "utf-16": 2}[encoding]
    return {"line": 0, "character": len(text[:offset].encode(encoding + "-le" if size > 1 else encoding)) // size}


def completed(it, doc, text, end, encoding="utf-16"):
    """Returns what the server offers after so many letters of a text of one line: names, kinds and types, with the one range that they replace."""
    found = it.ask("textDocument/completion", textDocument=doc, position=in_units(text, end, encoding))["result"]
    it.row("all names are offered at once", found["isIncomplete"], False)
    it.row("the edits write the names", [one["textEdit"]["newText"] for one in found["items"]], [one["label"] for one in found["items"]])
    ranges = [one["textEdit"]["range"] for one in found["items"]]
    it.row("the names have one range", all(one == ranges[0] for one in ranges), True)
    return sorted((one["label"], one["kind"], one.get("detail")) for one in found["items"]), ranges and ranges[0]


def complete(it, encoding="utf-16"):
    """Asks for the names that may be written at places of V: variables, constructors and types of its scope, bare and qualified ones."""
    doc, end = {"uri": it.uri("V.hs")}, V.index("A.g")
    it.notify("textDocument/didOpen", textDocument={**doc, "languageId": "haskell", "version": 1, "text": V})

    def before(text, size):
        return {"start": in_units(text, len(text) - size, encoding), "end": in_units(text, len(text), encoding)}

    own = [("vomble", 3, "Int"), ("vombat", 3, "a -> a")]
    rows = [
        ("names with a prefix", V[: V.index("mbat")], sorted(own), 2),
        ("names with a prefix that is longer", V[: V.index("bat")], sorted(own), 3),
        ("types and constructors", V[: V.index("ot =")], [("Wog", 4, "Int -> V.Wot"), ("Woh", 4, "V.Wot"), ("Wot", 22, None)], 1),
        ("qualified names", V[: end + 2], [("A.f", 3, "a -> a"), ("A.g", 3, "Int")], 2),
        ("one qualified name", V[: end + 3], [("A.g", 3, "Int")], 3),
    ]
    for what, text, names, size in rows:
        it.row(what, completed(it, doc, V, len(text), encoding), (names, before(text, size)))
    names, where = completed(it, doc, V, end, encoding)
    labels = [name for name, _, _ in names]
    wanted = {"A.f", "Bool", "V.vombat", "True", "f", "map", "vombat", "Wot"}
    it.row("names without a prefix", (sorted(wanted - set(labels)), "x" in labels, where), ([], False, before(V[:end], 0)))
    late = it.ask("textDocument/completion", textDocument=doc, position={"line": 7, "character": 0})["result"]["items"]
    it.row("names after the end", (len(late), late[0]["textEdit"]["range"]), (len(names), before(V, 0)))
    complete_as_typed(it, doc, encoding)
    it.notify("textDocument/didClose", textDocument=doc)
    it.settle()


def complete_as_typed(it, doc, encoding):
    """Asks in texts that can't be read, and in modules without completions."""
    unread = V[: V.index("A.g")] + "( vomb"
    it.notify("textDocument/didChange", textDocument={**doc, "version": 2}, contentChanges=[{"text": unread}])
    found = completed(it, doc, unread, len(unread), encoding)[0]
    it.row("names of the last text that could be read", [name for name, _, _ in found], ["vombat", "vomble"])
    text = V.replace("import A", "import B")
    it.notify("textDocument/didChange", textDocument={**doc, "version": 3}, contentChanges=[{"text": text}])
    it.row("a skipped module has none", completed(it, doc, text, text.index("mbat"), encoding), ([], []))
    text = V.replace("A.g", "nothing")
    it.notify("textDocument/didChange", textDocument={**doc, "version": 4}, contentChanges=[{"text": text}])
    found = completed(it, doc, text, text.index("mbat"), encoding)[0]
    it.row("names of a faulty module have no types", found, [("vombat", 3, None), ("vomble", 3, None)])
    it.row("completions of no document", it.ask("textDocument/completion", textDocument={"uri": it.uri("None.hs")}, position=position(B, "{"))["error"]["code"], -32602)
    it.row("completions at no position", it.ask("textDocument/completion", textDocument=doc)["error"]["code"], -32602)


def renamed(text, edits):
    """Returns a text of one line after edits, which are in order."""
    for edit in reversed(edits):
        start, end = (edit["range"][it]["character"] for it in ("start", "end"))
        text = text[:start] + edit["newText"] + text[end:]
    return text


def refuse_renames(it, doc, at):
    """Asks for renames that aren't made. Each is refused for its reason."""
    bracket = {"textDocument": doc, "position": position(B, "{")}
    prelude = {"textDocument": doc, "position": position(B, "True")}
    rows = [
        ("a rename to a taken name", at, "f", "hmc doesn't accept these sources with the new name"),
        ("a rename to a name of another kind", at, "F", "hmc doesn't accept these sources with the new name"),
        ("a rename to a reserved word", at, "of", "the new name isn't a name without a qualifier"),
        ("a rename to a qualified name", at, "A.h", "the new name isn't a name without a qualifier"),
        ("a rename of a name of Prelude", prelude, "Yes", "this name isn't bound in these sources"),
        ("a rename at a bracket", bracket, "fresh", "no name is at this position"),
    ]
    for what, where, name, why in rows:
        it.row(what, it.ask("textDocument/rename", **where, newName=name).get("error"), {"code": -32803, "message": why})


def prepare_renames(it, doc, at):
    """Asks for the name that a rename is of. It is without its qualifier, and has to be bound in one of the files."""
    it.row("the name of a rename", it.ask("textDocument/prepareRename", **at)["result"], {"placeholder": "g", "range": between(B, "g }", 1)})
    for what, part, why in (("Prelude's", "True", "this name isn't bound in these sources"), ("no name", "{", "no name is at this position")):
        found = it.ask("textDocument/prepareRename", textDocument=doc, position=position(B, part)).get("error")
        it.row(f"{what} before a rename", found, {"code": -32803, "message": why})
    it.row("no position before a rename", it.ask("textDocument/prepareRename", textDocument=doc)["error"]["code"], -32602)
    qualified, text = {"uri": it.uri("Q.hs")}, "module Q where { import A ; q = A.g }"
    it.notify("textDocument/didOpen", textDocument={**qualified, "languageId": "haskell", "version": 1, "text": text})
    for after in range(3):
        found = it.ask("textDocument/prepareRename", textDocument=qualified, position=position(text, "A.g", after))["result"]
        it.row("a qualified name before a rename", found, {"placeholder": "g", "range": between(text, "g }", 1)})
    it.notify("textDocument/didChange", textDocument={**qualified, "version": 2}, contentChanges=[{"text": "module Q where {"}])
    found = it.ask("textDocument/prepareRename", **at).get("error")
    it.row("before a rename in a set with a text that can't be read", found, {"code": -32803, "message": "hmc hasn't checked every module as it is now"})
    it.notify("textDocument/didClose", textDocument=qualified)
    it.settle()


def rename(it, doc):
    """Renames 'g' of A, which B imports, and asks for names that it can't have. The renamed texts have the faults of the old ones."""
    at = {"textDocument": doc, "position": position(B, "m = g", 4)}
    edits = [("A.hs", between(A, "g")), ("B.hs", between(B, "g }", 1))]
    wanted = [{"edits": [{"newText": "fresh", "range": where}], "textDocument": {"uri": it.uri(name), "version": None}} for name, where in edits]
    made = it.ask("textDocument/rename", **at, newName="fresh")["result"]
    it.row("a rename in both files", made, {"documentChanges": wanted})
    refuse_renames(it, doc, at)
    prepare_renames(it, doc, at)
    it.row("a rename without a name", it.ask("textDocument/rename", **at)["error"]["code"], -32602)
    it.row("a rename without a position", it.ask("textDocument/rename", textDocument=doc, newName="fresh")["error"]["code"], -32602)
    a, b = (renamed(text, its["edits"]) for text, its in zip((A, B), made["documentChanges"]))
    it.row("the renamed texts", ("fresh = f 1" in a, "m = fresh" in b), (True, True))
    it.notify("textDocument/didOpen", textDocument={"uri": it.uri("A.hs"), "languageId": "haskell", "version": 1, "text": a})
    it.notify("textDocument/didChange", textDocument={**doc, "version": 2}, contentChanges=[{"text": b}])
    hover = it.ask("textDocument/hover", textDocument=doc, position=position(b, "m = fresh", 4))["result"]
    it.row("the new name is known", "variable fresh" in hover["contents"]["value"], True)
    it.settle()
    it.row("the faults after a rename", [codes(it.shown.get(it.uri(name), [])) for name in ("A.hs", "B.hs")], [[], ["type"]])
    it.notify("textDocument/didChange", textDocument={**doc, "version": 3}, contentChanges=[{"text": B}])
    it.notify("textDocument/didClose", textDocument={"uri": it.uri("A.hs")})
    it.settle()


def look(it):
    doc = {"uri": it.uri("B.hs")}
    it.notify("textDocument/didOpen", textDocument={**doc, "languageId": "haskell", "version": 1, "text": B})
    hover = it.ask("textDocument/hover", textDocument=doc, position=position(B, "m = g", 4))["result"]
    it.row("a hover names its kind", "variable" in hover["contents"]["value"], True)
    place = it.ask("textDocument/definition", textDocument=doc, position=position(B, "m = g", 4))["result"]
    it.row("a definition in another file", (place["uri"], place["range"]["start"]), (it.uri("A.hs"), position(A, "g =")))
    it.row("nothing at a bracket", it.ask("textDocument/hover", textDocument=doc, position=position(B, "{"))["result"], None)
    refer(it, doc)
    outline(it, doc)
    complete(it)
    rename(it, doc)
    it.row("no such document", it.ask("textDocument/hover", textDocument={"uri": it.uri("C.hs")}, position=position(B, "{"))["error"]["code"], -32602)
    it.row("an unknown method", it.ask("textDocument/formatting")["error"]["code"], -32601)


def mend(it):
    """Makes the edits of an action, after which no fault is left."""
    doc = {"uri": it.uri("B.hs")}
    actions = it.ask("textDocument/codeAction", textDocument=doc, range=between(B, "h True 'c'"), context={"diagnostics": []})["result"]
    it.row("an action", len(actions) > 0, True)
    edits = actions[0]["edit"]["changes"][it.uri("B.hs")]
    changes = [{"range": e["range"], "text": e["newText"]} for e in reversed(edits)]
    it.notify("textDocument/didChange", textDocument={**doc, "version": 4}, contentChanges=changes)
    it.row("nothing is left", it.published(1), {"B.hs": []})


def type_letters(it):
    """Types a definition letter by letter into A. B keeps its own state, whether or not A can be read."""
    doc = {"uri": it.uri("A.hs")}
    it.notify("textDocument/didOpen", textDocument={**doc, "languageId": "haskell", "version": 1, "text": A})
    for number, letter in enumerate(TYPED):
        at = position(A, "g =", number)
        it.notify("textDocument/didChange", textDocument={**doc, "version": 2 + number}, contentChanges=[{"range": {"start": at, "end": at}, "text": letter}])
    hover = it.ask("textDocument/hover", textDocument=doc, position=position(A, "g =", len(TYPED)))["result"]
    it.row("the name after what was typed", hover is not None, True)


def keep_faults(it):
    """Types a definition letter by letter into A, and waits for the diagnostics of each state. B keeps its own fault in all of them, and so it does
    while A imports a module that isn't there."""
    a, b = it.uri("A.hs"), it.uri("B.hs")
    it.notify("textDocument/didChange", textDocument={"uri": b, "version": 100}, contentChanges=[{"text": B}])
    it.notify("textDocument/didChange", textDocument={"uri": a, "version": 100}, contentChanges=[{"text": A}])
    it.settle()
    it.row("B has a fault of its own", codes(it.shown.get(b, [])), ["type"])
    states = [A.replace("f x", typed[:size] + "f x") for typed in (TYPED, "import Missing ; ") for size in range(len(typed) + 1)]
    for number, text in enumerate(states):
        it.notify("textDocument/didChange", textDocument={"uri": a, "version": 101 + number}, contentChanges=[{"text": text}])
        it.settle()
        it.row(f"B keeps its fault beside {text!r}", codes(it.shown.get(b, [])), ["type"])
    it.notify("textDocument/didChange", textDocument={"uri": b, "version": 101}, contentChanges=[{"text": B.replace("k =", "  k =")}])
    it.settle()
    it.row("a fault that moves is at its place of now", [each["range"]["start"] for each in it.shown.get(b, []) if each["severity"] == 1], [position(B, "k =", 2)])
    it.notify("textDocument/didChange", textDocument={"uri": b, "version": 102}, contentChanges=[{"text": B.replace("h True 'c'", "h 'c' True")}])
    it.settle()
    it.row("B has no fault when it is mended", codes(it.shown.get(b, [])), [])
    it.notify("textDocument/didChange", textDocument={"uri": a, "version": 300}, contentChanges=[{"text": A}])
    it.settle()
    it.row("nothing is skipped any more", [it.shown.get(uri, []) for uri in (a, b)], [[], []])


def fixes_at(it, doc, where):
    """Returns the title of each fix for a range, with the code of the error that goes and what is written where."""
    found = it.ask("textDocument/codeAction", textDocument=doc, range=where, context={"diagnostics": []})["result"]
    edits = [each["edit"]["changes"][doc["uri"]] for each in found]
    return [(each["title"], [one["code"] for one in each["diagnostics"]], [(e["range"], e["newText"]) for e in its]) for each, its in zip(found, edits)]


def fix(it):
    """Asks for fixes of names, of signatures, of imports and of brackets, and makes one of each text. B is open."""
    doc = {"uri": it.uri("B.hs")}
    near = "module B where { double x = x ; k = doubel 1 ; m = True 'c' ; n = dobule 'd' }\n"
    signed = "module B where { h :: Int -> Bool ; h x = x }\n"
    broken = "module B where { double x = x ; k = (double ; m = doubel 2 }\n"
    without = "module B where { k = g }\n"
    rows = [
        ("a name with a fault of a later phase behind it", near, "doubel 1", ("write 'double'", ["unbound"], [(between(near, "doubel"), "double")]), ["unbound"]),
        ("a name beside one that is mended", near, "dobule", ("write 'double'", ["unbound"], [(between(near, "dobule"), "double")]), ["unbound"]),
        ("a signature, by the place of its note", signed, "h :: Int", ("write 'h :: a -> a'", ["type"], [(between(signed, "h :: Int -> Bool"), "h :: a -> a")]), []),
        ("a name of a module that isn't imported", without, "g", ("write ' import A (g) ;'", ["unbound"], [(between(without, " k", 0), " import A (g) ;")]), []),
        ("a bracket of a text that can't be read", broken, " ; m", ("write ')'", ["syntax"], [(between(broken, "; m", 0), ")")]), ["unbound"]),
    ]
    for number, (what, text, part, wanted, left) in enumerate(rows):
        it.notify("textDocument/didChange", textDocument={**doc, "version": 400 + 2 * number}, contentChanges=[{"text": text}])
        it.settle()
        found = fixes_at(it, doc, between(text, part))
        it.row(f"a fix of {what}", found, [wanted])
        it.row(f"no fix at the name of the module, beside {what}", fixes_at(it, doc, between(text, "module")), [])
        changes = [{"range": where, "text": new} for _, _, edits in found for where, new in reversed(edits)]
        it.notify("textDocument/didChange", textDocument={**doc, "version": 401 + 2 * number}, contentChanges=changes)
        it.settle()
        it.row(f"what is left after the fix of {what}", codes(it.shown.get(doc["uri"], [])), left)
    it.row("all fixes of a text", len(fixes_at(it, doc, between(broken, broken))), 1)
    it.row("fixes without a range", it.ask("textDocument/codeAction", textDocument=doc)["error"]["code"], -32602)
    it.row("fixes of no document", it.ask("textDocument/codeAction", textDocument={"uri": it.uri("None.hs")}, range=between(B, "B"))["error"]["code"], -32602)
    it.notify("textDocument/didChange", textDocument={**doc, "version": 500}, contentChanges=[{"text": B.replace("h True 'c'", "h 'c' True")}])
    it.settle()
    it.row("no fix of a good text", fixes_at(it, doc, between(B, B)), [])


def escape_letters(it):
    """Opens a file of the folder by a URI with an escape that isn't needed. It is the same document."""
    it.notify("textDocument/didClose", textDocument={"uri": it.uri("A.hs")})
    other = {"uri": it.uri("%41.hs")}
    it.notify("textDocument/didOpen", textDocument={**other, "languageId": "haskell", "version": 1, "text": A})
    hover = it.ask("textDocument/hover", textDocument={"uri": it.uri("A.hs")}, position=position(A, "g ="))["result"]
    it.row("a document by its other URI", hover is not None, True)
    it.notify("textDocument/didChange", textDocument={"uri": it.uri("B.hs"), "version": 5}, contentChanges=[{"text": B}])
    place = it.ask("textDocument/definition", textDocument={"uri": it.uri("B.hs")}, position=position(B, "m = g", 4))["result"]
    it.row("a definition has the URI of the client", place and (place["uri"], place["range"]["start"]), (other["uri"], position(A, "g =")))


def move_diagnostics(it):
    """Opens a faulty file by one URI, and then by another one too. Its diagnostics are under the last one alone."""
    text = "module E where { e = missing }"
    uris = [it.uri("E.hs"), it.uri("%45.hs")]
    for uri in uris:
        it.notify("textDocument/didOpen", textDocument={"uri": uri, "languageId": "haskell", "version": 1, "text": text})
        it.settle()
        it.row("a faulty file has one list of diagnostics", [bool(it.shown.get(each)) for each in uris], [each == uri for each in uris])
    for uri in uris:
        it.notify("textDocument/didClose", textDocument={"uri": uri})
    it.settle()
    it.row("a closed file has no diagnostics", [it.shown.get(uri) for uri in uris], [[], []])


def watch_files(it):
    """Writes and deletes files, and says so. Their texts count while they aren't open."""
    faulty, good = "module W where { w = missing }", "module W where { w = True }"
    path, uri = os.path.join(it.folder, "W.hs"), it.uri("W.hs")

    def write(text, kind, name=path, where=uri):
        os.makedirs(os.path.dirname(name), exist_ok=True)
        with open(name, "w", encoding="utf-8") as file:
            file.write(text)
        it.notify("workspace/didChangeWatchedFiles", changes=[{"uri": where, "type": kind}])
        it.settle()

    write(faulty, 1)
    it.row("a new file", codes(it.shown.get(uri, [])), ["unbound"])
    write(good, 2)
    it.row("a changed file", it.shown.get(uri), [])
    it.notify("textDocument/didOpen", textDocument={"uri": uri, "languageId": "haskell", "version": 1, "text": good})
    write(faulty, 2)
    it.row("a changed file that is open", it.shown.get(uri), [])
    it.notify("textDocument/didClose", textDocument={"uri": uri})
    it.settle()
    it.row("the text of the file after that", codes(it.shown.get(uri, [])), ["unbound"])
    os.remove(path)
    it.notify("workspace/didChangeWatchedFiles", changes=[{"uri": uri, "type": 3}])
    it.settle()
    it.row("a deleted file", it.shown.get(uri), [])
    for name in (".hidden/W.hs", "W.txt"):
        write(faulty, 1, os.path.join(it.folder, name), it.uri(name))
        it.row("a file that is no source", it.shown.get(it.uri(name), []), [])


def cancel(it):
    """Cancels the second of three requests that wait. Each has a reply, in order."""
    where = {"textDocument": {"uri": it.uri("B.hs")}, "position": position(B, "h ::")}
    asked = [{"id": f"{number}", "method": "textDocument/hover", "params": where} for number in range(3)]
    cancels = [{"method": "$/cancelRequest", "params": {"id": name}} for name in ("1", 2)]
    it.write(b"".join(map(lsp.frame, asked + cancels)))
    found = [it.reply() for _ in asked]
    it.row("the replies", [(reply["id"], reply.get("error", {}).get("code")) for reply in found], [("0", None), ("1", -32800), ("2", None)])
    it.notify("$/cancelRequest", id="2")
    it.row("after a cancel that comes too late", it.ask("textDocument/hover", **where)["result"] is None, False)


def offer(it):
    """Starts another server for a client that offers more: to watch files, and to ask for the name of a rename first."""
    plain = it.ask("initialize", capabilities={})["error"]["code"]
    it.row("initialize again", plain, -32600)
    other = Client(it.program, it.folder)
    offered = {"general": {"positionEncodings": ["utf-8"]}, "textDocument": {"rename": {"prepareSupport": True}}, "workspace": {"didChangeWatchedFiles": {"dynamicRegistration": True}}}
    made = other.ask("initialize", capabilities=offered)["result"]["capabilities"]
    other.row("renames with their names", made["renameProvider"], {"prepareProvider": True})
    other.notify("initialized")
    while (message := other.receive()).get("method") == lsp.PUBLISHED:
        pass
    watched = [it["registerOptions"] for it in message["params"]["registrations"] if it["method"] == "workspace/didChangeWatchedFiles"]
    other.row("a request to watch files", (message["method"], watched), ("client/registerCapability", [{"watchers": [{"globPattern": "**/*.hs"}]}]))
    other.send({"id": message["id"], "result": None})
    complete(other, "utf-8")
    finish(other)
    it.rows, it.wrong = it.rows + other.rows, it.wrong + other.wrong


def open_folders(it):
    """Starts servers without a folder, or with one to start in, for clients that open folders or none."""
    with tempfile.TemporaryDirectory() as top:
        one, two, three = (os.path.join(top, name) for name in ("one", "a two", "three"))
        texts = {f"{one}/A.hs": A, f"{two}/B.hs": B, f"{two}/deep/C.hs": "module C where { c = missing }", f"{three}/A.hs": A, f"{three}/E.hs": "module E where { e = missing }", f"{three}/hmc.files": "A.hs\n\n./in/F.hs\nnone.hs\n", f"{three}/in/F.hs": "module F where { f = missing }"}
        for path, text in texts.items():
            os.makedirs(os.path.dirname(path), exist_ok=True)
            with open(path, "w", encoding="utf-8") as file:
                file.write(text)
        uri = {folder: f"file://{folder}".replace(" ", "%20") for folder in (one, two, three)}
        listed = [{"uri": uri[folder], "name": "a folder"} for folder in (one, two)] + [{"uri": uri[two] + "/deep", "name": "in it"}]
        both, deep, some = {"B.hs": ["type"], "C.hs": ["unbound"]}, {"B.hs": ["missing"], "C.hs": ["unbound"]}, {"F.hs": ["unbound"]}
        rows = [
            ("folders of a list", [], {"workspaceFolders": listed, "rootUri": uri[three]}, both),
            ("the root of a client without a list", [], {"workspaceFolders": None, "rootUri": uri[two] + "/"}, deep),
            ("no folder", [], {"workspaceFolders": None, "rootUri": None}, {}),
            ("an empty list", ["--start", two], {"workspaceFolders": [], "rootUri": uri[three]}, deep),
            ("the folder to start in", ["--start", two], {}, deep),
            ("a folder in place of that to start in", ["--start", two], {"rootUri": uri[three]}, some),
            ("the folder of the command line", [two], {"rootUri": uri[three]}, deep),
            ("a folder that isn't on the disk", ["--start", two], {"rootUri": "untitled:a"}, {}),
            ("the sources that a client lists", [], {"rootUri": uri[three], "initializationOptions": {"sources": ["A.hs", "E.hs", 1]}}, {"E.hs": ["unbound"]}),
            ("sources of the folder to start in", ["--start", two], {"initializationOptions": {"sources": ["deep/C.hs"]}}, {"C.hs": ["unbound"]}),
            ("the files of a list", [three], {}, some),
        ]
        for what, words, params, wanted in rows:
            other = Client(it.program, top, words)
            other.ask("initialize", capabilities={}, **params)
            other.notify("initialized")
            other.settle()
            found = {name.rpartition("/")[2]: codes(messages) for name, messages in other.shown.items()}
            other.row(what, {name: them for name, them in found.items() if them}, wanted)
            if words == [three]:
                with open(f"{three}/in/F.hs", "w", encoding="utf-8") as file:
                    file.write("module F where { f = True }")
                other.notify("workspace/didChangeWatchedFiles", changes=[{"uri": f"{uri[three]}/{name}", "type": 2} for name in ("in/F.hs", "E.hs")])
                other.settle()
                other.row("a changed file of a list, and one that isn't listed", [other.shown.get(f"{uri[three]}/{name}") for name in ("in/F.hs", "E.hs")], [[], None])
            finish(other)
            it.rows, it.wrong = it.rows + other.rows, it.wrong + other.wrong


def read_plain_files(it):
    """Opens folders with pipes, a device without an end and a source that is too long. A server that reads these to their ends is killed."""
    fault, limit = "module F where { f = missing }", 1048576
    rows = [
        ("a list that names a pipe", "hmc.files", "F.hs\npipe.hs\n", {"F.hs": ["unbound"]}),
        ("a list that names a device", "hmc.files", "/dev/zero\nF.hs\n", {"F.hs": ["unbound"]}),
        ("a list that is a pipe", None, None, {"F.hs": ["unbound"]}),
        ("a source of the greatest size", "G.hs", "module G where { g = missing }".ljust(limit), {"F.hs": ["unbound"], "G.hs": ["unbound"]}),
        ("a source that is too long", "G.hs", "module G where { g = missing }".ljust(limit + 10), {"F.hs": ["unbound"], "G.hs": ["too-long"]}),
    ]
    for what, name, text, wanted in rows:
        with tempfile.TemporaryDirectory() as top:
            os.mkfifo(f"{top}/{'pipe.hs' if name else 'hmc.files'}")
            for path, content in (("F.hs", fault), (name, text)):
                if path is not None:
                    with open(f"{top}/{path}", "w", encoding="utf-8") as file:
                        file.write(content)
            other = Client(it.program, top, [])
            resource.prlimit(other.server.pid, resource.RLIMIT_AS, (MOST_MEMORY, MOST_MEMORY))
            killer = threading.Timer(60, other.server.kill)
            killer.start()
            other.ask("initialize", capabilities={}, rootUri=f"file://{top}")
            other.notify("initialized")
            other.notify("workspace/didChangeWatchedFiles", changes=[{"uri": uri, "type": 2} for uri in (other.uri("pipe.hs"), "file:///dev/zero")])
            other.settle()
            found = {uri.rpartition("/")[2]: codes(messages) for uri, messages in other.shown.items()}
            other.row(what, {name: them for name, them in found.items() if them}, wanted)
            finish(other)
            killer.cancel()
            it.rows, it.wrong = it.rows + other.rows, it.wrong + other.wrong


def close_output(it):
    """Starts a server whose output nobody reads, and one whose input ends."""
    other = Client(it.program, it.folder)
    other.server.stdout.close()
    other.send({"id": 1, "method": "initialize", "params": {"capabilities": {}}})
    it.row("an output that can't be written", other.server.wait(timeout=60), 4)
    other = Client(it.program, it.folder)
    other.server.stdin.close()
    it.row("an input that ends", other.server.wait(timeout=60), 1)


def refer_often(it):
    """Asks for the references of a name that 60,000 definitions use, and what the source declares. Finding each place from the start would take longer."""
    doc, count = {"uri": it.uri("F.hs")}, 60000
    text = "module F where { v = 'c'\n" + "".join(f"; w{number} = v\n" for number in range(count)) + "}"
    it.notify("textDocument/didOpen", textDocument={**doc, "languageId": "haskell", "version": 1, "text": text})
    where = {"textDocument": doc, "position": {"line": 0, "character": text.index("v =")}}
    it.row("a name that is used often", it.ask("textDocument/hover", **where)["result"] is None, False)
    before = it.processor()
    places = it.ask("textDocument/references", **where, context={"includeDeclaration": True})["result"]
    wanted = {"start": {"line": count, "character": len(f"; w{count - 1} = ")}, "end": {"line": count, "character": len(f"; w{count - 1} = v")}}
    it.row("its references", (len(places), places[-1]["range"]), (count + 1, wanted))
    it.row("the symbols of its source", len(it.ask("textDocument/documentSymbol", textDocument=doc)["result"]), count + 2)
    it.row("the time for them", it.processor() - before < LONGEST, True)
    it.notify("textDocument/didClose", textDocument=doc)


def nest_deeply(it):
    """Opens a source that nests deeply, and empties it. The server drops what it had checked, and goes on."""
    doc = {"uri": it.uri("D.hs")}
    text = "module D where { " + "_ : " * 100000 + "x = undefined }"
    it.notify("textDocument/didOpen", textDocument={**doc, "languageId": "haskell", "version": 1, "text": text})
    it.row("a name of a deep source", it.ask("textDocument/hover", textDocument=doc, position=position(text, "x ="))["result"] is None, False)
    it.notify("textDocument/didChange", textDocument={**doc, "version": 2}, contentChanges=[{"text": "module D where { x = True }"}])
    it.row("after the deep source", it.ask("textDocument/hover", textDocument=doc, position=position("module D where { x = True }", "x ="))["result"] is None, False)


def bad_input(it):
    it.write(b"Content-Length: 1\r\nContent-Length: 2\r\n\r\n")
    it.row("two lengths", it.reply()["error"]["code"], -32700)
    it.write(b"Content-Length: 1\r\n\r\n{")
    it.row("no JSON", it.reply()["error"]["code"], -32700)
    it.write(b"Content-Length: 2\r\n\r\n[]")
    it.row("no message", it.reply()["error"]["code"], -32600)


def finish(it):
    it.row("shutdown", it.ask("shutdown")["result"], None)
    it.row("after shutdown", it.ask("textDocument/hover")["error"]["code"], -32600)
    it.notify("exit")
    it.row("exit status", it.server.wait(timeout=60), 0)


def main(program=lsp.PROVED):
    with tempfile.TemporaryDirectory() as folder:
        for name, text in (("A.hs", A), ("B.hs", B)):
            with open(os.path.join(folder, name), "w", encoding="utf-8") as file:
                file.write(text)
        it = Client(os.path.abspath(program), folder)
        for part in (start_and_check, look, mend, type_letters, keep_faults, fix, escape_letters, move_diagnostics, watch_files, cancel, offer, open_folders, read_plain_files, close_output, refer_often, nest_deeply, bad_input, finish):
            part(it)
    print(f"{it.rows - it.wrong} of {it.rows} rows as wanted")
    return 1 if it.wrong else 0


if __name__ == "__main__":
    sys.exit(main(*sys.argv[1:]))
