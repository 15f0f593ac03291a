#!/usr/bin/env python3
"""Edits documents of the language server at random, and compares what it says with a server that is started anew, and with hmc.

`server_walk.py [SERVER] [--hmc PROGRAM] [--edits N] [--seed S] [--returns]`: without SERVER and PROGRAM, the proved programs are run. The walk goes over
five documents, of which four have files. An edit replaces a text, changes some ranges, types a definition in a burst of changes, closes a document or
opens it again. Some come byte by byte. `--returns` also puts in carriage returns that are alone.

After each edit the reply to a request at a random place is that of a server that is started anew for the same texts. The diagnostics of texts that
can't be read are those of hmc. So are all others if the texts that stand for all sources are a lawful set, and then those of both servers are the same.
A document with a skipped module has those of hmc among its own: the second check adds more, by texts that the other server never had. At the end the
server has little more memory than after the first tenth of the edits. Ends with 1 where something differs.
"""
import argparse
import json
import os
import random
import re
import subprocess
import sys
import tempfile

sys.path.insert(0, os.path.join(os.path.dirname(os.path.dirname(os.path.abspath(__file__))), "tools"))
import lsp  # noqa: E402
import measuring  # noqa: E402

NAMES = ["A", "B", "C", "D", "E"]
# This one has no file.
OPENED = "E"
# The kinds of a source's own fault.
UNREAD = {"lexeme", "open-comment", "syntax", "too-deep", "too-long"}
SEVERITIES = {"error": 1, "note": 3}
EXPRESSIONS = "x|not x|(x, x)|[x]|f x|g x|case x of { 0 -> 'c' ; _ -> '\u00e9' }|let { y = x } in y|map not [x]|z|A.f x|1|True|B.g|\\y -> y x|\"\U0001f600\"".split("|")
PIECES = ["", " ", "x", " ;", "f", "\n", "\r\n", "(", "not ", "{- \u00e9\U0001f600 -}", "}", "import A ;", "-- \u00e4\n"]
TYPED = "p = case f 1 of { 0 -> True ; _ -> False } ; "


def module_of(chance, name):
    """Returns a module of this name, or seldom of another one, with some imports and definitions."""
    imports = [it for it in NAMES if it != name and chance.random() < (0.5 if it < name else 0.03)]
    clauses = {chance.choice("fghpq"): chance.choice(EXPRESSIONS) for _ in range(chance.randint(1, 4))}
    parts = [f"import {chance.choice(['', '', 'qualified '])}{it}" for it in imports] + [f"{it} x = {e}" for it, e in clauses.items()]
    named = name if chance.random() < 0.95 else chance.choice(NAMES)
    comment = chance.choice(["", "", "{- \u00e9\U0001f600 -} "])
    return f"{comment}module {named}{chance.choice(['', '', ' (f)'])} where {{\n  " + " ;\n  ".join(parts) + "\n}\n"


def units(text, encoding):
    return len(text.encode()) if encoding == "utf-8" else len(text.encode("utf-16-le")) // 2


def position_of(text, offset, encoding):
    """Returns the line and the column of a place in a text. A line ends with a line feed, a carriage return, or both."""
    before = text[:offset]
    ends = [it.end() for it in re.finditer(r"\r\n|\n|\r", before)]
    return len(ends), units(before[ends[-1] if ends else 0 :], encoding)


def place_of(chance, text):
    """Returns a place of a text, which isn't within a line's end."""
    while True:
        place = chance.randint(0, len(text))
        if text[place - 1 : place + 1] != "\r\n" or place == 0:
            return place


class Document:
    """A document of the walk. `last` is the last of its texts that can be read, and `version` None if it is closed. `passed` are the texts that it had
    within the last edit."""

    def __init__(self, name, file):
        self.passed = []
        self.name, self.file, self.text, self.last, self.version = f"{name}.hs", file, file or "", file or "", None


class Walk:
    def __init__(self, given, folder, encoding):
        self.given, self.folder, self.encoding, self.chance = given, folder, encoding, random.Random(f"{given.seed} {encoding}")
        self.documents = [Document(it, module_of(self.chance, it) if it != OPENED else None) for it in NAMES]
        for it in self.documents:
            if it.file is not None:
                write(folder, it.name, it.file)
        self.pieces = PIECES + ["\r"] * given.returns
        self.client = self.started()
        self.lawful = self.unread = 0

    def started(self):
        client = lsp.Client(self.given.server, self.folder)
        client.start(self.encoding)
        return client

    def opening(self, document, text):
        return {"method": "textDocument/didOpen", "params": {"textDocument": {**self.named(document), "languageId": "haskell", "version": document.version, "text": text}}}

    def named(self, document):
        return {"uri": self.client.uri(document.name)}

    def changing(self, document, changes):
        document.version += 1
        return {"method": "textDocument/didChange", "params": {"textDocument": {**self.named(document), "version": document.version}, "contentChanges": changes}}

    def replaced(self, document, start, end, text):
        """Replaces a range of a document, and returns the change."""
        places = [position_of(document.text, it, self.encoding) for it in (start, end)]
        document.text = document.text[:start] + text + document.text[end:]
        return lsp.change(*places, text)

    def edit_range(self, document):
        start = place_of(self.chance, document.text)
        end = start + place_of(self.chance, document.text[start : start + 3])
        return self.replaced(document, start, end + (document.text[end - 1 : end + 1] == "\r\n"), self.chance.choice(self.pieces))

    def type_definition(self, document):
        """Types a definition before another one, if there is one, letter by letter."""
        at, messages = max(document.text.find("f x ="), 0), []
        for number, letter in enumerate(TYPED[: self.chance.randint(1, len(TYPED))]):
            document.passed.append(document.text)
            messages.append(self.changing(document, [self.replaced(document, at + number, at + number, letter)]))
        return messages

    def edits(self, document):
        """Changes a document. Returns the messages that say so."""
        if document.version is None:
            document.version, document.text = 1, self.chance.choice([document.text, module_of(self.chance, document.name[0])])
            return [self.opening(document, document.text)]
        kind = self.chance.random()
        if kind < 0.08:
            document.version, document.text, document.last = None, document.file or "", document.file or ""
            return [{"method": "textDocument/didClose", "params": {"textDocument": self.named(document)}}]
        if kind < 0.35:
            document.text = module_of(self.chance, document.name[0])
            return [self.changing(document, [{"text": document.text}])]
        if kind < (0.9 if document.text != document.last else 0.4):
            document.text = document.last
            return [self.changing(document, [{"text": document.text}])]
        if kind < 0.55:
            return self.type_definition(document)
        return [self.changing(document, [self.edit_range(document) for _ in range(self.chance.randint(1, 3))])]

    def send(self, messages):
        """Sends messages in one piece, or byte by byte."""
        data = b"".join(map(lsp.frame, messages))
        if self.chance.random() < 0.1:
            for at in range(len(data)):
                self.client.write(data[at : at + 1])
        else:
            self.client.write(data)

    def expected(self):
        """Returns hmc's messages for the texts that can't be read, and for all others if the texts that stand for the sources are a lawful set."""
        sources = [it for it in self.documents if it.text or it.last]
        status, found = self.messages({it.name: it.text for it in sources})
        unread = {name for name, its in found.items() if status == 2 and UNREAD & {message["kind"] for message in its}}
        wanted = {name: found[name] for name in unread}
        for it in sources:
            if it.name not in unread:
                it.last = it.text
            else:
                it.last = next((text for text in reversed(it.passed) if self.can_be_read(it.name, text)), it.last)
            it.passed = []
        if unread:
            self.unread += 1
            status, found = self.messages({it.name: it.last for it in sources})
        if status in (0, 1):
            self.lawful += 1
            wanted.update({name: its for name, its in found.items() if name not in unread})
        texts = {it.name: it.text for it in sources}
        return {name: sorted(self.diagnostic(texts[name], it) for it in its) for name, its in wanted.items()}

    def can_be_read(self, name, text):
        status, found = self.messages({name: text})
        return not (status == 2 and UNREAD & {message["kind"] for message in found[name]})

    def messages(self, texts):
        """Returns the status of a run of hmc, and its messages for each source."""
        with tempfile.TemporaryDirectory() as folder:
            for name, text in texts.items():
                write(folder, name, text)
            ran = subprocess.run([self.given.hmc, "--message-format", "json", *texts], cwd=folder, capture_output=True)
        if ran.returncode not in (0, 1, 2):
            raise Differs(f"hmc ends with {ran.returncode}: {ran.stderr!r}", texts)
        found = {name: [] for name in texts}
        for message in map(json.loads, ran.stderr.decode().splitlines()):
            if "file" in message:
                found[message["file"]].append(message)
        return ran.returncode, found

    def diagnostic(self, text, message):
        """Returns what the server has to send for a message of hmc."""
        places = []
        for name in ("start", "end"):
            lines = text.encode().split(b"\n")
            offset = sum(len(it) + 1 for it in lines[: message[name]["line"] - 1]) + message[name]["byte"] - 1
            places.append(position_of(text, len(text.encode()[:offset].decode(errors="ignore")), self.encoding))
        return (*places, message["kind"], SEVERITIES[message["level"]], "\n".join(filter(None, (message["text"], message["hint"]))))

    def anew(self, request):
        """Returns the diagnostics of a server that is started anew for these texts, and its reply to a request."""
        client = self.started()
        messages = []
        for it in self.documents:
            if it.version is not None:
                changed = {"textDocument": {**self.named(it), "version": it.version}, "contentChanges": [{"text": it.text}]}
                messages += [self.opening(it, it.last), {"method": "textDocument/didChange", "params": changed}]
        client.write(b"".join(map(lsp.frame, messages)))
        client.settle()
        reply = client.ask(*request)
        found = shown(client)
        if client.finish():
            raise Differs("a server that was started anew ends with an error")
        return found, reply.get("result", reply.get("error"))

    def request(self):
        """Returns a request at a random place of a document that is open or has a file."""
        document = self.chance.choice([it for it in self.documents if it.version is not None or it.file is not None])
        line, column = position_of(document.text, place_of(self.chance, document.text), self.encoding)
        position = {"line": line, "character": column}
        method = self.chance.choice(["hover", "definition", "references", "documentHighlight", "documentSymbol", "codeAction", "prepareRename", "rename", "completion"])
        where = {"range": {"start": position, "end": position}} if method == "codeAction" else {"position": position}
        context = {"diagnostics": [], "includeDeclaration": self.chance.random() < 0.5}
        name = self.chance.choice(["x", "renamed", "Renamed", "of"])
        return f"textDocument/{method}", {"textDocument": self.named(document), "context": context, "newName": name, **where}

    def step(self):
        """Makes an edit, and compares what is shown then."""
        broken = [it for it in self.documents if it.text != it.last]
        self.send(self.edits(self.chance.choice(broken if broken and self.chance.random() < 0.5 else self.documents)))
        self.client.settle()
        expected, request = self.expected(), self.request()
        reply = self.client.ask(*request)
        found = shown(self.client)
        again, wanted = self.anew(request)
        missed = {name for its in (found, again) for name, all_of in its.items() if any(it[2] == "skipped" for it in all_of)}
        for name in expected.keys() - missed:
            if found.get(name, []) != again.get(name, []):
                raise Differs(f"other diagnostics of {name} than those of a server that is started anew", found, again)
        if reply.get("result", reply.get("error")) != wanted:
            raise Differs("another reply than that of a server that is started anew", request, reply, wanted)
        for name, its in expected.items():
            if not set(its) <= set(found.get(name, [])) or (name not in missed and found.get(name, []) != its):
                raise Differs(f"other diagnostics of {name} than hmc's", found.get(name, []), its)

    def go(self):
        """Makes all edits. Returns a line about them."""
        first = 0
        for number in range(self.given.edits):
            try:
                self.step()
            except (Differs, lsp.Ended) as fault:
                texts = {it.name: (it.text, it.last) for it in self.documents}
                return False, f"{self.encoding}: edit {number}: {' | '.join(map(str, fault.args))}\n  {texts}"
            if number <= self.given.edits // 10:
                first = self.client.megabytes("VmRSS")
        last = self.client.megabytes("VmRSS")
        status = self.client.finish()
        said = f"{self.given.edits} edits, {self.unread} with a text that can't be read, {self.lawful} with a lawful set; {first} MB at first, {last} MB at the end"
        return status == 0 and last <= first + max(8, first // 4), f"{self.encoding}: {said}"


class Differs(Exception):
    """What differs."""


def write(folder, name, text):
    with open(os.path.join(folder, name), "wb") as it:
        it.write(text.encode())


def shown(client):
    """Returns the diagnostics that a client shows, by the names of files."""
    found = {}
    for uri, diagnostics in client.shown.items():
        if diagnostics:
            found[uri.rpartition("/")[2]] = sorted((*places_of(it["range"]), it["code"], it["severity"], it["message"]) for it in diagnostics)
    return found


def places_of(found):
    return [(found[it]["line"], found[it]["character"]) for it in ("start", "end")]


def main():
    words = argparse.ArgumentParser(description=__doc__, formatter_class=argparse.RawDescriptionHelpFormatter)
    words.add_argument("server", nargs="?", default=lsp.PROVED)
    words.add_argument("--hmc", default=measuring.PROVED)
    words.add_argument("--edits", type=int, default=100)
    words.add_argument("--seed", type=int, default=1)
    words.add_argument("--returns", action="store_true")
    given = words.parse_args()
    given.server, given.hmc = os.path.abspath(given.server), os.path.abspath(given.hmc)
    is_well = True
    for encoding in ("utf-16", "utf-8"):
        with tempfile.TemporaryDirectory() as folder:
            went, said = Walk(given, folder, encoding).go()
        is_well &= went
        print(said, flush=True)
    return 0 if is_well else 1


if __name__ == "__main__":
    sys.exit(main())
