#!/usr/bin/env python3
"""Measures what the language server takes for changes and requests: processor time of all its threads.

`server.py [PROGRAM]`: without PROGRAM, the proved program is run. For a change it is the time until the last byte of the diagnostics that follow, and
for a request until its reply. The median of some rounds is printed, and the most. The sets have a file for each of 256 modules in layers of 16, and
fewer and smaller ones. One more file has a fault: its diagnostics are the last ones after each change. Ends with 1 if a reply isn't the right one.
"""
import os
import statistics
import sys
import tempfile
import time

sys.path.insert(0, os.path.join(os.path.dirname(os.path.dirname(os.path.abspath(__file__))), "tools"))
from lsp import PROVED, PUBLISHED, Client, change  # noqa: E402
from sets import layered  # noqa: E402

ROUNDS = 20
# The file whose diagnostics come last.
LAST = "Z.hs"
# Lines that are put in as the second one of a module that others import, and the kinds of the errors that it has then.
LINES = {"a comment": ("  -- a comment", []), "a type fault": ("  wrong = not 'c' ;", ["type"]), "text that can't be read": ("  wrong = = ;", ["syntax"])}


def write_set(folder, text):
    """Writes a file for each module, with a declaration on each line. Returns the texts by their names, and how many bytes they have."""
    texts = {f"{line.split()[1]}.hs": line.replace(" where { ", " where {\n  ").replace(" ; ", " ;\n  ") + "\n" for line in text.split("\n")}
    texts[LAST] = "module Z where { z = unbound }\n"
    for name, each in texts.items():
        with open(os.path.join(folder, name), "w", encoding="utf-8") as it:
            it.write(each)
    return texts, sum(map(len, texts.values()))


def published(client):
    """Returns the kinds of errors in each file, from the next diagnostics up to those of the last file."""
    found = {}
    while LAST not in found:
        message = client.receive()
        if message.get("method") == PUBLISHED:
            params = message["params"]
            found[params["uri"].rpartition("/")[2]] = [it["code"] for it in params["diagnostics"] if it["severity"] == 1]
    return found


def started(program, folder):
    """Starts a server. Returns its client and how many seconds the first diagnostics took."""
    began = time.monotonic()
    client = Client(program, folder)
    client.start("utf-8")
    published(client)
    return client, time.monotonic() - began


def report(what, seconds):
    print(f"{what}: {1000 * statistics.median(seconds):.1f} ms, most {1000 * max(seconds):.1f}", flush=True)


def changed(client, name, version, edit):
    """Makes a change. Returns how many seconds its diagnostics took, and the errors in the file."""
    began = client.processor()
    client.notify("textDocument/didChange", {"textDocument": {"uri": client.uri(name), "version": version}, "contentChanges": [edit]})
    found = published(client)
    return client.processor() - began, found.get(name, [])


def measure_changes(client, what, name):
    """Puts each line in and takes it out again, some times. Returns how often the errors weren't the right ones."""
    wrong, version = 0, 1
    for kind, (line, errors) in LINES.items():
        seconds = []
        for _ in range(ROUNDS):
            took, found = changed(client, name, version + 1, change((1, 0), (1, 0), line + "\n"))
            _, left = changed(client, name, version + 2, change((1, 0), (2, 0), ""))
            seconds.append(took)
            wrong += (found, left) != (errors, [])
            version += 2
        report(f"{what}, {kind} in one line", seconds)
    return wrong


def measure_requests(client, what, name, position):
    """Asks for a name at a place, some times. Returns how often there was no result."""
    wrong = 0
    for method in ("hover", "definition", "references", "documentSymbol"):
        seconds = []
        for _ in range(ROUNDS):
            began = client.processor()
            reply = client.ask(f"textDocument/{method}", {"textDocument": {"uri": client.uri(name)}, "position": position, "context": {"includeDeclaration": True}})
            seconds.append(client.processor() - began)
            wrong += not reply.get("result")
        report(f"{what}, {method}", seconds)
    return wrong


def last_place(text, part):
    """Returns the position of the last place where a part of a text begins."""
    before = text[: text.rindex(part)]
    return {"line": before.count("\n"), "character": len(before) - before.rfind("\n") - 1}


def measure_set(program, declarations, modules):
    with tempfile.TemporaryDirectory() as folder:
        texts, size = write_set(folder, layered(declarations, modules))
        what = f"{len(texts)} files of {size / 1000:,.0f} KB" if modules > 1 else f"a module of {size / 1000:.1f} KB"
        client, seconds = started(program, folder)
        print(f"{what}, first diagnostics: {seconds:.2f} s, {1000 * client.processor():.0f} ms of a processor, {client.megabytes('VmHWM')} MB", flush=True)
        name, wrong = f"M{modules - 1}.hs", 0
        client.open("M0.hs", texts["M0.hs"])
        if modules > 1:
            wrong += measure_changes(client, what, "M0.hs")
        # The last use of another module's variable, or if there is none, of an own one.
        wrong += measure_requests(client, what, name, last_place(texts[name], "Q" if modules > 1 else "size"))
        print(f"{what}, at the end: {client.megabytes('VmRSS')} MB, at most {client.megabytes('VmHWM')} MB", flush=True)
        return wrong + (client.finish() != 0)


def main(program=PROVED):
    program = os.path.abspath(program)
    return 1 if sum([measure_set(program, 36, 256), measure_set(program, 3, 40), measure_set(program, 54, 1)]) else 0


if __name__ == "__main__":
    sys.exit(main(*sys.argv[1:]))
