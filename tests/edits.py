#!/usr/bin/env python3
"""Makes faulty sources out of good ones, and makes the edits of their messages.

`edits.py [--sources N] [--seed N] [PROGRAM]`: without PROGRAM, the proved program beside this folder is run. The good sources are those of
bench/programs. A slip is made by chance: one of tests/claims.py in a name or a token, or one of bench/slips.py or bench/forgotten.py. For each message with edits:

- the edits are in the source, in order, and don't overlap;
- of a note at a part: the source with them can be read, and the definition that the message names is no type fault in it;
- of a near name: its place has no fault of a name that isn't in scope or without clauses;
- of an import: its place has no fault of a name that isn't in scope, or that means several things;
- of a token: the fault of syntax is gone, or further on;
- the checker accepted those of notes at parts, and no others;
- the sentence says what to write, and each other sentence has no edits.

Prints how often each kind of edit was made. Ends with 1 if something isn't so, or if a kind never occurred. The sources are a function of the seed.
"""
# Why: docs/DECISIONS.md, "Edits".
import argparse
import collections
import glob
import os
import random
import sys

sys.dont_write_bytecode = True
TOP = os.path.dirname(os.path.dirname(os.path.abspath(__file__)))
sys.path[:0] = [os.path.join(TOP, "bench"), os.path.dirname(os.path.abspath(__file__))]
import claims  # noqa: E402
import forgotten  # noqa: E402
import slips  # noqa: E402

# What sentences with edits say, one or the other text, and those of notes at a part without edits.
SAYS = {
    "exchange": " exchanged",
    "removal": "if this is left out|, without this (up to",
    "brackets": "with brackets around this",
    "list brackets": "with '[' and ']' around this",
    "mark": " before this",
    "constructor": " in front of this",
}
# What sentences say whose edits the checker hasn't accepted.
UNCHECKED = {
    "near name": "(did you mean '",
    "token put in": " before ",
    "token replaced": "', found '",
    "token left out": "unexpected '",
    "signature": "' without this signature",
    "import": "', but this module doesn't import '",
}
SILENT = ("with another expression here", "with other expressions both here", "if this pattern ", "with one more argument after this", "one more after this", "have types without this signature", "this has type '", "' is a type variable; a type '", "', but this import doesn't bring '", "' here, but doesn't export it", "' is expected to have type '")


def edited(source, edits):
    """Returns the source with the edits, or None if they aren't in it, in order and apart."""
    ranges = [(claims.offset(source, it["start"]), claims.offset(source, it["end"])) for it in edits]
    bounds = [0, *(at for each in ranges for at in each), len(source)]
    if bounds != sorted(bounds):
        return None
    for (start, end), edit in reversed(list(zip(ranges, edits))):
        source = source[:start] + edit["text"] + source[end:]
    return source


def kind_of(message):
    """Returns the kind of the edits of a message, or None if its sentence says nothing to write."""
    text = message["text"]
    if message["kind"] == "syntax":
        if not (message["hint"] or "").endswith("t this can be read."):
            return None
        return next(kind for kind, words in UNCHECKED.items() if kind.startswith("token") and words in text)
    table = UNCHECKED if message["level"] == "error" or message["kind"] in ("signature", "importable") else SAYS
    return next((kind for kind, words in table.items() if not kind.startswith("token") and any(it in text for it in words.split("|"))), None)


def is_read(messages):
    return not any(it["kind"] in ("syntax", "lexeme") for it in messages)


def part_fault(message, after):
    """Why the edits of a note don't give the definition a type, or None."""
    if not is_read(after):
        return "the source with the edits can't be read"
    if any(it["kind"] == "type" and it["name"] == message["name"] for it in after):
        return "the definition has no type with the edits"
    return None


def name_fault(message, after):
    """Why a near name is no better, or None."""
    start = message["start"]
    if any(it["start"] == start and it["kind"] in ("unbound", "no-binding", "ambiguous") for it in after):
        return "the near name is a fault too"
    return None


def import_fault(message, after):
    """Why an import brings no better name into scope, or None."""
    start, edit = message["start"], message["edits"][0]
    byte = start["byte"] + (len(edit["text"]) if edit["start"]["line"] == start["line"] else 0)
    if not is_read(after) or claims.has_fault(after, start["line"], byte, ("unbound", "ambiguous")):
        return "the name isn't in scope with the import, or means several things"
    return None


def token_fault(source, changed, message, after):
    """Why the change of a token is none, or None."""
    faults = [it for it in after if not is_read([it])]
    if faults and claims.offset(changed, faults[0]["start"]) <= claims.offset(source, message["start"]) + len(changed) - len(source):
        return "the source with the edit can't be read further"
    return None


def fault_of(program, source, message):
    """Why the edits of a message don't do what it says, or None."""
    kind, edits = kind_of(message), message["edits"]
    if message["level"] == "note" and any(it in message["text"] for it in SILENT):
        return "edits of a note that doesn't say what to write" if edits else None
    if not edits:
        return "no edits" if kind and kind not in ("signature", "import") else None
    if kind is None or any(it["checked"] != (kind in SAYS) for it in edits):
        return "edits of another sentence, unchecked, or checked"
    if (changed := edited(source, edits)) is None:
        return "edits outside of the source, or out of order"
    after = claims.ask(program, changed)[1]
    if kind == "near name":
        return name_fault(message, after)
    if kind == "import":
        return import_fault(message, after)
    if kind.startswith("token"):
        return token_fault(source, changed, message, after)
    return part_fault(message, after)


def slipped(source, chance):
    """Returns the source with one slip."""
    slip = chance.choice([claims.misspelt, claims.of_tokens, claims.elsewhere, claims.slipped, claims.slipped, None, None])
    if slip is not None:
        return slip(source, slips.tokens_of(source), chance)
    sorts = collections.defaultdict(list)
    for kind, (start, end), text, _ in forgotten.slips_of(source):
        sorts[kind].append((start, end, text))
    start, end, text = chance.choice(sorts[chance.choice(sorted(sorts))])
    return source[:start] + text + source[end:]


def main():
    parser = argparse.ArgumentParser()
    parser.add_argument("--sources", type=int, default=500)
    parser.add_argument("--seed", type=int, default=1)
    parser.add_argument("program", nargs="?", default=os.path.join(TOP, "crates", "hmc", "out", "hmc"))
    asked = parser.parse_args()
    program, chance = os.path.abspath(asked.program), random.Random(asked.seed)
    good = [open(it, encoding="utf-8").read() for it in sorted(glob.glob(os.path.join(TOP, "bench", "programs", "*.hs")))]
    good = [it for it in good if it.isascii()]
    counts, wrong = collections.Counter(), 0
    for number in range(asked.sources):
        source = slipped(chance.choice(good), chance)
        for message in claims.ask(program, source)[1]:
            counts["messages"] += 1
            counts["messages with edits"] += bool(message["edits"])
            counts.update([kind_of(message)] if message["edits"] else [])
            if why := fault_of(program, source, message):
                wrong += 1
                print(f"source {number}, {message['start']['line']}:{message['start']['byte']}: {message['text']}: {why}", flush=True)
    for what, count in sorted(counts.items()):
        print(f"{what}: {count}")
    lacking = sorted({*SAYS, *UNCHECKED} - set(counts))
    print(f"{asked.sources} sources, {wrong} wrong{', never: ' + ', '.join(lacking) if lacking else ''}")
    return 1 if wrong or lacking else 0


if __name__ == "__main__":
    sys.exit(main())
