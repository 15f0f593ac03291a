#!/usr/bin/env python3
"""Makes faulty sources out of good ones, and tries from outside what the messages claim.

`claims.py [--sources N] [--seed N] [--processes N] [PROGRAM]`: without PROGRAM, the proved program beside this folder is run. The good sources are those
of bench/programs. A fault is made by chance: a token left out, given twice, exchanged with the next one or put elsewhere; a line left out; a name with another letter, or taken
out of scope; a name that another module has; a type or a value of Prelude declared again; a slip in an expression, as bench/slips.py makes them;
operators and numbers with fractions. For each message that a run prints, what can be tried is tried:

- the change of a token: the source without it can't be read up to there, and with it the fault is gone or further on;
- a near name: with it no name is unbound or ambiguous at this place, no module is missing, and an import exports it;
- a name to write for an ambiguous one: the same; without the import in the named line this name isn't in scope;
- `import Prelude hiding (x)`: with it the name isn't ambiguous there;
- two types: they have no common instance, if the definition has no signature;
- two expressions: with holes in both the definition has a type, with a hole in one of them it has none;
- another expression: with a hole there, the definition has a type; an exchange, an argument left out, a text put in: the same with the changed source;
- a type without a signature: the module without it is good, and has the same type with this one as the signature;
- a fault that follows from a signature: without it, neither of the two definitions is a type fault;
- a type variable that is named like a type: with the type's name in its place, this name is in scope;
- a module that isn't imported, and an import that leaves a name out: with an import of the name, nothing at its place is unbound;
- a module that doesn't export a variable: it is declared at the place, and can't be imported;
- a further lexical fault: with blanks in place of the lexemes at those before it, it is the first fault;
- an expected type: with a definition that has this type as its signature, and with holes as the other unbound variables, the module is good.

Prints how often each was tried, and each claim that is false. Ends with 1 if there is one. The sources are a function of the seed.
"""
# Why: docs/DECISIONS.md, "Claims tried from outside".
import argparse
import collections
import glob
import json
import multiprocessing
import os
import random
import re
import subprocess
import sys

TOP = os.path.dirname(os.path.dirname(os.path.abspath(__file__)))
sys.path.insert(0, os.path.join(TOP, "bench"))
import slips  # noqa: E402

HOLE = "(let { hole' = hole' } in hole')"
CHANGES = [
    ("put in", re.compile(r"expected '(.+)' before '(.+)'")),
    ("replaced", re.compile(r"expected '(.+)', found '(.+)'")),
    ("left out", re.compile(r"unexpected '()(.+)'")),
]
UP_TO = re.compile(r"\(up to (\d+):(\d+)\)")


class Finding(Exception):
    """A claim that is false."""


def ask(program, source):
    """Returns the report and the messages of a source."""
    words = [program, "--jobs", "1", "--message-format", "json"]
    done = subprocess.run(words, input=source.encode(), capture_output=True, check=False, timeout=120)
    messages = [json.loads(line) for line in done.stderr.decode().splitlines()]
    return done.stdout.decode(), [it for it in messages if it["level"] in ("error", "note")]


def offset(source, position):
    """Returns the index of a position, which counts bytes, in a source of ASCII."""
    lines = source.split("\n")
    return sum(len(it) + 1 for it in lines[: position["line"] - 1]) + position["byte"] - 1


def has_fault(messages, line, column, kinds):
    return any(it["start"]["line"] == line and it["start"]["byte"] == column and it["kind"] in kinds for it in messages)


def with_text(source, start, end, text):
    return source[:start] + text + source[end:]


# Types, to find a common instance

def parsed_type(text):
    words = re.findall(r"->|[()\[\],]|[A-Za-z_][\w.']*", text)

    def atom():
        word = words.pop(0)
        if word in "([":
            parts = []
            while words[0] not in ")]":
                parts.append(arrow())
                if words[0] == ",":
                    words.pop(0)
            words.pop(0)
            if word == "(" and len(parts) == 1:
                return parts[0]
            return (f"{word}{len(parts)}", *parts)
        return word if word[0].islower() or word[0] == "_" else ("String" == word and ("[1", ("Char",)) or (word,))

    def application():
        head = atom()
        if isinstance(head, str) or not head[0][0].isalpha():
            return head
        parts = []
        while words and (words[0] in "([" or words[0][0].isalnum()):
            parts.append(atom())
        return (*head, *parts) if parts else head

    def arrow():
        left = application()
        if words and words[0] == "->":
            words.pop(0)
            return ("->", left, arrow())
        return left

    return arrow()


def have_common_instance(one, other):
    bound = {}

    def seen(ty):
        while isinstance(ty, str) and ty in bound:
            ty = bound[ty]
        return ty

    def occurs(name, ty):
        ty = seen(ty)
        return ty == name if isinstance(ty, str) else any(occurs(name, it) for it in ty[1:])

    def unify(a, b):
        a, b = seen(a), seen(b)
        if isinstance(b, str) and not isinstance(a, str):
            a, b = b, a
        if isinstance(a, str):
            if a != b and occurs(a, b):
                return False
            if a != b:
                bound[a] = b
            return True
        return a[0] == b[0] and len(a) == len(b) and all(unify(x, y) for x, y in zip(a[1:], b[1:]))

    return unify(one, other)


# Claims: each takes the program, the source, the messages and one of them, and returns what it tried, or None

def try_change(program, source, message):
    if message["kind"] != "syntax":
        return None
    text = message["text"]
    if other := message["other"]:
        text = text.removesuffix(f" at {other['line']}:{other['character']}")
    found = next(((way, it) for way, regex in CHANGES if (it := regex.fullmatch(text))), None)
    if found is None or not (message["hint"] or "").endswith("t this can be read."):
        return None
    way, names = found
    at = offset(source, message["start"])
    place = offset(source, other) if other else at
    token = next((it for it in slips.tokens_of(source) if it.start == place), None)
    if token is None or token.text != names[2]:
        raise Finding(f"'{names[2]}' isn't where the message has it")
    start, end, text = token.start, token.end, names[1]
    changed = {"put in": with_text(source, start, start, f" {text} "), "replaced": with_text(source, start, end, text), "left out": with_text(source, start, end, "")}[way]
    after = ask(program, changed)[1]
    syntax = [it for it in after if it["kind"] in ("syntax", "lexeme") and it["level"] == "error"]
    if not syntax or offset(changed, syntax[0]["start"]) > at + len(changed) - len(source):
        return f"a token {way}" + (" elsewhere" if other else "")
    raise Finding("the change doesn't make this readable")


def try_near(program, source, message):
    found = re.search(r"\(did you mean '(.+)'\?\)$", message["text"])
    if message["kind"] not in ("unbound", "missing", "not-exported") or not found:
        return None
    start, end = offset(source, message["start"]), offset(source, message["end"])
    after = ask(program, with_text(source, start, end, found[1]))[1]
    if has_fault(after, message["start"]["line"], message["start"]["byte"], ("unbound", "ambiguous", "missing", "not-exported")):
        raise Finding("the near name is a fault too")
    return "a near name of an export" if message["kind"] == "not-exported" else "a near name"


def without_import(source, line):
    lines = source.split("\n")
    lines[line - 1] = re.sub(r"import [^;]*;", lambda it: " " * len(it[0]), lines[line - 1])
    return "\n".join(lines)


def try_written(program, source, message):
    if message["kind"] != "ambiguous":
        return None
    names = re.findall(r"'([\w.']+)'(?: \(imported in line (\d+)\))?", message["text"].partition(": write ")[2].partition(", or add")[0])
    start, end = offset(source, message["start"]), offset(source, message["end"])
    place = message["start"]["line"], message["start"]["byte"]
    for name, line in names:
        changed = with_text(source, start, end, name)
        if has_fault(ask(program, changed)[1], *place, ("unbound", "ambiguous")):
            raise Finding(f"{name} is a fault too")
        if line and not has_fault(ask(program, without_import(changed, int(line)))[1], *place, ("unbound",)):
            raise Finding(f"{name} doesn't come from line {line}")
    if hiding := re.search(r"or add '(import Prelude hiding \(.+?\))'", message["text"]):
        heads = [it.end() for it in re.finditer(r"\bwhere\s*\{", source)]
        tried = [ask(program, with_text(source, at, at, f" {hiding[1]} ;"))[1] for at in heads if at <= start]
        if tried and all(any(it["kind"] == "ambiguous" and it["name"] == message["name"] for it in after) for after in tried):
            raise Finding("to hide the name isn't enough")
    return "a name to write" if names else None


def signed_names(source):
    return {name.strip() for row in re.findall(r"(?<![\w'])([a-z_][\w', ]*?)\s*::", source) for name in row.split(",")}


def try_types(program, source, message):
    if message["kind"] != "mistyped" or message["name"] in signed_names(source):
        return None
    if have_common_instance(parsed_type(message["type"]), parsed_type(message["expected"])):
        raise Finding(f"{message['type']} and {message['expected']} have a common instance")
    return "two types"


def is_untyped(messages, name):
    return any(it["kind"] == "type" and it["name"] == name for it in messages)


def put_around(text):
    """Returns what a note puts in before a part and after it, or None."""
    if "with brackets around this" in text:
        return "(", ")"
    if "with '[' and ']' around this" in text:
        return "[", "]"
    if "one more argument after this" in text or "one more after this" in text:
        return "(", f" {HOLE})"
    found = re.search(r"with '([\w.']+)' in front of this", text)
    return (f"({found[1]} (", "))") if found else None


def changed_part(source, message):
    """Returns the source with the change that a note of a part names, or None."""
    if message["kind"] == "both":
        return None
    start = offset(source, message["start"])
    end = UP_TO.search(message["text"])
    last = offset(source, {"line": int(end[1]), "byte": int(end[2])}) + 1 if end else None
    if "another expression here" in message["text"]:
        return with_text(source, start, last, HOLE)
    if "if this is left out" in message["text"] or ", without this (" in message["text"]:
        return with_text(source, start, last, "")
    if found := re.search(r"with '([;,])' before this$", message["text"]):
        return with_text(source, start, start, f"{found[1]} ")
    if around := put_around(message["text"]):
        return with_text(source, start, last, around[0] + source[start:last] + around[1])
    found = re.search(r"this expression and the one at (\d+):(\d+) exchanged", message["text"])
    if found is None:
        return None
    tokens = slips.tokens_of(source)
    number = {it.start: at for at, it in enumerate(tokens)}
    other = offset(source, {"line": int(found[1]), "byte": int(found[2])})
    ends = [tokens[slips.atom_end(tokens, number[it]) - 1].end for it in (start, other)]
    return source[:start] + source[other : ends[1]] + source[ends[0] : other] + source[start : ends[0]] + source[ends[1] :]


COUNTS = re.compile(r"too (many|few) arguments: '(.+)' has (\d+) here, and '.+' has a type with (\d+), ")


def arguments_at(tokens, at):
    """Returns how many arguments the name of this number has. An argument of another name has none. Brackets around a function don't count."""
    first, end, count = at, at + 1, 0
    while not slips.is_applied(tokens, first):
        while end < len(tokens) and (stop := slips.atom_end(tokens, end)):
            end, count = stop, count + 1
        if first == 0 or end == len(tokens) or tokens[first - 1].text != "(" or tokens[end].text != ")":
            return count
        first, end = first - 1, end + 1
    return count


def try_counts(source, message):
    """Compares the numbers of arguments that a note names with the tokens of the source."""
    found = COUNTS.match(message["text"])
    # Special constructors, such as `[]`, are more than one token.
    if found is None or not re.match(r"\w", found[2]):
        return
    tokens, start = slips.tokens_of(source), offset(source, message["start"])
    here, then = int(found[3]), int(found[4])
    names = [at for at, token in enumerate(tokens) if token.text == found[2] and (token.start == start if found[1] == "few" else token.start < start)]
    if here not in {arguments_at(tokens, at) for at in names} or then != here + (1 if found[1] == "few" else -1):
        raise Finding(f"'{found[2]}' hasn't {here} arguments")


def try_part(program, source, message):
    if message["level"] != "note" or (changed := changed_part(source, message)) is None:
        return None
    try_counts(source, message)
    after = ask(program, changed)[1]
    if is_untyped(after, message["name"]) or any(it["kind"] in ("syntax", "lexeme") for it in after):
        raise Finding("with the change the definition has no type")
    if put_around(message["text"]) or " before this" in message["text"]:
        return "a text put in"
    return "another expression" if HOLE in changed else "an exchange or an argument left out"


def try_both(program, source, message):
    named = re.search(r"expressions both here \(up to \d+:\d+\) and at (\d+):(\d+)$", message["text"])
    if named is None:
        return None
    ends = {}
    for other in ask(program, source)[1]:
        if other["kind"] == "both" and other["name"] == message["name"]:
            end = UP_TO.search(other["text"])
            ends[offset(source, other["start"])] = offset(source, {"line": int(end[1]), "byte": int(end[2])}) + 1
    here, there = offset(source, message["start"]), offset(source, {"line": int(named[1]), "byte": int(named[2])})
    if not is_untyped(ask(program, with_text(source, here, ends[here], HOLE))[1], message["name"]):
        raise Finding("with a hole in one of two expressions the definition has a type")
    first, second = sorted((here, there))
    changed = with_text(with_text(source, second, ends[second], HOLE), first, ends[first], HOLE)
    if is_untyped(ask(program, changed)[1], message["name"]):
        raise Finding("with holes in both expressions the definition has no type")
    return "two expressions"


def try_signature(program, source, message):
    if message["kind"] != "signature" or "without this signature" not in message["text"]:
        return None
    start, name = offset(source, message["start"]), message["name"]
    end = UP_TO.search(message["text"])
    last = offset(source, {"line": int(end[1]), "byte": int(end[2])}) + 1
    value = re.compile(rf"^  val {re.escape(name)} = .*$", re.M)
    own = value.search(ask(program, with_text(source, start, last, ""))[0])
    if own is None:
        return None
    # The note has names of synonyms and bare names of types, which the module means in a signature too.
    signed = value.search(ask(program, with_text(source, start, last, f"{name} :: {message['type']}"))[0])
    if signed is None or signed[0] != own[0]:
        raise Finding(f"without the signature the module has{own[0]}")
    return "a type without a signature"


def try_follows(program, source, message):
    if message["kind"] != "follows":
        return None
    start, end = offset(source, message["start"]), UP_TO.search(message["text"])
    last = offset(source, {"line": int(end[1]), "byte": int(end[2])}) + 1
    other = re.search(r" and '([\w']+)' have types", message["text"])[1]
    if other not in source[start:last].split("::")[0].replace(",", " ").split():
        raise Finding(f"no signature of '{other}'")
    before, after = ask(program, source)[1], ask(program, with_text(source, start, last, ""))[1]
    if not is_untyped(before, other) or is_untyped(after, other) or is_untyped(after, message["name"]) or any(it["kind"] in ("syntax", "lexeme") for it in after):
        raise Finding("without the signature one of the definitions has no type")
    return "a fault that follows from a signature"


def try_variable(program, source, message):
    if message["kind"] != "variable":
        return None
    name, written = re.fullmatch(r"'([\w']+)' is a type variable; a type '([\w']+)' is in scope", message["text"]).groups()
    start = offset(source, message["start"])
    if not source.startswith(name, start) or written != name[0].upper() + name[1:]:
        raise Finding(f"'{name}' isn't there, or isn't named like '{written}'")
    if has_fault(ask(program, with_text(source, start, start + len(name), written))[1], message["start"]["line"], message["start"]["byte"], ("unbound",)):
        raise Finding(f"'{written}' isn't in scope")
    return "a type variable that is named like a type"


def has_import(program, source, module, name):
    """Whether another module can import this variable."""
    return "faulty Tried'" not in ask(program, f"{source}\nmodule Tried' where {{ import {module} ({name}) ; }}")[0]


def try_importable(program, source, message):
    if message["kind"] != "importable" or len(message["edits"]) != 1:
        return None
    (edit,), start = message["edits"], message["start"]
    at, moved = offset(source, edit["start"]), len(edit["text"]) if edit["start"]["line"] == start["line"] else 0
    if has_fault(ask(program, with_text(source, at, at, edit["text"]))[1], start["line"], start["byte"] + moved, ("unbound",)):
        raise Finding(f"'{message['name']}' isn't in scope with the import")
    return "a module that isn't imported"


def try_left_out(program, source, message):
    if message["kind"] not in ("left-out", "private") or not message["name"][0].islower():
        return None
    module, start = re.match(r"'([\w'.]+)'", message["text"])[1], offset(source, message["start"])
    exported = message["kind"] == "left-out"
    if not source.startswith(module if exported else message["name"], start):
        raise Finding("the name isn't there")
    if has_import(program, source, module, message["name"]) != exported:
        raise Finding(f"'{message['name']}' is exported or isn't")
    return "an import that leaves a name out" if exported else "a module that doesn't export a name"


def module_end(source, name):
    """Returns where the last bracket of a module is."""
    tokens, depth = slips.tokens_of(source), 0
    texts = [it.text for it in tokens]
    start = next(at for at, text in enumerate(texts) if text == "module" and texts[at + 1] == name)
    for token in tokens[texts.index("where", start) :]:
        depth += {"{": 1, "}": -1}.get(token.text, 0)
        if token.text == "}" and not depth:
            return token.start
    raise Finding(f"module '{name}' has no end")


def try_expected(program, source, message):
    if message["kind"] != "expected":
        return None
    name, written = re.fullmatch(r"'([\w'.]+)' is expected to have type '(.+)'", message["text"]).groups()
    start, end = offset(source, message["start"]), module_end(source, message["module"])
    unbound = {it["name"] for it in ask(program, source)[1] if it["kind"] == "unbound" and it["module"] == message["module"]}
    if not source.startswith(name, start) or name not in unbound or written != message["expected"]:
        raise Finding(f"'{name}' isn't there, or isn't unbound")
    others = [it for it in unbound if it != name]
    if not all(re.fullmatch(r"[a-z_][\w']*", it) for it in [*others, *([name] if source.count(name) > 1 else [])]):
        return None
    holes = "".join(f" ; {it} = {HOLE}" for it in unbound if re.fullmatch(r"[a-z_][\w']*", it))
    tried = f"{source[:start]}tried'{source[start + len(name) : end]} ; tried' :: {written} ; tried' = {HOLE}{holes}{source[end:]}"
    faults = [it for it in ask(program, tried)[1] if it["level"] == "error" and it["module"] == message["module"]]
    if any(it["kind"] == "unbound" and it["name"] in re.findall(r"[\w'.]+", written) for it in faults):
        # A type of another module that isn't in scope here can't be written.
        return None
    if faults:
        raise Finding(f"with a definition of this type the module has the fault {faults[0]['text']}")
    return "an expected type"


FOREIGN = re.compile(r"[!#$%&*+./<=>?@\\^|~:-]+|`[\w'.]+`|\d+\.\d+")


def try_later(program, source, message):
    """Tries a lexical fault that isn't the first of its source."""
    if message["kind"] != "lexeme":
        return None
    blanked = source
    for earlier in ask(program, source)[1]:
        if earlier["start"] == message["start"]:
            break
        at = offset(source, earlier["start"])
        lexeme = FOREIGN.match(source, at)[0]
        blanked = with_text(blanked, at, at + len(lexeme), " " * len(lexeme))
    if blanked == source:
        return None
    if ask(program, blanked)[1][0]["start"] != message["start"]:
        raise Finding("the first fault with blanks in place of the lexemes before it is another")
    return "a further lexical fault"


CLAIMS = [try_change, try_near, try_written, try_types, try_part, try_both, try_signature, try_follows, try_variable, try_importable, try_left_out, try_later, try_expected]


# Faults

def of_tokens(source, tokens, chance):
    at = chance.randrange(6, len(tokens) - 1)
    token, after = tokens[at], tokens[at + 1]
    other = chance.choice(tokens)
    return chance.choice([
        with_text(source, token.start, token.end, ""),
        with_text(source, token.end, token.end, f" {token.text}"),
        source[: token.start] + after.text + source[token.end : after.start] + token.text + source[after.end :],
        with_text(source, token.start, token.end, other.text),
        with_text(source, token.start, token.start, f"{other.text} "),
    ])


def of_lines(source, tokens, chance):
    lines = source.split("\n")
    del lines[chance.randrange(1, len(lines))]
    return "\n".join(lines)


def misspelt(source, tokens, chance):
    token = chance.choice([it for it in tokens if it.kind in ("variable", "constructor") and len(it.text) > 2])
    at = chance.randrange(1, len(token.text))
    text = chance.choice([token.text[:at] + token.text[at + 1 :], token.text[:at] + "q" + token.text[at:], token.text[:1].swapcase() + token.text[1:]])
    return with_text(source, token.start, token.end, text)


def declared_again(source, tokens, chance):
    name = chance.choice(["map", "filter", "length", "not", "fst", "Just", "Left", "String", "Maybe"])
    text = f"{name.lower()}' = 1 ; {name} = 2" if name[0].islower() else f"data {name} = {name}" if name in ("Just", "Left") else f"data {name} = New{name}"
    last = source.rindex("}")
    return with_text(source, last, last, f" ; {text} ")


def slipped(source, tokens, chance):
    found = list(slips.all_slips(source, tokens, chance))
    (start, end), text = chance.choice(found)[1:]
    return with_text(source, start, end, text)


def slipped_twice(source, tokens, chance):
    changed = slipped(source, tokens, chance)
    return slipped(changed, slips.tokens_of(changed), chance)


def in_small_letters(source, tokens, chance):
    """Writes a type of a signature with a small letter, everywhere in the signature or once."""
    signed = list(re.finditer(r"(?<![\w'])[a-z][\w']*\s*::\s*([^;{}]+)", source))
    typed = [it for it in signed if re.search(r"(?<![\w'.])[A-Z]\w+(?![\w'.])", it[1])]
    if not typed:
        return misspelt(source, tokens, chance)
    row = chance.choice(typed)
    name = chance.choice(re.findall(r"(?<![\w'.])[A-Z]\w+(?![\w'.])", row[1]))
    text = re.sub(rf"(?<![\w'.]){name}(?![\w'.])", name[0].lower() + name[1:], row[1], count=chance.choice([0, 1]))
    return with_text(source, row.start(1), row.end(1), text)


def misspelt_import(source, tokens, chance):
    """Misspells a name of an import list. If there is none, it misspells another name."""
    listed = [it for it in re.finditer(r"import\s+[\w.]+\s*\(([^;]*?)\)\s*;", source) if re.search(r"\w{4}", it[1])]
    if not listed:
        return misspelt(source, tokens, chance)
    row = chance.choice(listed)
    word = chance.choice([it for it in re.finditer(r"\w{4,}", row[1])])
    at = row.start(1) + word.start() + chance.randrange(1, len(word[0]))
    return with_text(source, at, at + 1, chance.choice(["", source[at] + "q"]))


def elsewhere(source, tokens, chance):
    """Writes a name in place of a variable that one more module exports, or declares without exporting it."""
    token = chance.choice([it for it in tokens if it.kind == "variable" and len(it.text) > 2])
    name = token.text + "'"
    source = with_text(source, token.start, token.end, name)
    brace = source.index("{", re.search(r"^module ", source, re.M).end())
    imports = chance.choice(["", "", " import Elsewhere' ;", " import Elsewhere' () ;", " import qualified Elsewhere' ;"])
    exports = chance.choice(["", "", " ()"])
    return with_text(source, brace + 1, brace + 1, imports) + f"\nmodule Elsewhere'{exports} where {{ {name} = {name} }}\n"


def with_operators(source, tokens, chance):
    """Puts operators and numbers with fractions in."""
    for token in sorted(chance.sample(tokens, chance.randrange(1, 6)), key=lambda it: it.start, reverse=True):
        source = with_text(source, token.end, token.end, chance.choice([" + 1", " ++ []", " - ", " 2.5 ", " $ ", " . ", " == ", "+", "--> "]))
    return source


FAULTS = [of_tokens, of_lines, misspelt, elsewhere, with_operators, misspelt_import, in_small_letters, declared_again, slipped, slipped, slipped_twice, slipped_twice]


def tried(work):
    """Makes one source, and returns how often each claim was tried, and the claims that are false."""
    program, seed, number, good = work
    chance = random.Random(f"{seed} {number}")
    source = chance.choice(good)
    source = chance.choice(FAULTS)(source, slips.tokens_of(source), chance)
    counts, false = collections.Counter(), []
    try:
        slips.tokens_of(source)
    except ValueError:
        return counts, false
    for message in ask(program, source)[1]:
        counts["messages"] += 1
        for claim in CLAIMS:
            try:
                if what := claim(program, source, message):
                    counts[what] += 1
            except Finding as finding:
                line = source.split("\n")[message["start"]["line"] - 1]
                false.append(f"seed {seed}, source {number}, {message['start']['line']}:{message['start']['byte']}: {message['text']}\n  {finding}\n  {line}")
    return counts, false


def main():
    parser = argparse.ArgumentParser()
    parser.add_argument("--sources", type=int, default=20_000)
    parser.add_argument("--seed", type=int, default=1)
    parser.add_argument("--processes", type=int, default=os.cpu_count())
    parser.add_argument("program", nargs="?", default=os.path.join(TOP, "crates", "hmc", "out", "hmc"))
    asked = parser.parse_args()
    good = [open(it, encoding="utf-8").read() for it in sorted(glob.glob(os.path.join(TOP, "bench", "programs", "*.hs")))]
    good = [it for it in good if it.isascii()]
    counts, false = collections.Counter(), []
    with multiprocessing.Pool(asked.processes) as pool:
        work = ((os.path.abspath(asked.program), asked.seed, number, good) for number in range(asked.sources))
        for more, found in pool.imap(tried, work, chunksize=16):
            counts += more
            false += found
            for it in found:
                print(it, flush=True)
    for what, count in counts.most_common():
        print(f"{what}: {count}")
    print(f"{asked.sources} sources, {len(false)} false claims")
    return 1 if false else 0


if __name__ == "__main__":
    sys.exit(main())
