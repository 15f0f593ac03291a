"""Compares the faults that `hmc` tells of a module with the messages of GHC."""
import re

# the words of hmc by phase
IMPORTS = {"not-exported"}
NAMES = {"duplicate", "non-linear", "no-binding", "unbound", "ambiguous"}
ARITIES = {"arity", "clause-length", "recursive"}
TYPES = {"type"}
EXPORTS = {"unbound", "ambiguous", "export-clash", "not-imported"}


def fault_difference(text, lines, messages):
    """In a word how the faults in a block of hmc differ from GHC's messages, or nothing."""
    faults = [line.split() for line in lines]
    places = {int(place.split(":")[0]) for place, _, _ in faults}
    words = {word for _, word, _ in faults}
    said = set().union(*(message.words for message in messages))
    if not all(message.words for message in messages):
        return "a message of GHC that isn't known"
    if words == TYPES:
        return type_difference(text, places, messages)
    if places == {1} and words <= EXPORTS:
        return export_difference(words, messages)
    if words <= IMPORTS:
        allowed = IMPORTS
    elif words <= NAMES:
        # of `f x = 1 ; f = 2` GHC says that the lengths differ, hmc that f has two bindings
        allowed = NAMES | {"clause-length"}
    else:
        allowed = ARITIES | TYPES | {"duplicate"}
    if not said <= allowed:
        return f"phase: hmc {sorted(words)}, GHC {sorted(said)}"
    if not words & said:
        return f"word: hmc {sorted(words)}, GHC {sorted(said)}"
    return None if places & set().union(*(message.lines for message in messages)) else "lines"


def export_difference(words, messages):
    """GHC looks at the export list last: only where all its messages are of line 1 has it done so."""
    if any(message.line != 1 for message in messages):
        return None
    said = set().union(*(message.words for message in messages))
    return None if words & said else f"word: hmc {sorted(words)}, GHC {sorted(said)}"


def declarations(text):
    """The bindings at the top of a module, by their first lines: their lines, what they bind, and the words on these lines.

    What a binding binds is guessed: of a pattern binding all variables on its left. Also answers the names with signatures.
    """
    bindings, signed = {}, set()
    previous = None
    for number, line in enumerate(text.split("\n"), 1):
        signature = re.match(r"([\w', ]+) :: [^=|]*;$", line)
        if signature:
            signed |= set(signature[1].split(", "))
        if number == 1 or signature or re.match(r"(import|data|newtype|type) |\}|$", line):
            continue
        clause = re.match(r"([a-z_][\w']*)(?![\w'@])(?! :)|\(([\w']+)\) ", line)
        name = clause and (clause[1] or clause[2])
        if name is None or name != previous:
            first = number
            left = re.split(r" = | \| ", line)[0]
            bindings[first] = (set(), {name} if name else set(re.findall(r"[a-z][\w']*", left)), set())
        bindings[first][0].add(number)
        bindings[first][2].update(re.findall(r"[\w']+", line))
        previous = name
    return bindings, signed


def reached(bindings, signed, start):
    """The bindings that a binding refers to, through others too; names with signatures end the way."""
    seen, todo = {start}, [start]
    while todo:
        words = bindings[todo.pop()][2] - signed
        for other, (_, bound, _) in bindings.items():
            if other not in seen and bound & words:
                seen.add(other)
                todo.append(other)
    return seen


def type_difference(text, places, messages):
    """Each of GHC's messages must stand in a unit that hmc tells or in what depends on one, and each told unit must have one."""
    bindings, signed = declarations(text)
    home = {line: first for first, (lines, _, _) in bindings.items() for line in lines}
    starts = {home.get(message.line) for message in messages}
    blamed = {home.get(line) for line in places}
    said = set().union(*(message.words for message in messages))
    if None in starts | blamed or said != TYPES:
        return f"phase: hmc ['type'], GHC {sorted(said)}"
    reach = {first: reached(bindings, signed, first) for first in starts | blamed}
    if any(not any(first in reach[other] and other in reach[first] for other in starts) for first in blamed):
        return "a unit that only hmc tells"
    if any(not reach[first] & blamed for first in starts):
        return "a unit that only GHC tells"
    return None
