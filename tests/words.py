#!/usr/bin/env python3
"""Measures the sentences of README.md and docs/, and searches them for words that readers stumble over.

`words.py` ends with 1 if a document has more than MOST_LONG long sentences, a paragraph of more than 100 words, or one
of the words of PLAIN outside of code. `words.py --list` prints each long sentence as well.

It searches the comments of the crates' sources and definitions for the same words.
It searches the names of the crates of messages for the words of UNCLEAR: those of types, functions, variables, clauses and definitions.

A sentence has at most 25 words. A piece of code in backquotes counts as one word. Each cell of a table and each item of a
list is a text of its own. Blocks of code aren't read.
"""
import pathlib
import re
import sys

TOP = pathlib.Path(__file__).resolve().parent.parent
PAGES = [TOP / "README.md", *sorted((TOP / "docs").glob("*.md"))]
MOST_WORDS, MOST_OF_PARAGRAPH = 25, 100
# How many sentences of a document may be longer.
MOST_LONG = 3
# What to write in place of a word: the words as a regular expression, and the advice.
PLAIN = {
    r"want of (memory|room)|refused (for )?memory|refused for want": "runs out of memory, an allocation failed",
    r"answers|answered": "returns, replies",
    r"tells|telling|told": "reports, says",
    r"stands? (on|in|at|beside|alone|there|before|ready)|stood": "depends on, is in, is",
    r"lent|lends?|given away|lending": "borrowed, by value",
    r"(?<=[,;] )since": "because",
    r"behind(?! (?:a|the|its) (?:lock|gate|reference))": "after",
    r"ends? well": "returns `Ok`",
    r"no less than|but for|save for|save where": "at least, except",
    r"no test has met|is met|was met": "occurred, reached",
    r"made of|c[ao]mes? to|comes of|came of": "consists of, resulted in",
    r"knows|wants|asks|asked for": "has, needs, requires",
    r"whoever|nobody|of one's own|for ever": "plain words",
    r"hand(s|ed)? (on|over|back)": "passes, returns",
    r"dear|dearest|the like": "costly",
}
STUMBLES = [(re.compile(rf"\b(?:{words})\b", re.I), advice) for words, advice in PLAIN.items()]
# Words that are terms of the prover in one document.
TERMS = {"docs/PROVING.md": {"answers"}}
# Words that don't say what a thing is, as parts of names, and the crates whose names are searched for them.
UNCLEAR = {"told", "tells", "behind", "wanted", "asked"}
NAMED = ("hm_messages*", "hm_build_messages", "hm_build_output")
STARTS = re.compile(r"^(?:Where|What|Of|That (?:an?|the|it|this|these|those|each|no|both|all|such)) ")


def texts(page):
    """Returns the texts of a page with the line of each: paragraphs, items of lists and cells of tables."""
    found, text, start, fenced = [], [], 0, False
    for number, line in enumerate([*page.read_text().splitlines(), ""], 1):
        if line.startswith("```"):
            fenced = not fenced
        row = line.startswith("|")
        begins = re.match(r"\s*(?:[-*]|\d+\.) |#+ ", line)
        if text and (fenced or row or begins or not line.strip()):
            found.append((start, " ".join(text)))
            text = []
        if fenced or line.startswith("```") or not line.strip():
            continue
        if row:
            found += [(number, cell) for cell in re.split(r"(?<!\\)\|", line)[1:-1] if not re.fullmatch(r"\s*-+\s*", cell)]
            continue
        if not text:
            start = number
        text.append(line[begins.end():] if begins else line.strip())
    return found


def sentences(text):
    """Returns the sentences of a text, in which each piece of code is the one word CODE."""
    plain = re.sub(r"`` .*? ``|``.*?``|`[^`]*`", "CODE", text)
    plain = re.sub(r"\]\([^)]*\)", "]", plain)
    return [it.strip() for it in re.split(r"(?<=[.?!:])(?:\*\*|\))*\s+(?=[A-Z*`\"(]|hmc )", plain) if it.strip()]


def long_sentences(page):
    return [(line, it) for line, text in texts(page) for it in sentences(text) if len(it.split()) > MOST_WORDS]


def stumbles(page):
    """Returns the places of words to avoid, and of sentences that begin with a clause in place of a subject."""
    found, terms = [], TERMS.get(str(page.relative_to(TOP)), set())
    for line, text in texts(page):
        for it in sentences(text):
            found += [(line, word[0], advice) for rule, advice in STUMBLES for word in rule.finditer(it) if word[0] not in terms]
            if STARTS.match(it) and it.endswith((".", ":")):
                found.append((line, " ".join(it.split()[:4]), "begin with the subject"))
    return found


def comments(path):
    """Returns the comments of a source or a definition with their first lines. Adjacent lines are one comment."""
    found, text, start = [], [], 0
    for number, line in enumerate([*path.read_text().splitlines(), ""], 1):
        comment = re.match(r"\s*(?://[/!]?|--) ?(.*)", line)
        if comment:
            start = start if text else number
            text.append(comment[1])
        elif text:
            found.append((start, " ".join(text)))
            text = []
    return found


def searched_comments():
    """Returns how many comments were searched, and the words to avoid in them with their places."""
    folders = sorted((TOP / "crates").iterdir())
    files = [it for folder in folders for it in sorted(folder.glob("src/**/*.rt"))]
    files += [it for folder in folders for it in sorted(folder.glob("specs/**/*.antt"))]
    all_of = [(f"{file.relative_to(TOP)}:{line}", re.sub(r"`[^`]*`", "CODE", text)) for file in files for line, text in comments(file)]
    return len(all_of), [(place, word[0], advice) for place, text in all_of for rule, advice in STUMBLES for word in rule.finditer(text)]


def written_names(path):
    """Returns the names in a source or a definition with their lines, without its comments and its texts in quotes."""
    found = []
    for number, line in enumerate(path.read_text().splitlines(), 1):
        code = re.sub(r'"(?:[^"\\\\]|\\\\.)*"', " ", line)
        code = re.split(r"//|(?:^|\s)--(?:\s|$)", code)[0]
        found += [(number, it) for it in re.findall(r"[A-Za-z_][A-Za-z0-9_]*", code)]
    return found


def parts_of(name):
    """Returns the words that a name consists of, in small letters."""
    return [it.lower() for it in re.findall(r"[A-Z]?[a-z]+|[A-Z]+(?![a-z])", name)]


def unclear_names():
    """Returns how many names of the crates of messages were searched, and the unclear ones with their places."""
    files = [it for name in NAMED for folder in sorted((TOP / "crates").glob(name)) for kind in ("src/**/*.rt", "specs/**/*.antt") for it in sorted(folder.glob(kind))]
    all_of = [(f"{file.relative_to(TOP)}:{line}", name) for file in files for line, name in written_names(file)]
    return len(all_of), [(place, name) for place, name in all_of if UNCLEAR & {*parts_of(name)}]


def main():
    listing, bad = sys.argv[1:] == ["--list"], False
    for page in PAGES:
        name = str(page.relative_to(TOP))
        count, long, found = sum(len(sentences(text)) for _, text in texts(page)), long_sentences(page), stumbles(page)
        if listing or len(long) > MOST_LONG:
            for line, it in long:
                print(f"{name}:{line}: {len(it.split())} words: {it}")
        wide = [line for line, text in texts(page) if sum(len(it.split()) for it in sentences(text)) > MOST_OF_PARAGRAPH]
        for line in wide:
            print(f"{name}:{line}: a paragraph of more than {MOST_OF_PARAGRAPH} words")
        for line, word, advice in found:
            print(f"{name}:{line}: \"{word}\": {advice}")
        print(f"{name}: {count} sentences, {len(long)} of more than {MOST_WORDS} words ({MOST_LONG} allowed), {len(found)} words to avoid")
        bad |= len(long) > MOST_LONG or bool(found) or bool(wide) or not count
    count, found = searched_comments()
    for place, word, advice in found:
        print(f"{place}: \"{word}\": {advice}")
    print(f"{count} comments, {len(found)} words to avoid")
    bad |= bool(found) or not count
    count, found = unclear_names()
    for place, name in found:
        print(f"{place}: \"{name}\": name what it is")
    print(f"{count} names of the crates of messages, {len(found)} unclear")
    bad |= bool(found) or not count
    print(f"the documents are plain: {'no' if bad else 'yes'}")
    return bad


if __name__ == "__main__":
    sys.exit(main())
