#!/usr/bin/env python3
"""Compares `hmc` with GHC 9 on random sets of modules.

`against_ghc.py [--seed N] [--sets N] [--first N] [--features] [--shrink] [PROGRAM]`: without PROGRAM, the script `hmc` beside
this folder is run. For each module the verdicts are compared, for good ones the interfaces, and for faulty ones the phase and
the lines of the faults. Each difference is printed with the modules of its set, by `--shrink` with as few lines of them as keep
it. `--first` is the number of the first set. `--features` prints how many good modules use each feature. Ends with 1 where a
difference was found.
"""
import argparse
import collections
import os
import random
import re
import subprocess
import sys
import tempfile

from haskell_sets import ghc
from haskell_sets.chosen import chosen_sets
from haskell_sets.faults import fault_difference
from haskell_sets.modules import RandomSet

TOP = os.path.dirname(os.path.dirname(os.path.abspath(__file__)))

# a set has at most 4 modules, and hmc takes 256 at once
SETS_AT_ONCE = 64


def parsed(report):
    """The answers of a report: by module its word and the lines of its block."""
    answers = {}
    for line in report.splitlines():
        if line.startswith("  "):
            answers[name][1].append(line)
        elif not re.match(r"\d+ modules", line):
            word, _, name = line.partition(" ")
            answers[name] = ({"module": "good"}.get(word, word), [])
    return answers


def hmc_answers(program, texts):
    """What the program answers on modules, each in a file of its own; of a refused set it answers the refusal for each."""
    with tempfile.TemporaryDirectory() as folder:
        paths = []
        for name, text in texts.items():
            paths.append(os.path.join(folder, f"{name}.hs"))
            with open(paths[-1], "w", encoding="utf-8") as file:
                file.write(text)
        child = subprocess.run([program, *paths], capture_output=True, text=True, check=False)
    if child.returncode not in (0, 1):
        return {name: (f"status {child.returncode}", [child.stdout + child.stderr]) for name in texts}
    return parsed(child.stdout)


def united(sets):
    """The modules of several sets, whose names are all different."""
    return {name: text for texts in sets for name, text in texts.items()}


def all_answers(program, sets):
    """The program's answers on several sets: in one run, or in one for each where it refuses that."""
    found = hmc_answers(program, united(sets))
    if any(word.startswith("status") for word, _ in found.values()):
        found = {name: answer for texts in sets for name, answer in hmc_answers(program, texts).items()}
    return found


def module_difference(text, mine, theirs):
    """In a word how two answers on a module differ, or nothing."""
    word, lines = mine
    if word != theirs.word:
        return f"verdict: hmc {word}, GHC {theirs.word}"
    if word == "good" and sorted(lines) != sorted(theirs.lines):
        return "interface"
    if word == "faulty":
        return fault_difference(text, lines, theirs.messages)
    return None


def differences(texts, mine, theirs):
    """The modules of one set with the differences between the answers on them."""
    found = {}
    for name, text in texts.items():
        difference = module_difference(text, mine.get(name, ("missing", [])), theirs[name])
        if difference:
            found[name] = (difference, mine.get(name), theirs[name])
    return found


def ghc_answers(texts):
    with tempfile.TemporaryDirectory() as folder:
        return ghc.ask(texts, folder)


def shrunk(program, texts, name, difference):
    """The set with as many lines taken away as the difference on the module stands."""
    texts = dict(texts)
    for other in reversed(list(texts)):
        place = len(texts[other].split("\n")) - 1
        while place >= 0:
            lines = texts[other].split("\n")
            lines[place:place + 1] = [""] if lines[place].strip("} ") and place else [lines[place]]
            attempt = {**texts, other: "\n".join(lines)}
            if attempt != texts:
                found = differences(attempt, hmc_answers(program, attempt), ghc_answers(attempt))
                if found.get(name, [None])[0] == difference:
                    texts = attempt
            place -= 1
    return texts


def told(options, title, texts, name, found):
    """Prints one difference."""
    difference, mine, theirs = found
    if options.shrink:
        texts = shrunk(options.program, texts, name, difference)
        _, mine, theirs = differences(texts, hmc_answers(options.program, texts), ghc_answers(texts))[name]
    print(f"=== {title}, module {name}: {difference}")
    for text in texts.values():
        print("\n".join(f"{place:3} {line}" for place, line in enumerate(text.split("\n"), 1) if line))
    print("--- hmc:", *([mine[0], *mine[1]] if mine else ["nothing"]), sep="\n")
    print("--- GHC:", theirs.word, *theirs.lines, *(message.text for message in theirs.messages), sep="\n", flush=True)


class Tally:
    """Compares sets and counts what was found."""

    def __init__(self, options):
        self.options = options
        self.sets = 0
        self.counts, self.features, self.kinds = collections.Counter(), collections.Counter(), collections.Counter()

    def compare(self, made):
        """Compares some sets: by their titles the texts of their modules, and the features of these."""
        sets = [texts for texts, _ in made.values()]
        theirs, mine = ghc_answers(united(sets)), all_answers(self.options.program, sets)
        for title, (texts, used) in made.items():
            self.sets += 1
            for name in texts:
                self.count(theirs[name], used.get(name, ()))
            for name, found in differences(texts, mine, theirs).items():
                self.counts["differences"] += 1
                told(self.options, title, texts, name, found)

    def count(self, answer, used):
        self.counts[answer.word] += 1
        if answer.word == "good":
            self.features.update(used)
        for message in answer.messages[:1]:
            self.kinds["/".join(sorted(message.words)) or "another message"] += 1

    def run(self):
        """The chosen sets, and then the random ones."""
        options = self.options
        self.compare({f"chosen set {number}": (texts, {}) for number, texts in enumerate(chosen_sets())})
        last = options.first + options.sets
        for start in range(options.first, last, SETS_AT_ONCE):
            numbers = range(start, min(start + SETS_AT_ONCE, last))
            made = {number: RandomSet(random.Random(f"{options.seed} {number}"), number) for number in numbers}
            self.compare({f"seed {options.seed}, set {number}": (each.texts, each.features) for number, each in made.items()})

    def summary(self):
        if self.options.features:
            for name, count in sorted(self.features.items()):
                print(f"{count:6} good modules: {name}")
            for name, count in self.kinds.most_common():
                print(f"{count:6} faulty modules that GHC first tells: {name}")
        counts = self.counts
        print(f"{self.sets} sets, {sum(counts[word] for word in ('good', 'faulty', 'skipped'))} modules: {counts['good']} good, "
              f"{counts['faulty']} faulty, {counts['skipped']} skipped, {counts['differences']} differences")


def main():
    words = argparse.ArgumentParser(description=__doc__, formatter_class=argparse.RawDescriptionHelpFormatter)
    words.add_argument("--seed", type=int, default=1)
    words.add_argument("--sets", type=int, default=400)
    words.add_argument("--first", type=int, default=0)
    words.add_argument("--features", action="store_true")
    words.add_argument("--shrink", action="store_true")
    words.add_argument("program", nargs="?", default=os.path.join(TOP, "hmc"))
    tally = Tally(words.parse_args())
    tally.run()
    tally.summary()
    sys.exit(1 if tally.counts["differences"] else 0)


if __name__ == "__main__":
    main()
