#!/usr/bin/env python3
"""Runs `hmc` on random sources that no friend would write, and looks for a run that doesn't end as docs/LANGUAGE.md says.

`fuzz.py [--seed N] [--sources N] [--first N] [--kind KIND] [--processes N] [--keep FOLDER] [PROGRAM]`: without PROGRAM, the proved program
beside this folder is run. Each source is checked by 1 and by 4 workers with `--journal`, by 4 with `--explain` and with `--message-format json`, and
planned. Wanted of each run: a status of the table, nothing on standard error but the line of that status and, with `--explain`, a message for each line
of a fault and for each blamed import, in the report's order, with JSON the same messages as objects of tests/message.schema.json, one answer whatever the workers, a journal that is legal, an end within 10 s of
processor time, so that other work on the machine finds nothing, and at most 1 GB; a source of more than 100,000 bytes may take 60 s and 2 GB. Each finding is printed, and its files are put into FOLDER.
A source is a function of its seed and number. Ends with 1 where something was found.
"""
import argparse
import collections
import json
import multiprocessing
import os
import random
import re
import shutil
import signal
import sys
import tempfile
import unicodedata

from hostile_sources import KINDS, hostile
from json_messages import HEADING, differs

TOP = os.path.dirname(os.path.dirname(os.path.abspath(__file__)))

with open(os.path.join(TOP, "tests", "message.schema.json"), encoding="utf-8") as it:
    SCHEMA = json.load(it)
LARGE = 100_000
# the kinds of a source's own fault
SOURCE_KINDS = {"lexeme", "open-comment", "syntax", "too-deep", "too-long"}
MESSAGES = {0: b"", 1: b"", 2: b""}
Run = collections.namedtuple("Run", "status out err seconds megabytes")


def run(program, folder, words, paths, seconds):
    """One run, ended after so many seconds of the clock."""
    with open(os.path.join(folder, "out"), "w+b") as out, open(os.path.join(folder, "err"), "w+b") as err:
        actions = [(os.POSIX_SPAWN_DUP2, out.fileno(), 1), (os.POSIX_SPAWN_DUP2, err.fileno(), 2)]
        if len(paths) == 1:
            actions.append((os.POSIX_SPAWN_OPEN, 0, paths[0], os.O_RDONLY, 0))
        child = os.posix_spawn(program, [program, *words, *(paths if len(paths) > 1 else [])], os.environ, file_actions=actions)
        signal.signal(signal.SIGALRM, lambda *_: os.kill(child, signal.SIGKILL))
        signal.setitimer(signal.ITIMER_REAL, seconds)
        _, status, used = os.wait4(child, 0)
        signal.setitimer(signal.ITIMER_REAL, 0)
        taken = used.ru_utime + used.ru_stime
        out.seek(0)
        err.seek(0)
        return Run(os.waitstatus_to_exitcode(status), out.read(), err.read(), taken, used.ru_maxrss // 1024)


def verdicts_of(report):
    """By module the word of its block and the modules that a skipped one blames, and the last line's counts."""
    words, blamed, name = {}, collections.defaultdict(list), None
    lines = report.splitlines()
    for line in lines[:-1]:
        if line.startswith("  "):
            if words.get(name) == "skipped":
                blamed[name].append(line[len("  by "):])
        else:
            word, name = line.split(" ")
            words[name] = {"module": "good", "faulty": "faulty", "skipped": "skipped"}[word]
    counts = re.fullmatch(r"(\d+) modules: (\d+) good, (\d+) faulty, (\d+) skipped", lines[-1])
    return words, blamed, tuple(map(int, counts.groups()))


def imports_of(plan):
    imports, name = {}, None
    for line in plan.splitlines()[:-1]:
        if line.startswith("  import "):
            imports[name].append(line[len("  import "):])
        else:
            name = line[len("module "):]
            imports[name] = []
    return imports


def journal_fault(lines, imports, words, workers):
    """Why the journal isn't a legal one that ends with these verdicts, or nothing. What a build may do is written here a second time."""
    waiting, claims, published, failed = set(imports), {}, set(), set()
    for line in lines:
        step, worker, name, *rest = line.split(" ")
        worker = int(worker)
        if step == "claim":
            if not 0 <= worker < workers or worker in claims or name not in waiting or rest or any(each not in published for each in imports[name]):
                return line
            claims[worker] = name
            waiting.discard(name)
        elif step in ("publish", "fail"):
            if claims.pop(worker, None) != name or rest != ([str(len(published))] if step == "publish" else []):
                return line
            (published if step == "publish" else failed).add(name)
        else:
            return line
    by_word = lambda word: {name for name, each in words.items() if each == word}
    if claims or published != by_word("good") or failed != by_word("faulty") or waiting != by_word("skipped"):
        return "its end"
    return None


def report_fault(report, imports):
    words, blamed, counts = verdicts_of(report)
    of = lambda word: sum(each == word for each in words.values())
    if counts != (len(words), of("good"), of("faulty"), of("skipped")) or set(words) != set(imports) or list(words) != sorted(words):
        return "the report's blocks or counts"
    for name, word in words.items():
        lost = sorted(each for each in imports[name] if words[each] != "good")
        if (word == "skipped") != bool(lost) or blamed[name] != lost and word == "skipped":
            return f"what is skipped, at {name}"
    return None


def message_fault(explained, text):
    """What is wrong with the messages of a run that prints this text, or nothing."""
    if explained.out.decode() != text:
        return "another text with messages"
    err = explained.err.decode()
    if any(unicodedata.category(each) in ("Cc", "Cf", "Co", "Zl", "Zp") and each != "\n" for each in err):
        return "messages with characters that aren't escaped"
    if explained.status == 0:
        return "messages of good modules" if err else None
    lines = err.split("\n")
    if lines[-1] or not re.fullmatch(r"errors: \d+, skipped modules: \d+", lines[-2]):
        return "no counts of messages"
    heads = re.findall(r"^([^:\n]*):(\d+):(\d+): error: ([^\n]*) \[([a-z-]+)\]$", err, re.MULTILINE)
    told = [head[1:] for head in heads]
    blamed = re.findall(r"^[^:\n]*:\d+:\d+: note: skipped, since '(\S*)' (?:has errors|is skipped)$", err, re.MULTILINE)
    if explained.status == 2:
        # missing imports have a message each, and so has the first fault of each source
        words, files = {word for *_, word in told}, [file for file, *_ in heads]
        is_one = len(told) == 1 or told and (words == {"missing"} or words <= SOURCE_KINDS and len({*files}) == len(files))
        return None if is_one and not blamed and lines[-2] == f"errors: {len(told)}, skipped modules: 0" else "the message of a refusal"
    wanted = re.findall(r"^  (\d+):(\d+) ([a-z-]+) ([^\n]*)$", text, re.MULTILINE)
    # a message's column counts characters, the report's bytes
    are_told = len(told) == len(wanted) and all(
        line == at and int(column) <= int(byte) and word == kind and f"'{name}'" in title
        for (line, column, title, word), (at, byte, kind, name) in zip(told, wanted)
    )
    by = re.findall(r"^  by (\S*)$", text, re.MULTILINE)
    skipped = len(re.findall(r"^skipped ", text, re.MULTILINE))
    if not are_told or blamed != by or lines[-2] != f"errors: {len(wanted)}, skipped modules: {skipped}":
        return "the messages"
    return None


def object_fault(objects, explained):
    """What is wrong with the objects of a run whose messages these are, or nothing."""
    if (objects.status, objects.out) != (explained.status, explained.out):
        return "another report with objects"
    lines = objects.err.decode().split("\n")
    values = [json.loads(line) for line in lines[:-1]]
    for value in values:
        if why := differs(value, SCHEMA, SCHEMA):
            return why
    if lines[-1] or not values or values[-1]["level"] != "end":
        return "no end of the objects"
    told = [(each["line"], each["column"], each["level"], each["text"]) for each in HEADING.finditer(explained.err.decode())]
    said = [(str(value["start"]["line"]), str(value["start"]["character"]), value["level"], value["text"]) for value in values[:-1]]
    if [each[:3] for each in told] != [each[:3] for each in said] or any(title != text for (*_, title), (*_, text) in zip(told, said) if text.isprintable()):
        return "the objects"
    return None if values[-1]["errors"] == sum(level == "error" for _, _, level, _ in told) else "the counts of the objects"


def finding(runs, wanted, large):
    """What is wrong with the runs by one worker, by four, of the plan and with messages and objects, or nothing."""
    one, four, plan, explained, objects = runs
    for each in runs:
        if each.status not in MESSAGES or not any(each is it for it in (explained, objects)) and each.err != MESSAGES[each.status]:
            return f"status {each.status}, {each.err[:200]!r}"
        if each.seconds > (60 if large else 10) or each.megabytes > (2000 if large else 1000):
            return f"{each.seconds:.1f} s, {each.megabytes} MB"
    if explained.status != one.status:
        return f"status {explained.status} with messages"
    if one.status != four.status or (one.status == 2) != (plan.status == 2) or plan.status == 1:
        return f"statuses {one.status}, {four.status}, {plan.status}"
    if one.status == 2:
        if not one.out == four.out == plan.out or not re.fullmatch(rb"refused: [^\n]*\n", one.out):
            return "the refusals"
        text = one.out.decode()
    else:
        parts = [re.fullmatch(r"((?:.*\n)*?\d+ modules: .*\n)((?:.*\n)*)", each.out.decode()) for each in (one, four)]
        text = parts[0].group(1)
        if text != parts[1].group(1):
            return "the reports differ"
        imports = imports_of(plan.out.decode())
        wrong = report_fault(text, imports)
        for part, workers in zip(parts, (1, 4)):
            fault = journal_fault(part.group(2).splitlines(), imports, verdicts_of(text)[0], workers)
            wrong = wrong or fault and f"the journal of {workers}: {fault}"
        wrong = wrong or ((one.status == 0) != (" 0 faulty, 0 skipped\n" in text)) and "the status"
        if wrong:
            return wrong
    if wanted is not None and wanted not in text[-300:]:
        return f"not {wanted!r}"
    return message_fault(explained, text) or object_fault(objects, explained)


def fuzzed(task):
    """The kind of a source, and the finding, the runs, the files."""
    options, number = task
    made = random.Random(f"{options.seed} {number}")
    kind, files, wanted = hostile(made, number) if options.kind is None else (options.kind, *KINDS[options.kind](made, number))
    large = sum(map(len, files)) > LARGE
    with tempfile.TemporaryDirectory(dir="/dev/shm" if os.path.isdir("/dev/shm") else None) as folder:
        paths = []
        for place, data in enumerate(files):
            paths.append(os.path.join(folder, f"{place}.hs"))
            with open(paths[-1], "wb") as it:
                it.write(data)
        runs = [run(options.program, folder, words, paths, 900) for words in (["--jobs", "1", "--journal"], ["--jobs", "4", "--journal"], ["--plan"], ["--explain"], ["--message-format", "json"])]
        try:
            found = finding(runs, wanted, large)
        except (ValueError, KeyError, AttributeError, IndexError, UnicodeDecodeError) as error:
            found = f"an output that can't be read: {error!r}"
        if found:
            kept = os.path.join(options.keep, f"{options.seed}_{number}")
            shutil.rmtree(kept, ignore_errors=True)
            shutil.copytree(folder, kept)
    return number, kind, found, runs[0].status, max(each.seconds for each in runs), max(each.megabytes for each in runs)


def main():
    words = argparse.ArgumentParser(description=__doc__, formatter_class=argparse.RawDescriptionHelpFormatter)
    words.add_argument("--seed", type=int, default=1)
    words.add_argument("--sources", type=int, default=2000)
    words.add_argument("--first", type=int, default=0)
    words.add_argument("--kind", choices=KINDS)
    words.add_argument("--processes", type=int, default=os.cpu_count())
    words.add_argument("--keep", default=os.path.join(tempfile.gettempdir(), "hmc_findings"))
    words.add_argument("program", nargs="?", default=os.path.join(TOP, "crates", "hmc", "out", "hmc"))
    options = words.parse_args()
    options.program = os.path.abspath(options.program)
    counts, slowest, largest, found = collections.Counter(), (0, 0), (0, 0), 0
    with multiprocessing.Pool(options.processes) as pool:
        tasks = ((options, number) for number in range(options.first, options.first + options.sources))
        for number, kind, what, status, seconds, megabytes in pool.imap_unordered(fuzzed, tasks, 8):
            counts[kind, status] += 1
            slowest, largest = max(slowest, (seconds, number)), max(largest, (megabytes, number))
            if what:
                found += 1
                print(f"seed {options.seed}, source {number}, {kind}: {what}", flush=True)
    for (kind, status), count in sorted(counts.items()):
        print(f"{kind}, status {status}: {count}")
    print(f"{sum(counts.values())} sources, {found} findings; the slowest run took {slowest[0]:.2f} s (source {slowest[1]}), the largest {largest[0]} MB (source {largest[1]})")
    sys.exit(1 if found else 0)


if __name__ == "__main__":
    main()
