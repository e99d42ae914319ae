#!/usr/bin/env python3
"""Runs `verify` of a program with rxbatch's words on the worked cases, and compares what it prints.

    tests/run_verify.py PROGRAM [--cases DIR] [--only WORD] [--changes N] [--all-bytes WORD] [--brief] [--seed S]
        [--jobs J] [--seconds S]

PROGRAM is a path or a command line. The cases are the folders below DIR (tests/cases next to this file); tests/cases/README.md
names their files. A case whose run is done (status 0) has to be found the same with one worker, with 2 and 64, and
with `--plain`; then its files are changed: N times one byte anywhere in each file, and each file cut, emptied and made
longer, and all three at once. Each change has to be reported, with status 5, by the line that this script makes of the
case's own files. With `--all-bytes WORD` each byte of each file is changed in the cases with WORD in their path, and
with `--brief` a case has one run on its files as they are and the changed bytes only. A refused case has to answer its
run's status and line. Files that can't be opened, words and a full standard output are tried on the first case that is
done. No file may be changed. A run may take S seconds.

A case that differs has one line with its first difference. The last line is `N passed, M failed`; the exit status is
0 where M is 0, else 1, and 2 where no case was found.
"""

import concurrent.futures
import os
import random
import subprocess
import sys
import tempfile
from typing import NamedTuple

from options import is_line_with_words, parser_of, read_options
from run_cases import HERE, INPUTS, OUTPUTS, case_folders, read, ways_of

# The files of a run by their options, in the order of their numbers: 1 is the sheet, 6 the settlement.
FILES = {**INPUTS, **OUTPUTS}
RESPONSE, BOOKS, SETTLEMENT = OUTPUTS.values()
# What each output is called, the word for a place in it, the byte that ends one, and the number of the first.
CUTS = {RESPONSE: ("response", "record", b"\x03", 0), BOOKS: ("books", "line", b"\n", 1),
        SETTLEMENT: ("settlement", "line", b"\n", 1)}
# Bytes that a change puts in: separators, line ends, a terminal's, and usual ones.
BYTES = b"\x00\x02\x03\n\r\x1b\x1c\x1d\x1e |\\09AZ{}\x7f\xff"


class Answer(NamedTuple):
    status: int
    stdout: bytes
    stderr: bytes


class Settings(NamedTuple):
    program: list
    changes: int
    all_bytes: str
    brief: bool
    seed: str
    seconds: float


# ---------------------------------------------------------------- what is expected

def grouped(number):
    return f"{number:,}".encode()


def same_line(outputs):
    sizes = [grouped(len(outputs[name])) for name in (RESPONSE, BOOKS, SETTLEMENT)]
    return b"same: response %s bytes, books %s, settlement %s\n" % tuple(sizes)


def shown(text):
    """The bytes as a terminal shows them, of more than 60 the first 60 and two dots."""
    front = b"".join(bytes([b]) if 0x20 <= b <= 0x7E and b != 0x5C else b"\\x%02X" % b for b in text[:60])
    return front + (b".." if len(text) > 60 else b"")


def place_line(name, ours, theirs):
    """The line of a file that differs, empty for one that doesn't."""
    if ours == theirs:
        return b""
    at = next((i for i, (a, b) in enumerate(zip(ours, theirs)) if a != b), min(len(ours), len(theirs)))
    title, word, end, first = CUTS[name]
    number = ours[:at].count(end) + first
    there, here = (shown(text[at:].partition(end)[0]) for text in (theirs, ours))
    front = f"{title}: {word} {number} differs from byte {at}: file ".encode()
    return front + there + b", replay " + here + b"\n"


def wanted_of(outputs, changed):
    text = b"".join(place_line(name, outputs[name], changed[name]) for name in OUTPUTS.values())
    return Answer(5, text, b"") if text else Answer(0, same_line(outputs), b"")


# ---------------------------------------------------------------- what is changed

def other_byte(rng, byte):
    """A byte that isn't this one."""
    return rng.choice([b for b in BYTES + bytes([byte ^ 1]) if b != byte])


def with_byte(rng, text, at):
    return text[:at] + bytes([other_byte(rng, text[at])]) + text[at + 1:]


def changed_texts(rng, text, settings, each):
    """What a text is changed to, with a word for each."""
    places = range(len(text)) if each else [rng.randrange(len(text)) for _ in range(settings.changes)]
    for at in places:
        yield f"byte {at}", with_byte(rng, text, at)
    if settings.brief:
        return
    cut = rng.randrange(len(text))
    yield f"cut to {cut} bytes", text[:cut]
    yield "without the last byte", text[:-1]
    yield "emptied", b""
    yield "longer by a byte", text + bytes([rng.choice(BYTES)])
    yield "a byte more", text[:cut] + bytes([other_byte(rng, text[cut])]) + text[cut:]
    yield "twice", text + text
    yield "zeros", bytes(100_000)


def changes_of(rng, outputs, settings, each):
    """The changes of a case's outputs: each file by itself, and all three at once."""
    last = {}
    for name, text in outputs.items():
        for word, changed in changed_texts(rng, text, settings, each):
            last[name] = with_byte(rng, text, rng.randrange(len(text)))
            yield f"{name}, {word}", {**outputs, name: changed}
    if settings.brief:
        return
    yield "all three", last
    yield "books and settlement exchanged", {**outputs, BOOKS: outputs[SETTLEMENT], SETTLEMENT: outputs[BOOKS]}


# ---------------------------------------------------------------- runs

def verify_words(stamp, number=None, way=None):
    words = ["verify"] + [word for pair in FILES.items() for word in pair] + ["--stamp", stamp]
    return words + (["--workers", number] if number else []) + ([way] if way else [])


def put(folder, files):
    for name, text in files.items():
        with open(os.path.join(folder, name), "wb") as file:
            file.write(text)


def answer_of(settings, words, folder, stdout=subprocess.PIPE):
    ended = subprocess.run(settings.program + words, cwd=folder, stdin=subprocess.DEVNULL, stdout=stdout,
                           stderr=subprocess.PIPE, timeout=settings.seconds)
    return Answer(ended.returncode, ended.stdout, ended.stderr)


def fault_of(settings, folder, what, words, files, wanted, is_told=bytes.__eq__):
    """What is wrong with an answer, None where nothing is; how standard error is compared may be given."""
    try:
        got = answer_of(settings, words, folder)
    except subprocess.TimeoutExpired:
        return f"{what}: no end after {settings.seconds:g} s"
    if got._replace(stderr=b"") != wanted._replace(stderr=b"") or not is_told(got.stderr, wanted.stderr):
        return f"{what}: {got}, wanted {wanted}"
    changed = [name for name, text in files.items() if read(folder, name) != text]
    return f"{what}: {changed[0]} was changed" if changed or set(os.listdir(folder)) != set(files) else None


def try_done(settings, case, folder, files):
    """The faults of a case whose run is done."""
    stamp, rng = os.fsdecode(read(case, "stamp")), random.Random(f"{settings.seed}/{os.path.basename(case)}")
    outputs = {name: files[name] for name in OUTPUTS.values()}
    same = Answer(0, same_line(outputs), b"")
    yield fault_of(settings, folder, "same", verify_words(stamp), files, same)
    for number, way in [] if settings.brief else ways_of(case):
        words = verify_words(stamp, number, way)
        yield fault_of(settings, folder, f"same, {number} workers {way or ''}", words, files, same)
    each = bool(settings.all_bytes) and settings.all_bytes in case
    for place, (what, changed) in enumerate(changes_of(rng, outputs, settings, each)):
        put(folder, changed)
        words = verify_words(stamp, rng.choice((None, "1", "2")), (None, "--plain")[place % 2])
        yield fault_of(settings, folder, what, words, {**files, **changed}, wanted_of(outputs, changed))
        put(folder, outputs)


def try_refused(settings, case, folder, files):
    """The faults of a case whose run is refused: no file is compared."""
    stamp, wanted = os.fsdecode(read(case, "stamp")), Answer(int(read(case, "status")), b"", read(case, "refused"))
    for number, way in ways_of(case)[:2 if settings.brief else None]:
        words = verify_words(stamp, number, way)
        yield fault_of(settings, folder, f"refused, {number} workers {way or ''}", words, files, wanted, is_line_with_words)


def try_case(settings, case):
    """How many runs the case has, and its first fault, None if there is none."""
    done = int(read(case, "status")) == 0
    with tempfile.TemporaryDirectory(prefix="rxbatch-verify-") as folder:
        files = {name: read(case, name) for name in FILES.values()}
        if not done:
            files.update(dict.fromkeys(OUTPUTS.values(), b""))
        files = {name: text for name, text in files.items() if text is not None}
        put(folder, files)
        count = 0
        for fault in (try_done if done else try_refused)(settings, case, folder, files):
            count += 1
            if fault:
                return count, fault
        return count, None


def refused_words(stamp):
    """Words that are refused, or name a file that can't be opened: a name, the words, the status that is expected, and
    the lines on standard error, None where they are left open."""
    yield "no words", ["verify"], 2, None
    yield "workers with a sign", verify_words(stamp, "+1"), 2, None
    yield "no workers", verify_words(stamp, "0"), 1, b"refused 1 0 0\n--workers 0: expected 1 to 64\n"
    yield "65 workers", verify_words(stamp, "65"), 1, b"refused 1 0 0\n--workers 65: expected 1 to 64\n"
    yield ("no date", verify_words("202602300600"), 1,
           b'refused 2 0 0\n--stamp "202602300600": its first 8 digits aren\'t a date\n')
    for number, (option, name) in enumerate(FILES.items(), 1):
        for path, why in (("not-there", "no such file or directory"), (".", "is a directory")):
            words = [path if word == name else word for word in verify_words(stamp, "65")]
            yield f"{option} {path}", words, 3, f"file {number}\n{option} {path}: {why}\n".encode()


def try_words(settings, case):
    """The runs on refused words and on a full standard output, as in `try_case`."""
    stamp, count = os.fsdecode(read(case, "stamp")), 0
    with tempfile.TemporaryDirectory(prefix="rxbatch-verify-") as folder:
        put(folder, {name: read(case, name) for name in FILES.values()})
        for what, words, status, line in refused_words(stamp):
            count, got = count + 1, answer_of(settings, words, folder)
            if (got.status, got.stdout) != (status, b"") or line not in (None, got.stderr):
                return count, f"{what}: {got}, wanted status {status} and {line}"
        if os.path.exists("/dev/full"):
            with open("/dev/full", "wb") as full:
                count, got = count + 1, answer_of(settings, verify_words(stamp), folder, full)
            if (got.status, got.stderr) != (3, b"file 0\nstandard output: no space left on device\n"):
                return count, f"a full standard output: {got}"
    return count, None


def cases_below(top, only):
    """The folders of whole runs."""
    wanted = ("sheet.toml", "status", "stamp", "workers")
    folders = [folder for folder in case_folders(top) if only in os.path.relpath(folder, top)]
    return [folder for folder in folders if all(os.path.exists(os.path.join(folder, name)) for name in wanted)]


def main(words):
    parser = parser_of(__doc__)
    parser.add_argument("--cases", default=os.path.join(HERE, "cases"))
    parser.add_argument("--changes", type=int, default=4, help="changed bytes in each file; default: 4")
    parser.add_argument("--all-bytes", default="one-billing", help="default: one-billing")
    parser.add_argument("--brief", action="store_true", help="one run on each case's files, and the changed bytes")
    parser.add_argument("--seed", default="1")
    options = read_options(parser, words)
    settings = Settings(options.program, options.changes, options.all_bytes, options.brief, options.seed, options.seconds)
    cases = cases_below(options.cases, options.only)
    done = [case for case in cases if int(read(case, "status")) == 0]
    tasks = [("words", try_words, case) for case in done[:1]]
    tasks += [(os.path.relpath(case, options.cases), try_case, case) for case in cases]
    runs = passed = failed = 0
    with concurrent.futures.ThreadPoolExecutor(options.jobs) as pool:
        answers = pool.map(lambda task: task[1](settings, task[2]), tasks)
        for (name, _, _), (count, fault) in zip(tasks, answers):
            runs, passed, failed = runs + count, passed + (fault is None), failed + (fault is not None)
            if fault:
                print(f"{name}: {fault}", flush=True)
    print(f"{runs} runs")
    print(f"{passed} passed, {failed} failed")
    return 1 if failed else 0 if passed else 2


if __name__ == "__main__":
    sys.exit(main(sys.argv[1:]))
