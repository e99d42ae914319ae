#!/usr/bin/env python3
"""Runs `replies` of a program with rxbatch's words on response files, and compares what it prints.

    tests/run_replies.py PROGRAM [--cases DIR] [--only WORD] [--jobs J] [--seconds S]

PROGRAM is a path or a command line. The cases are the folders below DIR (tests/cases next to this file) with a
`response.bin`: the file `replies` in such a folder holds the lines that are expected of it, or `replies-refused` the
line on standard error. From one-billing's response file come the files that aren't stored: its cuts at each byte,
files that are no response files, and replies that can't be read. No file may be changed. A run may take S seconds.

A case that differs has one line. The last line is `N passed, M failed`; the exit status is 0 where M is 0, else 1,
and 2 where no case was found.
"""

import concurrent.futures
import os
import subprocess
import sys
import tempfile
from typing import NamedTuple, Optional

from options import parser_of, read_options
from run_cases import HERE, read

JOB = os.path.join(HERE, "cases", "one-billing")
NAME = "response.bin"
WORDS = ["replies", "--response", NAME]
MOST_DETAILS = 100_000
HEADER = 75             # bytes of a header record, and where the first detail's record begins
FRONT = 13              # STX, `G1` and the reference of a detail


class Settings(NamedTuple):
    program: list
    seconds: float


class Case(NamedTuple):
    """A file, None for one that isn't there, and the answer that is expected; the text on standard error is left open
    if it is None."""
    name: str
    file: Optional[bytes]
    status: int
    stdout: bytes
    stderr: Optional[bytes]
    words: list = WORDS


# ---------------------------------------------------------------- cases

def stored_cases(top, only):
    """The cases of the folders below the top."""
    for folder, _, names in sorted(os.walk(top)):
        name = os.path.relpath(folder, top)
        if NAME not in names or only not in name:
            continue
        if "replies" in names:
            yield Case(name, read(folder, NAME), 0, read(folder, "replies"), b"")
        elif "replies-refused" in names:
            yield Case(name, read(folder, NAME), 1, b"", read(folder, "replies-refused"))


def shown(name, file, lines):
    return Case(name, file, 0, lines, b"")


def refused(name, file, number, place):
    return Case(name, file, 1, b"", b"response %d %d\n" % (number, place))


def cuts(file, trailer):
    """Each front of a response file of one detail."""
    for length in range(len(file)):
        start = 0 if length < HEADER else HEADER if length < trailer else trailer
        if length == 0:
            yield refused("cut to 0 bytes", b"", 2, 0)
        else:
            yield refused(f"cut to {length} bytes", file[:length], 8 if length in (HEADER, trailer) else 4, start)


def replaced(file, at, text):
    return file[:at] + text + file[at + len(text):]


def no_responses(file, trailer):
    """Files that are no response files, with the fault of each."""
    yield refused("a batch file", read(JOB, "batch.bin"), 3, 0)
    yield refused("a plan sheet", read(JOB, "sheet.toml"), 1, 0)
    yield refused("books", read(JOB, "books.txt"), 1, 0)
    yield refused("line ends alone", b"\r\n\n", 2, 3)
    yield refused("a byte before the header", b"X" + file, 1, 0)
    yield refused("a byte before an R", b"XYZR" + file, 1, 0)
    yield refused("another record first", replaced(file, 1, b"G"), 2, 0)
    yield refused("a header without its type", b"\x0200\x03" + file[HEADER:], 3, 0)
    yield refused("type T behind line ends", b"\r\n\n" + replaced(file, 3, b"T"), 3, 3)
    yield refused("type E", replaced(file, 3, b"E"), 3, 0)
    yield refused("version 11", replaced(file, 48, b"11"), 3, 0)
    yield refused("a header and no end", file[:4], 4, 0)
    yield refused("STX in the detail", replaced(file, 100, b"\x02"), 4, HEADER)
    yield refused("a record 89", replaced(file, trailer + 1, b"8"), 5, trailer)
    yield refused("a detail of five bytes", replaced(file, 80, b"\x03"), 6, HEADER)
    yield refused("ETX in the detail", replaced(file, 100, b"\x03"), 1, 101)
    yield refused("a trailer's message of 36 bytes", file[:-1] + b" \x03", 7, trailer)
    yield refused("no trailer", file[:trailer] + b"\n", 8, trailer + 1)
    yield refused("another batch number", replaced(file, trailer + 3, b"0000043"), 9, trailer)
    yield refused("count two", replaced(file, trailer + 10, b"0000000002"), 10, trailer)
    yield refused("a byte after the trailer", file + b"X", 11, len(file))
    many = file[:HEADER] + b"\x02G10000000001\x03" * (MOST_DETAILS + 1)
    yield refused("a detail too many", many, 12, len(many) - 14)


def with_texts(file, trailer, texts):
    """The response file with details of these texts."""
    details = b"".join(b"\x02G1%010d" % place + text + b"\x03" for place, text in enumerate(texts, 1))
    return file[:HEADER] + details + replaced(file[trailer:], 10, b"%010d" % (len(texts) + 2))


def readable(file, trailer, text, line):
    """Files that are response files, with the lines of each."""
    records = [record + b"\x03" for record in file.split(b"\x03")[:-1]]
    yield shown("line ends between records", b"\r\n".join(records), line)
    yield shown("count of the details alone", replaced(file, trailer + 10, b"0000000001"), line)
    yield shown("file type T", replaced(file, 47, b"T"), line)
    yield shown("no details", with_texts(file, trailer, []), b"")
    changes = (
        ("cut to 30 bytes", text[:30], 1),
        ("no text", b"", 1),
        ("a terminal's byte in the provider", replaced(text, 8, b"\x1b[2J"), 1),
        ("status X", replaced(text, 5, b"X"), 1),
        ("no answer", replaced(text, 4, b"0"), 1),
        ("AM20 for AM21", text.replace(b"AM21", b"AM20"), 2),
        ("an answer too few", replaced(text, 4, b"2"), 2),
        ("F5 that is no sum", text.replace(b"F50001300{", b"F50001300A"), 3),
        ("F9 that is no sum", text.replace(b"F90001717E", b"F90001717F"), 3),
        ("an answer S", text.replace(b"ANP", b"ANS"), 3),
        ("a byte more", text + b" ", 3),
    )
    for name, changed, fault in changes:
        assert changed != text
        yield shown(f"unreadable, {name}", with_texts(file, trailer, [changed]), b"1 0 unreadable %d\n" % fault)
    texts = [changed for _, changed, _ in changes] + [text]
    lines = [b"%d 0 unreadable %d\n" % (place, fault) for place, (_, _, fault) in enumerate(changes, 1)]
    yield shown("all of these", with_texts(file, trailer, texts), b"".join(lines) + b"%d" % len(texts) + line[1:])
    yield shown("100,000 details", with_texts(file, trailer, [text] * MOST_DETAILS),
                b"".join(b"%d" % place + line[1:] for place in range(1, MOST_DETAILS + 1)))


def words_alone():
    """Files that can't be opened, and words that aren't understood."""
    yield Case("no file", None, 3, b"", b"file 4\n")
    yield Case("a folder", None, 3, b"", b"file 4\n", ["replies", "--response", "."])
    yield Case("no words", None, 2, b"", None, ["replies"])
    yield Case("a sheet too", None, 2, b"", None, WORDS + ["--sheet", "sheet.toml"])


def made_cases():
    """The cases that are made of one-billing's response file."""
    file, line = read(JOB, NAME), read(JOB, "replies")
    trailer = file.rindex(b"\x02")
    yield from cuts(file, trailer)
    yield from no_responses(file, trailer)
    yield from readable(file, trailer, file[HEADER + FRONT:trailer - 1], line)
    yield from words_alone()


# ---------------------------------------------------------------- runs

def answer_of(settings, words, folder, stdout=subprocess.PIPE):
    return subprocess.run(settings.program + words, cwd=folder, stdin=subprocess.DEVNULL, stdout=stdout,
                          stderr=subprocess.PIPE, timeout=settings.seconds)


def fault_of(settings, case):
    """What is wrong with the program's answer, None where nothing is."""
    with tempfile.TemporaryDirectory(prefix="rxbatch-replies-") as folder:
        if case.file is not None:
            with open(os.path.join(folder, NAME), "wb") as file:
                file.write(case.file)
        try:
            ended = answer_of(settings, case.words, folder)
        except subprocess.TimeoutExpired:
            return f"no end after {settings.seconds:g} s"
        if ended.returncode != case.status:
            return f"status {ended.returncode} ({ended.stderr[:60]!r}), wanted {case.status}"
        line, words = (ended.stderr + b"\n").split(b"\n", 1) if case.status in (1, 3) else (ended.stderr, b"no words here")
        if len(words) < 9:
            return f"no words after {line!r}"
        line = line + b"\n" if case.status in (1, 3) else line
        for what, got, wanted in (("output", ended.stdout, case.stdout), ("error", line, case.stderr)):
            if wanted is not None and got != wanted:
                at = next((i for i, (a, b) in enumerate(zip(got, wanted)) if a != b), min(len(got), len(wanted)))
                start = wanted.rfind(b"\n", 0, at) + 1
                return f"standard {what}: {got[start:start + 90]!r}, wanted {wanted[start:start + 90]!r}"
        left = {} if case.file is None else {NAME: case.file}
        return None if {name: read(folder, name) for name in os.listdir(folder)} == left else "files were changed"


def full_fault(settings):
    """What is wrong where standard output is full."""
    with open("/dev/full", "wb") as full:
        ended = answer_of(settings, WORDS, JOB, full)
    good = (ended.returncode, ended.stderr) == (3, b"file 0\nstandard output: no space left on device\n")
    return None if good else f"status {ended.returncode}, {ended.stderr!r}"


def main(words):
    parser = parser_of(__doc__)
    parser.add_argument("--cases", help="only the cases below this folder")
    options = read_options(parser, words)
    cases = list(stored_cases(options.cases or os.path.join(HERE, "cases"), options.only))
    if options.cases is None:
        cases += [case for case in made_cases() if options.only in case.name]
    settings = Settings(options.program, options.seconds)
    tasks = [(case.name, fault_of, (settings, case)) for case in cases]
    if options.cases is None and os.path.exists("/dev/full"):
        tasks.append(("standard output that is full", full_fault, (settings,)))
    passed = failed = 0
    with concurrent.futures.ThreadPoolExecutor(options.jobs) as pool:
        for (name, _, _), fault in zip(tasks, pool.map(lambda task: task[1](*task[2]), tasks)):
            passed, failed = passed + (fault is None), failed + (fault is not None)
            if fault:
                print(f"{name}: {fault}", flush=True)
    print(f"{passed} passed, {failed} failed")
    return 1 if failed else 0 if passed else 2


if __name__ == "__main__":
    sys.exit(main(sys.argv[1:]))
