#!/usr/bin/env python3
"""Runs the commands that people use: `adjudicate`, `fault`, `run` with options left out and with `-`, and words on a terminal.

    tests/run_people.py PROGRAM [--only WORD]

What `adjudicate` writes is compared byte for byte with what `run` writes with the stamp that was printed, and with
examples/first_job. Each warning that stops it, each refusal and each mistake (mistakes/, a small plan of its own with one
change each, as new users made or would make them) has to leave the earlier outputs as they were and name the file and the
place. A case that fails has a line; the last line is `N passed, M failed`.
"""

import argparse
import datetime
import gzip
import json
import os
import pathlib
import pty
import re
import shutil
import subprocess
import sys
import tempfile
import time

HERE = pathlib.Path(__file__).resolve().parent
FIRST = HERE.parent / "examples" / "first_job"
PLAN = HERE / "mistakes"
NAMES = ("sheet.toml", "books.txt", "batch.bin")
INPUTS = ("--sheet", "sheet.toml", "--books", "books.txt", "--batch", "batch.bin")
WRITTEN = ("response.bin", "books.txt", "settlement.txt")
EXPECTED = {"response.bin": "response.bin", "books.txt": "books-out.txt", "settlement.txt": "settlement.txt"}
STAMP = re.compile(r"(?m)^stamp        (\d{12})$")
YESTERDAY = b"yesterday\n"


class Failed(Exception):
    """A case that doesn't hold."""


def want(holds, what):
    if not holds:
        raise Failed(what)


class Job:
    """A folder with inputs and the program."""

    def __init__(self, program, top, source=FIRST, **changed):
        self.program, self.folder = program, pathlib.Path(tempfile.mkdtemp(dir=top))
        for name in NAMES:
            text = changed.get(name.split(".")[0])
            (self.folder / name).write_bytes((source / name).read_bytes() if text is None else text)

    def run(self, *words, stdin=subprocess.DEVNULL, env=None, stdout=subprocess.PIPE):
        done = subprocess.run([self.program, *words], cwd=self.folder, stdin=stdin, stdout=stdout, stderr=subprocess.PIPE,
                              timeout=120, env=dict(os.environ, **(env or {})))
        return done.returncode, done.stdout, done.stderr.decode()

    def adjudicate(self, *more, out="out", **others):
        return self.run("adjudicate", *INPUTS, "--out", out, *more, **others)

    def written(self, out="out"):
        return {name: (self.folder / out / name).read_bytes() for name in WRITTEN}

    def with_outputs(self):
        """The folder has outputs of yesterday."""
        (self.folder / "out").mkdir()
        for name in WRITTEN:
            (self.folder / "out" / name).write_bytes(YESTERDAY)
        return self

    def keeps_outputs(self):
        names = set(os.listdir(self.folder / "out"))
        want(names <= {*WRITTEN, "log.jsonl"}, f"further files: {names}")
        want(set(self.written().values()) == {YESTERDAY}, "earlier outputs were changed")

    def by_run(self, stamp):
        """What `run` writes of the same inputs with this stamp."""
        paths = {"--response": "r", "--books-out": "b", "--settlement": "s"}
        words = [word for pair in paths.items() for word in pair]
        status, _, told = self.run("run", *INPUTS, *words, "--stamp", stamp, "--workers", "1")
        want(status == 0, f"run: {status} {told}")
        return dict(zip(WRITTEN, ((self.folder / path).read_bytes() for path in paths.values())))


# ---- adjudicate

def first_job(job):
    status, out, told = job.adjudicate("--stamp", "202603170600", "--workers", "2")
    want((status, out) == (0, b""), f"status {status}: {told}")
    for name, text in job.written().items():
        want(text == (FIRST / "expected" / EXPECTED[name]).read_bytes(), f"{name} isn't the expected one")
    want("stamp        202603170600\n" in told and "\ndone         " in told, told)
    lines = (job.folder / "out" / "log.jsonl").read_text().splitlines()
    logged = json.loads(lines[0])
    want(len(lines) == 1 and logged["status"] == 0 and logged["run"]["safe"] and logged["run"]["workers"] == 2, lines)
    want(len(logged["outputs"]["books_out"]["sha256"]) == 64, "no sums in the log")
    want(sorted(os.listdir(job.folder / "out")) == sorted([*WRITTEN, "log.jsonl"]), os.listdir(job.folder / "out"))


def stamp_is_now(job):
    for number, zone in enumerate(("UTC", "IST-5:30", "EST5EDT,M3.2.0,M11.1.0", "America/New_York")):
        os.environ["TZ"] = zone
        time.tzset()
        before = datetime.datetime.now().replace(second=0, microsecond=0)
        status, _, told = job.adjudicate(out=f"out{number}", env={"TZ": zone})
        after = datetime.datetime.now()
        del os.environ["TZ"]
        want(status == 0, f"{zone}: status {status}: {told}")
        stamp = STAMP.search(told)[1]
        at = datetime.datetime.strptime(stamp, "%Y%m%d%H%M")
        want(before <= at <= after, f"{zone}: {stamp}, and it is {before}")
        want(job.written(f"out{number}") == job.by_run(stamp), f"{zone}: not what run writes with this stamp")
        header = job.written(f"out{number}")["response.bin"][:75].decode()
        want(stamp in header, f"{zone}: {header}")


def quiet(job):
    status, out, told = job.adjudicate("--quiet")
    want((status, out, told) == (0, b"", ""), f"{status} {out} {told}")


def warned(job, *words, stops, **others):
    """A warning with these words stops, unless it is to be done again; or it doesn't, unless it is to be strict."""
    job.with_outputs()
    status, _, told = job.adjudicate(*(() if stops else ("--strict",)))
    want(status == 4 and all(word in told for word in words), f"status {status}: {told}")
    want(told.splitlines()[-1].startswith("rxbatch: nothing is written; "), told)
    job.keeps_outputs()
    want("log.jsonl" not in os.listdir(job.folder / "out"), "a line in the log")
    status, _, told = job.adjudicate(*(("--again",) if stops else ()), "--stamp", "202603170600")
    want(status == 0 and all(word in told for word in words), f"not again: status {status}: {told}")
    want(job.written() == job.by_run("202603170600"), "not what run writes")


def adjudicated_already(job):
    status, _, _ = job.adjudicate(out="night")
    want(status == 0, status)
    shutil.copy(job.folder / "night" / "books.txt", job.folder / "books.txt")
    warned(job, "batch.bin: warning: ", "it was adjudicated already", stops=True)


def another_period(job):
    text = (job.folder / "sheet.toml").read_bytes().replace(b'"2026', b'"2027')
    (job.folder / "sheet.toml").write_bytes(text)
    warned(job, "books.txt:1: warning: the books are of 20260101 to 20261231", stops=True)


def another_plan(job):
    text = re.sub(rb'bin = "\d+"', b'bin = "999999"', (job.folder / "sheet.toml").read_bytes())
    (job.folder / "sheet.toml").write_bytes(text)
    warned(job, "batch.bin: warning: no record names the sheet's bin and pcn", stops=True)


def books_too_long(job):
    """Books of 1,000,000 lines, or one less."""
    head, *rest = (job.folder / "books.txt").read_text().splitlines(keepends=True)
    numbers = range((999_999 - len(rest)) // 2)
    members = "".join(f"M|A{number:07}|01|20260101|20261231|0\n" for number in numbers)
    totals = "".join(f"T|A{number:07}|0|0\n" for number in numbers)
    parts = ["".join(line for line in rest if line.startswith(kind)) for kind in "MCT"]
    (job.folder / "books.txt").write_text(head + members + parts[0] + parts[1] + totals + parts[2])
    warned(job, "which no run reads", stops=True)


def ignored_key(job):
    text = (job.folder / "sheet.toml").read_bytes().replace(b"[tiers]", b"famly_deductible = 1\n[tiers]", 1)
    (job.folder / "sheet.toml").write_bytes(text)
    warned(job, "sheet.toml: warning: ", "famly_deductible", stops=False)


def refused_run(job):
    """A fault of no file."""
    for more, numbers, words in ((("--workers", "65"), "refused 1 0 0", "--workers 65: expected 1 to 64"),
                                 (("--stamp", "20260317"), "refused 2 0 0", '--stamp "20260317": expected 12 digits')):
        fresh = Job(job.program, job.folder).with_outputs()
        status, _, told = fresh.adjudicate(*more)
        want(status == 1 and f"\n{numbers}\n{words}" in "\n" + told, f"status {status}: {told}")
        fresh.keeps_outputs()


def words_mistaken(job):
    """Stamps and workers as users write them: each answer names the option and what is expected."""
    stamps = ("2026-03-04T06:00", "20260304", "20260304060000", "202602300600", "202603042460")
    for words, status, told_so in (
            *((("--stamp", stamp), 1, (f'--stamp "{stamp}": ',)) for stamp in stamps),
            *((("--workers", number), 1, (f"--workers {number}: expected 1 to 64",)) for number in ("0", "65", "65535")),
            *((("--workers=" + number,), 2, (f"invalid value '{number}' for '--workers <N>': expected a number from 1 to 64",))
              for number in ("100000", "auto", "+4", "4.0", "-1", "")),
            (("--workers", "-1"), 2, ("rxbatch: --workers -1: expected a number from 1 to 64\n",)),
            (("--workers", "2", "--workers", "3"), 2, ("--workers <N>", "multiple times")),
            (("--stamp", "199903040600"), 0, ("--stamp 199903040600: warning: the batch was created later, on 202603",)),
            (("--stamp", "199903040600", "--strict"), 4, ("--stamp 199903040600: warning: ",))):
        fresh = Job(job.program, job.folder).with_outputs()
        got, out, told = fresh.adjudicate(*words)
        want((got, out) == (status, b"") and all(word in told for word in told_so), f"{words}: status {got}: {told}")
        if status:
            fresh.keeps_outputs()


def files_that_fail(job):
    job.with_outputs()
    for option, place, number in (("--sheet", 1, 1), ("--books", 3, 2), ("--batch", 5, 3)):
        for path, why in (("none", "no such file or directory"), (".", "is a directory")):
            words = list(INPUTS)
            words[place] = path
            status, _, told = job.run("adjudicate", *words, "--out", "out")
            want((status, told) == (3, f"file {number}\n{option} {path}: {why}\n"), f"{option}: {status} {told}")
            job.keeps_outputs()
    with open(job.folder / "books.txt", "rb") as books:
        status, _, told = job.run("adjudicate", "--sheet", "sheet.toml", "--books", "-", "--batch", "batch.bin", "--out", "one",
                                  stdin=books)
    want(status == 0, f"books on standard input: {status} {told}")
    status, _, told = job.adjudicate(out="no/out")
    want((status, told) == (3, "file 4\n--out no/out: no such file or directory\n"), f"{status} {told}")
    (job.folder / "file").write_bytes(b"")
    status, _, told = job.adjudicate(out="file")
    want(status == 3 and told.endswith("file 7\n--log file/log.jsonl: not a directory\n"), f"{status} {told}")
    shutil.copytree(job.folder / "one", job.folder / "two")
    status, _, told = job.run("adjudicate", "--sheet", "sheet.toml", "--books", "two/books.txt", "--batch", "batch.bin", "--out",
                              "two", "--again")
    want((status, told.splitlines()[-1]) == (2, "rxbatch: --books and books.txt in --out are the same file"), f"{status} {told}")
    want(job.written("one") == job.written("two"), "the books that were given were changed")


# ---- run, and words

def streams(job):
    outputs = ("--response", "r", "--books-out", "b", "--stamp", "202603170600")
    wanted = (FIRST / "expected" / "settlement.txt").read_bytes()
    batch = subprocess.Popen(["cat", "batch.bin"], cwd=job.folder, stdout=subprocess.PIPE)
    status, out, told = job.run("run", *INPUTS[:4], "--batch", "-", *outputs, "--settlement", "s", stdin=batch.stdout)
    batch.wait()
    want((status, out, told) == (0, b"", ""), f"a batch through a pipe: {status} {told}")
    want((job.folder / "s").read_bytes() == wanted, "the settlement differs")
    status, out, told = job.run("run", *INPUTS, *outputs, "--settlement", "-")
    want((status, out, told) == (0, wanted, ""), f"the settlement through a pipe: {status} {told}")
    twice = "rxbatch: --batch and --settlement are both -: only one path may be (/dev/stdin and /dev/stdout are the same streams)\n"
    want(job.run("run", *INPUTS[:4], "--batch", "-", *outputs, "--settlement", "-") == (2, b"", twice), "- twice")
    for command in ("check", "plan", "report", "explain --record=1", "adjudicate --out=o"):
        status, out, told = job.run(*command.split(), "--sheet", "-", "--books=-", "--batch", "batch.bin")
        want((status, out, told) == (2, b"", twice.replace("--batch and --settlement", "--sheet and --books")), f"{command}: {told}")
    batch = subprocess.Popen(["cat", "batch.bin"], cwd=job.folder, stdout=subprocess.PIPE)
    status, out, told = job.run("run", *INPUTS[:4], "--batch", "-", *outputs, "--settlement", "/dev/stdout", stdin=batch.stdout)
    batch.wait()
    want((status, out, told) == (0, wanted, ""), f"from a pipe to a pipe: {status} {told}")
    want((job.folder / "r").read_bytes() == (FIRST / "expected" / "response.bin").read_bytes(), "the response differs")
    (job.folder / "all.txt").write_bytes(YESTERDAY)
    for path in ("-", "/dev/stdout"):
        with open(job.folder / "all.txt", "ab") as file:
            status, _, told = job.run("run", *INPUTS, *outputs, "--settlement", path, stdout=file)
        want((status, told) == (0, ""), f"{path}: {status} {told}")
    want((job.folder / "all.txt").read_bytes() == YESTERDAY + wanted + wanted, "the settlement isn't after what was there")
    want(not (job.folder / "-").exists(), "a file named -")
    status, _, told = job.run("run", *INPUTS, *outputs, "--settlement", "-", "--safe")
    want((status, told) == (2, "rxbatch: --settlement isn't a regular file\n"), f"{status} {told}")


def left_out(job):
    status, _, told = job.run("run", "-v", *INPUTS, "--response", "r", "--books-out", "b", "--settlement", "s", "--log", "l")
    want(status == 0, f"{status} {told}")
    stamp, logged = STAMP.search(told)[1], json.loads((job.folder / "l").read_text())
    want(logged["run"]["stamp"] == stamp and 1 <= logged["run"]["workers"] <= 64, logged["run"])
    want((job.folder / "s").read_bytes() == job.by_run(stamp)["settlement.txt"], "not what run writes with this stamp")


def on_a_terminal(job):
    """The same words, which only a terminal shows."""
    (job.folder / "sheet.toml").write_bytes(b"bin = 3\n")
    outputs = ("--response", "r", "--books-out", "b", "--settlement", "s", "--stamp", "202603170600", "--workers", "1")
    for words in (("run", *INPUTS, *outputs), ("plan", *INPUTS), ("show", *INPUTS[:2], *INPUTS[4:])):
        status, _, told = job.run(*words)
        want((status, told) == (1, "refused 3 3 1\n"), f"{words[0]}: {status} {told}")
        reader, writer = pty.openpty()
        done = subprocess.run([job.program, *words], cwd=job.folder, stdin=subprocess.DEVNULL, stdout=subprocess.DEVNULL,
                              stderr=writer, timeout=60, check=False)
        os.close(writer)
        told = os.read(reader, 10_000).decode().replace("\r\n", "\n")
        os.close(reader)
        want((done.returncode, told) == (1, 'refused 3 3 1\nsheet.toml:1: bin = 3: expected 6 digits in quotes, e.g. "900001"\n'),
             f"{words[0]}: {told}")


def words_always(job):
    text = (job.folder / "books.txt").read_bytes()
    (job.folder / "books.txt").write_bytes(text + b"\n")
    line = text.count(b"\n") + 1
    wanted = f"refused 4 2 {line}\nbooks.txt:{line}: the line is empty (sed -i '/^$/d' books.txt)\n"
    outputs = ("--response", "batch.bin", "--books-out", "books.txt", "--settlement", "sheet.toml", "--stamp", "202603170600")
    for words in (("report", *INPUTS), ("explain", *INPUTS, "--record", "1"), ("verify", *INPUTS, *outputs)):
        status, out, told = job.run(*words)
        want((status, out, told) == (1, b"", wanted), f"{words[0]}: {status} {told}")
    (job.folder / "books.txt").write_bytes(text)
    wanted = "response 3 0\nbatch.bin: header, byte 0: a field of the header is wrong, or it hasn't 75 bytes\n"
    for words in (("replies", "--response", "batch.bin"), ("explain", *INPUTS, "--record", "1", "--response", "batch.bin")):
        status, out, told = job.run(*words)
        want((status, out) == (1, b"") and told.startswith("response 3 0\nbatch.bin: ") and told.count("\n") == 2, f"{words[0]}: {told}")


# The numbers of docs/CLI.md, "Refusals", each with a word of its fault.
NUMBERS = (
    ((1, 0, 0), "workers"), ((2, 0, 0), "stamp"), ((3, 1, 0), "TOML"), ((3, 2, 9), "fee"), ((3, 3, 14), "family_deductible"),
    ((4, 1, 0), "books:1: "), ((4, 2, 7), "books:7: "), ((4, 3, 8), "books:8: "), ((4, 4, 9), "books:9: "),
    ((4, 5, 6), "books:6: "), ((4, 6, 0), "1000000"), ((5, 1, 12), "STX"), ((5, 2, 0), "STX 00"), ((5, 3, 0), "header"),
    ((5, 4, 75), "ETX"), ((5, 5, 75), "G1"), ((5, 6, 75), "reference"), ((5, 7, 300), "trailer"), ((5, 8, 326), "trailer"),
    ((5, 9, 300), "batch number"), ((5, 10, 300), "count"), ((5, 11, 326), "trailer"), ((5, 12, 9), "100000"),
    ((6, 0, 0), "memory"), ((7, 0, 0), "thread"), ((8, 1, 0), "members: more than 1000000 "), ((8, 2, 1), "members:1: "),
    ((8, 3, 4), "members:4: "), ((8, 4, 5), "members:5: the member of an earlier line"), ((8, 5, 6), "members:6: expected a line feed"),
    ((9, 1, 0), "--before: "), ((9, 2, 0), "--books-out "), ((10, 1, 0), "plans: "), ((10, 2, 0), "[[plan]]"),
    ((10, 3, 2), "plans: plan 2: it isn't a table"), ((10, 4, 2), "plans: plan 2: a key is missing"), ((10, 5, 1), "plans: plan 1: "),
    ((10, 6, 2), "plans: plan 2: its BIN "), ((11, 1, 0), "response: it answers another batch"), ((11, 2, 0), "response: its stamp "),
    ((11, 3, 7), "response: record 7: its reference "), ((11, 4, 7), "response: record 7: it holds no reply "),
)


def fault(job):
    for numbers, word in NUMBERS:
        status, out, told = job.run("fault", *map(str, numbers))
        want((status, told) == (0, "") and word in out.decode() and out.count(b"\n") == 1, f"{numbers}: {status} {out} {told}")
    lines = {job.run("fault", *map(str, numbers))[1] for numbers, _ in NUMBERS}
    want(len(lines) == len(NUMBERS), "two refusals have the same words")
    none = ((0, 0, 0), (1, 1, 0), (3, 1, 1), (3, 2, 15), (3, 4, 0), (4, 7, 0), (5, 13, 0), (4, 1, 5), (8, 0, 0), (8, 2, 2), (8, 6, 1),
            (9, 1, 1), (10, 1, 1), (10, 3, 0), (10, 7, 1), (11, 1, 1), (11, 3, 0), (11, 5, 1), (12, 1, 0))
    for numbers in none:
        status, out, told = job.run("fault", *map(str, numbers))
        want((status, out, told) == (4, b"", "rxbatch: no refusal has these numbers\n"), f"{numbers}: {out} {told}")


CASES = (
    ("the first job", first_job), ("the stamp is now", stamp_is_now), ("quiet", quiet),
    ("a batch adjudicated already", adjudicated_already), ("books of another period", another_period),
    ("a batch of another plan", another_plan), ("end books that no run reads", books_too_long), ("an ignored key", ignored_key),
    ("a fault of no file", refused_run), ("stamps and workers mistaken", words_mistaken), ("files that fail", files_that_fail), ("standard streams", streams),
    ("options left out", left_out), ("words on a terminal", on_a_terminal), ("words always", words_always),
    ("numbers of a refusal", fault),
)


# ---- mistakes

SHEET, BOOKS, BATCH = ((PLAN / name).read_bytes() for name in NAMES)
BOOK_LINES = BOOKS.split(b"\n")


def once(text, old, new):
    assert text.count(old) >= 1, old
    return text.replace(old, new, 1)


def sheet(name, text, *wanted):
    return "sheet: " + name, {"sheet": text}, *wanted


def books(name, text, *wanted):
    return "books: " + name, {"books": text}, *wanted


def batch(name, text, *wanted):
    return "batch: " + name, {"batch": text}, *wanted


# Each mistake with the status, N and M of the refusal, and what the words have to name: file and place, and what is there.
MISTAKES = (
    sheet("CRLF", SHEET.replace(b"\n", b"\r\n"), 0),
    sheet("BOM", b"\xef\xbb\xbf" + SHEET, 0),
    sheet("no last line feed", SHEET.rstrip(), 0),
    sheet("blanks at line ends", SHEET.replace(b"\n", b" \t\n"), 0),
    sheet("a date with dashes", once(SHEET, b'"20260101"', b'"2026-01-01"'), 1, "3 3", "sheet.toml:3: period_first",
          '"2026-01-01"', "8 digits"),
    sheet("a bare date", once(SHEET, b'"20260101"', b"2026-01-01"), 1, "3 3", "sheet.toml:3: period_first", "quotes"),
    sheet("no such date", once(SHEET, b'"20261231"', b'"20260231"'), 1, "3 3", "sheet.toml:4: period_last", '"20260231": no such date'),
    sheet("the period reversed", once(SHEET, b'"20260101"', b'"20270101"'), 1, "3 3", "sheet.toml:4: period_last", "20270101"),
    sheet("no bin", once(SHEET, b'bin = "610001"\n', b""), 1, "3 2", "bin is missing", "6 digits"),
    sheet("a bin without quotes", once(SHEET, b'"610001"', b"610001"), 1, "3 3", "sheet.toml:1: bin = 610001", "quotes"),
    sheet("a bin of 5 digits", once(SHEET, b'"610001"', b'"61001"'), 1, "3 3", 'sheet.toml:1: bin = "61001"', "6 digits"),
    sheet("no refill_percent", once(SHEET, b"refill_percent = 80\n", b""), 1, "3 2", "refill_percent is missing"),
    sheet("refil_percent", once(SHEET, b"refill_percent", b"refil_percent"), 1, "3 2", "refill_percent is missing",
          "line 7 has refil_percent: is it meant?"),
    sheet("famly_deductible", once(SHEET, b"[tiers]", b"famly_deductible = 1\n[tiers]"), 0, None, "famly_deductible"),
    sheet("family_deductible among the tiers", once(SHEET, b"brand = 4000", b"brand = 4000\nfamily_deductible = 100"), 0, None,
          "family_deductible"),
    sheet("family_deductible in a drug", SHEET + b"family_deductible = 100\n", 0, None, "family_deductible"),
    sheet("a fee in dollars", once(SHEET, b"fee = 150", b"fee = 1.50"), 1, "3 3", "sheet.toml:9: fee = 1.5", "whole cents"),
    sheet("a fee in quotes", once(SHEET, b"fee = 150", b'fee = "150"'), 1, "3 3", 'sheet.toml:9: fee = "150"', "whole cents"),
    sheet("5,000", once(SHEET, b"= 5000", b"= 5,000"), 1, "3 1", "sheet.toml:5:", "5,000", "no comma"),
    sheet("percent 120", once(SHEET, b"percent = 25", b"percent = 120"), 1, "3 3", "sheet.toml:14:", "percent = 120", "100"),
    sheet("procent", once(SHEET, b"percent = 25", b"procent = 25"), 1, "3 3", "sheet.toml:14:", '"special"', "percent"),
    sheet("a tier that isn't there", once(SHEET, b'tier = "brand"', b'tier = "Brand"'), 1, "3 3", '"Brand"', "22222222222",
          "sheet.toml:20:", "the tiers are brand, generic, special: is \"brand\" meant?"),
    sheet("no price", once(SHEET, b"price = 900000\n", b""), 1, "3 2", "sheet.toml:22: drug 33333333333: price is missing"),
    sheet("a negative price", once(SHEET, b"price = 900000", b"price = -1"), 1, "3 3", "sheet.toml:24: drug 33333333333: price = -1"),
    sheet("a product with dashes", once(SHEET, b"[drugs.22222222222]", b"[drugs.22222-2222-22]"), 1, "3 3", "sheet.toml:19:",
          "22222-2222-22", "11 digits"),
    sheet("a product of 10 digits", once(SHEET, b"[drugs.22222222222]", b"[drugs.2222222222]"), 1, "3 3", "sheet.toml:19:", "2222222222",
          "11 digits"),
    sheet("a drug twice", once(SHEET, b"[drugs.22222222222]", b"[drugs.33333333333]"), 1, "3 1", "sheet.toml:22:1:", "duplicate"),
    sheet("a quote missing", once(SHEET, b'"610001"', b'"610001'), 1, "3 1", "sheet.toml:1:"),
    sheet("no equals sign", once(SHEET, b"price = 900000", b"price 900000"), 1, "3 1", "sheet.toml:24:"),
    sheet("empty", b"", 1, "3 2", "sheet.toml: the file is empty", "a plan sheet"),
    sheet("Latin-1", b"# Caf\xe9\n" + SHEET, 1, "3 1", "sheet.toml:1:", "UTF-8", "iconv"),
    sheet("another year", SHEET.replace(b'"2026', b'"2027'), 4, None, "books.txt:1:", "another period", "start again", "81"),
    books("CRLF", BOOKS.replace(b"\n", b"\r\n"), 1, "4 1", "books.txt:1:", "CR LF", "sed"),
    books("BOM", b"\xef\xbb\xbf" + BOOKS, 1, "4 1", "books.txt:1:", "byte order mark", "sed"),
    books("no last line feed", BOOKS.rstrip(), 1, "4 2", "books.txt:7:", "line feed", "echo"),
    books("a blank line at the end", BOOKS + b"\n", 1, "4 2", "books.txt:8:", "empty", "sed"),
    books("a blank at a line's end", once(BOOKS, b"|20261231|0\n", b"|20261231|0 \n"), 1, "4 2", "books.txt:3:", "ends with a blank", "sed"),
    books("a comment", once(BOOKS, b"M|", b"# members\nM|"), 1, "4 2", "books.txt:2:", "no comments", "sed"),
    books("no total of a family", once(BOOKS, b"T|F2|0|0\n", b""), 1, "4 5", "books.txt:", "F2"),
    books("a wrong total", once(BOOKS, b"T|F1|9000|5000", b"T|F1|9001|5000"), 1, "4 5", "books.txt:6:", "9001", "9000"),
    books("a wrong deductible", once(BOOKS, b"01|20260101|20261231|5000", b"01|20260101|20261231|4000"), 1, "4 5", "books.txt:2:",
          "4000", "5000"),
    books("members out of order", b"\n".join(BOOK_LINES[i] for i in (0, 1, 3, 2, 4, 5, 6, 7)), 1, "4 3", "books.txt:4:", "F1/02"),
    books("a member twice", once(BOOKS, BOOK_LINES[2] + b"\n", (BOOK_LINES[2] + b"\n") * 2), 1, "4 3", "books.txt:4:", "F1/02", "first at line 3",
          "delete"),
    books("a claim before the members", b"\n".join(BOOK_LINES[i] for i in (0, 4, 1, 2, 3, 5, 6, 7)), 1, "4 4", "books.txt:2:", "F1/01",
          "below this claim"),
    books("a claim of an unknown member", once(BOOKS, b"|F1|01|2222", b"|F1|03|2222"), 1, "4 4", "books.txt:5:", "F1/03"),
    books("no such date", once(BOOKS, b"|1|20260201|", b"|1|20260230|"), 1, "4 2", "books.txt:5:", '"20260230"'),
    books("a date with dashes", once(BOOKS, b"|1|20260201|", b"|1|2026-02-01|"), 1, "4 2", "books.txt:5:", '"2026-02-01"', "8 digits"),
    books("a figure missing", once(BOOKS, b"|4000|0|", b"|4000|"), 1, "4 2", "books.txt:5:", "14 fields"),
    books("leading zeros", once(BOOKS, b"|1|20260201|", b"|0001|20260201|"), 1, "4 2", "books.txt:5:", '"0001"', "leading zeros"),
    books("a small m", once(BOOKS, b"M|F1|02", b"m|F1|02"), 1, "4 2", "books.txt:3:", "M|, C| or T|, in capitals", "sed"),
    books("version 4", once(BOOKS, b"BOOKS|3", b"BOOKS|4"), 1, "4 1", "books.txt:1:", 'version "4"'),
    books("no head", BOOKS.split(b"\n", 1)[1], 1, "4 1", "books.txt:1:", "head line"),
    books("empty", b"", 1, "4 1", "books.txt:1:", "empty"),
    books("dollars", once(BOOKS, b"|15000|150|", b"|150.00|1.50|"), 1, "4 2", "books.txt:5:", '"150.00"',
          "ingredient cost", "cents"),
    books("a number of 14 digits", once(BOOKS, b"000000000000011", b"00000000000011"), 1, "4 2", "books.txt:5:", "15"),
    books("of another year", once(BOOKS, b"BOOKS|3|20260101|20261231", b"BOOKS|3|20250101|20251231"), 1, "4 5", "books.txt:2:", "20250101", "line 1"),
    ("books: exchanged with the sheet", {"sheet": BOOKS, "books": SHEET}, 1, "3 1", "sheet.toml: ", "books file"),
    batch("CRLF", BATCH.replace(b"\n", b"\r\n"), 0),
    batch("BOM", b"\xef\xbb\xbf" + BATCH, 1, "5 1", "batch.bin: ", "byte order mark"),
    batch("no last line feed", BATCH.rstrip(), 0),
    batch("empty", b"", 1, "5 2", "batch.bin: ", "empty"),
    batch("STX spelled out", BATCH.replace(b"\x02", b"<02>"), 1, "5 1", "batch.bin: ", "STX", "spelled out", "sed"),
    batch("control bytes spelled out", re.sub(rb"[\x00-\x1f]", lambda byte: b"<%02X>" % ord(byte[0]), BATCH), 1, "5 1", "batch.bin: ",
          "spelled out", "sed"),
    batch("control bytes spelled out in small letters", re.sub(rb"[\x02-\x09\x1c-\x1e]", lambda byte: b"<%02x>" % ord(byte[0]), BATCH), 1, "5 1",
          "batch.bin: ", "spelled out", "sed"),
    batch("gzip", gzip.compress(BATCH, mtime=0), 1, "5 1", "batch.bin: ", "gzip"),
    batch("cut in a record", BATCH[:400], 1, "5 4", "batch.bin: record"),
    batch("no trailer", BATCH[:BATCH.index(b"\x0299")], 1, "5 8", "batch.bin: ", "trailer"),
    batch("another count", once(BATCH, b"00000010000000006", b"00000010000000007"), 1, "5 10", "batch.bin: record 7", "7 records", "6"),
    batch("another number", once(BATCH, b"990000001", b"990000002"), 1, "5 9", "batch.bin: ", "0000002"),
    batch("a header of 74 bytes", once(BATCH, b"SENDER ", b"SENDER"), 1, "5 3", "batch.bin: header", "74"),
    batch("no such date", once(BATCH, b"202603031200", b"202602301200"), 1, "5 3", "batch.bin: header", "20260230"),
    batch("version 13", once(BATCH, b"1200P12", b"1200P13"), 1, "5 3", "batch.bin: header", '"13"'),
    batch("a response file", once(BATCH, b"\x0200T", b"\x0200R"), 1, "5 3", "batch.bin: header", '"R"'),
    batch("blanks at line ends", BATCH.replace(b"\n", b" \n"), 1, "5 1", "batch.bin: record 1", "a blank after a record's ETX", "sed"),
    batch("blanks and tabs after records", BATCH.replace(b"\n", b"\t \n"), 1, "5 1", "batch.bin: record 1", "a blank after a record's ETX", "sed"),
    batch("two batches", BATCH + BATCH, 1, "5 11", "batch.bin: ", "trailer"),
    batch("^Z at the end", BATCH + b"\x1a", 1, "5 11", "batch.bin: ", "Ctrl-Z", "sed"),
    batch("a name in UTF-8", once(BATCH, b"SENDER  ", b"SEND\xc3\x89R "), 0),
    batch("a record G2", once(BATCH, b"\x02G10000000003", b"\x02G20000000003"), 1, "5 5", "batch.bin: record 3", "G2"),
    batch("a reference of 3 characters", once(BATCH, b"\x02G10000000003610001", b"\x02G1003\x03\x02G10000000003610001"), 1, "5 6",
          "batch.bin: record 3"),
)


# The mistakes that one command mends, which stands at the end of its line.
MENDED = {
    "sheet: Latin-1", "books: CRLF", "books: BOM", "books: no last line feed", "books: a blank line at the end",
    "books: members out of order", "books: a claim before the members", "batch: BOM", "batch: gzip", "batch: STX spelled out",
    "batch: control bytes spelled out", "batch: control bytes spelled out in small letters", "batch: blanks at line ends",
    "batch: blanks and tabs after records", "batch: ^Z at the end", "books: a blank at a line's end", "books: a comment", "books: a small m",
}
MEND = re.compile(r"(?m) \(((?:LC_ALL=C sh|sh|sed|echo) .* (?:sheet\.toml|books\.txt|batch\.bin))\)$")


def mended(job, name, told):
    """The command that is printed mends the file: `check` has nothing to say after it."""
    commands = MEND.findall(told)
    want(len(commands) == (name in MENDED), f"{name}: commands that mend: {commands}")
    for command in commands:
        subprocess.run(["sh", "-c", command], cwd=job.folder, check=True, timeout=60)
        want(job.run("check", *INPUTS) == (0, b"", ""), f"{name}: `check` isn't content after {command}")


def mistake(program, top, name, changed, status, numbers=None, *words):
    job = Job(program, top, PLAN, **changed).with_outputs()
    got, out, told = job.adjudicate("--stamp", "202603040600", "--workers", "2")
    want((got, out) == (status, b""), f"{name}: status {got}: {told}")
    for word in words:
        want(word in told, f"{name}: no {word!r} in {told!r}")
    if status == 0:
        want(job.written() == job.by_run("202603040600"), f"{name}: not what run writes")
        return
    job.keeps_outputs()
    if numbers:
        line, _, rest = told.partition("\n")
        want(line.startswith(f"refused {numbers} ") and rest.endswith("\n"), f"{name}: {told!r}")
        outputs = ("--response", "r", "--books-out", "b", "--settlement", "s", "--stamp", "202603040600", "--workers", "2")
        want(job.run("run", *INPUTS, *outputs) == (1, b"", line + "\n"), f"{name}: run isn't refused with {line}")
    mended(job, name, told)


def main():
    parser = argparse.ArgumentParser(description=__doc__.split("\n", maxsplit=1)[0])
    parser.add_argument("program")
    parser.add_argument("--only", default="", help="only cases with this word in their name")
    options = parser.parse_args()
    program, passed, failed = os.path.abspath(options.program), 0, 0
    with tempfile.TemporaryDirectory() as top:
        cases = [(name, lambda case=case: case(Job(program, top))) for name, case in CASES]
        cases += [(case[0], lambda case=case: mistake(program, top, *case)) for case in MISTAKES]
        for name, case in cases:
            if options.only not in name:
                continue
            try:
                case()
                passed += 1
            except Failed as error:
                failed += 1
                print(f"{name}: {error}")
    print(f"{passed} passed, {failed} failed")
    return 1 if failed or not passed else 0


if __name__ == "__main__":
    sys.exit(main())
