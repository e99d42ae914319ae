#!/usr/bin/env python3
"""Runs `compare` of a program on jobs with other sheets and other books, and compares what it says with two runs.

    tests/run_compare.py PROGRAM [--next-to PROGRAM] [--random N] [--seed S] [--only WORD] [--jobs J] [--seconds S]

PROGRAM is a path or a command line; the runs are made by the program after --next-to, or by the same one. The jobs are those of
tests/cases, examples/first_job, and N random ones (20). Each is compared with itself, with its sheet after each of CHANGES, with
the books of the job before it, and with both. Of each:

- the lines of `--tsv` have to be the answers in which the two response files differ, read here from their bytes, each with both
  sides' figures and the difference of what the plan pays; family, person and product are those that `report` has;
- `--json` has to have the same lines, and with the text for people the nets of the two settlements and their difference;
- where no line is about a record, its details in the two response files have to be the same bytes;
- an input that a run refuses has to be refused by the same line, the given ones first.

The last line is `N passed, M failed`; the exit status is 0 where M is 0, else 1, and 2 where no job was found.
"""

import concurrent.futures
import json
import os
import random
import re
import shlex
import subprocess
import sys
import tempfile

from options import parser_of, read_options
from random_runs import inputs_of, read, write
from run_report import FIRST_JOB, GS, HERE, answers, details, want, Differs

KEYS = ["record", "nth", "provider", "prescription", "date", "family", "person", "product"]
FIGURES = ["answer", "codes", "allowed", "deductible", "copay", "coinsurance", "member_pays", "plan_pays"]
STAMP = "202603020600"
TABLE = KEYS + FIGURES + ["with_" + name for name in FIGURES] + ["difference"]
# What is changed in a sheet: a pattern and what stands in its place.
CHANGES = [(r"(?m)^(\d+) = \d+", r"\1 = 777"), (r"(?m)^fee = \d+", "fee = 1"), (r'(?m)^bin = "\d+"', 'bin = "999999"'),
           (r"(?m)^price = (\d+)", r"price = 1\1"), (r"(?m)^refill_percent = \d+", "refill_percent = 100"),
           (r"(?m)^max_days = \d+", "max_days = 20"), (r"(?m)^family_maximum = \d+", "family_maximum = 12000"),
           (r"(?m)^fee = \d+", "fee = -1"), (r"(?m)^\[tiers", "[[tiers")]


def run(words, folder, sheet, books, seconds):
    """The response file and the settlement of a run, or its line on standard error."""
    outputs = ["--response", "r", "--books-out", "b", "--settlement", "s"]
    done = subprocess.run([*words, "run", "--sheet", sheet, "--books", books, "--batch", "batch.bin", "--stamp", STAMP, *outputs,
                           "--workers", "1"], cwd=folder, capture_output=True, timeout=seconds, check=False)
    if done.returncode:
        return None, done.stderr.splitlines(True)[0]
    return tuple(open(os.path.join(folder, name), "rb").read() for name in "rs")


def bytes_of(response):
    """Of each answer the byte that says whether its header is accepted, and its own bytes."""
    return [(text[5:6], group) for text in details(response) for group in text.split(GS)[1:]]


def net(settlement):
    return int(settlement.split(b"|")[-1])


def moved(row):
    """What an answer adds to the net."""
    return int(row["plan_pays"]) if row["answer"] in "PA" else 0


def expected(one, other):
    """The lines of the answers that differ."""
    first, second = answers(one), answers(other)
    want([(row["record"], row["nth"]) for row in first], [(row["record"], row["nth"]) for row in second], "answers of two runs")
    lines = []
    for row, with_row, text, with_text in zip(first, second, bytes_of(one), bytes_of(other), strict=True):
        if text != with_text:
            line = {name: row[name] or with_row[name] for name in KEYS}
            line.update({name: row[name] for name in FIGURES})
            line.update({"with_" + name: with_row[name] for name in FIGURES})
            line["difference"] = str(moved(with_row) - moved(row))
            lines.append(line)
    return lines


def table_in(text):
    heading, *rows = [line.split("\t") for line in text.decode().split("\n")[:-1]]
    return heading, [dict(zip(heading, row)) for row in rows]


def told(program, folder, sheet, books, seconds):
    """What `report` says of family, person and product of each answer."""
    done = subprocess.run([*program, "report", "--sheet", sheet, "--books", books, "--batch", "batch.bin", "--tsv"], cwd=folder,
                          capture_output=True, timeout=seconds, check=True)
    return {(row["record"], row["nth"]): [row[name] for name in KEYS[5:]] for row in table_in(done.stdout)[1]}


def dollars(cents):
    return f"{'-' if cents < 0 else ''}{abs(cents) // 100}.{abs(cents) % 100:02}"


def compare(options, folder, sheet, books, form=()):
    words = [*options.program, "compare", "--sheet", "sheet.toml", "--books", "books.txt", "--batch", "batch.bin", *form]
    words += ["--with-sheet", sheet] if sheet != "sheet.toml" else []
    words += ["--with-books", books] if books != "books.txt" else []
    done = subprocess.run(words, cwd=folder, capture_output=True, timeout=options.seconds, check=False)
    return done.returncode, done.stdout, done.stderr


def check(options, folder, sheet, books):
    """Compares one job with another sheet or other books."""
    given = run(options.next_to, folder, "sheet.toml", "books.txt", options.seconds)
    other = run(options.next_to, folder, sheet, books, options.seconds)
    refused = given[1] if given[0] is None else other[1] if other[0] is None else None
    if refused is not None:
        status, out, err = compare(options, folder, sheet, books)
        want((status, out, err.splitlines(True)[0]), (1, b"", refused), "a refusal")
        return
    lines = expected(given[0], other[0])
    one, two = (told(options.program, folder, *pair, options.seconds) for pair in (("sheet.toml", "books.txt"), (sheet, books)))
    for line in lines:
        at = line["record"], line["nth"]
        line.update(zip(KEYS[5:], (a or b for a, b in zip(one[at], two[at]))))
    nets = net(given[1]), net(other[1]), net(other[1]) - net(given[1])
    want(sum(int(line["difference"]) for line in lines), nets[2], "the sum of the lines")
    status, out, err = compare(options, folder, sheet, books, ["--tsv"])
    want((status, err), (0, b""), "--tsv")
    want(table_in(out), (TABLE, lines), "--tsv")
    same_elsewhere({line["record"] for line in lines}, given[0], other[0])
    as_json(options, folder, sheet, books, lines, nets)
    as_words(options, folder, sheet, books, lines, nets)


def same_elsewhere(records, one, other):
    for place, pair in enumerate(zip(details(one), details(other)), 1):
        if str(place) not in records:
            want(pair[0], pair[1], f"record {place}")


def as_json(options, folder, sheet, books, lines, nets):
    status, out, err = compare(options, folder, sheet, books, ["--json"])
    want((status, err), (0, b""), "--json")
    page = json.loads(out)
    want((page["net"], page["with_net"], page["difference"]), nets, "nets in JSON")
    text = lambda value: "" if value is None else str(value)
    found = [{**{name: text(line[name]) for name in KEYS}, **{name: text(line["given"][name]) for name in FIGURES},
              **{"with_" + name: text(line["with"][name]) for name in FIGURES}, "difference": text(line["difference"])}
             for line in page["lines"]]
    want(found, lines, "--json")


def as_words(options, folder, sheet, books, lines, nets):
    status, out, err = compare(options, folder, sheet, books)
    want((status, err), (0, b""), "words")
    *found, last = out.decode().split("\n")[:-1]
    want([re.match(r"(\d+)\.(\d+) ", line).groups() for line in found], [(line["record"], line["nth"]) for line in lines], "words")
    want([line.rsplit(" ", 1)[1] for line in found], [dollars(int(line["difference"])) for line in lines], "words")
    want(last, f"{len(lines)} differ; net {dollars(nets[0])} -> {dollars(nets[1])}, difference {dollars(nets[2])}", "words")


def job_files(folder):
    return {name: text for name in ("sheet.toml", "books.txt", "batch.bin", "stamp") if (text := read(folder, name)) is not None}


def jobs(options):
    """The files of each job by their names."""
    for top in (os.path.join(HERE, "cases"), FIRST_JOB):
        for folder, _, names in sorted(os.walk(top)):
            if {"sheet.toml", "books.txt", "batch.bin", "stamp"} <= set(names) and options.only in folder:
                yield folder, job_files(folder)
    for number in range(options.random):
        if options.only in f"random {number}":
            yield f"random {number}", inputs_of(random.Random(f"{options.seed} {number}"))


def pairs(folder, files, before):
    """Writes a job, with the sheets and books that it is compared with, which are returned."""
    write(folder, files)
    text = files["sheet.toml"].decode("utf-8", "surrogateescape")
    sheets = {f"sheet{number}": re.sub(pattern, new, text).encode("utf-8", "surrogateescape")
              for number, (pattern, new) in enumerate(CHANGES) if re.search(pattern, text)}
    write(folder, sheets)
    others = [("sheet.toml", "books.txt")] + [(name, "books.txt") for name in sheets]
    if before is not None:
        write(folder, {"other.txt": before})
        others += [("sheet.toml", "other.txt"), (others[-1][0], "other.txt")]
    return others


def faults_of(options, name, files, before):
    """How often a job was compared, and what was wrong."""
    faults = []
    with tempfile.TemporaryDirectory(prefix="rx-compare-") as folder:
        others = pairs(folder, files, before)
        for sheet, books in others:
            try:
                check(options, folder, sheet, books)
            except (Differs, ValueError, KeyError, subprocess.SubprocessError) as wrong:
                faults.append(f"{name} with {sheet} and {books}: {wrong}")
    return len(others), faults


def main(words):
    parser = parser_of(__doc__)
    parser.add_argument("--next-to", help="the program that makes the runs")
    parser.add_argument("--random", type=int, default=20)
    parser.add_argument("--seed", default="1")
    options = read_options(parser, words)
    options.next_to = shlex.split(options.next_to) if options.next_to else options.program
    found = list(jobs(options))
    before = [None] + [files["books.txt"] for _, files in found]
    passed = failed = 0
    with concurrent.futures.ThreadPoolExecutor(options.jobs) as pool:
        for count, faults in pool.map(lambda job: faults_of(options, *job[0], job[1]), zip(found, before)):
            passed, failed = passed + count - len(faults), failed + len(faults)
            for fault in faults:
                print(fault, flush=True)
    print(f"{passed} passed, {failed} failed")
    return 1 if failed else 0 if passed else 2


if __name__ == "__main__":
    sys.exit(main(sys.argv[1:]))
