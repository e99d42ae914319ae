#!/usr/bin/env python3
"""Runs `members` and `age` of a program with rxbatch's words, and compares what they print and write.

    tests/run_upkeep.py PROGRAM [--next-to PROGRAM] [--plans N] [--seed S] [--only WORD] [--jobs J] [--seconds S]

The worked cases are below, with their sums. Each fault of a table is made once, and its words are compared; one table has
500,000 rows. Then N plans (3) live through three years of random nights, with `members` each week and `age` each January, next
to books that are never aged: those are kept up by a few lines of this file, and adjudicated by the program that `--next-to`
names, or else by PROGRAM with `--plain`; of a file in Python `main` is called with the words. What leaves is dated before a
random day up to the period's first, and from the first safe day on each night's response and settlement have to be the same,
and the end books the others less the claims that left.

A case that differs has one line. The last line is `N passed, M failed`; the exit status is 0 where M is 0, else 1.
"""

import datetime
import importlib.util
import os
import random
import shlex
import subprocess
import sys
import tempfile

from options import parser_of, read_options, try_cases
from run_cases import read

sys.path.insert(0, os.path.join(os.path.dirname(os.path.abspath(__file__)), "..", "bench"))

from make_job import ETX, GS, STX, amount, header, segment  # noqa: E402

# ---------------------------------------------------------------- worked cases

# A claim of the last day of 2025, and one of the first day of 2026: only the second is of the period. It has FH 700 and
# FI 200, so its family's deductible is 700 and its out of pocket 900.
OPENING = b"""BOOKS|3|20260101|20261231
M|C100|01|20260101|20261231|700
M|C100|02|20260101|20261231|0
M|C200|01|20260101|20261231|0
C|1234567893|1|20251231|C100|01|00002000202|30000|30|30000|175|500|100|0|000004200000011
C|1234567893|2|20260101|C100|01|00002000202|30000|30|30000|175|700|200|0|000004200000021
T|C100|900|700
T|C200|0|0
"""
HEADING = b"family\tperson\tfirst\tlast\n"
# One member with another last day, one new, one as listed; the order of rows doesn't matter.
TABLE = HEADING + b"C200\t01\t20260101\t20261231\nC150\t01\t20260101\t20261231\nC100\t02\t20260101\t20260630\n"
LOADED = OPENING.replace(b"M|C100|02|20260101|20261231|0\n", b"M|C100|02|20260101|20260630|0\nM|C150|01|20260101|20261231|0\n") \
    .replace(b"T|C200", b"T|C150|0|0\nT|C200")
FOUNDED = b"""BOOKS|3|20260101|20261231
M|C100|02|20260101|20260630|0
M|C150|01|20260101|20261231|0
M|C200|01|20260101|20261231|0
T|C100|0|0
T|C150|0|0
T|C200|0|0
"""
# What each member of the table came to, in the order of the books.
REPORT_HEADING = HEADING.replace(b"\n", b"\tchange\n")
REPORT = REPORT_HEADING + b"C100\t02\t20260101\t20260630\tchanged\nC150\t01\t20260101\t20261231\tcame in\n" \
    b"C200\t01\t20260101\t20261231\tstayed\n"
FIRST_REPORT = REPORT.replace(b"changed", b"came in").replace(b"stayed", b"came in")
OLD_CLAIM = OPENING.splitlines(keepends=True)[4]
AGED = OPENING.replace(OLD_CLAIM, b"")
# The period of 2025 has the old claim, with FH 500 and FI 100, and not the other one.
AGED_TO_2025 = OPENING.replace(b"BOOKS|3|20260101|20261231", b"BOOKS|3|20250101|20251231").replace(b"20261231|700", b"20261231|500") \
    .replace(b"T|C100|900|700", b"T|C100|600|500")
SHEET = b"""bin = "610591"
pcn = "RXTEST"
period_first = "20260101"
period_last = "20261231"
member_deductible = 10000
family_maximum = 300000
refill_percent = 75
max_days = 90
fee = 175
family_deductible = 60000
[tiers]
generic = 1000
[drugs.00002000202]
tier = "generic"
price = 1000
"""

MEMBERS = "members --books books.txt --members table.tsv --books-out out.txt"
AGE = "age --books books.txt --before 20260101 --refill-percent 75 --books-out out.txt --dropped dropped.txt"

# Name, words, status, standard output, end books, the other output: claims that left, or a report. 75% of 30 days are 22.5
# days, so the claim of 2025-12-31 is over 23 days later, on 2026-01-23; at 0% it is over on the next day, after which no
# reversal names it.
WORKED = (
    ("members", MEMBERS, 0, b"1 came in, 1 changed, 1 stayed\n", LOADED, None),
    ("members --safe", MEMBERS + " --safe", 0, b"1 came in, 1 changed, 1 stayed\n", LOADED, None),
    ("first books", MEMBERS.replace("--books books.txt", "--period 20260101-20261231"), 0, b"3 came in, 0 changed, 0 stayed\n",
     FOUNDED, None),
    ("members --report", MEMBERS + " --report report.tsv", 0, b"1 came in, 1 changed, 1 stayed\n", LOADED, REPORT),
    ("members --report --safe", MEMBERS + " --safe --report=report.tsv", 0, b"1 came in, 1 changed, 1 stayed\n", LOADED, REPORT),
    ("first books with a report", MEMBERS.replace("--books books.txt", "--period 20260101-20261231") + " --report report.tsv", 0,
     b"3 came in, 0 changed, 0 stayed\n", FOUNDED, FIRST_REPORT),
    ("age", AGE, 0, b"1 claims left, first safe day 20260123\n", AGED, OLD_CLAIM),
    ("age --safe", AGE + " --safe", 0, b"1 claims left, first safe day 20260123\n", AGED, OLD_CLAIM),
    ("age by a sheet", AGE.replace("--refill-percent 75", "--sheet sheet.toml"), 0, b"1 claims left, first safe day 20260123\n",
     AGED, OLD_CLAIM),
    ("age at 0%", AGE.replace("75", "0"), 0, b"1 claims left, first safe day 20260101\n", AGED, OLD_CLAIM),
    ("nothing to age", AGE.replace("20260101", "20251231"), 0, b"0 claims left, first safe day 00000101\n", OPENING, b""),
    ("another period", AGE.replace("20260101", "20250101") + " --period 20250101-20251231", 0,
     b"0 claims left, first safe day 00000101\n", AGED_TO_2025, b""),
    ("a day after the period's first", AGE.replace("20260101", "20260102"), 1, b"", None, None),
    ("no date", AGE.replace("20260101", "20260230"), 2, b"", None, None),
    ("no percentage", AGE.replace("75", "101"), 2, b"", None, None),
    ("no period", MEMBERS.replace("--books books.txt", "--period 20261231-20260101"), 2, b"", None, None),
    ("both books and a period", MEMBERS + " --period 20260101-20261231", 2, b"", None, None),
    ("neither books nor a period", MEMBERS.replace("--books books.txt ", ""), 2, b"", None, None),
    ("end books over the table", MEMBERS.replace("out.txt", "table.tsv"), 2, b"", None, None),
    ("end books over the books", MEMBERS.replace("out.txt", "books.txt") + " --safe", 2, b"", None, None),
    ("claims that left over the end books", AGE.replace("dropped.txt", "./out.txt"), 2, b"", None, None),
    ("a report over the end books", MEMBERS + " --report ./out.txt", 2, b"", None, None),
    ("a report over the table, safe", MEMBERS + " --safe --report table.tsv", 2, b"", None, None),
    ("a report to standard output", MEMBERS + " --report -", 2, b"", None, None),
    ("a report in no folder", MEMBERS + " --report no/report.tsv", 3, b"", None, None),
    ("no table", MEMBERS.replace("table.tsv", "absent.tsv"), 3, b"", None, None),
    ("end books in no folder", MEMBERS.replace("out.txt", "no/out.txt"), 3, b"", None, None),
    ("claims that left in no folder", AGE.replace("dropped.txt", "no/dropped.txt"), 3, b"", None, None),
    ("a sheet that isn't one", AGE.replace("--refill-percent 75", "--sheet books.txt"), 1, b"", None, None),
    ("end books to standard output", MEMBERS.replace("out.txt", "-"), 2, b"", None, None),
    ("claims that left to standard output", AGE.replace("dropped.txt", "-"), 2, b"", None, None),
)

ROW = b"C300\t01\t20260101\t20261231\n"

# Name, table, the line of numbers, and the line in words.
FAULTS = (
    ("empty", b"", "8 2 1", "table.tsv:1: expected the heading"),
    ("another heading", ROW, "8 2 1", "table.tsv:1: expected the heading"),
    ("a byte order mark", b"\xef\xbb\xbf" + TABLE, "8 2 1", "byte order mark"),
    ("CR LF", TABLE.replace(b"\n", b"\r\n"), "8 2 1", "tr -d"),
    ("CR LF in a row", HEADING + ROW.replace(b"\n", b"\r\n"), "8 3 2", "table.tsv:2: last: "),
    ("three fields", HEADING + b"C300\t01\t20260101\n", "8 3 2", "expected four fields"),
    ("five fields", HEADING + ROW.replace(b"\n", b"\tx\n"), "8 3 2", "table.tsv:2: last: "),
    ("an empty line", HEADING + b"\n" + ROW, "8 3 2", "expected four fields"),
    ("no family", HEADING + ROW.replace(b"C300", b""), "8 3 2", "table.tsv:2: family: "),
    ("a long family", HEADING + ROW.replace(b"C300", b"C" * 21), "8 3 2", "table.tsv:2: family: "),
    ("a family with a bar", HEADING + ROW.replace(b"C300", b"C|300"), "8 3 2", "table.tsv:2: family: "),
    ("a blank before the family", HEADING + b" " + ROW, "8 3 2", "blanks"),
    ("a blank after the family", HEADING + ROW.replace(b"C300", b"C300 "), "8 3 2", "blanks"),
    ("a family in quotes", HEADING + ROW.replace(b"C300", b'"C300"'), "8 3 2", "quotation marks"),
    ("a long person", HEADING + ROW.replace(b"\t01\t", b"\t0001\t"), "8 3 2", "table.tsv:2: person: "),
    ("a person in quotes", HEADING + ROW.replace(b"\t01\t", b'\t"1"\t'), "8 3 2", "quotation marks"),
    ("a first day with hyphens", HEADING + ROW.replace(b"20260101", b"2026-01-01"), "8 3 2", "table.tsv:2: first: "),
    ("a last day of 30 February", HEADING + ROW.replace(b"20261231", b"20260230"), "8 3 2", "table.tsv:2: last: "),
    ("last before first", HEADING + ROW.replace(b"20261231", b"20251231"), "8 3 2", "isn't before the first"),
    ("one member twice", HEADING + ROW + TABLE[len(HEADING):] + ROW, "8 4 6", "table.tsv:6: the member of line 2 again"),
    ("the first fault of two", HEADING + ROW + ROW + b"x\n", "8 4 3", "table.tsv:3: the member of line 2 again"),
    ("no line feed at the end", TABLE[:-1], "8 5 4", "table.tsv:4: expected a line feed"),
    ("wrong books", None, "4 1 0", "books.txt"),
)


def write(folder, name, text):
    with open(os.path.join(folder, name), "wb") as file:
        file.write(text)


def started(options, folder, words):
    return subprocess.run([*options.program, *words], cwd=folder, stdin=subprocess.DEVNULL, capture_output=True,
                          timeout=options.seconds)


def worked(options, case):
    """What differs in a worked case, None where nothing does. No input changes, and nothing else is left in the folder."""
    _, words, status, stdout, books, other = case
    beside = "report.tsv" if words.startswith("members") else "dropped.txt"
    inputs = {"books.txt": OPENING, "table.tsv": TABLE, "sheet.toml": SHEET}
    with tempfile.TemporaryDirectory(prefix="rxbatch-upkeep-") as folder:
        for name, text in inputs.items():
            write(folder, name, text)
        ended = started(options, folder, words.split())
        expected = {**inputs, **{name: text for name, text in (("out.txt", books), (beside, other)) if text is not None}}
        found = {name: read(folder, name) for name in os.listdir(folder)}
    if ended.returncode != status or ended.stdout != stdout or (status == 0) != (ended.stderr == b""):
        return f"status {ended.returncode}, {ended.stdout!r}, {ended.stderr[:200]!r}"
    return None if found == expected else f"the files differ: {sorted(found)}"


def fault(options, case):
    """The same of a table with a fault."""
    _, table, numbers, told = case
    inputs = {"books.txt": b"x\n" if table is None else OPENING, "table.tsv": table or b""}
    with tempfile.TemporaryDirectory(prefix="rxbatch-upkeep-") as folder:
        for name, text in inputs.items():
            write(folder, name, text)
        ended = started(options, folder, [*MEMBERS.split(), "--report", "report.tsv"])
        found = {name: read(folder, name) for name in os.listdir(folder)}
    lines = ended.stderr.decode().splitlines()
    if ended.returncode != 1 or len(lines) != 2 or lines[0] != f"refused {numbers}" or told not in lines[1]:
        return f"status {ended.returncode}, {ended.stderr[:300]!r}"
    return None if found == inputs else f"the files differ: {sorted(found)}"


def large(options, rows):
    """The same of a large table in any order: first as a plan's first members, then with every fifth one changed."""
    keys = [(f"F{place // 2:06d}", f"{place % 2 + 1:02d}") for place in range(rows)]
    days = {key: ("20260101", "20260630" if place % 5 == 0 else "20261231") for place, key in enumerate(keys)}
    loads = (({key: ("20260101", "20261231") for key in keys}, "--period 20260101-20261231", f"{rows} came in, 0 changed, 0 stayed\n"),
             (days, "--books books.txt", f"0 came in, {(rows + 4) // 5} changed, {rows - (rows + 4) // 5} stayed\n"))
    books = b"BOOKS|3|20260101|20261231\n"
    with tempfile.TemporaryDirectory(prefix="rxbatch-upkeep-") as folder:
        for table, origin, told in loads:
            lines = ["\t".join((*key, *span)) + "\n" for key, span in table.items()]
            random.Random(rows).shuffle(lines)
            write(folder, "table.tsv", HEADING + "".join(lines).encode())
            words = f"members {origin} --members table.tsv --books-out out.txt --report report.tsv --safe"
            ended = started(options, folder, words.split())
            if (ended.returncode, ended.stdout, ended.stderr) != (0, told.encode(), b""):
                return f"status {ended.returncode}, {ended.stdout!r}, {ended.stderr[:200]!r}"
            report, books = report_of(books, table), with_members(books, table)
            if read(folder, "out.txt") != books or read(folder, "report.tsv") != report:
                return f"the books or the report differ after {told.strip()!r}"
            os.replace(os.path.join(folder, "out.txt"), os.path.join(folder, "books.txt"))
    return None


# ---------------------------------------------------------------- a plan that is lived

DRUGS = [(f"7{place:010d}", 1000 + 700 * place) for place in range(1, 4)]


def text_of(day):
    return day.strftime("%Y%m%d")


def sheet_of(year):
    lines = ['bin = "900001"', 'pcn = "RXDEMO"', f'period_first = "{year}0101"', f'period_last = "{year}1231"',
             "member_deductible = 5000", "family_maximum = 30000", "refill_percent = 75", "max_days = 90", "fee = 175",
             "family_deductible = 9000", "[tiers]", 'generic = 1000']
    for product, price in DRUGS:
        lines += [f"[drugs.{product}]", 'tier = "generic"', f"price = {price}"]
    return "".join(line + "\n" for line in lines).encode()


def with_members(books, table):
    """The books with a table's members, by their lines only."""
    lines = books.decode().splitlines()
    head, claims = lines[0], [line for line in lines if line[0] == "C"]
    members = {tuple(line.split("|")[1:3]): line.split("|")[3:] for line in lines if line[0] == "M"}
    totals = {line.split("|")[1]: line.split("|")[2:] for line in lines if line[0] == "T"}
    for key, (first, last) in table.items():
        members[key] = [first, last, members[key][2] if key in members else "0"]
        totals.setdefault(key[0], ["0", "0"])
    parts = [head, *("|".join(["M", *key, *rest]) for key, rest in sorted(members.items())), *claims,
             *("|".join(["T", family, *rest]) for family, rest in sorted(totals.items()))]
    return "".join(part + "\n" for part in parts).encode()


def report_of(books, table):
    """The report of a table that is loaded into these books."""
    listed = {tuple(line.split("|")[1:3]): tuple(line.split("|")[3:5]) for line in books.decode().splitlines() if line[0] == "M"}
    changes = {key: "stayed" if listed[key] == days else "changed" for key, days in table.items() if key in listed}
    lines = ["\t".join((*key, *days, changes.get(key, "came in"))) + "\n" for key, days in sorted(table.items())]
    return REPORT_HEADING + "".join(lines).encode()


class Plan:
    """A plan's two books, and what happens to them."""

    def __init__(self, options, folder, seed):
        self.options, self.folder, self.rng = options, folder, random.Random(seed)
        self.reference, self.number, self.left = 0, 0, set()
        self.members, self.claims = {}, []
        self.safe = datetime.date.min
        self.names = [f"F{place}" for place in range(1, 5)]

    def table(self, year):
        """Some members, new ones and such with another last day."""
        rows = {}
        for _ in range(self.rng.randrange(1, 4)):
            key = (self.rng.choice(self.names), f"{self.rng.randrange(1, 3):02d}")
            rows[key] = (f"{year - 1}0101", f"{year}{self.rng.choice(('0331', '0930', '1231'))}")
        self.members.update(rows)
        return rows

    def do(self, *words):
        ended = started(self.options, self.folder, [word for part in words for word in part.split()])
        if ended.returncode != 0 or ended.stderr:
            raise AssertionError(f"{words[0].split()[0]}: status {ended.returncode}, {ended.stderr[:200]!r}")
        return ended.stdout.decode()

    def load(self, year, first=False):
        rows = self.table(year)
        lines = ["\t".join((*key, *days)) for key, days in rows.items()]
        self.rng.shuffle(lines)
        write(self.folder, "table.tsv", HEADING + "".join(line + "\n" for line in lines).encode())
        origin = f"--period {year}0101-{year}1231" if first else "--books kept.txt"
        told = self.do(f"members {origin} --members table.tsv --books-out next.txt --report report.tsv --safe")
        report = report_of(b"" if first else read(self.folder, "kept.txt"), rows)
        counts = [report.count(word + b"\n") for word in (b"came in", b"changed", b"stayed")]
        if read(self.folder, "report.tsv") != report or told != "{} came in, {} changed, {} stayed\n".format(*counts):
            raise AssertionError(f"members: the report differs, or {told!r}")
        os.replace(os.path.join(self.folder, "next.txt"), os.path.join(self.folder, "kept.txt"))
        if first:
            write(self.folder, "whole.txt", read(self.folder, "kept.txt"))
        else:
            write(self.folder, "whole.txt", with_members(read(self.folder, "whole.txt"), rows))

    def age(self, year):
        """Claims before one of the last hundred days up to the period's first leave."""
        before = datetime.date(year, 1, 1) - datetime.timedelta(self.rng.choice((0, 0, 0, self.rng.randrange(100))))
        told = self.do(f"age --books kept.txt --before {text_of(before)} --period {year}0101-{year}1231 --sheet sheet.toml",
                       "--books-out next.txt --dropped left.txt --safe")
        os.replace(os.path.join(self.folder, "next.txt"), os.path.join(self.folder, "kept.txt"))
        self.left.update(read(self.folder, "left.txt").splitlines())
        self.safe = max(datetime.datetime.strptime(told.split()[-1], "%Y%m%d").date(), self.safe)

    def transmission(self, day):
        """A billing, now and then of a claim's key or by nobody; or a reversal of a claim of the last weeks. Neither is dated
        before the first safe day."""
        recent = [claim for claim in self.claims if claim[2] >= text_of(max(day - datetime.timedelta(40), self.safe))]
        if recent and self.rng.random() < 0.2:
            provider, reference, date, product = self.rng.choice(recent)
            return header("B2", provider, date, 1) + GS + segment("07", "EM1", f"D2{reference:012d}", "E103", f"D7{product}")
        family, person = self.rng.choice(list(self.members) + [("F9", "01")])
        product, price = self.rng.choice(DRUGS)
        date = text_of(max(day - datetime.timedelta(self.rng.randrange(0, 4)), self.safe))
        provider = self.rng.choice(("80001", "80002"))
        if not recent or self.rng.random() < 0.9:
            self.reference += 1
        cost = 30_000 * price // 100_000
        self.claims.append((provider, self.reference, date, product))
        group = segment("07", "EM1", f"D2{self.reference:012d}", "E103", f"D7{product}", "E70000030000",
                        f"D5{self.rng.choice((7, 30)):03d}", "D61")
        group += segment("11", f"D9{amount(cost)}", f"DC{amount(175)}", f"DQ{amount(cost + 175)}")
        return header("B1", provider, date, 1) + segment("04", f"C2{family}", f"C3{person}") + GS + group

    def night(self, day):
        """The same batch on both books; what differs, None where nothing does."""
        self.number += 1
        sent = [self.transmission(day) for _ in range(24 if day == self.safe else self.rng.randrange(1, 6))]
        batch = f"{STX}00T{'PHARMSYS':24s}{self.number:07d}{text_of(day)}2130P12{'RXSWITCH':24s}{ETX}"
        batch += "".join(f"{STX}G1{place:010d}{text}{ETX}" for place, text in enumerate(sent, 1))
        batch += f"{STX}99{self.number:07d}{len(sent):010d}{'':35s}{ETX}"
        write(self.folder, "batch.bin", batch.encode())
        for name, ran in (("kept", self.options.run), ("whole", self.options.next_to)):
            files = {"sheet": "sheet.toml", "books": f"{name}.txt", "batch": "batch.bin", "response": f"{name}.bin",
                     "books-out": f"{name}-out.txt", "settlement": f"{name}-settlement.txt"}
            words = [word for option, file in files.items() for word in (f"--{option}", os.path.join(self.folder, file))]
            status = ran(["run", *words, "--stamp", f"{text_of(day)}2300", "--workers", "1"])
            if status != 0:
                return f"run on {name}.txt on {text_of(day)}: status {status}"
            os.replace(os.path.join(self.folder, f"{name}-out.txt"), os.path.join(self.folder, f"{name}.txt"))
        for part in (".bin", "-settlement.txt"):
            if read(self.folder, "kept" + part) != read(self.folder, "whole" + part):
                return f"{part} of {text_of(day)} differs"
        stay = [line for line in read(self.folder, "whole.txt").splitlines() if line not in self.left]
        return None if stay == read(self.folder, "kept.txt").splitlines() else f"the end books of {text_of(day)} differ"


def lived(options, seed):
    """Three years of a plan, of which each week has a night. In a week of January claims leave."""
    with tempfile.TemporaryDirectory(prefix="rxbatch-upkeep-") as folder:
        plan = Plan(options, folder, seed)
        for year in (2026, 2027, 2028):
            write(folder, "sheet.toml", sheet_of(year))
            ageing = plan.rng.randrange(0, 3)
            for week in range(52):
                if year > 2026 and week == ageing:
                    plan.age(year)
                plan.load(year, first=year == 2026 and week == 0)
                day = datetime.date(year, 1, 1) + datetime.timedelta(7 * week + plan.rng.randrange(0, 7))
                found = plan.night(max(day, plan.safe))
                if found:
                    return found
    return None


def runner(program, seconds):
    """What takes the words of a run, and gives its status."""
    words = shlex.split(program) if isinstance(program, str) else program
    if len(words) != 1 or not words[0].endswith(".py"):
        return lambda more: subprocess.run([*words, *more], capture_output=True, timeout=seconds).returncode
    spec = importlib.util.spec_from_file_location("next_to", words[0])
    module = importlib.util.module_from_spec(spec)
    sys.modules["next_to"] = module
    spec.loader.exec_module(module)
    return lambda more: forked(module.main, more)


def forked(main, words):
    """The status of a program's `main`, called in a process of its own, which starts with what this one has imported."""
    child = os.fork()
    if child == 0:
        status = 70
        try:
            status = main(words)
        finally:
            os._exit(status)
    return os.waitstatus_to_exitcode(os.waitpid(child, 0)[1])


# ---------------------------------------------------------------- all of them

def main(words):
    parser = parser_of(__doc__)
    parser.add_argument("--next-to", help="a program with rxbatch's words; default: PROGRAM, with --plain")
    parser.add_argument("--plans", type=int, default=3)
    parser.add_argument("--seed", default="1")
    options = read_options(parser, words)
    options.run = runner(options.program, options.seconds)
    options.next_to = runner(options.next_to, options.seconds) if options.next_to else lambda more: options.run([*more, "--plain"])
    cases = [(case[0], worked, case) for case in WORKED] + [(f"a table: {case[0]}", fault, case) for case in FAULTS]
    cases += [("a table of 500,000 rows", large, 500_000)]
    cases += [(f"plan {options.seed}.{place}", lived, f"{options.seed}.{place}") for place in range(1, options.plans + 1)]
    return try_cases(options, cases)


if __name__ == "__main__":
    sys.exit(main(sys.argv[1:]))
