#!/usr/bin/env python3
"""Runs `family` of a program with rxbatch's words, and compares each of its forms.

    tests/run_family.py PROGRAM [--random N] [--seed S] [--only WORD] [--jobs J] [--seconds S]

The worked cases are below, with their sums. Then N books (40) are drawn, with hostile ids among the others, and each family of
them is printed in each form, with and without a plan sheet, as a whole and one person of it. What is compared with it are sums
that this file makes of only the lines of the books. A page is read by an HTML parser: nothing of an id may be a tag of it.

A case that differs has one line. The last line is `N passed, M failed`; the exit status is 0 where M is 0, else 1.
"""

import hashlib
import html.parser
import json
import os
import random
import subprocess
import sys
import tempfile

from options import is_line_with_words, parser_of, read_options, try_cases

# ---------------------------------------------------------------- worked cases

# A family whose limits are reached, among claims of another: by date they are rx 5 of 2025, which is outside of the period, then
# rx 2, 7, 1, 3 and 4. Running deductible of 01: 0, 400 with rx 7, 1000 with rx 1; of 02: 500 with rx 2. Of the family: 500, 900,
# 1500 with rx 1. Out of pocket: 500, 500 + 450 = 950, 950 + 700 = 1650, 1650 + 850 = 2500 with rx 3; rx 4 adds nothing.
BOOKS = b"""BOOKS|3|20260101|20261231
M|C100|01|20260101|20261231|1000
M|C100|02|20260101|20260630|500
M|C200|01|20260101|20261231|300
C|0999999999|7|20260110|C100|01|00002000202|30000|30|3000|175|400|50|0|000004200000071
C|1234567893|1|20260110|C100|01|00002000202|30000|30|3000|175|600|100|0|000004200000011
C|1234567893|2|20260105|C100|02|00002000202|30000|30|3000|175|500|0|0|000004200000021
C|1234567893|3|20260201|C100|02|00002000202|30000|30|3000|175|0|0|850|000004200000031
C|1234567893|4|20260301|C100|01|00002000202|30000|30|3000|175|0|0|0|000004200000041
C|1234567893|5|20251230|C100|01|00002000202|30000|30|3000|175|900|0|0|000004200000051
C|1234567893|6|20260106|C200|01|00002000202|30000|30|3000|175|300|0|0|000004200000061
T|C100|2500|1500
T|C200|300|300
"""
SHEET = """bin = "610591"
pcn = "RXTEST"
period_first = "{first}"
period_last = "{last}"
member_deductible = {member}
family_maximum = {most}
refill_percent = 75
max_days = 90
fee = 175
{family}[tiers]
generic = 1000
[drugs.00002000202]
tier = "generic"
price = 1000
"""
LIMITS = SHEET.format(first="20260101", last="20261231", member=1000, most=2500, family="family_deductible = 1500\n").encode()
LAST = LIMITS.replace(b'"20260101"', b'"20250101"').replace(b'"20261231"', b'"20251231"')
COLUMNS = b"""Family C100, benefit period 2026-01-01 to 2026-12-31

Deductible of 01, covered 2026-01-01 to 2026-12-31: $10.00, $0.00 left, reached with rx 1 of 2026-01-10 at 1234567893
Deductible of 02, covered 2026-01-01 to 2026-06-30: $5.00, $5.00 left
Deductible of the family: $15.00, $0.00 left, reached with rx 1 of 2026-01-10 at 1234567893
Out of pocket of the family: $25.00, $0.00 left, reached with rx 3 of 2026-02-01 at 1234567893

Date        Person  Rx            Pharmacy         Product         Member pays      Deductible  Family deduct.   Out of pocket
2025-12-30  01      5             1234567893       00002000202           $9.00           $0.00           $0.00           $0.00
2026-01-05  02      2             1234567893       00002000202           $5.00           $5.00           $5.00           $5.00
2026-01-10  01      7             0999999999       00002000202           $4.50           $4.00           $9.00           $9.50
2026-01-10  01      1             1234567893       00002000202           $7.00          $10.00          $15.00          $16.50  reaches deductible,family_deductible
2026-02-01  02      3             1234567893       00002000202           $8.50           $5.00          $15.00          $25.00  reaches out_of_pocket
2026-03-01  01      4             1234567893       00002000202           $0.00          $10.00          $15.00          $25.00
"""
# The same without the sheet: no limit is known.
UNLIMITED = b"\n".join(line.split(b", $")[0].split(b"  reaches")[0] for line in COLUMNS.split(b"\n"))
NAMES = "date person prescription provider product quantity days allowed deductible copay coinsurance member_pays plan_pays " \
    "authorization deductible_sum family_deductible_sum out_of_pocket_sum deductible_left family_deductible_left " \
    "out_of_pocket_left reached".split()
SECOND = (  # the claims of person 02, with the sums of the whole family
    "20260105 02 2 1234567893 00002000202 30000 30 3175 500 0 0 500 2675 000004200000021 500 500 500 500 1000 2000 -",
    "20260201 02 3 1234567893 00002000202 30000 30 3175 0 0 850 850 2325 000004200000031 500 1500 2500 500 0 0 out_of_pocket",
)
TSV = "".join("\t".join("" if cell == "-" else cell for cell in line.split()) + "\n" for line in (" ".join(NAMES), *SECOND)).encode()
TEXTS = {"date", "person", "provider", "product", "authorization", "reached"}


def total(cents, left, reached=None):
    return {"sum": cents, "left": left, "reached": reached}


JSON = {
    "family": "C100", "first": "2026-01-01", "last": "2026-12-31",
    "members": [{"person": "02", "first": "2026-01-01", "last": "2026-06-30", "deductible": total(500, 500)}],
    "family_deductible": total(1500, 0, "000004200000011"), "out_of_pocket": total(2500, 0, "000004200000031"),
    "claims": [{name: None if cell == "-" else cell if name in TEXTS else int(cell) for name, cell in zip(NAMES, line.split())}
               for line in SECOND],
}
SUMS = [
    ["Deductible of 01", "2026-01-01 to 2026-12-31", "$10.00", "$0.00", "rx 1 of 2026-01-10 at 1234567893"],
    ["Deductible of 02", "2026-01-01 to 2026-06-30", "$5.00", "$5.00", ""],
    ["Deductible of the family", "", "$15.00", "$0.00", "rx 1 of 2026-01-10 at 1234567893"],
    ["Out of pocket of the family", "", "$25.00", "$0.00", "rx 3 of 2026-02-01 at 1234567893"],
]
# Of each claim what the member and the plan pay is 31.75 together.
CLAIMS = [
    "2025-12-30 01 5 1234567893 00002000202 $9.00 $22.75 $0.00 $0.00 $0.00",
    "2026-01-05 02 2 1234567893 00002000202 $5.00 $26.75 $5.00 $5.00 $5.00",
    "2026-01-10 01 7 0999999999 00002000202 $4.50 $27.25 $4.00 $9.00 $9.50",
    "2026-01-10 01 1 1234567893 00002000202 $7.00 $24.75 $10.00 $15.00 $16.50 deductible,family_deductible",
    "2026-02-01 02 3 1234567893 00002000202 $8.50 $23.25 $5.00 $15.00 $25.00 out_of_pocket",
    "2026-03-01 01 4 1234567893 00002000202 $0.00 $31.75 $10.00 $15.00 $25.00",
]
PAGE = ("Family C100", SUMS, [(line.split() + [""])[:11] for line in CLAIMS])

# Name, words, status, and what standard output is: text, the value of JSON, or the tables of a page; or a part of it.
WORKED = (
    ("columns", "--family C100 --sheet limits.toml", 0, COLUMNS),
    ("blanks after the id", "--family|C100  |--sheet|limits.toml", 0, COLUMNS),
    ("blanks after the person", "--family|C100|--person|02 |--sheet|limits.toml|--tsv", 0, TSV),
    ("no sheet", "--family C100", 0, UNLIMITED),
    ("a person as a table", "--family C100 --person 02 --sheet limits.toml --tsv", 0, TSV),
    ("a person as JSON", "--family C100 --person 02 --sheet limits.toml --json", 0, JSON),
    ("a page", "--family C100 --sheet limits.toml --html", 0, PAGE),
    ("a sheet of 2025", "--family C100 --sheet last.toml", 0, [b"Out of pocket of the family: $9.00, $16.00 left\n"]),
    ("no such family", "--family C10", 4, b"rxbatch: --family C10: the books list no member of it\n"),
    ("no such person", "--family C100 --person 03", 4, b"rxbatch: --family C100 --person 03: the books list no such member\n"),
    ("no id", "--family C|100", 4, b"rxbatch: --family 'C|100': the books list no member of it\n"),
    ("no person", "--family C100 --person 0001", 4, b"rxbatch: --family C100 --person 0001: the books list no such member\n"),
    ("two forms", "--family C100 --tsv --json", 2, b"error: at most one of '--tsv', '--json' and '--html' is taken"),
    ("three forms", "--family C100 --tsv --json --html", 2, b"error: at most one of '--tsv', '--json' and '--html' is taken"),
    ("no family", "--sheet limits.toml", 2, b"error: "),
    ("a sheet that isn't one", "--family C100 --sheet books.txt", 1, b"refused 3 1 0\n"),
    ("a sheet that isn't one, no family", "--family C10 --sheet books.txt", 1, b"refused 3 1 0\n"),
    ("no sheet there", "--family C100 --sheet no.toml", 3, b"file 1\n"),
    ("two streams", "--family C100 --sheet - --books -", 2, b""),
)


def write(folder, name, text):
    with open(os.path.join(folder, name), "wb") as file:
        file.write(text)


def started(options, folder, words):
    return subprocess.run([*options.program, "family", *words], cwd=folder, stdin=subprocess.DEVNULL, capture_output=True,
                          timeout=options.seconds)


def want(found, expected, what):
    if found != expected:
        raise AssertionError(f"{what}: {found!r} in place of {expected!r}"[:600])


# ---------------------------------------------------------------- pages

class Page(html.parser.HTMLParser):
    """The texts of a page: title, heading, tables with their captions, and its origin."""

    KNOWN = set("html head meta title style body a header h1 p dl dt dd code main table caption thead tbody tr th td i".split())

    def __init__(self, text):
        super().__init__()
        self.tags, self.open, self.tables, self.title, self.heading, self.terms, self.text = set(), [], [], "", "", [], ""
        self.feed(text.decode("ascii"))
        self.close()
        want(self.tags - self.KNOWN, set(), "tags")
        want(self.open, [], "tags that are left open")

    def handle_starttag(self, tag, attributes):
        self.tags.add(tag)
        if any(name.startswith("on") or name == "src" for name, _ in attributes):
            raise AssertionError(f"attributes {attributes}")
        if tag != "meta":
            self.open.append(tag)
        if tag == "table":
            self.tables.append([])
        elif tag == "tr":
            self.tables[-1].append([])
        elif tag in ("td", "th"):
            self.tables[-1][-1].append("")
        elif tag in ("dt", "dd"):
            self.terms.append("")

    def handle_endtag(self, tag):
        want(self.open.pop(), tag, "the tag that ends")

    def handle_data(self, text):
        inside = self.open[-1] if self.open else ""
        if "title" in self.open:
            self.title += text
        elif "h1" in self.open:
            self.heading += text
        elif inside in ("td", "th"):
            self.tables[-1][-1][-1] += text
        elif "dl" in self.open and inside != "dl":
            self.terms[-1] += text


def check_page(text, expected, folder, sheet):
    """The page has these tables, and says its files with their sums."""
    page = Page(text)
    name, sums, claims = expected
    want((page.title, page.heading), (name, name), "title and heading")
    want(len(page.tables), 2, "tables")
    want(page.tables[0], [["Sum", "Covered", "Amount", "Left", "Reached with"], *sums], "the sums")
    want(page.tables[1], ["Date,Person,Rx,Pharmacy,Product,Member pays,Plan pays,Deductible,Family deductible,Out of pocket,Reaches"
                          .split(","), *claims], "the claims")
    terms = dict(zip(page.terms[::2], page.terms[1::2]))
    want(list(terms), (["Sheet"] if sheet else []) + ["Books", "Program", "Made"], "the origin")
    for term, path in (("Sheet", sheet), ("Books", "books.txt")):
        if path:
            with open(os.path.join(folder, path), "rb") as file:
                want(terms[term], f"{path} {hashlib.sha256(file.read()).hexdigest()}", term)


def worked(options, case):
    """A worked case."""
    _, words, status, expected = case
    words = words.split("|" if "|--" in words else None)
    with tempfile.TemporaryDirectory(prefix="rxbatch-family-") as folder:
        for name, text in (("books.txt", BOOKS), ("limits.toml", LIMITS), ("last.toml", LAST)):
            write(folder, name, text)
        books = [] if "--books" in words else ["--books", "books.txt"]
        ended = started(options, folder, [*books, *words])
        want(ended.returncode, status, "the status")
        if status:
            want(ended.stdout, b"", "standard output")
            told = ended.stderr
            want(told == expected or status == 1 and is_line_with_words(told, expected) or status in (2, 3) and told.startswith(expected),
                 True, f"standard error {told!r}")
            return
        want(ended.stderr, b"", "standard error")
        if isinstance(expected, tuple):
            check_page(ended.stdout, expected, folder, "limits.toml")
        elif isinstance(expected, dict):
            want(json.loads(ended.stdout), expected, "JSON")
        elif isinstance(expected, list):
            want([part in ended.stdout for part in expected], [True] * len(expected), f"a part of {ended.stdout!r}")
        else:
            want(ended.stdout, expected, "standard output")


# ---------------------------------------------------------------- drawn books, and sums of their lines

HOSTILE = ("\"><script>alert(1)</script>"[:20], "<b>&amp;'\"", "a\\b;$(c)`d`", "x' or '1'='1", "&lt;", "</table>", "--sheet", "%s\\n{0}")


def drawn(seed):
    """Books of a few families: their text, and what each line says."""
    rng = random.Random(seed)
    names = rng.sample([*HOSTILE, "F1", "F10", "F2", "f1"], rng.randrange(1, 5))
    persons = ["01", "02", "<i>", "&"]
    period = ("20260101", "20261231")
    members = sorted({(name, person): ("20250101", rng.choice(("20261231", "20260630"))) for name in names
                      for person in rng.sample(persons, rng.randrange(1, 4))}.items())
    claims = {}
    for number in range(rng.randrange(0, 30)):
        (family, person), _ = rng.choice(members)
        if rng.random() < 0.1:
            person = "09"  # a claim of nobody who is listed
            if (family, person) not in dict(members):
                continue
        day = f"{rng.choice((2025, 2026, 2026, 2026))}{rng.randrange(1, 13):02d}{rng.randrange(1, 29):02d}"
        if rng.random() < 0.3:
            day = "20260315"
        cost = rng.randrange(0, 5000)
        shares = [rng.randrange(0, cost // 3 + 1) for _ in range(3)]
        key = (rng.choice(("80001", "80002", "<u>&'\"")), rng.randrange(1, 40), day)
        claims[key] = (family, person, "00002000202", 30000, rng.choice((7, 30)), cost, 175, *shares, f"{number * 10 + 1:015d}")
    rows = [(*key, *claims[key]) for key in sorted(claims)]
    lines = ["|".join(("BOOKS", "3", *period))]
    for (family, person), days in members:
        own = sum(row[10] for row in rows if row[3:5] == (family, person) and period[0] <= row[2] <= period[1])
        lines.append("|".join(("M", family, person, *days, str(own))))
    lines += ["|".join(("C", *map(str, row))) for row in rows]
    for family in sorted({family for (family, _), _ in members}):
        own = [row for row in rows if row[3] == family and period[0] <= row[2] <= period[1]]
        lines.append(f"T|{family}|{sum(sum(row[10:13]) for row in own)}|{sum(row[10] for row in own)}")
    return "".join(line + "\n" for line in lines).encode(), period, members, rows


def dollars(cents):
    return f"${cents // 100:,}.{cents % 100:02d}"


def dashed(day):
    return f"{day[:4]}-{day[4:6]}-{day[6:]}"


def left(limit, cents):
    return None if limit is None else max(0, limit - cents)


def shown(books, family, person, limits, period):
    """What is shown of a family, by the lines of its books: its total sums, its members, and its claims."""
    _, _, members, rows = books
    figures, reached = {}, {}
    claims = []
    for row in sorted((row for row in rows if row[3] == family), key=lambda row: row[2]):
        counts = period[0] <= row[2] <= period[1]
        deductible, pays = row[10], sum(row[10:13])
        names = []
        for key, name, limit, cents in (((row[4], "own"), "deductible", limits[0], deductible), ("family", "family_deductible", limits[1],
                                        deductible), ("pocket", "out_of_pocket", limits[2], pays)):
            before = figures.get(key, 0)
            figures[key] = before + (cents if counts else 0)
            if limit is not None and before < limit <= figures[key]:
                names.append(name)
                reached[key] = row
        claims.append((row, figures[(row[4], "own")], figures["family"], figures["pocket"], ",".join(names)))
    sums = [(who, days, (who, "own"), limits[0]) for (name, who), days in members if name == family and person in (None, who)]
    claims = [claim for claim in claims if person in (None, claim[0][4])]

    def told(key, limit):
        return figures.get(key, 0), left(limit, figures.get(key, 0)), reached.get(key)

    return [(who, days, *told(key, limit)) for who, days, key, limit in sums], told("family", limits[1]), told("pocket", limits[2]), claims


def with_row(sum_, left_, row):
    return total(sum_, left_, row and row[-1])


def json_of(family, period, found, limits):
    members, deductible, pocket, claims = found
    return {
        "family": family, "first": dashed(period[0]), "last": dashed(period[1]),
        "members": [{"person": who, "first": dashed(days[0]), "last": dashed(days[1]), "deductible": with_row(*rest)}
                    for who, days, *rest in members],
        "family_deductible": with_row(*deductible), "out_of_pocket": with_row(*pocket),
        "claims": [dict(zip(NAMES, (None if cell == "" else cell for cell in cells_of(claim, limits)))) for claim in claims],
    }


def cells_of(claim, limits):
    """The cells of a claim's row."""
    (provider, reference, day, _, person, product, quantity, days, cost, fee, own, copay, share, number), *sums, names = claim
    pays = own + copay + share
    rest = ["" if limit is None else left(limit, cents) for limit, cents in zip(limits, sums)]
    return [day, person, reference, provider, product, quantity, days, cost + fee, own, copay, share, pays, cost + fee - pays, number,
            *sums, *rest, names]


def page_of(family, found):
    members, deductible, pocket, claims = found

    def cells(cents, remaining, row):
        return [dollars(cents), "" if remaining is None else dollars(remaining),
                f"rx {row[1]} of {dashed(row[2])} at {row[0]}" if row else ""]

    sums = [[f"Deductible of {who}", f"{dashed(days[0])} to {dashed(days[1])}", *cells(*rest)] for who, days, *rest in members]
    sums += [["Deductible of the family", "", *cells(*deductible)], ["Out of pocket of the family", "", *cells(*pocket)]]
    rows = [[dashed(row[2]), row[4], str(row[1]), row[0], row[5], dollars(sum(row[10:13])),
             dollars(row[8] + row[9] - sum(row[10:13])), *map(dollars, running), names] for row, *running, names in claims]
    return f"Family {family}", sums, rows


def columns_of(family, period, found):
    """The lines for people."""
    members, deductible, pocket, claims = found

    def line(words, cents, remaining, row):
        rest = "" if remaining is None else f", {dollars(remaining)} left"
        return f"{words}{dollars(cents)}{rest}" + (f", reached with rx {row[1]} of {dashed(row[2])} at {row[0]}" if row else "")

    lines = [f"Family {family}, benefit period {dashed(period[0])} to {dashed(period[1])}", ""]
    lines += [line(f"Deductible of {who}, covered {dashed(days[0])} to {dashed(days[1])}: ", *rest) for who, days, *rest in members]
    lines += [line("Deductible of the family: ", *deductible), line("Out of pocket of the family: ", *pocket), ""]
    if not claims:
        return [*lines, "No claim stands."]
    lines.append(COLUMNS.decode().splitlines()[7])
    for row, *running, names in claims:
        amounts = "".join(f"{dollars(cents):>16s}" for cents in (sum(row[10:13]), *running))
        lines.append(f"{dashed(row[2])}  {row[4]:6s}  {row[1]:<12d}  {row[0]:15s}  {row[5]}{amounts}" + (f"  reaches {names}" if names else ""))
    return lines


def escaped_for_people(text):
    """Whether the columns have each byte of these ids as it is: only a backslash is written otherwise."""
    return "\\" in text


def one_family(options, folder, books, family, rng):
    """A family in each form."""
    sheet, period, limits = "", books[1], [None, None, None]
    if rng.random() < 0.7:
        limits = [rng.randrange(1, 3000), rng.choice((None, rng.randrange(1, 6000))), rng.randrange(1, 8000)]
        period = rng.choice((books[1], ("20250101", "20251231"), ("20260201", "20260430")))
        deductible = "" if limits[1] is None else f"family_deductible = {limits[1]}\n"
        sheet = "sheet.toml"
        write(folder, sheet, SHEET.format(first=period[0], last=period[1], member=limits[0], most=limits[2], family=deductible).encode())
    persons = [who for (name, who), _ in books[2] if name == family]
    for person in (None, rng.choice(persons)):
        found = shown(books, family, person, limits, period)
        words = ["--books", "books.txt", f"--family={family}"] + ([f"--person={person}"] if person else []) \
            + (["--sheet", sheet] if sheet else [])
        printed = {}
        for form in ("", "--tsv", "--json", "--html"):
            ended = started(options, folder, [*words, *([form] if form else [])])
            want((ended.returncode, ended.stderr), (0, b""), f"{family!r} {person} {form}")
            printed[form] = ended.stdout
        what = f"{family!r} of {person}"
        table = "".join("\t".join(map(str, cells)) + "\n" for cells in (NAMES, *(cells_of(claim, limits) for claim in found[3])))
        want(printed["--tsv"].decode(), table, f"{what} as a table")
        want(json.loads(printed["--json"]), json_of(family, period, found, limits), f"{what} as JSON")
        check_page(printed["--html"], page_of(family, found), folder, sheet)
        if not any(escaped_for_people(text) for text in (family, *(row[0] for row, *_ in found[3]))):
            want(printed[""].decode().splitlines(), columns_of(family, period, found), f"{what} in columns")


def drawn_books(options, seed):
    """Each family of drawn books."""
    rng = random.Random(f"{seed} shown")
    books = drawn(seed)
    with tempfile.TemporaryDirectory(prefix="rxbatch-family-") as folder:
        write(folder, "books.txt", books[0])
        for family in sorted({family for (family, _), _ in books[2]}):
            one_family(options, folder, books, family, rng)


# ---------------------------------------------------------------- all of them

def main(words):
    parser = parser_of(__doc__)
    parser.add_argument("--random", type=int, default=40)
    parser.add_argument("--seed", default="1")
    options = read_options(parser, words)
    cases = [(case[0], worked, case) for case in WORKED]
    cases += [(f"books {options.seed}.{place}", drawn_books, f"{options.seed}.{place}") for place in range(1, options.random + 1)]
    return try_cases(options, cases)


if __name__ == "__main__":
    sys.exit(main(sys.argv[1:]))
