#!/usr/bin/env python3
"""Runs `check` and `run -v` of a program with rxbatch's words on damaged inputs, and compares what they say word for word.

    tests/run_told.py PROGRAM [--only WORD] [--seconds S]

Each case is the plain sheet, small books and a batch of one billing with one change. Compared are standard output, whose
lines are the first fault of each file and the warnings, standard error, which is `refused N M P` of the first fault as
`run` says it, and the exit status: 0, 1 where a file is refused, 4 where there are only warnings. Of a refused case
`run` has to end with the same line and status. `run -v` has to say the steps before that line, and the fault in words
after it; of a case that isn't refused it has to say all steps and the end. Times and the peak of memory are passed
over. Some further cases have no file, a pipe, a stamp that is none, or a full disk.

A case that differs has a line. The last line is `N passed, M failed`; the exit status is 0 where M is 0, else 1.
"""

import argparse
import os
import re
import shlex
import subprocess
import sys
import tempfile
from typing import NamedTuple, Optional

SHEET = b"""bin = "900001"
pcn = "RXDEMO"
period_first = "20260101"
period_last = "20261231"
member_deductible = 10000
family_maximum = 30000
refill_percent = 75
max_days = 90
fee = 175
[tiers]
1 = 1000
2 = 3000
4 = { percent = 20 }
[drugs.00001000101]
tier = "1"
price = 2500
[drugs.00002000202]
tier = "2"
price = 100000
"""

CLAIM = b"C|1234567893|90|20260110|F1|01|00002000202|30000|30|9000|0|9000|0|0|000003100000011\n"

BOOKS = b"""BOOKS|3|20260101|20261231
M|F1|01|20260101|20261231|9000
M|F1|02|20260101|20261231|0
M|F2|01|20260101|20261231|0
""" + CLAIM + b"""T|F1|9000|9000
T|F2|0|0
"""

HEADER = b"\x0200T" + b"PHARMSYS".ljust(24) + b"0000042" + b"20260301" + b"0930" + b"P12" + b"RXSWITCH".ljust(24) + b"\x03"

REQUEST = (b"900001D0B1RXDEMO    1011234567893     20260228          \x1e\x1cAM04\x1cC2C100\x1cC301"
           b"\x1d\x1e\x1cAM07\x1cEM1\x1cD2000000000123\x1cE103\x1cD700002000202\x1cE70000030000\x1cD5030\x1cD61"
           b"\x1e\x1cAM11\x1cD90003000{\x1cDC0000017E\x1cDQ0004000{")

DETAIL = b"\x02G10000000001" + REQUEST + b"\x03"


def trailer(count=b"0000000001", number=b"0000042", message=b" " * 35):
    return b"\x0299" + number + count + message + b"\x03"


BATCH = HEADER + DETAIL + trailer()


class Case(NamedTuple):
    """A change of the inputs, and what is expected: the lines, and N, M and P where an input is refused."""
    name: str
    sheet: bytes
    books: bytes
    batch: bytes
    lines: tuple
    refused: Optional[tuple]


CASES = []


def changed(text, old, new):
    assert text.count(old) == 1, (old, text.count(old))
    return text.replace(old, new)


def sheet(name, text, line, *refused):
    CASES.append(Case("sheet " + name, text, BOOKS, BATCH, ("sheet.toml" + line,), refused))


def sheet_with(name, old, new, line, *refused):
    sheet(name, changed(SHEET, old, new), line, *refused)


def books(name, text, line, *refused):
    CASES.append(Case("books " + name, SHEET, text, BATCH, ("books.txt" + line,), refused))


def books_with(name, old, new, line, *refused):
    books(name, changed(BOOKS, old, new), line, *refused)


def batch(name, text, line, *refused):
    CASES.append(Case("batch " + name, SHEET, BOOKS, text, ("batch.bin" + line,), refused))


def batch_with(name, old, new, line, *refused):
    batch(name, changed(BATCH, old, new), line, *refused)


def warned(name, *lines, of_sheet=SHEET, of_books=BOOKS, of_batch=BATCH):
    CASES.append(Case("warning " + name, of_sheet, of_books, of_batch, lines, None))


# The command that writes a file anew by another one, and the one that sorts books.
RENEWED = """(sh -c '%s "$1" > "$1.new" && mv "$1.new" "$1"' sh %s)"""
SORTED = (r"""(LC_ALL=C sh -c 'for k in B M C "[^BMC]"; do grep "^$k" "$1" | sort -t"|" -k2,2 -k3,3$([ "$k" = C ] && echo n) -k4,4; """
          r"""done > "$1.new" && mv "$1.new" "$1"' sh books.txt)""")

# ---- the plan sheet

sheet_with("a quote missing", b'bin = "900001"', b'bin = "900001', ':1:14: not TOML: invalid string: "bin = "900001"', 3, 1, 0)
sheet_with("a comma in a figure", b"fee = 175", b"fee = 5,000",
           ':9:8: not TOML: unexpected key or value, expected newline, `#`: "fee = 5,000": a number has no comma', 3, 1, 0)
sheet("a drug twice", SHEET + b'[drugs.00001000101]\ntier = "1"\nprice = 2500\n',
      ':20:1: not TOML: duplicate key: "[drugs.00001000101]"', 3, 1, 0)
sheet_with("Latin-1", b"fee = 175", b"fee = 175 # g\xe9n",
           ':9:14: not UTF-8: "fee = 175 # g<E9>n" ' + RENEWED % ("iconv -f latin1 -t utf-8", "sheet.toml"), 3, 1, 0)
sheet("a books file", BOOKS, ": not TOML: this looks like a books file", 3, 1, 0)
sheet("a batch file", BATCH, ": not TOML: this looks like a batch file", 3, 1, 0)
for key, old, wanted, number in (
        ("bin", b'bin = "900001"\n', 'expected 6 digits in quotes, e.g. "900001"', 1),
        ("pcn", b'pcn = "RXDEMO"\n', 'expected 0 to 10 printable characters in quotes, e.g. "RXDEMO"', 2),
        ("period_first", b'period_first = "20260101"\n', 'expected 8 digits in quotes, e.g. "20260101"', 3),
        ("period_last", b'period_last = "20261231"\n', 'expected 8 digits in quotes, e.g. "20261231"', 4),
        ("member_deductible", b"member_deductible = 10000\n", "expected whole cents from 0 to 99999999999, e.g. 10000", 5),
        ("family_maximum", b"family_maximum = 30000\n", "expected whole cents from 0 to 99999999999, e.g. 30000", 6),
        ("refill_percent", b"refill_percent = 75\n", "expected a whole number from 0 to 100, e.g. 75", 7),
        ("max_days", b"max_days = 90\n", "expected a whole number from 1 to 999, e.g. 90", 8),
        ("fee", b"fee = 175\n", "expected whole cents from 0 to 99999999, e.g. 150", 9)):
    sheet_with(f"no {key}", old, b"", f": {key} is missing: {wanted}", 3, 2, number)
NO_TIERS = SHEET[:SHEET.index(b"[tiers]")]
sheet_with("a misspelt key", b"refill_percent", b"refil_percent", ": refill_percent is missing: expected a whole number from "
           "0 to 100, e.g. 75; line 7 has refil_percent: is it meant?", 3, 2, 7)
sheet("no tiers", NO_TIERS, ": tiers is missing: expected a table, e.g. [tiers] with a line 1 = 1000", 3, 2, 10)
sheet("no drugs", SHEET[:SHEET.index(b"[drugs")],
      ": drugs is missing: expected tables, e.g. [drugs.00001000101] with tier and price", 3, 2, 11)
sheet_with("a drug without tier", b'[drugs.00002000202]\ntier = "2"\n', b"[drugs.00002000202]\n",
           ":17: drug 00002000202: tier is missing: expected the name of one of the tiers in quotes", 3, 2, 12)
sheet_with("a drug without price", b"price = 100000\n", b"",
           ":17: drug 00002000202: price is missing: expected hundredths of a cent per unit, "
           "a whole number from 0 to 1000000000", 3, 2, 13)
sheet_with("bin of five digits", b'"900001"', b'"90001"', ':1: bin = "90001": expected 6 digits in quotes, e.g. "900001"',
           3, 3, 1)
sheet_with("bin without quotes", b'"900001"', b"900001", ':1: bin = 900001: expected 6 digits in quotes, e.g. "900001"',
           3, 3, 1)
sheet_with("pcn of eleven bytes", b'"RXDEMO"', b'"RXDEMORXDEM"',
           ':2: pcn = "RXDEMORXDEM": expected 0 to 10 printable characters in quotes, e.g. "RXDEMO"', 3, 3, 2)
sheet_with("a date with dashes", b'period_first = "20260101"', b'period_first = "2026-01-01"',
           ':3: period_first = "2026-01-01": expected 8 digits in quotes, e.g. "20260101"', 3, 3, 3)
sheet_with("a bare date", b'period_first = "20260101"', b"period_first = 2026-01-01",
           ':3: period_first = (a date without quotes): expected 8 digits in quotes, e.g. "20260101"', 3, 3, 3)
sheet_with("no such first day", b'period_first = "20260101"', b'period_first = "20260230"',
           ':3: period_first = "20260230": no such date', 3, 3, 3)
sheet_with("no such last day", b'"20261231"', b'"20261131"', ':4: period_last = "20261131": no such date', 3, 3, 4)
sheet_with("the last day before the first", b'"20261231"', b'"20251231"',
           ':4: period_last = "20251231": the last day is before the first, "20260101"', 3, 3, 4)
sheet_with("a negative deductible", b"member_deductible = 10000", b"member_deductible = -1",
           ":5: member_deductible = -1: expected whole cents from 0 to 99999999999, e.g. 10000", 3, 3, 5)
sheet_with("a maximum in words", b"family_maximum = 30000", b'family_maximum = "30000"',
           ':6: family_maximum = "30000": expected whole cents from 0 to 99999999999, e.g. 30000', 3, 3, 6)
sheet_with("refill_percent 101", b"refill_percent = 75", b"refill_percent = 101",
           ":7: refill_percent = 101: expected a whole number from 0 to 100, e.g. 75", 3, 3, 7)
sheet_with("max_days 0", b"max_days = 90", b"max_days = 0",
           ":8: max_days = 0: expected a whole number from 1 to 999, e.g. 90", 3, 3, 8)
sheet_with("a fee with a point", b"fee = 175", b"fee = 1.5",
           ":9: fee = 1.5: expected whole cents from 0 to 99999999, e.g. 150", 3, 3, 9)
sheet_with("a fee in quotes", b"fee = 175", b'fee = "150"',
           ':9: fee = "150": expected whole cents from 0 to 99999999, e.g. 150', 3, 3, 9)
sheet_with("percent 120", b"percent = 20", b"percent = 120",
           ':13: tier "4": percent = 120: expected a whole number from 0 to 100, e.g. 20', 3, 3, 10)
sheet_with("procent", b"{ percent = 20 }", b"{ procent = 20 }",
           ':13: tier "4" is a table without percent: expected { percent = 20 }', 3, 3, 10)
sheet_with("a copay with a point", b"2 = 3000", b"2 = 30.25",
           ':12: tier "2" = 30.25: expected whole cents from 0 to 99999999, e.g. 1000, or { percent = 20 }', 3, 3, 10)
sheet("tiers no table", NO_TIERS + b"tiers = 3\n" + SHEET[SHEET.index(b"[drugs"):],
      ":10: tiers isn't a table: expected a table, e.g. [tiers] with a line 1 = 1000", 3, 3, 10)
sheet("drugs no table", b"drugs = 3\n" + SHEET[:SHEET.index(b"[drugs")],
      ":1: drugs isn't a table: expected tables, e.g. [drugs.00001000101] with tier and price", 3, 3, 11)
sheet_with("a product with dashes", b"[drugs.00002000202]", b"[drugs.0000-2000-202]",
           ':17: drug "0000-2000-202": a product is 11 digits without dashes, as 00001000101', 3, 3, 11)
sheet_with("a product of ten digits", b"[drugs.00002000202]", b"[drugs.0002000202]",
           ':17: drug "0002000202": a product is 11 digits without dashes, as 00001000101', 3, 3, 11)
sheet("a drug that is no table", SHEET[:SHEET.index(b"[drugs")] + b"[drugs]\n00001000101 = 3\n",
      ":15: drug 00001000101 = 3: expected a table with tier and price", 3, 3, 11)
sheet_with("no such tier", b'tier = "2"', b'tier = "9"', 
           ':18: drug 00002000202: tier = "9": no tier has this name; the tiers are 1, 2, 4', 3, 3, 12)
sheet_with("a tier without quotes", b'tier = "2"', b"tier = 2",
           ':18: drug 00002000202: tier = 2: expected the name of a tier in quotes, e.g. "1"', 3, 3, 12)
sheet_with("a price with a point", b"price = 100000", b"price = 10.5",
           ":19: drug 00002000202: price = 10.5: expected hundredths of a cent per unit, "
           "a whole number from 0 to 1000000000", 3, 3, 13)
sheet_with("a tier like another", b'tier = "2"', b'tier = "21"',
           ':18: drug 00002000202: tier = "21": no tier has this name; the tiers are 1, 2, 4', 3, 3, 12)
sheet("a tier like two others", changed(changed(SHEET, b"2 = 3000", b"bran = 3000\nbrand = 50"), b'tier = "2"', b'tier = "brands"'),
      ':19: drug 00002000202: tier = "brands": no tier has this name; the tiers are 1, 4, bran, brand: is "brand" meant?', 3, 3, 12)
sheet("no tier at all", changed(SHEET, b"1 = 1000\n2 = 3000\n4 = { percent = 20 }\n", b""),
      ':12: drug 00001000101: tier = "1": no tier has this name; there are no tiers', 3, 3, 12)
sheet_with("two keys like a missing one", b"refill_percent = 75", b"refill_perc = 75\nrefill_percentt = 75",
           ": refill_percent is missing: expected a whole number from 0 to 100, e.g. 75; line 8 has refill_percentt: is it meant?", 3, 2, 7)
sheet_with("a key like none", b"refill_percent = 75", b"note = 75",
           ": refill_percent is missing: expected a whole number from 0 to 100, e.g. 75", 3, 2, 7)
# the same key below another heading, in a comment, with blanks, in quotes, CR LF, in a table of one line
sheet("a price of another drug", changed(SHEET, b"price = 100000", b"price = -1"),
      ":19: drug 00002000202: price = -1: expected hundredths of a cent per unit, a whole number from 0 to 1000000000", 3, 3, 13)
sheet("a key in a comment too", b"# fee = 1\n" + changed(SHEET, b"fee = 175", b"fee = -1"),
      ":10: fee = -1: expected whole cents from 0 to 99999999, e.g. 150", 3, 3, 9)
sheet_with("blanks round a key", b"fee = 175", b" \t fee\t= -1",
           ":9: fee = -1: expected whole cents from 0 to 99999999, e.g. 150", 3, 3, 9)
sheet_with("a key in quotes", b"fee = 175", b'"fee" = -1', ":9: fee = -1: expected whole cents from 0 to 99999999, e.g. 150", 3, 3, 9)
sheet("CR LF", changed(SHEET, b"fee = 175", b"fee = -1").replace(b"\n", b"\r\n"),
      ":9: fee = -1: expected whole cents from 0 to 99999999, e.g. 150", 3, 3, 9)
sheet_with("a drug in quotes", b'[drugs.00002000202]\ntier = "2"', b"[ drugs.'00002000202' ]  # ]\ntier = 2",
           ':18: drug 00002000202: tier = 2: expected the name of a tier in quotes, e.g. "1"', 3, 3, 12)
sheet("a drug on one line", SHEET[:SHEET.index(b"[drugs")] + b'[drugs]\n00001000101 = { tier = "1", price = -1 }\n',
      ":15: drug 00001000101: price = -1: expected hundredths of a cent per unit, a whole number from 0 to 1000000000", 3, 3, 13)
sheet("keys with dots", changed(SHEET, b"4 = { percent = 20 }", b"4.percent = 120"),
      ':13: tier "4": percent = 120: expected a whole number from 0 to 100, e.g. 20', 3, 3, 10)
sheet("a tier with a heading", changed(SHEET, b"4 = { percent = 20 }", b"[tiers.4]\nname = 1\npercent = 120"),
      ':15: tier "4": percent = 120: expected a whole number from 0 to 100, e.g. 20', 3, 3, 10)
sheet_with("a key that is spelled otherwise", b"fee = 175", b'"f\\u0065e" = -1',
           ": fee = -1: expected whole cents from 0 to 99999999, e.g. 150", 3, 3, 9)
sheet_with("a family deductible below 0", b"fee = 175", b"fee = 175\nfamily_deductible = -5",
           ":10: family_deductible = -5: expected whole cents from 0 to 99999999999, e.g. 10000", 3, 3, 14)

# ---- the books

books("CR LF", BOOKS.replace(b"\n", b"\r\n"),
      ":1: the line ends with CR LF: expected LF (sed -i 's/\\r$//' books.txt)", 4, 1, 0)
books("a byte order mark", b"\xef\xbb\xbf" + BOOKS,
      ":1: the file begins with a byte order mark (EF BB BF) (sed -i '1s/^\\xef\\xbb\\xbf//' books.txt)", 4, 1, 0)
books("empty", b"", ":1: the file is empty: expected a head line, e.g. BOOKS|3|20260101|20261231", 4, 1, 0)
books("no head", BOOKS[BOOKS.index(b"M|"):],
      ':1: "M|F1|01|20260101|20261231|9000" isn\'t a head line: expected BOOKS|3|first|last, e.g. BOOKS|3|20260101|20261231',
      4, 1, 0)
books("a plan sheet", SHEET, ":1: no head line: this looks like a plan sheet", 4, 1, 0)
books("version 4", changed(BOOKS, b"BOOKS|3", b"BOOKS|4"), ':1: version "4": versions 1, 2 and 3 are read', 4, 1, 0)
books("a head of three fields", changed(BOOKS, b"BOOKS|3|20260101|20261231", b"BOOKS|3|20260101"),
      ":1: 3 fields: a head line has 4, e.g. BOOKS|3|20260101|20261231", 4, 1, 0)
books("a head of no such date", changed(BOOKS, b"BOOKS|3|20260101", b"BOOKS|3|20260230"),
      ':1: field 3, first day "20260230": no such date', 4, 1, 0)
books("a head whose period ends early", changed(BOOKS, b"BOOKS|3|20260101|20261231", b"BOOKS|3|20260101|20251231"),
      ':1: the last day "20251231" is before the first, "20260101"', 4, 1, 0)
books("a head without its line feed", b"BOOKS|3|20260101|20261231",
      ":1: the line has no line feed at its end (echo >> books.txt)", 4, 1, 0)
books_with("no such date", b"|90|20260110|", b"|90|20260230|", ':5: field 4, date "20260230": no such date', 4, 2, 5)
books_with("a date of seven digits", b"|90|20260110|", b"|90|2026011|",
           ':5: field 4, date "2026011": expected 8 digits, e.g. 20260101', 4, 2, 5)
books_with("a reference with a leading zero", b"|90|20260110|", b"|090|20260110|",
           ':5: field 3, reference "090": expected no leading zeros', 4, 2, 5)
books_with("a product with dashes", b"|00002000202|", b"|0000-2000-202|",
           ':5: field 7, product "0000-2000-202": expected 11 digits', 4, 2, 5)
books_with("no days", b"|30000|30|", b"|30000|0|", ':5: field 9, days "0": expected a number from 1 to 999', 4, 2, 5)
books_with("an amount with a point", b"|9000|0|9000|", b"|90.00|0|9000|",
           ':5: field 10, ingredient cost (F6) "90.00": expected cents, without a point, e.g. 15000 for 150.00', 4, 2, 5)
books_with("a provider too long", b"C|1234567893|", b"C|1234567893123456|",
           ':5: field 2, provider "1234567893123456": 16 bytes, expected at most 15', 4, 2, 5)
books_with("a family with a blank at its end", b"|20260110|F1|", b"|20260110|F1 |",
           ':5: field 5, family "F1 ": trailing blank', 4, 2, 5)
books_with("a person that is empty", b"|20260110|F1|01|", b"|20260110|F1||", ':5: field 6, person "": expected an id', 4, 2, 5)
books_with("a claim line of version 1", b"|9000|0|0|0000031", b"|9000|0|0000031",
           ":5: 14 fields: a claim line of version 3 has 15", 4, 2, 5)
books_with("a share above the price", b"|9000|0|9000|0|0|", b"|9000|0|9000|1|0|",
           ":5: FH + FI + 4U = 9001: expected at most F6 + F7 = 9000", 4, 2, 5)
books_with("a price above the limit", b"|9000|0|9000|", b"|99999999|1|9000|",
           ":5: F6 + F7 = 100000000: expected at most 99999999 cents", 4, 2, 5)
books_with("a coverage that ends early", b"M|F2|01|20260101|20261231", b"M|F2|01|20260101|20251231",
           ':4: the last day "20251231" is before the first, "20260101"', 4, 2, 4)
books_with("a line of no kind", b"M|F2|01", b"N|F2|01",
           ':4: "N|F2|01|20260101|20261231|0": a line begins M|, C| or T|', 4, 2, 4)
books_with("a control byte", b"M|F2|01", b"M|F\x1f2|01",
           ':4: field 2, family "F<1F>2": not printable ASCII', 4, 2, 4)
books_with("a figure of 21 digits", b"T|F2|0|0", b"T|F2|100000000000000000000|0",
           ':7: field 3, out of pocket "100000000000000000000": expected at most 20 digits', 4, 2, 7)
books("no last line feed", BOOKS[:-1], ":7: the last line has no line feed at its end (echo >> books.txt)", 4, 2, 7)
books("a blank line at the end", BOOKS + b"\n", ":8: the line is empty (sed -i '/^$/d' books.txt)", 4, 2, 8)
books_with("CR LF in one line", b"T|F2|0|0\n", b"T|F2|0|0\r\n",
           ":7: the line ends with CR LF: expected LF (sed -i 's/\\r$//' books.txt)", 4, 2, 7)
MEMBERS = BOOKS.split(b"\n")
books("members out of order", b"\n".join([MEMBERS[0], MEMBERS[1], MEMBERS[3], MEMBERS[2]] + MEMBERS[4:]),
      ":4: F1/02 comes after F2/01: members ascend by family, then person " + SORTED, 4, 3, 4)
books("a member twice", b"\n".join(MEMBERS[:3] + [MEMBERS[2]] + MEMBERS[3:]),
      ":4: F1/02 is listed twice, first at line 3: delete one of these lines", 4, 3, 4)
books("a claim twice", b"\n".join(MEMBERS[:5] + [MEMBERS[4]] + MEMBERS[5:]),
      ":6: 1234567893/90/20260110 is listed twice, first at line 5: delete one of these lines", 4, 3, 6)
books("totals out of order", b"\n".join(MEMBERS[:5] + [MEMBERS[6], MEMBERS[5], b""]),
      ":7: F1 comes after F2: totals ascend by family " + SORTED, 4, 3, 7)
books("a member behind a claim", b"\n".join(MEMBERS[:3] + [MEMBERS[4], MEMBERS[3]] + MEMBERS[5:]),
      ":5: a member line comes after a claim line: first come all M, then all C, then all T " + SORTED, 4, 3, 5)
books("a claim above its member", b"\n".join([MEMBERS[0], MEMBERS[4]] + MEMBERS[1:4] + MEMBERS[5:]),
      ":2: member F1/01 is listed only below this claim: first come all M, then all C, then all T " + SORTED, 4, 4, 2)
books_with("a claim of an unknown family", b"|20260110|F1|01|", b"|20260110|F9|01|",
           ":5: member F9/01 isn't listed: no M line above has family F9", 4, 4, 5)
books_with("a claim of an unknown person", b"|20260110|F1|01|", b"|20260110|F1|03|",
           ":5: member F1/03 isn't listed: the nearest person of the family is F1/02", 4, 4, 5)
books_with("a total of an unknown family", b"T|F2|0|0\n", b"T|F2|0|0\nT|F9|0|0\n",
           ":8: family F9 has a total line and no member: no M line above has this family", 4, 4, 8)
books_with("a wrong deductible of a member", b"20261231|9000", b"20261231|9001",
           ":2: member F1/01, deductible 9001: the claims of 20260101 to 20261231 sum to 9000", 4, 5, 2)
books_with("a wrong out of pocket", b"T|F1|9000|9000", b"T|F1|9001|9000",
           ":6: family F1, out of pocket 9001: the claims of 20260101 to 20261231 sum to 9000", 4, 5, 6)
books_with("a wrong deductible of a family", b"T|F1|9000|9000", b"T|F1|9000|8999",
           ":6: family F1, deductible 8999: the claims of 20260101 to 20261231 sum to 9000", 4, 5, 6)
books_with("a head of another year", b"BOOKS|3|20260101|20261231", b"BOOKS|3|20270101|20271231",
           ":2: member F1/01, deductible 9000: the claims of 20270101 to 20271231 sum to 0; "
           "no claim is within the days of line 1: are they right?", 4, 5, 2)
books_with("no last total line", b"T|F2|0|0\n", b"",
           ":7: family F2 has no total line: expected T|F2|0|0 at line 7", 4, 5, 7)
books_with("no first total line", b"T|F1|9000|9000\n", b"",
           ":7: family F1 has no total line: expected T|F1|9000|9000 at line 6", 4, 5, 7)
books("too many lines", BOOKS + b"\n" * 1_000_000, ": 1000007 line feeds: at most 1000000 are read", 4, 6, 0)

# ---- the batch

batch("a byte order mark", b"\xef\xbb\xbf" + BATCH,
      ": header, byte 0: the file begins with a byte order mark (EF BB BF): expected STX (X'02') "
      r"(sed -i '1s/^\xef\xbb\xbf//' batch.bin)", 5, 1, 0)
batch("gzip", b"\x1f\x8b\x08\0\0\0\0\0\2\3", ': header, byte 0: "<1F><8B><08><00><00><00><00><00><02><03>": '
      "expected STX (X'02'); this looks like gzip " + RENEWED.replace('%s "$1"', 'zcat < "$1"') % "batch.bin", 5, 1, 0)
batch("spelled control bytes", BATCH.replace(b"\x02", b"<02>").replace(b"\x03", b"<03>"),
      ': header, byte 0: "<02>00TPHARMSYS ": expected STX (X\'02\'); '
      "this looks like a batch file whose control bytes are spelled out "
      r"(sed -i 's/<02>/\x02/g;s/<03>/\x03/g;s/<1C>/\x1c/Ig;s/<1D>/\x1d/Ig;s/<1E>/\x1e/Ig;s/<0[AD]>//Ig' batch.bin)", 5, 1, 0)
batch("a books file", BOOKS, ': header, byte 0: "BOOKS|3|20260101": expected STX (X\'02\'); this looks like a books file',
      5, 1, 0)
batch("a stray byte", HEADER + b"X" + DETAIL + trailer(),
      ": record 1, byte 75: \"X<02>G1000000000190\" after a record's ETX (X'03'): expected STX (X'02'); "
      "a record must not contain ETX", 5, 1, 75)
batch("a blank after a record", HEADER + b" " + DETAIL + trailer(),
      ": record 1, byte 75: a blank after a record's ETX (X'03'): only line ends may stand between records "
      r"(sed -i 's/\x03[[:blank:]]*/\x03/g' batch.bin)", 5, 1, 75)
batch("empty", b"", ": header, byte 0: the file is empty: expected a header, which begins STX 00", 5, 2, 0)
batch("line ends alone", b"\r\n", ": header, byte 2: the file ends before a header, which begins STX 00", 5, 2, 2)
batch("a detail first", DETAIL + trailer(),
      ': header, byte 0: the first record begins "G1": expected a header, which begins "00"', 5, 2, 0)
batch("a header of 74 bytes", changed(BATCH, b"RXSWITCH ", b"RXSWITCH"), ": header, byte 0: the header has 74 bytes: expected 75",
      5, 3, 0)
batch("a response file", changed(BATCH, b"\x0200T", b"\x0200R"),
      ': header, byte 0: type "R" at byte 3: this is a response file, expected T', 5, 3, 0)
batch("another type", changed(BATCH, b"\x0200T", b"\x0200E"), ': header, byte 0: type "E" at byte 3: expected T', 5, 3, 0)
batch("letters in the batch number", changed(BATCH, b"000004220260301", b"00000X220260301"),
      ': header, byte 0: batch number "00000X2" at byte 28: expected 7 digits', 5, 3, 0)
batch("no such creation date", changed(BATCH, b"202603010930", b"202602300930"),
      ': header, byte 0: creation date "20260230" at byte 35: no such date', 5, 3, 0)
batch("a creation date with letters", changed(BATCH, b"202603010930", b"2026MAR10930"),
      ': header, byte 0: creation date "2026MAR1" at byte 35: expected 8 digits CCYYMMDD', 5, 3, 0)
batch("no such time", changed(BATCH, b"0930P12", b"2460P12"),
      ': header, byte 0: creation time "2460" at byte 43: expected HHMM from 0000 to 2359', 5, 3, 0)
batch("another file type", changed(BATCH, b"0930P12", b"0930X12"),
      ': header, byte 0: file type "X" at byte 47: expected P or T', 5, 3, 0)
batch("version 11", changed(BATCH, b"0930P12", b"0930P11"), ': header, byte 0: version "11" at byte 48: expected 12', 5, 3, 0)
batch("cut in the detail", BATCH[:269],
      ": record 1, byte 75: the file ends 193 bytes after the record's STX, before its ETX (X'03'): it may have been cut",
      5, 4, 75)
batch("a start byte inside a detail", HEADER + DETAIL[:30] + b"\x02" + DETAIL[30:] + trailer(),
      ": record 1, byte 75: another STX (X'02') at byte 105, before the record's ETX (X'03')", 5, 4, 75)
batch("a record of no kind", HEADER + DETAIL + b"\x02G2\x03" + trailer(),
      ': record 2, byte 270: the record begins "G2": a detail begins "G1", the trailer "99"', 5, 5, 270)
batch("a detail without a reference", HEADER + b"\x02G112345\x03" + trailer(),
      ": record 1, byte 75: the detail has 5 bytes after G1: expected a reference of 10 bytes", 5, 6, 75)
batch("a message too long", HEADER + DETAIL + trailer(message=b" " * 36),
      ": record 2, byte 270: the trailer's message has 36 bytes: expected at most 35", 5, 7, 270)
batch("a trailer too short", HEADER + DETAIL + b"\x02990000042\x03",
      ": record 2, byte 270: the trailer has 11 bytes: expected 21 to 56", 5, 7, 270)
batch("letters in the count", HEADER + DETAIL + trailer(b"00000000X1"),
      ': record 2, byte 270: count "00000000X1" at byte 280: expected 10 digits', 5, 7, 270)
batch("cut before the trailer", BATCH[:270],
      ": record 2, byte 270: the file ends without a trailer, after 1 details: it may have been cut", 5, 8, 270)
batch("a trailer of another batch", HEADER + DETAIL + trailer(number=b"0000041"),
      ': record 2, byte 270: the trailer has batch number "0000041", the header "0000042"', 5, 9, 270)
batch("another count", HEADER + DETAIL + trailer(b"0000000007"),
      ": record 2, byte 270: the trailer says 7 records, the file has 1: it may have been cut or joined", 5, 10, 270)
batch("X'1A' after the trailer", BATCH + b"\x1a",
      r": record 3, byte 326: X'1A' (Ctrl-Z) follows the trailer: the file ends with the trailer (sed -i '$s/\x1a$//' batch.bin)", 5, 11, 326)
batch("a byte behind the trailer", BATCH + b"X", ': record 3, byte 326: 1 bytes follow the trailer, "X": '
      "the file ends with the trailer", 5, 11, 326)
batch("a second batch", BATCH + BATCH,
      ": record 3, byte 326: a second batch begins after the trailer: a file has one batch", 5, 11, 326)
batch("too many details", HEADER + DETAIL * 100_001 + trailer(b"0000100001"),
      ": record 100001, byte 19500075: this is detail 100001: at most 100000 are read", 5, 12, 19_500_075)

# ---- warnings

warned("none")
warned("a misspelt key", "sheet.toml: warning: key family_deductable is ignored: family_deductible may be meant",
       of_sheet=changed(SHEET, b"fee = 175", b"fee = 175\nfamily_deductable = 15000"))
warned("a key below the tiers",
       "sheet.toml: warning: tier family_deductible has the name of a key of the sheet: that key belongs above [tiers]",
       of_sheet=changed(SHEET, b"[tiers]", b"[tiers]\nfamily_deductible = 15000"))
warned("a key of the sheet in a drug", "sheet.toml: warning: drug 00002000202: key max_days is ignored: "
       "it belongs above the first table", of_sheet=SHEET + b"max_days = 30\n")
warned("another key", "sheet.toml: warning: key remark is ignored", of_sheet=b'remark = "x"\n' + SHEET)
OTHER_YEAR = SHEET.replace(b"2026", b"2027")
warned("books of another period",
       "books.txt:1: warning: the books are of 20260101 to 20261231, another period than the sheet's: sums start "
       "again at 0, claims before it are rejected (81)", of_sheet=OTHER_YEAR)
warned("another plan", "batch.bin: warning: no record names the sheet's bin and pcn: each would be rejected",
       of_sheet=changed(SHEET, b"900001", b"900002"))
warned("another processor control number",
       "batch.bin: warning: no record names the sheet's bin and pcn: each would be rejected",
       of_sheet=changed(SHEET, b"RXDEMO", b"RXDEM"))
warned("a batch that was adjudicated already",
       "batch.bin: warning: 1 standing claims of books.txt have numbers of this batch: it was adjudicated already",
       of_books=changed(BOOKS, b"000003100000011", b"000004200000011"))


def many_books(families, *further):
    """Books of this many families without a claim, each with a member; the first has further ones."""
    first = b"".join(b"M|G000000|%s|20260101|20261231|0\n" % person for person in (b"01",) + further)
    members = b"".join(b"M|G%06d|01|20260101|20261231|0\n" % number for number in range(1, families))
    totals = b"".join(b"T|G%06d|0|0\n" % number for number in range(families))
    return b"BOOKS|3|20260101|20261231\n" + first + members + totals


warned("books that are near their limit", "books.txt: warning: 900001 lines of at most 1000000 (age takes claims out)", of_books=many_books(450_000))
warned("books that a batch could fill", "books.txt: warning: 1000000 lines of at most 1000000 (age takes claims out)",
       "books.txt: warning: with this batch the end books could have more than 1000000 lines, which no run reads",
       of_books=many_books(499_999, b"02"))
CASES.append(Case("each file refused", changed(SHEET, b"fee = 175\n", b""), b"", BATCH[:270], (
    "sheet.toml: fee is missing: expected whole cents from 0 to 99999999, e.g. 150",
    "books.txt:1: the file is empty: expected a head line, e.g. BOOKS|3|20260101|20261231",
    "batch.bin: record 2, byte 270: the file ends without a trailer, after 1 details: it may have been cut"), (3, 2, 9)))

INPUTS = ("--sheet", "sheet.toml", "--books", "books.txt", "--batch", "batch.bin")
RUN = ("--stamp", "202603020600", "--workers", "1", "--response", "r", "--books-out", "o", "--settlement", "s")


def write(folder, case):
    for name, text in (("sheet.toml", case.sheet), ("books.txt", case.books), ("batch.bin", case.batch)):
        with open(os.path.join(folder, name), "wb") as file:
            file.write(text)


def answer(program, words, folder, seconds):
    done = subprocess.run(program + list(words), cwd=folder, capture_output=True, timeout=seconds)
    return done.returncode, done.stdout.decode("utf-8", "replace"), done.stderr.decode("utf-8", "replace")


def grouped(number):
    return f"{number:,}"


def size_text(size):
    if size < 1_000_000:
        return f"{grouped(size)} bytes"
    tenths = size // 100_000
    return f"{grouped(tenths // 10)}.{tenths % 10} MB"


def step(name, count, unit, size):
    return f"{name:<11}  {grouped(count)} {unit}{'' if count == 1 else 's'}  {size_text(size)}  T s\n"


def input_steps(case):
    """The lines of the inputs, in the order in which they are read."""
    return (step("sheet", case.sheet.count(b"\n"), "line", len(case.sheet))
            + step("books", case.books.count(b"\n"), "line", len(case.books))
            + step("batch", max(case.batch.count(2) - 2, 0), "record", len(case.batch)))


def end_steps(folder, records):
    """The lines of the later steps of a run that is done, by its outputs."""
    texts = {}
    for name in ("r", "o", "s"):
        with open(os.path.join(folder, name), "rb") as file:
            texts[name] = file.read()
    total = texts["s"].split(b"\n")[-2].decode().split("|")
    paid, duplicate, approved, rejected, net = map(int, total[1:])
    sign = "-" if net < 0 else ""
    amount = f"{sign}{abs(net) // 100:,}.{abs(net) % 100:02}"
    return (f"adjudicate   {grouped(records)} record{'' if records == 1 else 's'}  T s\n"
            + step("response", records, "record", len(texts["r"]))
            + step("end books", texts["o"].count(b"\n"), "line", len(texts["o"]))
            + step("settlement", texts["s"].count(b"\n"), "line", len(texts["s"]))
            + "disk         T s\n"
            + f"done         {paid:,} paid, {duplicate:,} duplicate, {approved:,} approved, {rejected:,} rejected, "
            + f"net {amount}  peak P  T s\n")


def without_times(text):
    """The lines without their times, and without the progress that only a slow run prints."""
    text = re.sub(r"  peak [0-9,.]+ (MB|bytes)", "  peak P", text)
    text = re.sub(r"(?m)^adjudicated +[0-9,]+ of [0-9,]+ records?\n", "", text)
    return re.sub(r"(?m)  [0-9,]+\.[0-9][0-9] s$", "  T s", text)


def verbose_differences(program, case, told, folder, seconds):
    """What differs of `run -v`, a line each."""
    status, out, err = answer(program, ("run", "-v") + INPUTS + RUN, folder, seconds)
    steps = input_steps(case)
    if case.refused:
        wanted = (1, "", steps + told + case.lines[0] + "\n")
    else:
        wanted = (0, "", steps + end_steps(folder, max(case.batch.count(2) - 2, 0)) if status == 0 else "")
    got = (status, out, without_times(err))
    return [] if got == wanted else [f"{case.name}: run -v: wanted {wanted!r}, got {got!r}"]


def differences(program, case, seconds):
    """What differs of a case, a line each."""
    found = []
    lines = "".join(line + "\n" for line in case.lines)
    told = "refused %d %d %d\n" % case.refused if case.refused else ""
    status = 1 if case.refused else 4 if case.lines else 0
    with tempfile.TemporaryDirectory() as folder:
        write(folder, case)
        got = answer(program, ("check",) + INPUTS, folder, seconds)
        if got != (status, lines, told):
            found.append(f"{case.name}: check: wanted {(status, lines, told)!r}, got {got!r}")
        if case.refused:
            got = answer(program, ("run",) + INPUTS + RUN, folder, seconds)
            if got != (1, "", told):
                found.append(f"{case.name}: run: wanted {told!r}, got {got!r}")
        found += verbose_differences(program, case, told, folder, seconds)
    return found


# ---- files that can't be had, and words

PLAIN = Case("plain", SHEET, BOOKS, BATCH, (), None)


class Ending(NamedTuple):
    """A run or a check with something else than the plain inputs: its words, and the end of what it says."""
    name: str
    words: tuple
    status: int
    out: str
    err: str


def with_words(words, **changes):
    """The words, with other values of some options."""
    words = list(words)
    for option, value in changes.items():
        words[words.index("--" + option.replace("_", "-")) + 1] = value
    return tuple(words)


STEPS = input_steps(PLAIN)
SHARDS = "shards       1, the largest has 1 of 1 transaction\n"
ENDINGS = (
    Ending("check without a batch file", with_words(("check",) + INPUTS, batch="none.bin"), 3,
           "--batch none.bin: no such file or directory\n", "file 3\n"),
    Ending("check of a folder", with_words(("check",) + INPUTS, books="."), 3,
           "--books .: is a directory\n", "file 2\n"),
    Ending("check of the sheet alone", ("check", "--sheet", "sheet.toml"), 0, "", ""),
    Ending("check of sheet and batch", ("check", "--sheet", "sheet.toml", "--batch", "batch.bin"), 0, "", ""),
    Ending("check of an empty sheet", ("check", "--sheet", "/dev/null"), 1,
           '/dev/null: the file is empty: expected a plan sheet, which has a line as bin = "900001"\n', "refused 3 2 1\n"),
    Ending("run -v without a sheet", with_words(("run", "-v") + INPUTS + RUN, sheet="none.toml"), 3, "",
           "file 1\n--sheet none.toml: no such file or directory\n"),
    Ending("run -v into a folder that isn't there", with_words(("run", "-v") + INPUTS + RUN, response="none/r"), 3, "",
           "file 4\n--response none/r: no such file or directory\n"),
    Ending("run -v into a folder", with_words(("run", "-v") + INPUTS + RUN, settlement="."), 3, "",
           "file 6\n--settlement .: is a directory\n"),
    Ending("run --verbose with 65 workers", with_words(("run", "--verbose") + INPUTS + RUN, workers="65"), 1, "",
           STEPS + "refused 1 0 0\n--workers 65: expected 1 to 64\n"),
    Ending("run -v with no such hour", with_words(("run", "-v") + INPUTS + RUN, stamp="202603022460"), 1, "",
           STEPS + 'refused 2 0 0\n--stamp "202603022460": its last 4 digits aren\'t a time from 0000 to 2359\n'),
    Ending("run -v with no such date", with_words(("run", "-v") + INPUTS + RUN, stamp="202602300600"), 1, "",
           STEPS + 'refused 2 0 0\n--stamp "202602300600": its first 8 digits aren\'t a date\n'),
    Ending("run -v with a date for a stamp", with_words(("run", "-v") + INPUTS + RUN, stamp="20260302"), 1, "",
           STEPS + 'refused 2 0 0\n--stamp "20260302": expected 12 digits CCYYMMDDHHMM, e.g. 202603020600\n'),
    Ending("run -v on a full disk", with_words(("run", "-v") + INPUTS + RUN, response="/dev/full"), 3, "",
           STEPS + "file 4\n--response /dev/full: no space left on device\n"),
)


def ending_differences(program, ending, seconds):
    with tempfile.TemporaryDirectory() as folder:
        write(folder, PLAIN)
        status, out, err = answer(program, ending.words, folder, seconds)
        got = (status, out, without_times(err))
        wanted = ending[2:]
        return [] if got == wanted else [f"{ending.name}: wanted {wanted!r}, got {got!r}"]


def pipe_differences(program, seconds):
    """A fault of books that come through a pipe has its place and no quotation; the log is written next to the steps."""
    found = []
    with tempfile.TemporaryDirectory() as folder:
        write(folder, PLAIN)
        words = with_words(("run", "-v") + INPUTS + RUN, books="/dev/stdin")
        text = changed(BOOKS, b"|90|20260110|", b"|90|20260230|")
        done = subprocess.run(program + list(words), cwd=folder, input=text, capture_output=True, timeout=seconds)
        got = (done.returncode, without_times(done.stderr.decode()))
        case = PLAIN._replace(books=text)
        wanted = (1, input_steps(case) + "refused 4 2 5\n"
                  "/dev/stdin:5: no line of the head's version, or no line feed at its end\n")
        if got != wanted:
            found.append(f"books through a pipe: wanted {wanted!r}, got {got!r}")
        words = with_words(("run", "-v", "--log", "log.json") + INPUTS + RUN, workers="2")
        status, out, err = answer(program, words, folder, seconds)
        got = (status, out, without_times(err), os.path.getsize(os.path.join(folder, "log.json")) > 0)
        wanted = (0, "", STEPS + SHARDS + end_steps(folder, 1) if status == 0 else "", True)
        if got != wanted:
            found.append(f"steps beside a log: wanted {wanted!r}, got {got!r}")
    return found


def main():
    parser = argparse.ArgumentParser(description=__doc__.split("\n")[0])
    parser.add_argument("program")
    parser.add_argument("--only", default="", help="the cases whose name has this word")
    parser.add_argument("--seconds", type=float, default=60)
    parser.add_argument("--write", help="write the inputs of the cases to folders here, and run nothing")
    words = parser.parse_args()
    cases = [case for case in CASES if words.only in case.name]
    if words.write:
        for number, case in enumerate(cases):
            folder = os.path.join(words.write, "%03d" % number)
            os.makedirs(folder, exist_ok=True)
            write(folder, case)
        return 0
    program = shlex.split(words.program)
    if os.path.exists(program[0]):
        program[0] = os.path.abspath(program[0])
    checks = [differences(program, case, words.seconds) for case in cases]
    checks += [ending_differences(program, ending, words.seconds) for ending in ENDINGS if words.only in ending.name]
    if words.only in "pipe":
        checks.append(pipe_differences(program, words.seconds))
    for found in checks:
        for line in found:
            print(line)
    failed = sum(bool(found) for found in checks)
    print(f"{len(checks) - failed} passed, {failed} failed")
    return 1 if failed or not checks else 0


if __name__ == "__main__":
    sys.exit(main())
