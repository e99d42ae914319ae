#!/usr/bin/env python3
"""Writes the inputs of the two jobs below cases/: python3 make_cases.py (docs/FORMATS.md has the layouts).

`every-answer` has each case of the tables of adjudication, each code of a header and of a group, and ids with bytes that
JSON and terminals read as something else. `maximum-taken-back` has a family's maximum that a claim uses up which a later
record takes back.
"""

import os

HERE = os.path.dirname(os.path.abspath(__file__))
STX, ETX, FS, GS, SS = b"\x02", b"\x03", b"\x1c", b"\x1d", b"\x1e"
PRODUCT, TABLETS, SHARED = "00002000202", "00001000101", "00004000404"

SHEET = """bin = "900001"
pcn = "RXDEMO"
period_first = "20260101"
period_last = "{last}"
member_deductible = 10000
family_maximum = {maximum}
{family}refill_percent = 75
max_days = 90
fee = 175
[tiers]
1 = 1000
2 = 3000
4 = {{ percent = 20 }}
[drugs.00001000101]
tier = "1"
price = 375
[drugs.00002000202]
tier = "2"
price = 100000
[drugs.00004000404]
tier = "4"
price = 100000
"""


def amount(cents):
    digits = f"{cents:08d}"
    return digits[:-1] + "{ABCDEFGHI"[int(digits[-1])]


def fields(name, *values):
    return SS + b"".join(FS + value if isinstance(value, bytes) else FS + value.encode() for value in (f"AM{name}", *values))


def header(code, date, count, bin_="900001", version="D0", pcn="RXDEMO", provider="1234567893"):
    return f"{bin_}{version}{code}{pcn:10s}{count}01{provider:15s}{date}{'':10s}".encode()


def fill(reference, product=PRODUCT, quantity=30_000, days=30, cost=30_000, fee=175, charge=40_000, gross=None):
    claim = fields("07", "EM1", f"D2{reference}", "E103", f"D7{product}", f"E7{quantity:010d}", f"D5{days:03d}", "D61")
    prices = [f"D9{amount(cost)}"] + ([] if fee is None else [f"DC{amount(fee)}"])
    prices += ([] if charge is None else [f"DQ{amount(charge)}"]) + ([] if gross is None else [f"DU{amount(gross)}"])
    return GS + claim + fields("11", *prices)


def bill(date, family, person, *fills):
    return header("B1", date, len(fills)) + fields("04", f"C2{family}", f"C3{person}") + b"".join(fills)


def reverse(date, reference, product=PRODUCT):
    return header("B2", date, 1) + GS + fields("07", "EM1", f"D2{reference}", "E103", f"D7{product}")


def batch(records):
    first = b"00T" + b"PHARMSYS".ljust(24) + b"0000042" + b"20260301" + b"0930" + b"P" + b"12" + b"RXSWITCH".ljust(24)
    details = [b"G1%010d" % place + record for place, record in enumerate(records, 1)]
    last = b"990000042%010d" % len(records) + b" " * 35
    return b"".join(STX + record + ETX for record in (first, *details, last))


ODD = 'Q"\\<b>'
DAMAGED = [
    header("B1", "20260228", 1) + fields("04", "C2", "C3ABCD") + GS
    + fields("07", "EM2", b"D2\xff\x1b7", "E101", f"D7{PRODUCT}", "E70000030000", "D5030") + fields("11", "D9", "DQ00001000"),
    header("B1", "20260228", 1) + fields("04", "C2C100") + GS
    + fields("07", "EM1", "D2500", "E103", 'D7"0002000202', "E70", "D5000", "D62", "C802") + fields("11", "D90003000{", "DQ0004000{"),
    header("B1", "20260228", 1) + fields("04", "C2C100") + GS
    + fields("07", "EM1", "D2501", "E103", f"D7{PRODUCT}", "E70000030000", "D5030") + fields("11", "D90003000}X", "DC1}", "DU0004000J"),
    header("B1", "20260228", 2) + fields("04", "C2C100") + fill(502)[:40] + b"\x1c\x1e" + fill(503, product=TABLETS),
    header("B3", "20260231", 3, "900002", "D1", 'P"\\', "") + fields("04", "C2C100") + fill(504),
    header("B1", "2026022X", 1).replace(b"X ", b"\xff ") + fields("04", "C2C100") + fill(505),
    header("B1", "20260228", 1) + b"x" + fields("04", "C2C100") + fill(506),
    header("B2", "20260228", 1) + GS + fields("07", "EM1", "D21234567890123", "D7000"),
    b"9000",
]

EVERY_ANSWER = [
    bill("20260105", "C100", "01", fill(123)),
    bill("20260105", "C100", "01", fill(123)),
    bill("20260105", "C100", "01", fill(123, quantity=60_000)),
    bill("20251231", "C100", "01", fill(124)),
    bill("20260302", "C100", "01", fill(125)),
    bill("20260220", "C100", "02", fill(126)),
    bill("20260301", "C100", "01", fill(127)),
    bill("20260228", "C100", "01", fill(128, product="00009000909")),
    bill("20260228", "C100", "01", fill(129, days=91)),
    bill("20260120", "C100", "01", fill(130)),
    bill("20260228", "C900", "01", fill(131)),
    bill("20260228", "C100", "09", fill(132)),
    reverse("20260228", 133),
    reverse("20260105", 123, TABLETS),
    reverse("20260105", 123),
    *DAMAGED,
    bill("20260228", "C200", "01", fill(140, product=SHARED, fee=100, charge=None, gross=20_000)),
    bill("20260228", "C200", "01", fill(141, product=TABLETS, quantity=1_500, days=1, cost=2, fee=None)),
    bill("20260227", "C200", "01", fill(142, product=TABLETS, charge=100), fill(143, product=TABLETS, quantity=90_000)),
    bill("20260228", ODD, "0\\", fill(144, product=TABLETS), fill(145, product=TABLETS), fill(146)),
    bill("20260105", "C100", "01", fill(123)),
    reverse("20260105", 123),
    bill("20260105", "C100", "03", fill(123), fill(147, product=TABLETS)),
]

MAXIMUM_TAKEN_BACK = [
    bill("20260201", "C100", "01", fill(201)),
    bill("20260201", "C100", "02", fill(202)),
    bill("20260201", "C100", "03", fill(203), fill(204, product=TABLETS, quantity=100_000)),
    reverse("20260201", 201),
    bill("20260201", "C100", "01", fill(201, quantity=60_000, cost=60_000, charge=70_000)),
    bill("20260201", "C100", "02", fill(202)),
    reverse("20260201", 201),
    bill("20260202", "C100", "03", fill(205, product=TABLETS, quantity=100_000)),
]


def books(last, members, claims=()):
    lines = [f"BOOKS|1|20260101|{last}"]
    lines += [f"M|{family}|{person}|20260101|{end}|0" for family, person, end in members]
    lines += list(claims) + [f"T|{family}|0" for family in dict.fromkeys(member[0] for member in members)]
    return "".join(line + "\n" for line in lines).encode()


def write(name, files):
    folder = os.path.join(HERE, "cases", name)
    os.makedirs(folder, exist_ok=True)
    for path, text in files.items():
        with open(os.path.join(folder, path), "wb") as file:
            file.write(text)


def main():
    end = "20261231"
    members = [("C100", "01", end), ("C100", "02", "20260215"), ("C100", "03", end), ("C200", "01", end), (ODD, "0\\", end)]
    # A fill of the year before: it counts in no sum, and makes a refill too soon.
    claim = f"C|1234567893|99|20251220|C200|01|{TABLETS}|30000|90|100|0|0|0|000004100000011"
    write("every-answer", {"sheet.toml": SHEET.format(last="20260228", maximum=30_000, family="family_deductible = 15000\n").encode(),
                           "books.txt": books("20260228", members, [claim]), "batch.bin": batch(EVERY_ANSWER)})
    members = [("C100", person, end) for person in ("01", "02", "03")]
    claim = f"C|1234567893|99|20260110|C100|02|{TABLETS}|30000|30|500|0|0|0|000004200000011"
    write("maximum-taken-back", {"sheet.toml": SHEET.format(last=end, maximum=20_000, family="").encode(),
                                 "books.txt": books(end, members, [claim]), "batch.bin": batch(MAXIMUM_TAKEN_BACK)})


if __name__ == "__main__":
    main()
