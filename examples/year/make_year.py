#!/usr/bin/env python3
"""Makes the files of a small plan from January 2026 to March 2027: make_year.py DIR

It writes the plan sheets 2026.toml and 2027.toml, a table of members for each day on which some come, go or stay for another year,
members/DAY.tsv, and a batch for the fourth of each month, in which each member fills a product for 30 days, nights/DAY.bin.

By September 2026 three members have filled it nine times and two six times. The last of these 39 claims is over, for a refill at
75 percent, 23 days after the fourth.
"""
import pathlib
import sys

sys.path.insert(0, str(pathlib.Path(__file__).resolve().parent.parent.parent / "bench"))

from make_job import ETX, GS, STX, amount, header, segment  # noqa: E402

PRODUCT, PRICE, FEE = "00002000202", 1000, 175
SHEET = f"""bin = "900001"
pcn = "RXDEMO"
period_first = "YEAR0101"
period_last = "YEAR1231"
member_deductible = 5000
family_deductible = 9000
family_maximum = 300000
refill_percent = 75
max_days = 90
fee = {FEE}
[tiers]
generic = 1000
[drugs.{PRODUCT}]
tier = "generic"
price = {PRICE}
"""
# Who is in the table of a day: family, person, first and last day. C200 leaves in June, C400 comes in April.
TABLES = {
    "20260101": [("C100", "01", "20260101", "20261231"), ("C100", "02", "20260101", "20261231"),
                 ("C200", "01", "20260101", "20261231"), ("C300", "01", "20260101", "20261231")],
    "20260401": [("C200", "01", "20260101", "20260630"), ("C400", "01", "20260401", "20261231")],
    "20270101": [("C100", "01", "20260101", "20271231"), ("C100", "02", "20260101", "20271231"),
                 ("C300", "01", "20260101", "20271231"), ("C400", "01", "20260401", "20271231")],
}
MONTHS = [f"{year}{month:02d}" for year in (2026, 2027) for month in range(1, 13)][:15]


def billing(place, member, day):
    """A detail in which the member fills the product: 30 tablets for 30 days."""
    family, person, _, _ = member
    cost = 30 * PRICE // 100
    text = header("B1", "9000000011", day, 1) + segment("04", f"C2{family}", f"C3{person}") + GS
    text += segment("07", "EM1", f"D2{int(day + str(place)):012d}", "E103", f"D7{PRODUCT}", "E70000030000", "D5030", "D61")
    text += segment("11", f"D9{amount(cost)}", f"DC{amount(FEE)}", f"DQ{amount(cost + FEE)}")
    return f"{STX}G1{place:010d}{text}{ETX}"


def batch(number, members, day):
    details = [billing(place, member, day) for place, member in enumerate(members, 1)]
    head = f"{STX}00T{'PHARMSYS':24s}{number:07d}{day}2130P12{'RXSWITCH':24s}{ETX}"
    return head + "".join(details) + f"{STX}99{number:07d}{len(details):010d}{'':35s}{ETX}"


def main(folder):
    folder = pathlib.Path(folder)
    for name in ("members", "nights"):
        (folder / name).mkdir(parents=True, exist_ok=True)
    for year in ("2026", "2027"):
        (folder / f"{year}.toml").write_text(SHEET.replace("YEAR", year))
    for day, rows in TABLES.items():
        lines = ["\t".join(row) + "\n" for row in [("family", "person", "first", "last"), *rows]]
        (folder / "members" / f"{day}.tsv").write_text("".join(lines))
    members = {}
    for number, month in enumerate(MONTHS, 1):
        members.update({row[:2]: row for row in TABLES.get(month + "01", [])})
        covered = [row for row in members.values() if row[3] >= month + "04"]
        (folder / "nights" / f"{month}04.bin").write_text(batch(number, covered, month + "04"))


if __name__ == "__main__":
    main(sys.argv[1])
