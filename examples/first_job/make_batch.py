#!/usr/bin/env python3
"""Writes the batch of this job: python3 make_batch.py > batch.bin (docs/FORMATS.md has the layouts)."""
import sys

STX, ETX, FS, GS, SS = "\x02", "\x03", "\x1c", "\x1d", "\x1e"
BATCH_NUMBER, CREATED = "0000012", "202603162130"

METFORMIN, ATORVASTATIN, AMOXICILLIN = "50001012301", "50001045601", "50001099901"
INSULIN, ADALIMUMAB = "50002078901", "50003011101"
HARBOR, MILL, STATION = "9000000011", "9000000029", "9000000037"        # three pharmacies


def amount(cents):
    """Eight characters, the last of which carries its digit and the plus sign."""
    digits = f"{cents:08d}"
    return digits[:-1] + "{ABCDEFGHI"[int(digits[-1])]


def segment(name, *fields):
    return SS + FS + "AM" + name + "".join(FS + field for field in fields)


def header(code, pharmacy, date, count, pcn="LAKESIDE"):
    return f"900417D0{code}{pcn:10s}{count}01{pharmacy:15s}{date}{'':10s}"


def fill(reference, drug, quantity, days, cost, usual=None):
    """The group of one billing; the quantity is in thousandths, the amounts are in cents."""
    claim = segment("07", "EM1", f"D2{reference}", "E103", f"D7{drug}", f"E7{quantity:010d}", f"D5{days:03d}", "D61")
    usual = cost + 200 if usual is None else usual
    return GS + claim + segment("11", f"D9{amount(cost)}", f"DC{amount(200)}", f"DQ{amount(usual)}")


def bill(pharmacy, date, family, person, *fills, pcn="LAKESIDE"):
    return header("B1", pharmacy, date, len(fills), pcn) + segment("04", f"C2{family}", f"C3{person}") + "".join(fills)


def reverse(pharmacy, date, reference, drug):
    return header("B2", pharmacy, date, 1) + GS + segment("07", "EM1", f"D2{reference}", "E103", f"D7{drug}")


INSULIN_FILL = fill(700231, INSULIN, 10_000, 28, 28350)
RECORDS = [
    bill(HARBOR, "20260316", "H1001", "01", fill(700230, METFORMIN, 60_000, 30, 270)),
    bill(HARBOR, "20260316", "H1002", "01", INSULIN_FILL),
    bill(MILL, "20260316", "H1002", "02", fill(811400, AMOXICILLIN, 21_000, 7, 252)),
    bill(MILL, "20260301", "H1003", "02", fill(811401, ATORVASTATIN, 30_000, 30, 270)),
    bill(STATION, "20260316", "H1004", "01", fill(455100, METFORMIN, 180_000, 90, 810),
         fill(455101, ATORVASTATIN, 90_000, 90, 810), fill(455102, INSULIN, 10_000, 28, 28350)),
    reverse(STATION, "20251218", 455001, INSULIN),
    bill(HARBOR, "20260316", "H1002", "01", INSULIN_FILL),
    reverse(HARBOR, "20260316", 700230, METFORMIN),
    bill(HARBOR, "20260316", "H1001", "01", fill(700230, METFORMIN, 90_000, 45, 405)),
    bill(MILL, "20260316", "H1003", "01", fill(811403, METFORMIN, 60_000, 30, 270), pcn="LAKESHORE"),
    bill(MILL, "20260312", "H1005", "01", fill(811402, ADALIMUMAB, 2_000, 28, 290000)),
    bill(STATION, "20260316", "H1006", "01", fill(455103, ATORVASTATIN, 120_000, 120, 1080)),
    bill(STATION, "20260316", "H1099", "01", fill(455104, METFORMIN, 60_000, 30, 270)),
    bill(STATION, "20260316", "H1007", "03", fill(455105, METFORMIN, 60_000, 30, 270)),
    bill(HARBOR, "20260316", "H1009", "01", INSULIN_FILL),
    bill(MILL, "20260314", "H1010", "01", fill(811404, ADALIMUMAB, 1_000, 14, 145000)),
    bill(MILL, "20260315", "H1010", "02", fill(811405, INSULIN, 10_000, 28, 28350)),
    bill(MILL, "20260316", "H1010", "03", fill(811406, INSULIN, 10_000, 28, 28350)),
    bill(STATION, "20260316", "H1011", "01", fill(455106, METFORMIN, 60_000, 30, 270)),
    bill(STATION, "20260316", "H1012", "01", fill(455107, METFORMIN, 0, 30, 270)),
    bill(STATION, "20260316", "H1012", "01", fill(455108, ATORVASTATIN, 30_000, 30, 270, usual=350)),
]


def main():
    text = f"{STX}00T{'LAKESIDE SWITCH':24s}{BATCH_NUMBER}{CREATED}P12{'LAKESIDE PLAN':24s}{ETX}\r\n"
    for place, record in enumerate(RECORDS, 1):
        text += f"{STX}G1{place:010d}{record}{ETX}\r\n"
    text += f"{STX}99{BATCH_NUMBER}{len(RECORDS):010d}{'':35s}{ETX}\r\n"
    sys.stdout.buffer.write(text.encode("ascii"))


if __name__ == "__main__":
    main()
