#!/usr/bin/env python3
"""Writes the inputs of a large run: sheet.toml, books.txt (version 3), batch.bin and stamp, the same for the same words.

    bench/make_job.py DIR [--records N] [--families F] [--members M] [--providers P] [--claims C] [--drugs D]
                          [--transactions T] [--reversals PERCENT] [--hot PERCENT] [--billed N] [--billed-claims K]
                          [--again N] [--seed S]

The books have F families of M members and C standing claims. The batch has N records of 1 to T transactions, most of
them billings and PERCENT of them reversals of standing claims; `--hot` sends this many percent of the records to the
first hundredth of the families, so that records share. `--billed` bills, and takes back from, only the first N
families, of whose members K claims stand, if K is given. `--again` lets N claims of one member, product and date stand,
which the first N records take back and the next N bill again. Layouts are those of docs/FORMATS.md.
"""

import argparse
import datetime
import os
import random
import sys

STX, ETX, FS, GS, SS = "\x02", "\x03", "\x1c", "\x1d", "\x1e"
STAMP, CREATED, BATCH_NUMBER = "202607010600", "202606302130", 1000
FIRST, LAST = datetime.date(2026, 1, 1), datetime.date(2026, 12, 31)
BATCH_DAY = datetime.date(2026, 6, 30)
FEE, MEMBER_DEDUCTIBLE, FAMILY_DEDUCTIBLE, FAMILY_MAXIMUM = 175, 25_000, 60_000, 300_000
AGAIN = 900_000_000_000
TIERS = {"generic": "1000", "brand": "4000", "specialty": "{ percent = 20 }"}


def day_text(day):
    return day.strftime("%Y%m%d")


def amount(cents):
    """Eight characters, the last of which carries its digit and the plus sign."""
    digits = f"{cents:08d}"
    return digits[:-1] + "{ABCDEFGHI"[int(digits[-1])]


class Job:
    """The drugs, families and standing claims that the files are written from."""

    def __init__(self, options):
        self.options, self.rng = options, random.Random(options.seed)
        self.drugs = [(f"7{place:010d}", self.rng.choice(list(TIERS)), self.rng.randrange(200, 200_000))
                      for place in range(1, options.drugs + 1)]
        self.families = [f"F{place:07d}" for place in range(1, options.families + 1)]
        self.providers = [f"8{place:09d}" for place in range(1, options.providers + 1)]
        self.billed = self.families[:options.billed or options.families]
        self.claims = sorted([*self.standing_claims(), *self.claims_again()])
        named = set(self.billed)
        self.reversible = [claim for claim in self.claims if claim[3] in named and claim[1] < AGAIN]
        self.again = [claim for claim in self.claims if claim[1] >= AGAIN]

    def quantity_and_days(self):
        return self.rng.choice((14, 30, 60, 90)) * 1000, self.rng.choice((7, 14, 30))

    def standing_claims(self):
        """Claims of the months before the batch, each the one of its key: all paid under the deductible."""
        for place in range(1, self.options.claims + 1):
            family = self.rng.choice(self.families_of_claim(place))
            person = self.rng.randrange(1, self.options.members + 1)
            product, _, price = self.rng.choice(self.drugs)
            quantity, days = self.quantity_and_days()
            day = FIRST + datetime.timedelta(self.rng.randrange(0, 150))
            cost = min(quantity * price // 100_000, MEMBER_DEDUCTIBLE // 100)
            yield (self.rng.choice(self.providers), place, day_text(day), family, person, product, quantity, days,
                   cost, FEE, cost + FEE, f"{1:07d}{place % 10_000_000:07d}1")


    def families_of_claim(self, place):
        """The families of which one has the claim: the billed ones for the first K claims, and the others then."""
        most = self.options.billed_claims
        if most is None:
            return self.families
        return self.billed if place <= most else self.families[len(self.billed):] or self.billed

    def claims_again(self):
        """Claims of one member, product and date, under reference numbers of their own."""
        product, _, price = self.drugs[0]
        cost = min(30_000 * price // 100_000, MEMBER_DEDUCTIBLE // 100)
        for place in range(1, self.options.again + 1):
            yield (self.providers[0], AGAIN + place, day_text(BATCH_DAY - datetime.timedelta(2)), self.families[0], 1,
                   product, 30_000, 7 + place % 24, cost, FEE, cost + FEE, f"{1:07d}{place % 10_000_000:07d}2")


def sheet_text(job):
    lines = ['bin = "900001"', 'pcn = "RXDEMO"', f'period_first = "{day_text(FIRST)}"',
             f'period_last = "{day_text(LAST)}"', f"member_deductible = {MEMBER_DEDUCTIBLE}",
             f"family_maximum = {FAMILY_MAXIMUM}", "refill_percent = 75", "max_days = 90", f"fee = {FEE}",
             f"family_deductible = {FAMILY_DEDUCTIBLE}", "[tiers]"]
    lines += [f"{name} = {share}" for name, share in TIERS.items()]
    for product, tier, price in job.drugs:
        lines += [f"[drugs.{product}]", f'tier = "{tier}"', f"price = {price}"]
    return "".join(line + "\n" for line in lines)


def books_lines(job):
    """Version 3, with the totals of the claims, all of which are dated within the period."""
    deductible, paid = {}, {}
    for claim in job.claims:
        family, person, share = claim[3], claim[4], claim[10]
        deductible[family, person] = deductible.get((family, person), 0) + share
        paid[family] = paid.get(family, 0) + share
    yield f"BOOKS|3|{day_text(FIRST)}|{day_text(LAST)}\n"
    for family in job.families:
        for person in range(1, job.options.members + 1):
            left = deductible.get((family, person), 0)
            yield f"M|{family}|{person:02d}|{day_text(FIRST)}|{day_text(LAST)}|{left}\n"
    for provider, reference, day, family, person, product, quantity, days, cost, fee, share, number in job.claims:
        yield (f"C|{provider}|{reference}|{day}|{family}|{person:02d}|{product}|{quantity}|{days}|{cost}|{fee}"
               f"|{share}|0|0|{number}\n")
    for family in job.families:
        yield f"T|{family}|{paid.get(family, 0)}|{paid.get(family, 0)}\n"


def header(code, provider, day, count):
    return f"900001D0{code}{'RXDEMO':10s}{count}01{provider:15s}{day}{'':10s}"


def segment(name, *fields):
    return SS + FS + "AM" + name + "".join(FS + field for field in fields)


def billing(job, reference):
    """A record of 1 to T fills of one member."""
    rng, options = job.rng, job.options
    hot = rng.randrange(100) < options.hot
    family = rng.choice(job.billed[:max(len(job.billed) // 100, 1)] if hot else job.billed)
    day = day_text(BATCH_DAY - datetime.timedelta(rng.randrange(0, 5)))
    count, groups = rng.randrange(1, options.transactions + 1), ""
    for place in range(count):
        product, _, price = rng.choice(job.drugs)
        quantity, days = job.quantity_and_days()
        cost = quantity * price // 100_000
        groups += GS + segment("07", "EM1", f"D2{reference + place:012d}", "E103", f"D7{product}",
                               f"E7{quantity:010d}", f"D5{days:03d}", "D61")
        groups += segment("11", f"D9{amount(cost)}", f"DC{amount(FEE)}", f"DQ{amount(cost + FEE)}")
    person = rng.randrange(1, options.members + 1)
    insured = segment("04", f"C2{family}", f"C3{person:02d}")
    return header("B1", rng.choice(job.providers), day, count) + insured + groups


def reversal(job, claim):
    fields = segment("07", "EM1", f"D2{claim[1]:012d}", "E103", f"D7{claim[5]}")
    return header("B2", claim[0], claim[2], 1) + GS + fields


def billing_again(job, claim):
    provider, reference, day, family, person, product, quantity, days = claim[:8]
    price = job.drugs[0][2]
    cost = quantity * price // 100_000
    insured = segment("04", f"C2{family}", f"C3{person:02d}")
    group = GS + segment("07", "EM1", f"D2{reference:012d}", "E103", f"D7{product}", f"E7{quantity:010d}",
                         f"D5{days:03d}", "D61")
    group += segment("11", f"D9{amount(cost)}", f"DC{amount(FEE)}", f"DQ{amount(cost + FEE)}")
    return header("B1", provider, day, 1) + insured + group


def text_of_record(job, place):
    options = job.options
    if place <= options.again:
        return reversal(job, job.again[place - 1])
    if place <= 2 * options.again:
        return billing_again(job, job.again[place - options.again - 1])
    if job.reversible and job.rng.randrange(100) < options.reversals:
        return reversal(job, job.rng.choice(job.reversible))
    return billing(job, 100_000_000 + 4 * place)


def batch_records(job):
    options = job.options
    yield f"{STX}00T{'PHARMSYS':24s}{BATCH_NUMBER:07d}{CREATED}P12{'RXSWITCH':24s}{ETX}"
    for place in range(1, options.records + 1):
        yield f"{STX}G1{place:010d}{text_of_record(job, place)}{ETX}"
    yield f"{STX}99{BATCH_NUMBER:07d}{options.records:010d}{'':35s}{ETX}"


def main(words):
    parser = argparse.ArgumentParser(description=__doc__, formatter_class=argparse.RawDescriptionHelpFormatter)
    parser.add_argument("folder", metavar="DIR")
    parser.add_argument("--records", type=int, default=100_000, help="at most 100,000")
    parser.add_argument("--families", type=int, default=30_000)
    parser.add_argument("--members", type=int, default=3, help="of each family, at most 999")
    parser.add_argument("--providers", type=int, default=500)
    parser.add_argument("--claims", type=int, default=200_000, help="standing claims")
    parser.add_argument("--drugs", type=int, default=200)
    parser.add_argument("--transactions", type=int, default=2, help="of a record at most, 1 to 4")
    parser.add_argument("--reversals", type=int, default=5, help="percent of the records")
    parser.add_argument("--hot", type=int, default=10, help="percent of the records")
    parser.add_argument("--billed", type=int, help="families; default: all")
    parser.add_argument("--billed-claims", type=int, help="standing claims of these; default: by chance")
    parser.add_argument("--again", type=int, default=0, help="claims; at most half of the records")
    parser.add_argument("--seed", default="1")
    options = parser.parse_args(words)
    if options.families * (options.members + 1) + options.claims + options.again + 1 > 1_000_000:
        parser.error("the books would have more than 1,000,000 lines")
    job = Job(options)
    os.makedirs(options.folder, exist_ok=True)
    for name, parts in (("sheet.toml", [sheet_text(job)]), ("books.txt", books_lines(job)),
                        ("batch.bin", batch_records(job)), ("stamp", [STAMP])):
        path = os.path.join(options.folder, name)
        with open(path, "w", encoding="ascii", newline="") as file:
            file.writelines(parts)
        print(f"{path}: {os.path.getsize(path):,} bytes")


if __name__ == "__main__":
    main(sys.argv[1:])
