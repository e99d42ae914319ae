"""Explanations of random jobs, in the form of tests/explain: what `explain --json` has to say of each transaction.

Requests, books and answers are those of another program, a Python module (`reference`) that reads and adjudicates; the
steps, the sums over the claims before each transaction and what became of these claims are worked out here.
"""

import bisect
import datetime
import importlib.util
import json
import re
import sys
import tomllib

import random_runs

CASES = {b"52": "no family", b"53": "no person", b"83": "other claim stands", b"81": "before period", b"82": "after creation",
         b"65": "not covered", b"70": "not listed", b"76": "too many days", b"79": "too soon"}
ODD = ("generic", "brand name", "1", "tier", 'say "1"', "back\\slash", "\u00e9l\u00e8ve", "\t", "", "50001012301", "x" * 80)


def reference_of(path):
    """The module in a file: `read_inputs`, `decode`, `step`, `run_parts`, `ListLedger` and the types of what they give."""
    spec = importlib.util.spec_from_file_location("reference", path)
    module = sys.modules["reference"] = importlib.util.module_from_spec(spec)
    spec.loader.exec_module(module)
    return module


def tier_names(sheet):
    """The tier's name of each product of a sheet's text, each byte a character, as JSON has it."""
    return {product: drug["tier"].encode().decode("latin-1") for product, drug in tomllib.loads(sheet.decode())["drugs"].items()}


# ---------------------------------------------------------------- inputs

def amount(cents):
    digits = b"%08d" % cents
    return digits[:-1] + b"{ABCDEFGHI"[digits[-1] - 48:digits[-1] - 47]


def varied_batch(rng, batch, products):
    """Some of the dates, persons, products, amounts, days and quantities are others, some usual charges gross amounts due."""
    def other(field):
        name = field[1]
        if rng.random() < (0.95 if name in (b"C3", b"D7") else 0.7):
            return field[0]
        if name == b"C3":
            return b"\x1cC3%02d" % rng.randrange(1, 9)
        if name == b"D7":
            return b"\x1cD7" + rng.choice(products)
        if name == b"D5":
            return b"\x1cD5%03d" % rng.choice((1, 30, 90, 91))
        if name == b"E7":
            return b"\x1cE7%010d" % rng.choice((1, 999, 1_500, 30_000, 9_999_999))
        return b"\x1c" + (rng.choice((b"DQ", b"DU")) if name == b"DQ" else name) + amount(rng.choice((0, 1, 150, 4_321, 1_000_000)))

    def other_date(header):
        return header[1] + (header[2] if rng.random() < 0.9 else rng.choice((b"20251231", b"20260601", b"20260801")))

    batch = re.sub(rb"(D0B[12].{28})(2026[0-9]{4})", other_date, batch)
    return re.sub(rb"\x1c(C3|D7|D5|E7|D9|DC|DQ)[0-9]+[{A-I]?", other, batch)


def varied_books(rng, books):
    """Some members are covered to an earlier day."""
    return re.sub(rb"^(M\|.*\|)[0-9]{8}(\|[0-9]+)$", lambda line: line[0] if rng.random() < 0.8 else line[1] + b"20260628" + line[2],
                  books, flags=re.M)


def varied_sheet(rng, sheet):
    """Its figures are others, and its tiers have odd names."""
    tree = tomllib.loads(sheet.decode())
    figures = {"member_deductible": (0, 500, 10_000), "family_maximum": (0, 9_000, 60_000, 10_000_000),
               "family_deductible": (0, 700, 25_000, None), "refill_percent": (0, 50, 75, 100), "max_days": (30, 90, 999), "fee": (0, 175, 900),
               "period_first": ("20260101", "20260101", "20260410"), "period_last": ("20261231", "20261231", "20260628")}
    tree.update((name, rng.choice(choices)) for name, choices in figures.items())
    names = dict(zip(tree["tiers"], rng.sample(ODD, len(tree["tiers"]))))
    lines = [f"{name} = {json.dumps(value)}" for name, value in tree.items() if isinstance(value, (int, str))] + ["[tiers]"]
    shares = (str(rng.choice((0, 1_000, 3_500))), "{ percent = %d }" % rng.choice((0, 20, 33, 100)))
    lines += [f"{json.dumps(name)} = {rng.choice(shares)}" for name in names.values()]
    for product, drug in tree["drugs"].items():
        if rng.random() < 0.1:
            continue
        lines += [f"[drugs.{product}]", f"tier = {json.dumps(names[drug['tier']])}", f"price = {rng.choice((drug['price'], 0, 333, 14_500_000))}"]
    return "".join(line + "\n" for line in lines).encode()


def random_files(rng):
    files = random_runs.inputs_of(rng)
    try:
        files["sheet.toml"] = varied_sheet(rng, files["sheet.toml"])
    except (KeyError, UnicodeDecodeError, tomllib.TOMLDecodeError):
        pass
    products = sorted(set(re.findall(rb"[0-9]{11}", files["sheet.toml"]))) or [b"50001012301"]
    return {**files, "books.txt": varied_books(rng, files["books.txt"]),
            "batch.bin": varied_batch(rng, files["batch.bin"], products)}


# ---------------------------------------------------------------- what is expected

def dashed(day):
    return f"{day // 10_000:04d}-{day // 100 % 100:02d}-{day % 100:02d}"


def day_of(number):
    day = datetime.date(1970, 1, 1) + datetime.timedelta(number)
    return f"{day:%Y-%m-%d}"


def chars(text):
    return text.decode("latin-1")


def amounts(row):
    """Those of a row of the books."""
    paid = row.fh + row.fi + row.coinsurance
    return {"ingredient_cost": row.f6, "dispensing_fee": row.f7, "deductible": row.fh, "copay": row.fi,
            "coinsurance": row.coinsurance, "patient_pay": paid, "total_paid": row.f6 + row.f7 - paid}


def at(place):
    return {"place": place[0], "nth": place[1]}


class Explained:
    """What is expected of each transaction of a job whose inputs the reference accepts."""

    def __init__(self, reference, files):
        self.reference = reference
        sheet, books, batch = (files[name] for name in ("sheet.toml", "books.txt", "batch.bin"))
        self.plan, opening, records = reference.read_inputs(sheet, books, batch)
        self.response = reference.run_parts(sheet, books, batch, files["stamp"])[0][0]
        self.tiers, self.lot = tier_names(sheet), records.head.lot
        self.ledger = reference.ListLedger(opening.members, opening.rows)
        self.paid_by, self.ends, self.wanted, self.open_ended = {}, {}, [], []
        for place, detail in enumerate(records.details, 1):
            self.record(place, reference.decode(self.plan.door, detail.text).body)
        for claim, key, place in self.open_ended:
            later = self.ends.get(key, [])
            found = bisect.bisect_right(later, place)
            if found < len(later):
                claim["taken_back_by"] = at(later[found])

    def record(self, place, body):
        if isinstance(body, self.reference.Rejected):
            codes = [{"code": chars(code)} for code in body.codes]
            self.wanted.append({"place": place, "answer": "header rejected", "codes": codes})
            return
        for nth, transaction in enumerate(body.list, 1):
            number = self.lot.number * 10 ** 8 + place * 10 + nth
            wanted = {"place": place, "nth": nth, "pharmacy": chars(body.provider), "date": dashed(body.date)}
            before = self.ledger.rows()
            answer = self.reference.step(self.lot, self.plan, body.provider, body.date, number, transaction, self.ledger)
            wanted.update(self.asked(transaction))
            wanted.update(self.answered((place, nth), body, transaction, answer, before))
            self.wanted.append(wanted)
            self.note((place, nth), body, transaction, answer)

    def note(self, place, body, transaction, answer):
        """What the transaction changed."""
        key = self.reference.Key(body.provider, transaction.reference, body.date)
        if isinstance(answer, self.reference.Paid):
            self.paid_by[key] = place
        elif isinstance(answer, self.reference.Approved):
            self.paid_by.pop(key, None)
            self.ends.setdefault(key, []).append(place)

    def asked(self, transaction):
        if isinstance(transaction, self.reference.Faulty):
            return {} if transaction.reference is None else {"rx": transaction.reference}
        asked = {"rx": transaction.reference, "product": chars(transaction.product)}
        if isinstance(transaction, self.reference.Bill):
            asked.update(family=chars(transaction.family), person=chars(transaction.person),
                         quantity_thousandths=transaction.quantity, days=transaction.days)
        return asked

    def traced(self, row, place, ends=True):
        """A claim that stands before a transaction."""
        key = row.key
        claim = {"pharmacy": chars(key.provider), "rx": key.reference, "date": dashed(key.date), "family": chars(row.family),
                 "person": chars(row.person), "product": chars(row.product), "days": row.days, **amounts(row)}
        if key in self.paid_by:
            claim["paid_by"] = at(self.paid_by[key])
        if ends:
            self.open_ended.append((claim, key, place))
        return claim

    def answered(self, place, body, transaction, answer, before):
        stands = next((row for row in before if row.key == (body.provider, transaction.reference, body.date)), None)
        if isinstance(answer, self.reference.Paid):
            return {"answer": "paid", "number": f"{answer.number:015d}", "case": "payable",
                    **self.steps(place, transaction, self.ledger.row((body.provider, transaction.reference, body.date)), before)}
        if isinstance(answer, self.reference.Twice):
            return {"answer": "duplicate", "number": f"{stands.number:015d}", "case": "same claim stands", **amounts(stands),
                    "standing": self.traced(stands, place)}
        if isinstance(answer, self.reference.Approved):
            return {"answer": "taken back", "number": f"{answer.number:015d}", "case": "taken back",
                    "total_paid": amounts(stands)["total_paid"], "standing": self.traced(stands, place, ends=False)}
        codes = {"answer": "refused", "codes": [{"code": chars(code)} for code in answer.codes]}
        if isinstance(transaction, self.reference.Faulty):
            return {**codes, "case": "unread"}
        code = answer.codes[0]
        case = ("other product" if stands else "none stands") if code == b"87" else CASES[code]
        return {**codes, "case": case, **self.because(case, place, body, transaction, stands, before)}

    def because(self, case, place, body, bill, stands, before):
        """What decided a refusal."""
        plan = self.plan
        if case in ("other claim stands", "other product"):
            return {"standing": self.traced(stands, place)}
        if case == "before period":
            return {"period_first": dashed(plan.period.first)}
        if case == "after creation":
            return {"created": dashed(self.lot.created)}
        if case == "not covered":
            member = self.ledger.member(bill.family, bill.person)
            return {"covered_first": dashed(member.first), "covered_last": dashed(member.last), "period_last": dashed(plan.period.last)}
        if case == "too many days":
            return {"most_days": plan.max_days}
        return self.soon(place, body, bill, before) if case == "too soon" else {}

    def soon(self, place, body, bill, before):
        """The fill that makes it too soon for longest, of these by date, owner and amounts, and the first date on which none does."""
        number, percent = self.reference.day_number, self.plan.refill_percent
        fills = [row for row in before if (row.family, row.person, row.product) == (bill.family, bill.person, bill.product)]

        def early(day):
            return [row for row in fills if 0 <= (day - number(row.key.date)) * 100 < row.days * percent]

        def rank(row):
            until = number(row.key.date) * 100 + row.days * percent
            return -until, row.key.date, row.key.provider != body.provider, row.f6, row.f7, row.fh, row.fi, row.coinsurance

        today = number(body.date)
        longest = min(early(today), key=rank)
        ends = sorted(number(row.key.date) - -row.days * percent // 100 for row in fills)
        return {"standing": self.traced(longest, place), "days_passed": today - number(longest.key.date), "refill_percent": percent,
                "first_date": day_of(next(day for day in ends if day >= today and not early(day)))}

    def steps(self, place, bill, row, before):
        """The steps to the amounts of a claim that is paid, and the family's claims of the period before it."""
        plan, drug = self.plan, self.plan.drugs[bill.product]
        counted = [one for one in before if one.family == bill.family and plan.period.holds(one.key.date)]
        paid = [amounts(one)["patient_pay"] for one in counted]
        own = sum(one.fh for one in counted if one.person == bill.person)
        cost, fee = bill.quantity * drug.price // 100_000, bill.dc or 0
        allowed, left = row.f6 + row.f7, max(plan.member_deductible - own, 0)
        under = min(allowed, left)
        family = {}
        if plan.family_deductible is not None:
            used = sum(one.fh for one in counted)
            family = {"family_deductible": plan.family_deductible, "family_deductible_used": used,
                      "family_deductible_left": max(plan.family_deductible - used, 0)}
            under = min(under, family["family_deductible_left"])
        copay = isinstance(drug.share, self.reference.Copay)
        share = min(drug.share.cents, allowed - under) if copay else (allowed - under) * drug.share.percent // 100
        return {**amounts(row), "submitted_cost": bill.d9, "price_hundredths": drug.price, "submitted_fee": fee, "plan_fee": plan.fee,
                "charge_field": "DU" if bill.dq is None else "DQ", "charge": bill.du if bill.dq is None else bill.dq,
                "cost": cost, "cost_before_charge": min(bill.d9, cost), "fee_before_charge": min(fee, plan.fee),
                "member_deductible": plan.member_deductible, "member_deductible_used": own, "deductible_left": left, **family,
                "family_maximum": plan.family_maximum, "family_maximum_used": sum(paid),
                "family_maximum_left": max(plan.family_maximum - sum(paid), 0), "deductible_due": under, "share_due": share,
                ("tier_copay" if copay else "tier_percent"): drug.share.cents if copay else drug.share.percent,
                "tier": self.tiers[chars(bill.product)], "counted": [self.traced(one, place) for one in counted]}
