#!/usr/bin/env python3
"""Compares what a program prints for a pharmacy of two jobs that differ only in other pharmacies' names, products and prescriptions.

    tests/run_for_provider.py PROGRAM [--pairs N] [--seed S] [--keep DIR]

A pair is a random job and the same with other names: each other pharmacy has another id, each of its prescriptions another
number, each family and each person without a claim of the pharmacy another name, and some products that a person gets only at
other pharmacies another number: of the same price and tier, or of another tier where no record bills it. The books are in order
again, so claims stand at other places. `explain --for-provider` of records, in words, with all claims and as JSON, and
`report --for-provider` in each form have to print the same texts of both.

What `explain --for-provider --json` says has to be what `explain --json` says, but for other pharmacies' claims: of these only
date, deductible and patient pay, after the own claims, earliest first. The words have to be those of run_explain.py for these
values. A record of another pharmacy ends with status 4 and a line that is the same for both jobs.

What differs has a line, and its jobs are kept in a folder of DIR. The last line is `N passed, M failed`.
"""

import argparse
import json
import os
import random
import re
import shlex
import subprocess
import sys
import tempfile
from types import SimpleNamespace

import random_runs
import run_explain

HERE = os.path.dirname(os.path.abspath(__file__))
sys.path.insert(0, os.path.join(HERE, "..", "bench"))

import make_job  # noqa: E402

FORMS = ([], ["--tsv"], ["--json"], ["--jsonl"])
TWIN, OTHER = "9", "8"  # a product's twin, and one of another tier, begin with these digits
PROVIDER = slice(23, 38)
LETTERS = "ABCDEFGHIJKLMNOPQRSTUVWXYZ0123456789"


# ---------------------------------------------------------------- a job

def job_of(rng):
    """The files of a job with four pharmacies, as texts, and the pharmacy that asks."""
    options = SimpleNamespace(seed=rng.random(), records=rng.choice((3, 5, 10, 20)), families=rng.choice((1, 2, 4)),
                              members=rng.choice((1, 2, 3)), providers=4, claims=rng.choice((0, 5, 20, 60)), drugs=3,
                              transactions=rng.choice((1, 3)), reversals=rng.choice((0, 20)), hot=0, billed=0,
                              billed_claims=None, again=0)
    job = make_job.Job(options)
    twins = [(TWIN + product[1:], tier, price) for product, tier, price in job.drugs]
    tiers = sorted(make_job.TIERS)
    twins += [(OTHER + product[1:], tiers[tiers.index(tier) - 1], price + 1) for product, tier, price in job.drugs]
    first, *details, last = make_job.batch_records(job)
    sheet = make_job.sheet_text(SimpleNamespace(drugs=job.drugs + twins))
    percent = rng.choice((50, 75, 100))     # some supplies of 7, 14 and 30 days end on one day
    return SimpleNamespace(sheet=sheet.replace("refill_percent = 75", f"refill_percent = {percent}"), claims=job.claims, job=job,
                           first=first, details=[detail[:-1] for detail in details], last=last), rng.choice(job.providers)


def fields_of(text):
    """Pharmacy, family, person and prescriptions of a transmission."""
    found = {name: re.findall("\x1c" + name + "([^\x1c\x1d\x1e]*)", text) for name in ("C2", "C3", "D2")}
    return text[PROVIDER].rstrip(" "), (found["C2"] or [None])[0], (found["C3"] or ["01"])[0], [int(one) for one in found["D2"]]


def write(folder, files, claims, details):
    """The files of a job in a folder; books and their sums are those of the claims."""
    members, totals = {}, {}
    for claim in claims:
        members[claim[3], claim[4]] = members.get((claim[3], claim[4]), 0) + claim[10]
        totals[claim[3]] = totals.get(claim[3], 0) + claim[10]
    span = f"{make_job.day_text(make_job.FIRST)}|{make_job.day_text(make_job.LAST)}"
    lines = [f"BOOKS|3|{span}\n"]
    lines += [f"M|{family}|{person}|{span}|{members.get((family, person), 0)}\n" for family, person in sorted(files.members)]
    lines += [f"C|{c[0]}|{c[1]}|{c[2]}|{c[3]}|{c[4]}|{c[5]}|{c[6]}|{c[7]}|{c[8]}|{c[9]}|{c[10]}|0|0|{c[11]}\n"
              for c in sorted(claims, key=lambda c: (c[0], c[1], c[2]))]
    lines += [f"T|{family}|{totals.get(family, 0)}|{totals.get(family, 0)}\n" for family in sorted({f for f, _ in files.members})]
    texts = {"sheet.toml": files.sheet, "books.txt": "".join(lines),
             "batch.bin": files.first + "".join(detail + "\x03" for detail in details) + files.last}
    random_runs.write(folder, {name: text.encode("ascii") for name, text in texts.items()})


# ---------------------------------------------------------------- the same with other names

class Names:
    """Other names for what is another pharmacy's: `own` is the pharmacy that asks."""

    def __init__(self, rng, files, claims, own):
        self.rng, self.own, self.known = rng, own, {}
        asked = [fields_of(detail[random_runs.FRONT:]) for detail in files.details]
        people = {(c[0], c[3], c[4]) for c in claims} | {(provider, family, person) for provider, family, person, _ in asked if family}
        self.families = {family for provider, family, _ in people if provider == own}
        billed = {(*fields_of(detail[random_runs.FRONT:])[:3], product) for detail in files.details
                  for product in re.findall("\x1cD7([0-9]{11})", detail)}
        self.people = {(family, person) for provider, family, person in people if provider == own}
        self.codes = {"01", *(person for _, person in self.people)}
        owners = {}
        for provider, reference, _, family, person in (c[:5] for c in claims):
            owners.setdefault((provider, reference), set()).add((family, person))
        for provider, family, person, references in asked:
            for reference in references:
                if family:
                    owners.setdefault((provider, reference), set()).add((family, person))
        self.owners = owners
        shared = {owner for found in owners.values() if len(found) > 1 for owner in found}
        self.products = self.other_products({(c[0], c[3], c[4], c[5]) for c in claims}, billed, shared)

    def other_products(self, claimed, billed, shared):
        """Other products for some that persons get: none that the pharmacy names, and of nobody who shares a prescription."""
        kept = {one[1:] for one in claimed | billed if one[0] == self.own}
        asked = {one[1:] for one in billed}
        products = {}
        for one in sorted(got[1:] for got in claimed | billed if got[1]):
            if one not in kept and one[:2] not in shared and one not in products and self.rng.random() < 0.5:
                products[one] = self.rng.choice((TWIN, TWIN if one in asked else OTHER)) + one[2][1:]
        return products

    def fresh(self, kind, name, size):
        """Another name of at most this many letters, always the same for a name, and no one's before or a person's that stays."""
        while (kind, name) not in self.known:
            other = "".join(self.rng.choice(LETTERS) for _ in range(self.rng.randrange(size // 2 + 1, size + 1)))
            if (kind, other) not in self.known.values() and other not in self.codes:
                self.known[kind, name] = (kind, other)
        return self.known[kind, name][1]

    def provider(self, name):
        return name if name == self.own else self.fresh("provider", name, 15)

    def reference(self, provider, number):
        if provider == self.own:
            return number
        while (provider, number) not in self.known:
            other = self.rng.randrange(1, 10 ** 12)
            if other not in self.known.values():
                self.known[provider, number] = other
        return self.known[provider, number]

    def family(self, name):
        return name if name in self.families else self.fresh("family", name, 20)

    def person(self, family, code):
        return code if (family, code) in self.people or code == "01" else self.fresh("person", code, 3)

    def product(self, owner, product):
        return self.products.get((*owner, product), product)

    def claim(self, claim):
        provider, reference, day, family, person, product, *rest = claim
        return (self.provider(provider), self.reference(provider, reference), day, self.family(family), self.person(family, person),
                self.product((family, person), product), *rest)

    def detail(self, detail):
        front, text = detail[:random_runs.FRONT], detail[random_runs.FRONT:]
        provider, family, person, _ = fields_of(text)
        if provider == self.own:
            return detail
        parts = text.split("\x1d")
        head = parts[0][:23] + f"{self.provider(provider):15s}" + parts[0][38:]
        head = head.replace(f"\x1cC2{family}", f"\x1cC2{self.family(family or '')}") if family else head
        head = head.replace(f"\x1cC3{person}", f"\x1cC3{self.person(family, person)}") if family else head
        return front + "\x1d".join([head] + [self.group(provider, (family, person), part) for part in parts[1:]])

    def group(self, provider, owner, part):
        number = int(re.search("\x1cD2([0-9]+)", part)[1])
        if owner[0] is None:
            owner = min(self.owners.get((provider, number), {owner}))
        part = re.sub("\x1cD2[0-9]+", f"\x1cD2{self.reference(provider, number):012d}", part)
        return re.sub("(\x1cD7)([0-9]{11})", lambda found: found[1] + self.product(owner, found[2]), part)


# ---------------------------------------------------------------- what is printed

def printed(program, folder, words):
    """Status, standard output and standard error."""
    inputs = [word for pair in random_runs.INPUTS.items() for word in pair]
    ended = subprocess.run(program + [words[0]] + inputs + words[1:], cwd=folder, stdin=subprocess.DEVNULL, capture_output=True, timeout=60)
    return ended.returncode, ended.stdout, ended.stderr


def hidden(claim):
    return {"pharmacy": None, "date": claim["date"], "deductible": claim["deductible"], "patient_pay": claim["patient_pay"]}


def expected(one, own):
    """An explanation as the pharmacy of the transaction may see it."""
    def order(claim):
        return [claim["date"], claim["person"] != one["person"]] + [claim[name] for name in (
            "ingredient_cost", "dispensing_fee", "deductible", "copay", "coinsurance")]

    one = dict(one)
    if "counted" in one:
        others = sorted((claim for claim in one["counted"] if claim["pharmacy"] != own), key=order)
        one["counted"] = [claim for claim in one["counted"] if claim["pharmacy"] == own] + others
        one["shown"] = [claim if claim["pharmacy"] == own else hidden(claim) for claim in one["counted"]]
    if one["case"] == "too soon" and one["standing"]["pharmacy"] != own:
        one["standing"] = hidden(one["standing"])
    return one


def claim_words(own):
    """How run_explain.py names a claim, where another pharmacy's isn't named."""
    whole = run_explain.claim

    def words(claim):
        return whole(claim) if claim["pharmacy"] == own else f"claim of {claim['date']} at another pharmacy"
    return words


def differences(program, folders, own, details):
    """What isn't as it has to be, a line each."""
    places = [place for place, detail in enumerate(details, 1) if fields_of(detail[random_runs.FRONT:])[0] == own]
    for place in range(1, len(details) + 1):
        words = ["explain", "--for-provider", own, "--record", str(place)]
        for form in ([], ["--all"], ["--json"]) if place in places else ([],):
            one, other = (printed(program, folder, words + form) for folder in folders)
            if one != other:
                yield f"{' '.join(words + form)}: {one} and {other}"
            wanted = (0, b"") if place in places else (4, f"rxbatch: no record {place} of pharmacy {own}\n".encode())
            if (one[0], one[2]) != wanted:
                yield f"{' '.join(words + form)}: {one}"
        if place in places:
            yield from not_as_told(program, folders[0], own, place)
    for form in FORMS:
        one, other = (printed(program, folder, ["report", "--for-provider", own] + form) for folder in folders)
        if one != other or one[0] != (0 if places else 4):
            yield f"report {form}: {one} and {other}"
        if places and one != printed(program, folders[0], ["report", "--provider", own] + form):
            yield f"report {form} isn't that of --provider: {one}"


def not_as_told(program, folder, own, place):
    """Where an explanation isn't the one of `explain`, masked."""
    record = ["--record", str(place)]
    whole = [json.loads(line) for line in printed(program, folder, ["explain", "--json"] + record)[1].splitlines()]
    seen = [json.loads(line) for line in printed(program, folder, ["explain", "--json", "--for-provider", own] + record)[1].splitlines()]
    wanted = [expected(one, own) if "case" in one else one for one in whole]
    shown = [{**{name: value for name, value in one.items() if name != "shown"}, **({"counted": one["shown"]} if "shown" in one else {})}
             for one in wanted]
    if seen != shown:
        yield f"record {place}: {seen}, wanted {shown}"
    named, run_explain.claim = run_explain.claim, claim_words(own)
    for form in ([], ["--all"]):
        text = printed(program, folder, ["explain", "--for-provider", own] + record + form)[1].decode("ascii")
        texts = re.split(r"^(?=record )", text, flags=re.M)[1:]
        for one, lines in zip(wanted, texts):
            if one.get("answer") == "paid" and lines.splitlines()[1:] != run_explain.paid_lines(one, bool(form)):
                yield f"record {place} {form}: {lines}"
            if one.get("case") == "too soon" and one["standing"]["pharmacy"] is None:
                fill = f"  earlier fill at another pharmacy, of {one['standing']['date']}; first date {one['first_date']}"
                if lines.splitlines()[1:] != [fill]:
                    yield f"record {place}: {lines}"
    run_explain.claim = named


def refusals(program, folder, own):
    """Ids that are none, and an id without a claim."""
    for command in (["explain", "--record", "1"], ["report"]):
        for name in ("", "1234567890123456", "a|b", "\x7f"):
            ended = printed(program, folder, command + ["--for-provider", name])
            if ended[:2] != (2, b"") or not ended[2].startswith(b"rxbatch: --for-provider: expected an id"):
                yield f"{command} {name!r}: {ended}"
        if printed(program, folder, command + ["--for-provider", "NOBODY"])[:2] != (4, b""):
            yield f"{command}: a text for nobody"
        padded, plain = (printed(program, folder, command + ["--for-provider", name]) for name in (own + " ", own))
        if padded[:2] != plain[:2]:
            yield f"{command}: a blank at the end of an id counts"
    for form in (["--html"], ["--html-dir", "pages"]):
        if printed(program, folder, ["report", "--for-provider", own] + form)[0] != 2:
            yield f"report {form}"
    if printed(program, folder, ["report", "--for-provider", own, "--provider", own])[0] != 2:
        yield "report of two portions"


def try_pair(program, seed, folder):
    rng = random.Random(seed)
    files, own = job_of(rng)
    claims = [(*claim[:4], f"{claim[4]:02d}", *claim[5:]) for claim in files.claims]
    members = {(family, f"{person:02d}") for family in files.job.families for person in range(1, files.job.options.members + 1)}
    names = Names(rng, files, claims, own)
    folders = [os.path.join(folder, name) for name in ("one", "other")]
    files.members = members
    write(folders[0], files, claims, files.details)
    files.members = {(names.family(family), names.person(family, person)) for family, person in members}
    write(folders[1], files, [names.claim(claim) for claim in claims], [names.detail(detail) for detail in files.details])
    found = list(differences(program, folders, own, files.details))
    return found + (list(refusals(program, folders[0], own)) if seed.endswith(".1") else [])


def main(words):
    parser = argparse.ArgumentParser(description=__doc__, formatter_class=argparse.RawDescriptionHelpFormatter)
    parser.add_argument("program", metavar="PROGRAM")
    parser.add_argument("--pairs", type=int, default=100)
    parser.add_argument("--seed", default="1")
    parser.add_argument("--keep", help="where pairs that differ are kept; default: a new folder")
    options = parser.parse_args(words)
    program = [os.path.abspath(word) if os.path.exists(word) else word for word in shlex.split(options.program)]
    keep = options.keep or tempfile.mkdtemp(prefix="rxbatch-pair-kept-")
    passed = failed = 0
    for place in range(1, options.pairs + 1):
        seed = f"{options.seed}.{place}"
        with tempfile.TemporaryDirectory(prefix="rxbatch-pair-") as folder:
            found = try_pair(program, seed, folder)
            if found:
                os.makedirs(keep, exist_ok=True)
                os.rename(os.path.join(folder), os.path.join(keep, str(place)))
                os.makedirs(folder)
        for line in found:
            print(f"{seed}: {line}", flush=True)
        passed, failed = passed + (not found), failed + bool(found)
    print(f"{passed} passed, {failed} failed")
    return 1 if failed else 0


if __name__ == "__main__":
    sys.exit(main(sys.argv[1:]))
