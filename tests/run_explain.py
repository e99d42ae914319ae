#!/usr/bin/env python3
"""Runs a program's `explain` on the worked cases and the first job, and compares it with explanations of another program.

    tests/run_explain.py PROGRAM [--only WORD] [--jobs J] [--seconds S] [--random N --seed S --reference FILE]

PROGRAM is a path or a command line. Each file of tests/explain has an explanation a line, of the job of that name below
tests/cases, tests/explain/cases or examples: what `--json` is to say of each transaction, made by a program that has no
code in common with this one; the tier's name is read from the sheet here. Each transaction is asked for by its place, in words and as JSON, with the job's response
file; the figures of a paid claim are compared line by line with texts made of these values. Then each authorization
number and each prescription reference number is looked for. Response files with another byte, another reference, a
record less and of another batch, a family of 29 claims, end books, what isn't there, damaged inputs and files that can't
be read are tried; and each command of examples/first_job/expected/explain has to print what stands below it.

`--random N` explains N random jobs in place of these, each record with the reply of another program: FILE is a Python
module that reads and adjudicates (explained.py says what it has to offer). A job that differs is kept in a folder.

What differs has a line. The last line is `N passed, M failed`; the exit status is 0 where M is 0, else 1.
"""

import argparse
import concurrent.futures
import json
import os
import random
import re
import shlex
import shutil
import subprocess
import sys
import tempfile

import explained
import random_runs
from options import is_line_with_words

HERE = os.path.dirname(os.path.abspath(__file__))
TOP = os.path.dirname(HERE)
FIRST_JOB = os.path.join(TOP, "examples", "first_job")
CASES = ("no family", "no person", "same claim stands", "other claim stands", "before period", "after creation", "not covered",
         "not listed", "too many days", "too soon", "payable", "none stands", "other product", "taken back", "unread")
ANSWERS = {"paid": "PAID", "duplicate": "DUPLICATE", "taken back": "TAKEN BACK", "refused": "REFUSED",
           "header rejected": "HEADER REJECTED"}


class Job:
    """A job with what is expected of its transactions."""

    def __init__(self, name):
        self.name = name[:-len(".json")]
        path = self.name.replace("--", os.sep)
        own = os.path.join(HERE, "explain", "cases", path)
        self.folder = FIRST_JOB if self.name == "first_job" else own if os.path.isdir(own) else os.path.join(HERE, "cases", path)
        response = os.path.join("expected", "response.bin") if self.folder == FIRST_JOB else "response.bin"
        self.response = os.path.join(self.folder, response)
        self.compared = ["--response", self.response] if os.path.exists(self.response) else []
        self.inputs = inputs_in(self.folder)
        self.wanted = with_tiers(self.folder, name)


def with_tiers(folder, name):
    """The explanations of a file, those of claims that are paid with the tier that the job's sheet names."""
    with open(os.path.join(folder, "sheet.toml"), "rb") as file:
        tiers = explained.tier_names(file.read())
    with open(os.path.join(HERE, "explain", name), encoding="utf-8") as file:
        wanted = [json.loads(line) for line in file]
    return [{**one, "tier": tiers[one["product"]]} if one.get("answer") == "paid" else one for one in wanted]


def inputs_in(folder):
    names = {"--sheet": "sheet.toml", "--books": "books.txt", "--batch": "batch.bin"}
    return [word for option, name in names.items() for word in (option, os.path.join(folder, name))]


class Explain:
    """The program's `explain`; `failures` has a line for each answer that wasn't expected."""

    def __init__(self, program, seconds):
        self.program, self.seconds = program, seconds
        self.passed, self.failures = 0, []

    def run(self, words):
        return subprocess.run(self.program + ["explain"] + words, stdin=subprocess.DEVNULL, capture_output=True,
                              timeout=self.seconds)

    def expect(self, holds, line):
        if holds:
            self.passed += 1
        else:
            self.failures.append(line)

    def expect_status(self, words, status, stderr=None, is_told=is_line_with_words):
        """The words answer this status; nothing is on standard output but at 0 and 5."""
        ended = self.run(words)
        good = ended.returncode == status and (status in (0, 5) or ended.stdout == b"")
        good = good and (stderr is None or is_told(ended.stderr, stderr))
        self.expect(good, f"status {ended.returncode}, wanted {status}: {ended.stderr[:60]!r} {' '.join(words)}")
        return ended.stdout

    def objects(self, words, status=0):
        """The objects that `--json` prints."""
        return [json.loads(line) for line in self.expect_status(words + ["--json"], status).splitlines()]


# ---------------------------------------------------------------- one job

def money(cents):
    return f"${cents // 100:,}.{cents % 100:02d}"


def price(hundredths):
    return money(hundredths // 100) + (f"{hundredths % 100:02d}" if hundredths % 100 else "")


def thousandths(number):
    return str(number // 1000) + (f".{number % 1000:03d}" if number % 1000 else "")


def at(place):
    return f"{place['place']}.{place['nth']}"


def line(label, cents, words=""):
    return f"  {label:26}{money(cents):>14}{words}"


def cut(limit, paid, due):
    return f", cut to {money(paid)}: {limit}" if paid < due else ""


def due(limit, paid, owed):
    return f"  {money(owed)}{cut(limit, paid, owed)}" if paid < owed else ""


def shown(text):
    """A text of a file as a terminal shows it."""
    return re.sub(r"[^ -\[\]-~]", lambda byte: f"\\x{ord(byte[0]):02X}", text)


def claim(one):
    source = f"record {at(one['paid_by'])}" if "paid_by" in one else "opening books"
    end = f"; taken back by {at(one['taken_back_by'])}" if "taken_back_by" in one else ""
    return f"rx {one['rx']} of {one['date']} at {one['pharmacy']} for {shown(one['family'])}/{shown(one['person'])} ({source}{end})"


def behind(claims, amounts, used, whole):
    """The claims of a sum: the 20 that count most, or all in their order."""
    counted = [(amount, one) for one, amount in zip(claims, amounts) if amount]
    listed = counted if whole else sorted(counted, key=lambda pair: -pair[0])[:20]
    lines = [f"{'':44}{money(amount):>14}  {claim(one)}" for amount, one in listed]
    if len(counted) > len(listed):
        rest = used - sum(amount for amount, _ in listed)
        lines.append(f"{'':60}and {len(counted) - len(listed):,} more, {money(rest)}")
    return lines


def left(label, wanted, name, amounts, whole, key=None):
    figure, used = wanted[name], wanted[name + "_used"]
    words = f"  {money(figure)} less {money(used)}"
    return [line(label, wanted[key or name + "_left"], words)] + behind(wanted["counted"], amounts, used, whole)


def share_words(wanted, allowed):
    """How the copay or the coinsurance comes about."""
    rest = allowed - wanted["deductible_due"]
    if rest <= 0:
        return "  nothing is left after the deductible"
    words = f"{money(rest)} ({money(allowed)} less {money(wanted['deductible_due'])})"
    if "tier_percent" in wanted:
        return f"  {wanted['tier_percent']} percent of {words} = {money(wanted['share_due'])}"
    copay = f"  copay of {money(wanted['tier_copay'])}"
    return copay + (f"; only {words} is left" if rest < wanted["tier_copay"] else "")


def paid_lines(wanted, whole=False):
    """The lines below the first of a claim that is paid, from its values."""
    cost, fee = wanted["ingredient_cost"], wanted["dispensing_fee"]
    lower = wanted["submitted_cost"] < wanted["cost"]
    words = "as submitted; the plan's price is " if lower else money(wanted["submitted_cost"]) + " submitted, paid by the plan's price: "
    words += f"{thousandths(wanted['quantity_thousandths'])} x {price(wanted['price_hundredths'])} = {money(wanted['cost'])}"
    lines = [line("ingredient cost F6", cost, f"  {words}{cut('the charge', cost, wanted['cost_before_charge'])}")]
    lower = wanted["submitted_fee"] < wanted["plan_fee"]
    words = "as submitted; the plan's fee is " if lower else money(wanted["submitted_fee"]) + " submitted, paid by the plan's fee of "
    words += money(wanted["plan_fee"])
    lines.append(line("dispensing fee F7", fee, f"  {words}{cut('the charge', fee, wanted['fee_before_charge'])}"))
    charge = "the usual charge DQ is " if wanted["charge_field"] == "DQ" else "the gross amount due DU, as no usual charge is given, is "
    before = wanted["cost_before_charge"] + wanted["fee_before_charge"]
    lines.append(line("allowed", cost + fee, f"{due('the charge', cost + fee, before)}  {charge}{money(wanted['charge'])}"))
    deductibles = [one["deductible"] for one in wanted["counted"]]
    own = [amount if one["person"] == wanted["person"] else 0 for one, amount in zip(wanted["counted"], deductibles)]
    lines += left("member's deductible left", wanted, "member_deductible", own, whole, "deductible_left")
    if "family_deductible" in wanted:
        lines += left("family's deductible left", wanted, "family_deductible", deductibles, whole)
    lines += left("family's maximum left", wanted, "family_maximum", [one["patient_pay"] for one in wanted["counted"]], whole)
    maximum = "the family's maximum"
    lines.append(line("deductible FH", wanted["deductible"], due(maximum, wanted["deductible"], wanted["deductible_due"])))
    label, share = ("coinsurance 4U", "coinsurance") if "tier_percent" in wanted else ("copay FI", "copay")
    words = f'{share_words(wanted, cost + fee)}, tier "{shown(wanted["tier"])}"'
    lines.append(line(label, wanted[share], words + cut(maximum, wanted[share], wanted["share_due"])))
    return lines + [line("member pays F5", wanted["patient_pay"]), line("plan pays F9", wanted["total_paid"])]


def billed(wanted):
    """The end of the first line: what is billed, or taken back."""
    words = f"  product {wanted['product']}" if "product" in wanted else ""
    if "days" in wanted:
        words += f", quantity {thousandths(wanted['quantity_thousandths'])}, days {wanted['days']}"
    return words


def without_words(told):
    """An explanation without the words for its codes."""
    codes = [{name: value for name, value in code.items() if name not in ("name", "expected")} for code in told.get("codes", ())]
    return {**told, "codes": codes} if codes else told


def record_word(wanted):
    return str(wanted["place"]) + (f".{wanted['nth']}" if "nth" in wanted else "")


def try_transaction(explain, job, wanted):
    """One transaction by its place, as JSON and in words, with the job's response file."""
    words = job.inputs + ["--record", record_word(wanted)] + job.compared
    told = explain.objects(words)
    same = len(told) == 1 and told[0].pop("response", None) == ("same" if job.compared else None)
    same = same and without_words(told[0]) == wanted
    explain.expect(same, f"{job.name} {record_word(wanted)}: {told}, wanted {wanted}")
    text = explain.expect_status(words, 0).decode("ascii")
    first = text.splitlines()[0]
    good = first.startswith(f"record {record_word(wanted)}  {ANSWERS[wanted['answer']]}") and ("byte for byte" in text) == bool(job.compared)
    good = good and wanted.get("number", "") in first and first.endswith(billed(wanted))
    good = good and text.endswith("\n") and "\x1b" not in text
    explain.expect(good, f"{job.name} {record_word(wanted)}: {text!r}")
    if wanted.get("answer") == "paid":
        lines = text.splitlines()[1:len(text.splitlines()) - bool(job.compared)]
        explain.expect(lines == paid_lines(wanted), f"{job.name} {record_word(wanted)}: {lines}, wanted {paid_lines(wanted)}")
        whole = explain.expect_status(words + ["--all"], 0).decode("ascii").splitlines()[1:len(lines) + 1]
        explain.expect(whole == paid_lines(wanted, True), f"{job.name} {record_word(wanted)} --all: {whole}")


def places(told):
    return [(one["place"], one.get("nth")) for one in told]


def try_searches(explain, job):
    """Each authorization number, and each prescription reference number with and without its pharmacy."""
    heard = [one for one in job.wanted if "nth" in one]
    if any("answer" not in one for one in heard):
        return
    for number in sorted({one["number"] for one in heard if "number" in one}):
        wanted = [one for one in heard if one.get("number") == number]
        told = explain.objects(job.inputs + ["--number", number])
        explain.expect([without_words(one) for one in told] == wanted, f"{job.name} --number {number}: {told}")
    for reference in sorted({one["rx"] for one in heard if "rx" in one}):
        wanted = [one for one in heard if one.get("rx") == reference]
        told = explain.objects(job.inputs + ["--rx", str(reference)])
        explain.expect([without_words(one) for one in told] == wanted, f"{job.name} --rx {reference}: {told}")
        own = [one for one in wanted if one["pharmacy"] == wanted[0]["pharmacy"]]
        told = explain.objects(job.inputs + ["--rx", str(reference), "--provider", wanted[0]["pharmacy"]])
        explain.expect(places(told) == places(own), f"{job.name} --rx {reference} --provider: {told}")


def try_job(explain, job):
    for wanted in job.wanted:
        if "answer" in wanted:
            try_transaction(explain, job, wanted)
    try_searches(explain, job)


# ---------------------------------------------------------------- what isn't there, and damage

def try_absent(explain, job):
    """What no transaction is: a line names it, and says what the batch has."""
    def at_each(found):
        return ", ".join(record_word(one) for one in job.wanted if found(one))

    records = f"; the batch has records 1 to {max(one['place'] for one in job.wanted)}"
    own = "; that record has " + at_each(lambda one: one["place"] == 1)
    others = "; that prescription is in records " + at_each(lambda one: one.get("rx") == 700231)
    nothing = "no such claim" + records
    for words, line in ((["--record", "0"], nothing), (["--record", "1000000"], "no record 1000000" + records),
                        (["--record", "1.9"], "no transaction 1.9" + own),
                        (["--record", "1000000.1"], "no transaction 1000000.1" + records),
                        (["--number", "999999999999999"], "no answer with number 999999999999999" + records),
                        (["--number", "000001299999991"], "no answer with number 000001299999991" + records),
                        (["--number", "1234567890123456"], nothing),
                        (["--rx", "999999999999"], "no rx 999999999999" + records),
                        (["--rx", "700231", "--provider", "9999999999"], "no rx 700231 at 9999999999" + others),
                        (["--rx", "700231", "--provider", "|"], nothing)):
        for form in ([], ["--json"], ["--all"]):
            explain.expect_status(job.inputs + words + form, 4, f"rxbatch: {line}\n".encode(), bytes.__eq__)
    empty = inputs_in(os.path.join(HERE, "cases", "empty-batch", "1-count-zero"))
    explain.expect_status(empty + ["--record", "1"], 4, b"rxbatch: no record 1; the batch has no record\n", bytes.__eq__)


def try_responses(explain, job, folder):
    """Response files with one byte changed, with a record less, and none."""
    with open(job.response, "rb") as file:
        text = file.read()
    records = text.split(b"\x03")
    path = os.path.join(folder, "response.bin")
    words = job.inputs + ["--response", path]

    def write(records):
        with open(path, "wb") as file:
            file.write(b"\x03".join(records))

    second = records[2]
    write(records[:2] + [second[:60] + bytes([second[60] ^ 1]) + second[61:]] + records[3:])
    told = explain.objects(words + ["--record", "2"], 5)
    explain.expect([one["response"] for one in told] == ["differs"], f"a byte of record 2 changed: {told}")
    told = explain.objects(words + ["--record", "3"], 0)
    explain.expect([one["response"] for one in told] == ["same"], f"record 3 beside it: {told}")
    trailer = records[-2]
    count = int(trailer[10:20]) - 1
    write(records[:-3] + [trailer[:10] + b"%010d" % count + trailer[20:]] + records[-1:])
    told = explain.objects(words + ["--record", str(count - 1)], 5)
    explain.expect([one["response"] for one in told] == ["absent"], f"the last record left out: {told}")
    write(records[:2] + [second[:3] + bytes([second[3] ^ 1]) + second[4:]] + records[3:])
    told = explain.objects(words + ["--record", "2"], 5)
    explain.expect([one["response"] for one in told] == ["differs"], f"another reference for record 2: {told}")
    for other in (b"0000013", b"0000011"):
        with open(path, "wb") as file:
            file.write(text.replace(b"0000012", other))
        told = explain.objects(words + ["--record", "2"], 5)
        explain.expect([one["response"] for one in told] == ["other batch"], f"the response to batch {other}: {told}")
        told = explain.expect_status(words + ["--record", "2"], 5)
        last = b"  record 2 isn't this reply: the response file ANSWERS batch " + other + b"\n"
        explain.expect(told.endswith(last), f"the response to batch {other}: {told[-90:]!r}")
    batch = job.inputs[-1]
    explain.expect_status(job.inputs + ["--record", "1", "--response", batch], 1, b"response 3 0\n")
    explain.expect_status(job.inputs + ["--record", "1", "--response", os.path.join(folder, "none")], 3, b"file 4\n")


def try_end_books(explain):
    """The end books of a batch, taken for the opening ones."""
    words = inputs_in(FIRST_JOB) + ["--record", "2"]
    again = "the opening books have it by batch 0000012: this batch was adjudicated on them already"
    explain.expect(again not in explain.expect_status(words, 0).decode("ascii"), "opening books of the first job")
    words[words.index("--books") + 1] = os.path.join(FIRST_JOB, "expected", "books-out.txt")
    text = explain.expect_status(words, 0).decode("ascii")
    explain.expect("DUPLICATE of 000001200000021" in text and f"  {again}\n" in text, f"end books of the first job: {text}")


def try_many_claims(explain, folder):
    """A family with more claims in a sum than are listed."""
    case = os.path.join(HERE, "cases", "one-billing")
    amounts = [100 + 7 * (nth % 9) for nth in range(29)]
    wanted = with_tiers(case, "one-billing.json")[0]
    claims = [{"pharmacy": "1234567893", "rx": 1000 + nth, "date": "2026-01-05", "family": "C100", "person": "02",
               "deductible": 0, "patient_pay": amount} for nth, amount in enumerate(amounts)]
    lines = [f"C|1234567893|{one['rx']}|20260105|C100|02|00001000101|30000|30|{one['patient_pay']}|0|0|{one['patient_pay']}|0"
             f"|00000410000{one['rx']:04d}\n" for one in claims]
    used = sum(amounts)
    with open(os.path.join(case, "books.txt"), encoding="ascii") as file:
        books = file.read().replace("BOOKS|1|", "BOOKS|3|").replace("T|C100|0\n", "".join(lines) + f"T|C100|{used}|0\n")
    path = os.path.join(folder, "books.txt")
    with open(path, "w", encoding="ascii") as file:
        file.write(books.replace("T|C200|0\n", "T|C200|0|0\n"))
    wanted.update(counted=claims, family_maximum_used=used, family_maximum_left=wanted["family_maximum"] - used)
    words = inputs_in(case)
    words[words.index("--books") + 1] = path
    for whole in (False, True):
        text = explain.expect_status(words + ["--record", "1"] + ["--all"] * whole, 0).decode("ascii")
        explain.expect(text.splitlines()[1:] == paid_lines(wanted, whole), f"29 claims: {text}")
    told = explain.objects(words + ["--record", "1"])
    explain.expect([len(one["counted"]) for one in told] == [len(claims)], f"29 claims in JSON: {told}")


def try_damage(explain):
    """The inputs of the worked cases that a run refuses, or that aren't there."""
    for folder, _, names in sorted(os.walk(os.path.join(HERE, "cases"))):
        if "refused" not in names or "words" in names:
            continue
        with open(os.path.join(folder, "refused"), "rb") as file:
            line = file.read()
        if not line.startswith((b"refused 1 ", b"refused 2 ")):
            explain.expect_status(inputs_in(folder) + ["--record", "1"], 1 if line.startswith(b"refused") else 3, line)


def try_shown(explain):
    """Each command of the first job's explanations prints what stands below it."""
    with open(os.path.join(FIRST_JOB, "expected", "explain"), encoding="utf-8") as file:
        kept = re.findall(r"^\$ rxbatch explain (.*)\n((?:(?!\$ ).*\n)*)", file.read(), re.M)
    explain.expect(len(kept) >= 20, f"{len(kept)} commands in examples/first_job/expected/explain")
    for words, shown in kept:
        ended = subprocess.run(explain.program + ["explain"] + shlex.split(words), cwd=FIRST_JOB, stdin=subprocess.DEVNULL,
                               capture_output=True, timeout=explain.seconds)
        explain.expect(ended.stdout.decode("ascii") == shown, f"{words}: {ended.stdout.decode('ascii')!r}")


# ---------------------------------------------------------------- random jobs

def without_bytes(told):
    """An explanation with no more than its codes, and of a rejected header what isn't cut out of the request."""
    codes = {"codes": [{"code": code["code"]} for code in told["codes"]]} if "codes" in told else {}
    sent = ("pharmacy", "date") if "nth" not in told else ()
    return {**{name: value for name, value in told.items() if name not in sent}, **codes}


def try_record(explain, name, words, wanted):
    """A record with its transactions, as JSON and in words."""
    told = explain.objects(words)
    same = all(one.pop("response", None) == "same" for one in told) and [without_bytes(one) for one in told] == wanted
    explain.expect(same, f"{name}: {told}, wanted {wanted}")
    for form in ([], ["--all"]):
        texts = re.split(r"^(?=record )", explain.expect_status(words + form, 0).decode("ascii"), flags=re.M)[1:]
        explain.expect(len(texts) == len(wanted), f"{name}: {texts}")
        for one, text in zip(wanted, texts):
            lines = text.splitlines()
            good = lines[0].startswith(f"record {record_word(one)}  {ANSWERS[one['answer']]}") and "byte for byte" in lines[-1]
            good = good and (one["answer"] != "paid" or lines[1:-1] == paid_lines(one, bool(form)))
            explain.expect(good, f"{name} {form}: {lines}, wanted {one}")


def try_random(explain, reference, seed, keep):
    """A random job: each record with its reply of the other program, or the refusal of the inputs."""
    files = explained.random_files(random.Random(seed))
    folder = os.path.join(keep, seed)
    failures = len(explain.failures)
    try:
        job = explained.Explained(reference, files)
        random_runs.write(folder, {**files, "response.bin": job.response})
        words = inputs_in(folder) + ["--response", os.path.join(folder, "response.bin"), "--record"]
        for place in sorted({one["place"] for one in job.wanted}):
            try_record(explain, f"{seed}, record {place}", words + [str(place)], [one for one in job.wanted if one["place"] == place])
    except reference.SwitchFault as fault:
        random_runs.write(folder, files)
        explain.expect_status(inputs_in(folder) + ["--record", "1"], 1, b"refused %d %d %d\n" % fault.numbers)
    if len(explain.failures) == failures:
        shutil.rmtree(folder)


def try_all_random(explain, options):
    reference = explained.reference_of(options.reference)
    keep = tempfile.mkdtemp(prefix="rxbatch-explain-")
    seeds = [f"{options.seed}.{place}" for place in range(1, options.random + 1)]
    with concurrent.futures.ThreadPoolExecutor(options.jobs) as pool:
        list(pool.map(lambda seed: try_random(explain, reference, seed, keep), seeds))
    print(f"what differs is kept in {keep}" if explain.failures else f"{options.random} random jobs")


def main(words):
    parser = argparse.ArgumentParser(description=__doc__, formatter_class=argparse.RawDescriptionHelpFormatter)
    parser.add_argument("program", metavar="PROGRAM")
    parser.add_argument("--only", default="", help="only jobs with this word in their name")
    parser.add_argument("--jobs", type=int, default=2)
    parser.add_argument("--seconds", type=float, default=60, help="for one run of the program; default: 60")
    parser.add_argument("--random", type=int, metavar="N", help="explain N random jobs")
    parser.add_argument("--seed", default="1", help="of the random jobs; default: 1")
    parser.add_argument("--reference", metavar="FILE", help="the Python module that adjudicates the random jobs")
    options = parser.parse_args(words)
    if options.random is not None and options.reference is None:
        parser.error("--random needs --reference")
    program = [os.path.abspath(word) if os.path.exists(word) else word for word in shlex.split(options.program)]
    explain = Explain(program, options.seconds)
    if options.random is not None:
        try_all_random(explain, options)
    else:
        try_kept(explain, options)
    for line in explain.failures:
        print(line)
    print(f"{explain.passed} passed, {len(explain.failures)} failed")
    return 1 if explain.failures else 0


def try_kept(explain, options):
    """The jobs whose explanations are kept, and what isn't there."""
    names = sorted(name for name in os.listdir(os.path.join(HERE, "explain")) if name.endswith(".json"))
    jobs = [Job(name) for name in names]
    with concurrent.futures.ThreadPoolExecutor(options.jobs) as pool:
        list(pool.map(lambda job: try_job(explain, job), [job for job in jobs if options.only in job.name]))
    if not options.only:
        met = {one.get("case") for job in jobs for one in job.wanted}
        explain.expect(met >= set(CASES), f"no transaction of {set(CASES) - met}")
        first = next(job for job in jobs if job.name == "first_job")
        with tempfile.TemporaryDirectory(prefix="rxbatch-explain-") as folder:
            try_responses(explain, first, folder)
            try_many_claims(explain, folder)
        try_end_books(explain)
        try_absent(explain, first)
        try_damage(explain)
        try_shown(explain)


if __name__ == "__main__":
    sys.exit(main(sys.argv[1:]))
