#!/usr/bin/env python3
"""Runs `excerpt` of a program with rxbatch's words on each record of a job, and then the excerpt itself.

    tests/run_excerpt.py PROGRAM [--random N] [--seed S] [--next-to PROGRAM] [--only WORD] [--jobs J] [--seconds S]

Each record of the worked cases and of N random jobs (60) is excerpted. `run` on the excerpt has to answer it with the
reference and the reply that `run` on the whole job gives, byte for byte, or that the case has; with `--next-to` another
program runs both too, and answers alike. The excerpt has the sheet's figures, only drugs that the record bills, with their
prices and shares, and empty details; its books are the lines of the families that the record can name, in the end books of a
run on the records before it. The commands of its README are run, and its answer is the reply. Next to the whole run's response
file it says that this is the very answer. Of one record of each job: next to one of which the reply is changed, of the records
before it, or of another batch, it says that this is another, and a folder that is there stays. Records without an excerpt are
refused in words.

A case that differs has one line. The last line is `N passed, M failed`; the exit status is 0 where M is 0, else 1.
"""

import concurrent.futures
import os
import random
import re
import shlex
import subprocess
import sys
import tempfile
import tomllib

from options import parser_of, read_options
from random_runs import inputs_of

HERE = os.path.dirname(os.path.abspath(__file__))
STAMP = "202603020600"
FILES = ("README.txt", "batch.bin", "books.txt", "sheet.toml")
FIGURES = ("bin", "pcn", "period_first", "period_last", "member_deductible", "family_maximum", "refill_percent", "max_days", "fee",
           "family_deductible")
BILLED = re.compile(rb"\x1cC2([^\x1c-\x1e]*)")
NUMBER = re.compile(rb"\x1cD2([^\x1c-\x1e]*)")
PRODUCT = re.compile(rb"\x1cD7([0-9]{11}) *(?=[\x1c\x1d\x1e]|$)")


def details_of(text):
    """What stands in each detail of a batch or response file, its reference first."""
    return [piece[3:] for piece in re.findall(rb"\x02[^\x02\x03]*(?=\x03)", text) if piece[1:3] == b"G1"]


def records_of(text):
    """The records of a batch or response file, without what stands between them."""
    return re.findall(rb"\x02[^\x02\x03]*\x03", text)


def first_of(text, count):
    """A batch file of only the first details of this one."""
    records = records_of(text)
    trailer = records[-1]
    return b"".join(records[:count + 1]) + trailer[:10] + b"%010d" % (count + 2) + trailer[20:]


def unescaped(text):
    """The bytes that stand as `\\xNN` or themselves."""
    return re.sub(rb"\\x([0-9A-F]{2})", lambda found: bytes([int(found[1], 16)]), text)


def family_of(line):
    """The family of a line of books; None for the first line."""
    fields = line.split(b"|")
    return {b"M": fields[1], b"T": fields[1], b"C": fields[4] if fields[0] == b"C" else None}.get(fields[0])


def named_in(asked, lines):
    """The families that a request can name: those that it bills, and those whose claims stand under its fill keys."""
    text = asked[10:]
    provider, date = text[23:38].rstrip(), text[38:46]
    keys = {b"|".join([b"C", provider, number.strip().lstrip(b"0"), date]) for number in NUMBER.findall(text)}
    return {billed.rstrip() for billed in BILLED.findall(text)} | {
        family_of(line) for line in lines if b"|".join(line.split(b"|")[:4]) in keys}


def terms_of(text):
    """The figures of a sheet, its processor control number filled up with blanks, and of each drug the price and what a member pays."""
    sheet = tomllib.loads(text.decode())
    sheet["pcn"] = sheet["pcn"].ljust(10)
    drugs = {product: (drug["price"], sheet["tiers"][drug["tier"]]) for product, drug in sheet["drugs"].items()}
    return {key: value for key, value in sheet.items() if key in FIGURES}, drugs


def read(folder, name):
    try:
        with open(os.path.join(folder, name), "rb") as file:
            return file.read()
    except OSError:
        return None


def write(folder, files):
    for name, text in files.items():
        with open(os.path.join(folder, name), "wb") as file:
            file.write(text)


class Job:
    """The files of a job in a folder, and how programs are run on them."""

    def __init__(self, options, folder, files):
        self.options, self.folder, self.tried_others = options, folder, False
        write(folder, files)
        self.stamp = files.get("stamp", STAMP.encode()).decode("latin-1")

    def call(self, program, words):
        return subprocess.run(program + words, cwd=self.folder, stdin=subprocess.DEVNULL, capture_output=True,
                              timeout=self.options.seconds)

    def run(self, program, of, to):
        """The status of a run on the inputs in a folder; its response file is `to`."""
        words = ["run", "--sheet", f"{of}/sheet.toml", "--books", f"{of}/books.txt", "--batch", f"{of}/batch.bin", "--stamp",
                 self.stamp, "--workers", "1", "--response", to, "--books-out", f"{to}.books", "--settlement", f"{to}.settlement"]
        return self.call(program, words)

    def excerpt(self, place, out, response=None):
        words = ["excerpt", "--sheet", "sheet.toml", "--books", "books.txt", "--batch", "batch.bin", "--record", str(place),
                 "--out", out] + (["--response", response] if response else [])
        return self.call(self.options.program, words)

    def record(self, place, asked, wanted):
        """What is wrong with the excerpt of a record; None where nothing is."""
        out = f"out-{place}"
        ended = self.excerpt(place, out, "whole.bin")
        if wanted[15:16] == b"R":
            if ended.returncode != 4 or b"its header is rejected" not in ended.stderr or os.path.exists(f"{self.folder}/{out}"):
                return f"a rejected header: {ended.returncode} {ended.stderr!r}"
            return None
        if ended.returncode != 0 or ended.stderr:
            return f"excerpt ends with {ended.returncode}: {ended.stderr!r}"
        made = {name: read(f"{self.folder}/{out}", name) for name in FILES}
        if sorted(os.listdir(f"{self.folder}/{out}")) != sorted(FILES) or ended.stdout != made["README.txt"]:
            return "other files, or another text on standard output"
        if b"has this very answer" not in ended.stdout:
            return "its own answer isn't the answer"
        fault = self.texts(made, place, asked) or self.readme(made, out, place, wanted)
        if fault:
            return fault
        if self.options.other:
            done = self.run(self.options.other, out, f"{out}.bin")
            if done.returncode != 0:
                return f"run on the excerpt ends with {done.returncode}: {done.stderr!r}"
            answers = details_of(read(self.folder, f"{out}.bin"))
            if len(answers) != place or answers[-1] != wanted:
                return f"the excerpt is answered {answers[-1:]!r}, the whole {wanted!r}"
        if self.tried_others:
            return None
        self.tried_others = True
        return self.others(place)

    def texts(self, made, place, asked):
        """What is wrong with the texts."""
        details = details_of(made["batch.bin"])
        if len(details) != place or details[-1] != asked or any(len(detail) != 10 for detail in details[:-1]):
            return "the batch isn't the record after empty details"
        (figures, listed), (own_figures, own_listed) = terms_of(read(self.folder, "sheet.toml")), terms_of(made["sheet.toml"])
        if own_figures != figures:
            return f"other figures: {own_figures!r}"
        billed = {product.decode() for product in PRODUCT.findall(asked)}
        if any(product not in billed or listed.get(product) != terms for product, terms in own_listed.items()):
            return f"drugs that it doesn't bill, or with other terms: {own_listed!r}"
        before = f"{self.folder}/before-{place}"
        os.mkdir(before)
        inputs = {name: read(self.folder, name) for name in ("sheet.toml", "books.txt", "batch.bin")}
        write(before, {**inputs, "batch.bin": first_of(inputs["batch.bin"], place - 1)})
        done = self.run(self.options.program, before, f"{before}.bin")
        if done.returncode != 0:
            return f"run on the records before it ends with {done.returncode}: {done.stderr!r}"
        whole, own = read(self.folder, f"{before}.bin.books").split(b"\n"), made["books.txt"].split(b"\n")
        families = {family_of(line) for line in own[1:-1]}
        if own != [line for number, line in enumerate(whole) if number == 0 or not line or family_of(line) in families]:
            return f"the books aren't those before it of {families!r}"
        if not families <= named_in(asked, whole):
            return f"families of other books: {families!r}"
        return None

    def readme(self, made, out, place, wanted):
        """What is wrong with the README: its commands are run in the folder, and then its answer is looked for."""
        lines = made["README.txt"].split(b"\n")
        commands = [shlex.split(line.decode("ascii"))[1:] for line in lines if line.startswith(b"rxbatch ")]
        if [words[0] for words in commands] != ["run", "explain"]:
            return f"other commands: {commands!r}"
        for words in commands:
            done = subprocess.run(self.options.program + words, cwd=f"{self.folder}/{out}", stdin=subprocess.DEVNULL,
                                  capture_output=True, timeout=self.options.seconds)
            if done.returncode != 0:
                return f"its {words[0]} ends with {done.returncode}: {done.stderr!r}"
        answers = details_of(read(f"{self.folder}/{out}", "response.bin"))
        if len(answers) != place or answers[-1] != wanted:
            return f"its run answers {answers[-1:]!r}, the whole {wanted!r}"
        at = next(number for number, line in enumerate(lines) if line.startswith(b"The answer to the record"))
        if unescaped(lines[at + 1]) != wanted[10:]:
            return f"its answer is {lines[at + 1]!r}"
        return None

    def others(self, place):
        """What is wrong next to a response file with another answer, and where the folder is there."""
        text = read(self.folder, "whole.bin")
        details = details_of(text)
        at = text.index(b"\x02G1")
        for detail in details[:place - 1]:
            at += len(detail) + 4
        turned = text[:at + 13] + (b"X" if text[at + 13:at + 14] != b"X" else b"Y") + text[at + 14:]
        write(self.folder, {f"turned-{place}.bin": turned})
        ended = self.excerpt(place, f"turned-{place}", f"turned-{place}.bin")
        if ended.returncode != 5 or b"has another answer" not in ended.stdout:
            return f"another answer: {ended.returncode} {ended.stdout!r} {ended.stderr!r}"
        ended = self.excerpt(place, f"short-{place}", f"before-{place}.bin")
        if ended.returncode != 5 or b"has no such record" not in ended.stdout:
            return f"a response file without the record: {ended.returncode} {ended.stdout!r} {ended.stderr!r}"
        number = records_of(text)[-1][3:10]
        write(self.folder, {f"other-{place}.bin": text.replace(number, b"%07d" % ((int(number) + 1) % 10**7))})
        ended = self.excerpt(place, f"other-{place}", f"other-{place}.bin")
        if ended.returncode != 5 or b"answers another batch" not in ended.stdout:
            return f"the response file of another batch: {ended.returncode} {ended.stdout!r} {ended.stderr!r}"
        again = self.excerpt(place, f"out-{place}")
        if again.returncode != 4 or b"it is there" not in again.stderr:
            return f"a folder that is there: {again.returncode} {again.stderr!r}"
        return None

    def faults(self):
        """What is wrong with the records, each with its place; the whole run is refused where a list of one says so."""
        whole = self.run(self.options.program, ".", "whole.bin")
        if whole.returncode != 0:
            ended = self.excerpt(1, "out")
            same = ended.stderr.split(b"\n")[0] == whole.stderr.split(b"\n")[0]
            return 1, [] if same and not os.path.exists(f"{self.folder}/out") else [f"refused otherwise: {ended.stderr!r}"]
        wanted = read(self.folder, "response.bin")
        answers = details_of(read(self.folder, "whole.bin"))
        if wanted is not None and details_of(wanted) != answers:
            return 1, ["the whole is answered otherwise"]
        if self.options.other:
            self.run(self.options.other, ".", "other.bin")
            if details_of(read(self.folder, "other.bin") or b"") != answers:
                return 1, ["the other program answers the whole otherwise"]
        asked = details_of(read(self.folder, "batch.bin"))
        places = range(1, len(asked) + 1)
        if len(asked) > self.options.most:
            places = sorted(random.Random(len(asked)).sample(places, self.options.most))
        found = [(place, self.record(place, asked[place - 1], answers[place - 1])) for place in places]
        past = self.excerpt(len(asked) + 1, "past")
        if past.returncode != 4 or b"no such record" not in past.stderr or os.path.exists(f"{self.folder}/past"):
            found.append((len(asked) + 1, f"past the last: {past.returncode} {past.stderr!r}"))
        return len(found) + 1, [f"record {place}: {fault}" for place, fault in found if fault]


def case_files(folder):
    names = ("sheet.toml", "books.txt", "batch.bin", "stamp", "response.bin")
    return {name: text for name in names if (text := read(folder, name)) is not None}


def cases(options):
    folder = os.path.join(HERE, "cases")
    for name in sorted(os.listdir(folder)):
        path = os.path.join(folder, name)
        for inner in [path] + sorted(os.path.join(path, part) for part in os.listdir(path) if os.path.isdir(path)) \
                if os.path.isdir(path) else []:
            files = case_files(inner) if os.path.isdir(inner) else {}
            if {"sheet.toml", "books.txt", "batch.bin", "response.bin"} <= set(files) and options.only in inner:
                yield os.path.relpath(inner, folder), files
    for number in range(options.random):
        if options.only in f"random {number}":
            yield f"random {number}", inputs_of(random.Random(f"{options.seed} {number}"))


def main(words):
    parser = parser_of(__doc__)
    parser.add_argument("--random", type=int, default=60)
    parser.add_argument("--seed", default="1")
    parser.add_argument("--most", type=int, default=40, help="records of one job; default: 40")
    parser.add_argument("--next-to", default="", help="another program that runs the excerpts too")
    options = read_options(parser, words)
    options.other = shlex.split(options.next_to)

    def tried(named):
        name, files = named
        with tempfile.TemporaryDirectory(prefix="rx-excerpt-") as folder:
            return name, *Job(options, folder, files).faults()

    passed = failed = 0
    with concurrent.futures.ThreadPoolExecutor(options.jobs) as pool:
        for name, count, faults in pool.map(tried, cases(options)):
            passed, failed = passed + count - len(faults), failed + len(faults)
            for fault in faults:
                print(f"{name}: {fault}", flush=True)
    print(f"{passed} passed, {failed} failed")
    return 1 if failed else 0


if __name__ == "__main__":
    sys.exit(main(sys.argv[1:]))
