#!/usr/bin/env python3
"""Runs `join`, and `verify`, `explain`, `check` and `report` with `--plans`, on the jobs of run_switch.py.

    tests/run_join.py PROGRAM

Each plan's `run` of the whole batch makes its response file; `join` has to give, byte for byte, what `route` gives, and what the
worked cases have. Then it is given files of another batch, another time, another plan, with a detail changed or cut off, and files that
can't be read or written: what is said, and that nothing is written. `verify` gets these outputs as they are and each with a byte
changed; what `explain` and `check` print of a plan has to be what they print of its own files, below its name, what `report`
counts what the plan's settlement of the worked case has.

A case that differs has one line; the last line is `N passed, M failed`.
"""

import json
import os
import sys
import tempfile

HERE = os.path.dirname(os.path.abspath(__file__))
sys.path.insert(0, HERE)

from options import parser_of, read_options  # noqa: E402
from run_route import ETX, STX, as_first, records_of, write_all  # noqa: E402
from run_switch import NUMBER, OUTPUTS, PLANS, ROUTE, SEVEN, STAMP, TWO, Job, clear, ended, outputs_of, read, wrong  # noqa: E402

JOIN = ["join", *PLANS, *OUTPUTS]
VERIFY = ["verify", *PLANS, *OUTPUTS, "--stamp", STAMP]


def plans_of(job):
    return range(1, job.count + 1)


def inputs_of(number):
    return ["--sheet", f"{number}/sheet.toml", "--books", f"{number}/books.txt"]


def single_runs(program, folder, job):
    """Runs each plan on the whole batch; a line where that fails, or its end books aren't the plan's."""
    for number in plans_of(job):
        words = ["run", *inputs_of(number), "--batch", "batch.bin", "--stamp", STAMP, "--response", f"{number}/r.bin", "--books-out",
                 f"{number}/e.txt", "--settlement", f"{number}/x.txt"]
        status, _, err = ended(program, folder, words)
        if status or read(folder, f"{number}/e.txt") != job.right[f"{number}/end.txt"]:
            yield f"run of plan {number}: status {status}, {err!r}"


# ---------------------------------------------------------------- join

def joins(program, folder, job):
    yield from single_runs(program, folder, job)
    clear(folder, job)
    ended(program, folder, ROUTE)
    routed = outputs_of(folder, job)
    ends = {f"{number}/end.txt" for number in plans_of(job)}
    for words in ([], ["--safe"]):
        clear(folder, job)
        status, out, err = ended(program, folder, JOIN + words)
        name = wrong(folder, job, ends)
        joined = outputs_of(folder, job)
        if status or out or err or name or any(joined[name] is not None for name in ends):
            yield f"join {' '.join(words)}: status {status}, {err!r}, {name}"
        if any(joined[name] != routed[name] for name in job.right if name not in ends):
            yield f"join {' '.join(words)} isn't what route gives"


def whole(records):
    return b"".join(STX + record + ETX for record in records)


def with_record(records, place, text):
    """The file with this text in the place of a record."""
    return whole([*records[:place], text, *records[place + 1:]])


def other_responses(job, first, second):
    """Response files of the second plan that aren't joined, and how that is said; the first is the first plan's."""
    records = records_of(second)
    place, last = job.plans.index(2) + 1, len(records) - 2
    named = b"plan 'plan 2': response 2/r.bin: "
    short = whole([*records[:-2], records[-1][:9] + b"%010d" % (len(records) - 1) + records[-1][19:]])
    changed = records[place].replace(b"%b%07d1" % (NUMBER, place), b"%b%07d2" % (NUMBER, place))
    yield "another batch", second.replace(NUMBER, b"0000043"), b"refused 11 1 0\n" + named + b"it answers another batch"
    yield "another time", second[:35] + b"202603020601" + second[47:], b"refused 11 2 0\n" + named + b"its stamp "
    yield "another reference", with_record(records, 3, records[3][:2] + b"0000000009" + records[3][12:]), \
        b"refused 11 3 3\n" + named + b"record 3: its reference "
    yield "a record fewer", short, b"refused 11 3 %d\n" % last + named + b"record %d: " % last
    yield "another plan", first, b"refused 11 4 %d\n" % place + named + b"record %d: it holds no reply " % place
    yield "another authorization number", with_record(records, place, changed), b"refused 11 4 %d\n" % place + named
    yield "a detail without a reply", with_record(records, place, records[place][:12] + b"no reply"), b"refused 11 4 %d\n" % place + named
    yield "a file cut off", second[:-40], b"response 4 "
    yield "a file without its trailer", whole(records[:-1]), b"response 8 "
    yield "a batch file", job.files["batch.bin"], b"response 3 "
    yield "an empty file", b"", b"response 2 "


def not_joined(program, folder, job):
    """Files that aren't joined: what is said, and that nothing is written."""
    yield from single_runs(program, folder, job)
    good = {f"{number}/r.bin": read(folder, f"{number}/r.bin") for number in plans_of(job)}
    cases = [(name, {"2/r.bin": text}, [], 1, told) for name, text, told in other_responses(job, good["1/r.bin"], good["2/r.bin"])]
    plans = job.files["plans.toml"]
    first = job.plans.index(1) + 1
    cases += [
        ("both the other's", {"1/r.bin": good["2/r.bin"], "2/r.bin": good["1/r.bin"]}, [], 1,
         b"refused 11 4 %d\nplan 'plan 1': response 1/r.bin: record %d: " % (first, first)),
        ("no response", {"plans.toml": plans.replace(b'response = "2/r.bin"\n', b"")}, [], 1,
         b"refused 10 4 2\nplan 'plan 2': response is missing"),
        ("no file", {"plans.toml": plans.replace(b"2/r.bin", b"2/none.bin")}, [], 3,
         b"file 4\nplan 'plan 2': response 2/none.bin: no such file or directory\n"),
        ("one response for two plans", {"plans.toml": plans.replace(b"2/r.bin", b"1/r.bin")}, [], 2,
         b"rxbatch: plan 'plan 1': response and plan 'plan 2': response are the same file\n"),
        ("an output over a response", {}, ["--response", "2/r.bin"], 2,
         b"rxbatch: plan 'plan 2': response and --response are the same file\n"),
        ("a settlement over the common one", {"plans.toml": plans.replace(b"2/s.txt", b"settlement.txt")}, [], 2,
         b"rxbatch: --settlement and plan 'plan 2': settlement are the same file\n"),
        ("one door", {"2/sheet.toml": as_first(job.files)["2/sheet.toml"]}, [], 1, b"refused 10 6 2\nplan 'plan 2': its BIN "),
        ("a sheet's fault", {"2/sheet.toml": job.files["2/sheet.toml"].replace(b"refill_percent", b"refill_parcent")}, [], 1,
         b"refused 3 2 7\nplan 'plan 2': 2/sheet.toml: "),
        ("the batch's fault", {"batch.bin": job.files["batch.bin"][:-1]}, [], 1, b"refused 5 "),
        ("a full disk", {}, ["--response", "/dev/full"], 3, b"file 4\n--response /dev/full: "),
    ]
    for name, files, words, status, told in cases:
        write_all(folder, {**job.files, **good, **files})
        clear(folder, job)
        kept = [part for place, part in enumerate(JOIN) if not {part, JOIN[place - 1]} & set(words[:1])]
        got = ended(program, folder, kept + words)
        is_named = not told.startswith(b"response ") or b"\nplan 'plan 2': 2/r.bin: " in got[2]
        if got[0] != status or not got[2].startswith(told) or not is_named or any(outputs_of(folder, job).values()):
            yield f"join, {name}: status {got[0]}, {got[2]!r}"


# ---------------------------------------------------------------- verify

def verified(program, folder, job):
    write_all(folder, job.right)
    sizes = len(job.right["response.bin"]), len(job.right["settlement.txt"]), job.count
    for words in ([], ["--workers", "3"]):
        status, out, err = ended(program, folder, VERIFY + words)
        if status or err or out != b"same: response %d bytes, settlement %d, and the files of %d plans\n" % sizes:
            yield f"verify: status {status}, {out!r}, {err!r}"
    labels = {"response.bin": b"response: record 0", "settlement.txt": b"settlement: line 1",
              "2/end.txt": b"plan 'plan 2': books_out: line 1", "2/s.txt": b"plan 'plan 2': settlement: line 1"}
    for name, label in labels.items():
        text = job.right[name]
        at = 1 if name == "response.bin" else 0
        write_all(folder, {**job.right, name: text[:at] + b"?" + text[at + 1:]})
        status, out, err = ended(program, folder, VERIFY)
        front = label + b" differs from byte %d: file ?" % at
        if status != 5 or err or not out.startswith(front) or b", replay " not in out or out.count(b"\n") != 1:
            yield f"verify of {name}: status {status}, {out!r}, {err!r}"
    write_all(folder, {name: text + b"more\n" for name, text in job.right.items()})
    status, out, _ = ended(program, folder, VERIFY)
    if status != 5 or out.count(b"\n") != len(job.right):
        yield f"verify of all: status {status}, {out!r}"
    os.remove(os.path.join(folder, "2/end.txt"))
    for words, status, told in ((VERIFY, 3, b"file 5\nplan 'plan 2': books_out 2/end.txt: no such file or directory\n"),
                                (VERIFY + ["--plain"], 2, b"rxbatch: --plans: expected neither '--plain' nor '--desk'\n")):
        got = ended(program, folder, words)
        if got != (status, b"", told):
            yield f"verify {words[-1]}: {got}"


# ---------------------------------------------------------------- explain

def explained(program, folder, job):
    write_all(folder, job.right)
    given = ["--response", "response.bin"]
    for place, plan in enumerate(job.plans, 1):
        asked = ["--batch", "batch.bin", "--record", str(place), *given]
        status, out, err = ended(program, folder, ["explain", "--plans", "plans.toml", *asked])
        if plan == 0:
            code = b"01" if records_of(job.files["batch.bin"])[place][12:18] == b"999999" else b"04"
            if status != 4 or out or not err.startswith(b"rxbatch: record %d names no plan: it is rejected with %b, " % (place, code)):
                yield f"explain {place}: status {status}, {out!r}, {err!r}"
            continue
        alone = ended(program, folder, ["explain", *inputs_of(plan), *asked])
        if status or err or out != b"plan 'plan %d'\n" % plan + alone[1] or b"byte for byte" not in out:
            yield f"explain {place}: status {status}, {out!r}, {err!r}"
        _, out, _ = ended(program, folder, ["explain", "--plans", "plans.toml", *asked, "--json"])
        _, single, _ = ended(program, folder, ["explain", *inputs_of(plan), *asked, "--json"])
        objects = [json.loads(line) for line in single.splitlines()]
        if [json.loads(line) for line in out.splitlines()] != [{"plan": f"plan {plan}", **it} for it in objects]:
            yield f"explain {place} --json: {out!r}"
    yield from by_reference(program, folder, job)
    front = ["explain", *PLANS]
    write_all(folder, {"response.bin": job.right["response.bin"].replace(b"\x1c", b"\x1d", 1)})
    cases = [(["--record", "1", *given], 5, b""), (["--record", str(len(job.plans) + 1)], 4, b""),
             (["--number", "999999999999999"], 4, b""),
             (["--record", "1", "--for-provider", "a|b"], 2, b"rxbatch: --for-provider: expected an id ")]
    for words, status, told in cases:
        got = ended(program, folder, front + words)
        if got[0] != status or not got[2].startswith(told):
            yield f"explain {' '.join(words)}: {got}"


def by_reference(program, folder, job):
    """A reference, and a number: each plan that has it explains, in the plans' order."""
    for option, pick in (("--rx", lambda line: line.split(b"|")[2]), ("--number", lambda line: line.rstrip(b"\n").split(b"|")[-1])):
        wanted = {pick(line).decode() for number in plans_of(job) for line in job.right[f"{number}/end.txt"].splitlines()
                  if line.startswith(b"C|")}
        for word in sorted(wanted):
            asked = ["--batch", "batch.bin", option, word]
            alone = [ended(program, folder, ["explain", *inputs_of(number), *asked]) for number in plans_of(job)]
            right = b"".join(b"plan 'plan %d'\n" % number + got[1] for number, got in enumerate(alone, 1) if got[0] == 0)
            status, out, err = ended(program, folder, ["explain", "--plans", "plans.toml", *asked])
            if (status, out) != ((0, right) if right else (4, b"")):
                yield f"explain {option} {word}: status {status}, {out!r}, {err!r}"


# ---------------------------------------------------------------- check

def checked(program, folder, job):
    alone = [ended(program, folder, ["check", *inputs_of(number), "--batch", "batch.bin"]) for number in plans_of(job)]
    right = b"".join(b"plan 'plan %d'\n" % number + got[1] for number, got in enumerate(alone, 1))
    got = ended(program, folder, ["check", *PLANS])
    if got != (max(one[0] for one in alone), right, b""):
        yield f"check: {got}"
    sheet, plans = job.files["2/sheet.toml"], job.files["plans.toml"]
    cases = [
        ({"2/sheet.toml": sheet.replace(b"refill_percent", b"refill_parcent")}, 1, b"refused 3 2 7\n", b"plan 'plan 2'\n2/sheet.toml: "),
        ({"2/books.txt": b"BOOKS|9\n"}, 1, b"refused 4 1 0\n", b"plan 'plan 2'\n2/books.txt:1: "),
        ({"2/sheet.toml": as_first(job.files)["2/sheet.toml"]}, 1, b"refused 10 6 2\n", b"plan 'plan 2': its BIN and processor control"),
        ({"batch.bin": job.files["batch.bin"][:-1]}, 1, b"refused 5 ", b"\nbatch.bin: "),
        ({"plans.toml": plans.replace(b"2/books.txt", b"2/none.txt")}, 3, b"file 2\n", b"\nplan 'plan 2': books 2/none.txt: no such file"),
        ({"plans.toml": b"[[plan]]\n"}, 1, b"refused 10 4 1\n", b"plans.toml: plan 1: name is missing\n"),
        ({"plans.toml": plans.replace(b"2/books.txt", b"1/books.txt")}, 2,
         b"rxbatch: plan 'plan 1': books and plan 'plan 2': books are the same file\n", b""),
    ]
    for files, status, told, printed in cases:
        write_all(folder, {**job.files, **files})
        got = ended(program, folder, ["check", *PLANS])
        heads = [line for line in got[1].splitlines() if line.startswith(b"plan ") and b":" not in line]
        full = [b"plan 'plan %d'" % number for number in plans_of(job)]
        if got[0] != status or not got[2].startswith(told) or printed not in got[1] or heads != full and "plans.toml" not in files:
            yield f"check of {sorted(files)}: {got}"
    write_all(folder, {**job.files, "plans.toml": plans.replace(b'"plan 2"', b'"two"')})
    got = ended(program, folder, ["check", "--plans", "plans.toml"])
    if got[0] not in (0, 4) or b"\nplan two\n" not in got[1]:
        yield f"check without a batch: {got}"


# ---------------------------------------------------------------- report

def reported(program, folder, job):
    report = ["report", *PLANS, "--stamp", STAMP]
    tables = {}
    for form in ("--tsv", "--json", "--jsonl"):
        status, out, err = ended(program, folder, [*report, form])
        if status or err:
            yield f"report {form}: status {status}, {err!r}"
            return
        tables[form] = out
    whole = json.loads(tables["--json"])["plans"]
    if [it["plan"] for it in whole] != [f"plan {number}" for number in plans_of(job)]:
        yield f"report --json: {[it['plan'] for it in whole]}"
    for number, it in enumerate(whole, 1):
        counts = list(map(int, job.right[f"{number}/s.txt"].splitlines()[-1].split(b"|")[1:]))
        if [it["total"][key] for key in ("paid", "duplicate", "approved", "rejected", "net")] != counts or it["stamp"] != STAMP:
            yield f"report --json of plan {number}: {it['total']}, not {counts}"
    lines = [(it["plan"], line) for it in whole for section in it["sections"] for line in section["lines"]]
    if any(job.plans[line["record"] - 1] != int(plan.split()[1]) for plan, line in lines):
        yield "report --json: a line isn't of its plan's record"
    listed = [json.loads(line) for line in tables["--jsonl"].splitlines()]
    if sorted((it["plan"], it["record"], it["nth"]) for it in listed) != sorted((plan, it["record"], it["nth"]) for plan, it in lines):
        yield "report --jsonl: other lines than --json"
    rows = [row.split("\t") for row in tables["--tsv"].decode().splitlines()]
    right = [(it["plan"], str(it["record"]), str(it["nth"])) for it in listed]
    widths = {len(row) for row in rows}
    if rows[0][:3] != ["plan", "record", "nth"] or [tuple(row[:3]) for row in rows[1:]] != right or len(widths) != 1:
        yield f"report --tsv: {rows[:2]}"
    yield from portions(program, folder, job, report, listed)


def portions(program, folder, job, report, listed):
    """Columns, filters, and what isn't taken."""
    status, out, err = ended(program, folder, report)
    heads = [line for line in out.splitlines() if line.startswith(b"plan ")]
    if status or err or heads != [b"plan 'plan %d'" % number for number in plans_of(job)]:
        yield f"report: status {status}, {heads}, {err!r}"
    for option, key in (("--provider", "provider"), ("--for-provider", "provider"), ("--family", "family")):
        for word in sorted({it[key] for it in listed if it[key]}):
            status, out, err = ended(program, folder, [*report, "--jsonl", option, word])
            if status or [json.loads(line) for line in out.splitlines()] != [it for it in listed if it[key] == word]:
                yield f"report {option} {word}: status {status}, {err!r}"
    cases = [(["--provider", "NOBODY"], 4, b"rxbatch: --provider NOBODY: the batch has no answer of it\n"),
             (["--html"], 2, b"rxbatch: --plans: expected a report without '--html' and '--html-dir'"),
             (["--html-dir", "pages"], 2, b"rxbatch: --plans: expected a report without '--html' and '--html-dir'")]
    for words, status, told in cases:
        got = ended(program, folder, [*report, *words])
        if got[0] != status or got[1] or not got[2].startswith(told):
            yield f"report {' '.join(words)}: {got}"
    got = ended(program, folder, ["report", *PLANS, "--stamp", "2026"])
    write_all(folder, {"2/books.txt": b"BOOKS|9\n"})
    bad = ended(program, folder, report)
    told = b"refused 4 1 0\nplan 'plan 2': 2/books.txt:1: "
    if got[0] != 1 or not got[2].startswith(b"refused 2 0 0\n") or bad[:2] != (1, b"") or not bad[2].startswith(told):
        yield f"report, refused: {got}, {bad}"


def main(words):
    options = read_options(parser_of(__doc__), words)
    passed = failed = 0
    for cases in (TWO, SEVEN):
        job = Job(cases)
        for part in (joins, not_joined, verified, explained, checked, reported):
            if options.only not in part.__name__:
                continue
            with tempfile.TemporaryDirectory(prefix="rxbatch-join-") as folder:
                write_all(folder, job.files)
                faults = list(part(options.program, folder, job))
            for fault in faults:
                print(f"{len(cases)} plans: {fault}", flush=True)
            passed, failed = passed + (not faults), failed + bool(faults)
    print(f"{passed} passed, {failed} failed")
    return 1 if failed else 0


if __name__ == "__main__":
    sys.exit(main(sys.argv[1:]))
