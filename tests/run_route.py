#!/usr/bin/env python3
"""Runs `route`: what refuses it, and random jobs of 1 to 12 plans next to single runs, plan by plan.

    tests/run_route.py PROGRAM [--single PROGRAM] [--join] [--runs N] [--seed S] [--keep DIR]

A fault of a plans file and of each of a plan's files is made, and its numbers and words are compared; then nothing may be
written. The single runs of the N jobs (40) are those of `--single`, with its words before `run`; it may be
another program with the same command. For each record the reply is taken from the run of the plan whose BIN and processor
control number its header has, and for one that names no plan from a run at a sheet that it misses by one thing: by the
number where a plan has its BIN, else by the BIN. End books have to be those of the runs; the settlements are summed here over
the replies. Where a run is refused, the refusal is that of the first plan whose sheet or books are, else the batch's. `route` is
asked with 1 worker, and with 2, 3 and 7; with --join `join` of the runs' response files has to give the same but for end books.

A case or a job that differs has one line, and a job is kept in a folder of DIR. The last line is `N passed, M failed`; the exit
status is 0 where M is 0, else 1.
"""

import argparse
import os
import random
import shlex
import subprocess
import sys
import tempfile

HERE = os.path.dirname(os.path.abspath(__file__))
sys.path.insert(0, HERE)

import random_runs  # noqa: E402
from random_runs import make_job, read, write  # noqa: E402

BINS = (b"900001", b"900002", b"900003")
NUMBERS = (b"RXDEMO", b"OTHER", b"", b"A", b"RXDEMO2")
STX, ETX, FS, GS, SS = b"\x02", b"\x03", b"\x1c", b"\x1d", b"\x1e"
SIGNS = {**{c: (d, 1) for d, c in enumerate("{ABCDEFGHI")}, **{c: (d, -1) for d, c in enumerate("}JKLMNOPQR")}}


# ---------------------------------------------------------------- a job of several plans

def inputs_of(rng):
    """The files of one job, with `plans.toml`; each plan's files in a folder of its number."""
    doors = rng.sample([(bin, pcn) for bin in BINS for pcn in NUMBERS], rng.randint(1, 12))
    files, sent = {}, []
    for place, (bin, pcn) in enumerate(doors, 1):
        own = random_runs.inputs_of(rng)
        while rng.random() < 0.9 and not is_accepted(own):
            own = random_runs.inputs_of(rng)
        sheet, shown = own["sheet.toml"], b'bin = "%b"' % bin
        lines = [line for line in sheet.split(b"\n") if not line.startswith((b"bin ", b"pcn "))]
        files[f"{place}/sheet.toml"] = b"\n".join([shown, b'pcn = "%b"' % pcn, *lines])
        files[f"{place}/books.txt"] = own["books.txt"]
        front, rest = own["batch.bin"][:75], own["batch.bin"][75:]
        files["batch.bin"] = front
        for record in rest.split(STX)[1:-1]:
            text = record[12:].split(ETX)[0]
            if rng.random() < 0.9:
                text = bin + text[6:10] + pcn.ljust(10) + text[20:]
            elif rng.random() < 0.7:
                text = rng.choice(BINS + (b"900009",)) + text[6:10] + rng.choice(NUMBERS + (b"NONE",)).ljust(10) + text[20:]
            sent.append(text)
    rng.shuffle(sent)
    details = b"".join(STX + b"G1%010d" % place + text + ETX for place, text in enumerate(sent, 1))
    number = files["batch.bin"][28:35]
    files["batch.bin"] += details + STX + b"99" + number + b"%010d" % len(sent) + b" " * 35 + ETX
    tables = [f'[[plan]]\nname = "plan {place}"\nsheet = "{place}/sheet.toml"\nbooks = "{place}/books.txt"\n'
              f'books_out = "{place}/books-out.txt"\nresponse = "{place}/r.bin"\nsettlement = "{place}/settlement.txt"\n'
              for place in range(1, len(doors) + 1)]
    files["plans.toml"] = "\n".join(tables).encode()
    return files, doors


def is_accepted(files):
    """Whether the sheet and the books are as they were made."""
    return files["sheet.toml"].startswith(b"bin = ") and files["books.txt"].endswith(b"\n") and all(
        byte < 0x80 and byte not in (0x02, 0x03, 0x1C, 0x1D, 0x1E, 0x00) for name in ("sheet.toml", "books.txt")
        for byte in files[name])


# ---------------------------------------------------------------- what single runs give

def records_of(text):
    """The records of a file, without STX and ETX."""
    return [record.split(ETX)[0] for record in text.split(STX)[1:]]


def door_of(request):
    """BIN and processor control number, missing bytes being blanks."""
    front = request[:20].ljust(20)
    return front[:6], front[10:20]


def amount(text):
    digit, sign = SIGNS[text[-1:].decode()]
    return sign * (int(text[:-1]) * 10 + digit)


def settlement(front, stamp, replies):
    """The settlement of these replies."""
    order, total = {}, [0, 0, 0, 0, 0]
    for reply in replies:
        provider = reply[8:23].rstrip(b" ")
        if not provider or b"|" in provider:
            provider = b""
        sums = order.setdefault(provider, [0, 0, 0, 0, 0])
        for answer in reply.split(GS)[1:]:
            fields = dict((field[:2], field[2:].rstrip(SS)) for field in answer.split(FS) if field[:2] != b"AM")
            status = fields[b"AN"]
            for row in (sums, total):
                row[b"PDAR".index(status)] += 1
                if status in (b"P", b"A"):
                    row[4] += amount(fields[b"F9"])
    line = b"SETTLE|1|%b|%b\n" % (front, stamp)
    for provider, row in order.items():
        line += b"P|" + provider + b"".join(b"|%d" % n for n in row) + b"\n"
    return line + b"TOTAL" + b"".join(b"|%d" % n for n in total) + b"\n"


def single(program, folder, place):
    """Standard error, where it is refused, and outputs of one plan's run of the whole batch."""
    words = ["run", "--sheet", f"{place}/sheet.toml", "--books", f"{place}/books.txt", "--batch", "batch.bin", "--stamp",
             make_job.STAMP, "--workers", "1", "--response", f"{place}/r.bin", "--books-out", f"{place}/b.txt",
             "--settlement", f"{place}/s.txt"]
    ended = subprocess.run(program + words, cwd=folder, stdin=subprocess.DEVNULL, capture_output=True, timeout=60)
    refused = ended.stderr.splitlines()[0] if ended.returncode else None
    return refused, [read(folder, f"{place}/{name}") for name in ("r.bin", "b.txt", "s.txt")]


def wanted(program, folder, doors, batch):
    """The outputs of `route` by single runs, or the line with which it is refused."""
    runs = [single(program, folder, place) for place in range(1, len(doors) + 1)]
    refused = [line for line, _ in runs if line]
    if refused:
        return next((line for line in refused if line.split()[1] in (b"3", b"4")), refused[0])
    requests = [record[12:] for record in records_of(batch)[1:-1]]
    responses = [records_of(texts[0]) for _, texts in runs]
    padded = [(bin, pcn.ljust(10)) for bin, pcn in doors]
    picked, own = [], [[] for _ in doors]
    for place, request in enumerate(requests, 1):
        door = door_of(request)
        front = responses[0][place][:12]
        if door in padded:
            k = padded.index(door)
            reply = responses[k][place][12:]
            own[k].append(reply)
        else:
            reply = stray_reply(program, folder, request, door[0] in [bin for bin, _ in doors])
        picked.append(front + reply)
    head, trailer = responses[0][0], responses[0][-1]
    response = b"".join(STX + record + ETX for record in [head, *picked, trailer])
    number, stamp = batch[28:35], make_job.STAMP.encode()
    outputs = [response, settlement(number, stamp, [record[12:] for record in picked])]
    for k in range(len(doors)):
        outputs += [runs[k][1][1], settlement(number, stamp, own[k])]
    return outputs


def stray_reply(program, folder, request, has_bin):
    """The reply to a request that names no plan: that of a plan that it misses by one thing."""
    front = request[:20].ljust(20)
    bin, pcn = (front[:6], b"ZZZZ") if has_bin else (b"999999", b"YYYY")
    if not has_bin:     # the number of the request may be one that no sheet can have: another stands for it
        clean = all(0x20 <= byte <= 0x7E for byte in front[10:20]) or len(request) < 56
        rest = request[20:] if clean else request[20:55] + b"\0" + request[56:]
        request = front[:10] + b"YYYY      " + rest
    lines = [line for line in read(folder, "1/sheet.toml").split(b"\n") if not line.startswith((b"bin ", b"pcn "))]
    write_all(folder, {"stray/sheet.toml": b"\n".join([b'bin = "%b"' % bin, b'pcn = "%b"' % pcn, *lines])})
    return asked_again(program, folder, request)


def asked_again(program, folder, request):
    """The reply of a run of a batch with only this request, at the stray's sheet."""
    front = b"\x0200T" + b"S" * 24 + b"0001000" + b"20260630" + b"2130" + b"P" + b"12" + b"R" * 24 + ETX
    batch = front + STX + b"G1" + b"0" * 10 + request + ETX + STX + b"99" + b"0001000" + b"0000000001" + b" " * 35 + ETX
    write_all(folder, {"stray/batch.bin": batch, "stray/books.txt": read(folder, "1/books.txt")})
    words = ["run", "--sheet", "stray/sheet.toml", "--books", "stray/books.txt", "--batch", "stray/batch.bin", "--stamp",
             make_job.STAMP, "--workers", "1", "--response", "stray/r.bin", "--books-out", "stray/b.txt", "--settlement",
             "stray/s.txt"]
    subprocess.run(program + words, cwd=folder, stdin=subprocess.DEVNULL, capture_output=True, timeout=60, check=True)
    return records_of(read(folder, "stray/r.bin"))[1][12:]


# ---------------------------------------------------------------- runs

ROUTE = ["route", "--plans", "plans.toml", "--batch", "batch.bin", "--stamp", make_job.STAMP, "--response", "response.bin",
         "--settlement", "settlement.txt"]
JOIN = ["join", "--plans", "plans.toml", "--batch", "batch.bin", "--response", "response.bin", "--settlement", "settlement.txt"]


def ended(program, folder, words):
    """Status and standard error of a command."""
    done = subprocess.run(program + words, cwd=folder, stdin=subprocess.DEVNULL, capture_output=True, timeout=60)
    return done.returncode, done.stderr


def outputs_of(folder, count):
    """The names and the bytes of what `route` writes, which are removed."""
    names = ["response.bin", "settlement.txt"]
    for place in range(1, count + 1):
        names += [f"{place}/books-out.txt", f"{place}/settlement.txt"]
    texts = [read(folder, name) for name in names]
    for name in names:
        if os.path.exists(os.path.join(folder, name)):
            os.remove(os.path.join(folder, name))
    return names, texts


def difference(options, folder, files, doors):
    """What differs, None where nothing does."""
    right = wanted(options.single, folder, doors, files["batch.bin"])
    is_refused = isinstance(right, bytes)
    options.refused += is_refused
    ways = [(f"route with {workers} workers", ROUTE + ["--workers", workers] + ["--safe"] * (workers == "2"))
            for workers in ("1", "2", "3", "7")]
    for way, words in ways + [("join", JOIN)] * options.join:
        status, told = ended(options.program, folder, words)
        names, got = outputs_of(folder, len(doors))
        if is_refused:
            if status not in (1, 3) or any(text is not None for text in got) or (way != "join" and told.splitlines()[:1] != [right]):
                return f"{way}: status {status}, {told!r}, or an output, though a plan's run is {right!r}"
            continue
        parts = [(name, a, b) for name, a, b in zip(names, got, right) if way != "join" or "books" not in name]
        if status or any(a != b for _, a, b in parts):
            part = next((name for name, a, b in parts if a != b), f"status {status}")
            return f"{way}: {part} isn't that of the single runs"
    return None


# ---------------------------------------------------------------- refusals

def two_plans(options):
    """An accepted job of two or more plans."""
    for place in range(1, 1000):
        files, doors = inputs_of(random.Random(f"fixed.{place}"))
        if len(doors) < 2 or len(records_of(files["batch.bin"])) < 6:
            continue
        with tempfile.TemporaryDirectory(prefix="rxbatch-run-") as folder:
            write_all(folder, files)
            if isinstance(wanted(options.single, folder, doors, files["batch.bin"]), list):
                return files, doors
    raise SystemExit("no accepted job was drawn")


def with_sheet(files, place, change):
    return {**files, f"{place}/sheet.toml": change(files[f"{place}/sheet.toml"])}


def as_first(files):
    """The second plan at the first one's door."""
    lines = [line for line in files["1/sheet.toml"].split(b"\n") if line.startswith((b"bin ", b"pcn "))]
    rest = [line for line in files["2/sheet.toml"].split(b"\n") if not line.startswith((b"bin ", b"pcn "))]
    return {**files, "2/sheet.toml": b"\n".join(lines + rest)}


def refusals(files):
    """Name, files, further words, status and standard error of each case of `route`."""
    plans = files["plans.toml"]
    gone = {name: text for name, text in files.items() if name != "2/books.txt"}
    same = plans.replace(b"2/books-out.txt", b"1/books-out.txt")
    return [
        ("no TOML", {**files, "plans.toml": b"[[plan"}, [], 1, b"refused 10 1 0\nplans.toml:1:7: "),
        ("no plan", {**files, "plans.toml": b"title = 1\n"}, [], 1,
         b"refused 10 2 0\nplans.toml: no plan is listed: a table [[plan]] is expected for each\n"),
        ("no table", {**files, "plans.toml": b"plan = [1]\n"}, [], 1, b"refused 10 3 1\nplans.toml: plan 1 isn't a table\n"),
        ("a key left out", {**files, "plans.toml": plans.replace(b"books_out = \"2/", b"books_aut = \"2/")}, [], 1,
         b"refused 10 4 2\nplans.toml: plan 2: books_out is missing\n"),
        ("an empty text", {**files, "plans.toml": plans.replace(b'"2/sheet.toml"', b'""')}, [], 1,
         b"refused 10 5 2\nplans.toml: plan 2: sheet: a text is expected that isn't empty\n"),
        ("one door", as_first(files), [], 1,
         b"refused 10 6 2\nplan 'plan 2': its BIN and processor control number are those of plan 'plan 1'\n"),
        ("a sheet's fault", with_sheet(files, 2, lambda text: text.replace(b"refill_percent", b"refill_parcent")), [], 1,
         b"refused 3 2 7\nplan 'plan 2': 2/sheet.toml: "),
        ("books' fault", {**files, "2/books.txt": b"BOOKS|9\n"}, [], 1, b"refused 4 1 0\nplan 'plan 2': 2/books.txt:1: "),
        ("the batch's fault", {**files, "batch.bin": files["batch.bin"][:-1]}, [], 1, b"refused 5 "),
        ("no workers", files, ["--workers", "0"], 1, b"refused 1 0 0\n"),
        ("a file that isn't there", gone, [], 3, b"file 2\nplan 'plan 2': books 2/books.txt: no such file or directory\n"),
        ("two outputs in one file", {**files, "plans.toml": same}, [], 2,
         b"rxbatch: plan 'plan 1': books_out and plan 'plan 2': books_out are the same file\n"),
        ("an output over an input", {**files, "plans.toml": plans.replace(b"2/settlement.txt", b"1/../2/sheet.toml")}, [], 2,
         b"rxbatch: plan 'plan 2': sheet and plan 'plan 2': settlement are the same file\n"),
        ("an output over the batch", files, ["--response", "batch.bin"], 2, b"rxbatch: --batch and --response are the same file\n"),
        ("workers that are no number", files, ["--workers", "two"], 2, b"error: invalid value 'two' for '--workers <N>'"),
    ]


def fixed(options):
    """The number of cases, and a line for each that differs."""
    files, doors = two_plans(options)
    count, lines = 0, []
    for name, given, words, status, told in refusals(files):
        count += 1
        with tempfile.TemporaryDirectory(prefix="rxbatch-run-") as folder:
            write_all(folder, given)
            words = [part for place, part in enumerate(ROUTE) if not {part, ROUTE[place - 1]} & set(words[:1])] + words
            got = ended(options.program, folder, words)
            _, texts = outputs_of(folder, len(doors))
            kept = all(read(folder, name) == text for name, text in given.items())
            if got[0] != status or not got[1].startswith(told) or any(text is not None for text in texts) or not kept:
                lines.append(f"route, {name}: status {got[0]}, {got[1]!r}, {[text is not None for text in texts]}")
    return count, lines


def main(words):
    parser = argparse.ArgumentParser(description=__doc__, formatter_class=argparse.RawDescriptionHelpFormatter)
    parser.add_argument("program", metavar="PROGRAM")
    parser.add_argument("--single", help="the program of the single runs; default: PROGRAM")
    parser.add_argument("--join", action="store_true", help="join the single runs, too")
    parser.add_argument("--runs", type=int, default=40)
    parser.add_argument("--seed", default="1")
    parser.add_argument("--keep", help="where jobs that differ are kept; default: a new folder")
    options = parser.parse_args(words)
    split = lambda text: [os.path.abspath(word) if os.path.exists(word) else word for word in shlex.split(text)]
    options.program, options.single = split(options.program), split(options.single or options.program)
    keep = options.keep or tempfile.mkdtemp(prefix="rxbatch-route-")
    options.refused = 0
    count, lines = fixed(options)
    for line in lines:
        print(line, flush=True)
    passed, failed = count - len(lines), len(lines)
    for place in range(1, options.runs + 1):
        files, doors = inputs_of(random.Random(f"{options.seed}.{place}"))
        with tempfile.TemporaryDirectory(prefix="rxbatch-run-") as folder:
            write_all(folder, files)
            found = difference(options, folder, files, doors)
        if found:
            print(f"{options.seed}.{place}: {found}; kept in {os.path.join(keep, str(place))}", flush=True)
            write_all(os.path.join(keep, str(place)), files)
        passed, failed = passed + (found is None), failed + (found is not None)
    print(f"{options.refused} of the jobs are refused")
    print(f"{passed} passed, {failed} failed")
    return 1 if failed else 0


def write_all(folder, files):
    """The files, in folders of their own."""
    for name, text in files.items():
        write(os.path.join(folder, os.path.dirname(name)), {os.path.basename(name): text})


if __name__ == "__main__":
    sys.exit(main(sys.argv[1:]))
