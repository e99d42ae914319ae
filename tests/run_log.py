#!/usr/bin/env python3
"""Runs a program with rxbatch's words by `run --log`, reads the logs by a JSON reader, and compares what they say with the
files and with the answers; and compares the kit of `--version` with what `rt version` prints and
the version with CHANGELOG.md's latest (docs/CLI.md, "Log").

    run_log.py PROGRAM
"""
import collections
import datetime
import hashlib
import json
import pathlib
import re
import shutil
import socket
import subprocess
import sys
import tempfile

ROOT = pathlib.Path(__file__).resolve().parent.parent
CASES = ROOT / "tests" / "cases"
FIRST = ROOT / "examples" / "first_job"
# The latest version of the changelog.
CHANGES = re.compile(r"^## v([^ ,\n]+)", re.M)
# The letter of a kit's edition, which the program doesn't say.
EDITION = re.compile(r"^(rattle-kit-[0-9]+)[a-z]+")
INPUTS = {"sheet": "sheet.toml", "books": "books.txt", "batch": "batch.bin"}
OUTPUTS = {"response": "response.bin", "books_out": "books-out.txt", "settlement": "settlement.txt"}
OPTIONS = {"books_out": "--books-out"}
STEPS = {"sheet", "books", "batch", "adjudicate", "response", "books_out", "settlement", "end"}


def logged(program, folder, stamp, more=(), changed=None):
    """The answer of a logged run, and its log as read."""
    paths = {**INPUTS, **OUTPUTS, **(changed or {})}
    words = ["run", "--stamp", stamp, "--workers", "2", "--log", "log.json", *more]
    words += [word for name, path in paths.items() for word in (OPTIONS.get(name, "--" + name), path)]
    ended = subprocess.run([program, *words], cwd=folder, stdin=subprocess.DEVNULL, capture_output=True)
    lines = lines_of(folder)
    return ended, lines[0] if len(lines) == 1 else None


def lines_of(folder):
    """The lines of the log, as read."""
    log = folder / "log.json"
    text = log.read_bytes() if log.is_file() and not log.is_symlink() else b""
    return [json.loads(line) for line in text.splitlines()] if text.endswith(b"\n") else []


def log_of(path, more):
    """What the log says of a file."""
    text = path.read_bytes()
    return {"path": path.name, "bytes": len(text), "sha256": hashlib.sha256(text).hexdigest() if "--sums" in more else None}


def logs_of(folder, files, more):
    """What the log says of files."""
    return {name: log_of(folder / path, more) for name, path in files.items()}


def codes_in(response):
    """How often each reject code stands in a response file."""
    codes = collections.Counter(re.findall(rb"\x1cFB([^\x1c-\x1e\x03]*)", response))
    return [{"code": code.decode(), "count": count} for code, count in sorted(codes.items())]


def unknown(name):
    return {"path": name, "bytes": None, "sha256": None}


def differs(wanted, log):
    for name, value in wanted.items():
        if log is None or log.get(name) != value:
            return f"{name} is {None if log is None else log.get(name)}, wanted {value}"
    return None


def shards_fault(log, more):
    """What is wrong with the shards of a log: the transactions are those of the totals, since no header is rejected here."""
    shards = log["shards"]
    if "--plain" in more or "--desk" in more:
        return None if shards is None else f"shards is {shards}"
    transactions = sum(log["totals"][name] for name in ("paid", "duplicate", "approved", "rejected"))
    holds = (shards is not None and shards["transactions"] == transactions and 1 <= shards["count"] <= 2
             and transactions <= shards["count"] * shards["largest"] and shards["largest"] <= transactions)
    return None if holds else f"shards is {shards}, of {transactions} transactions"


def done(program, folder, case, more):
    stamp = (case / "stamp").read_text()
    ended, log = logged(program, folder, stamp, more)
    if ended.returncode != 0 or ended.stdout or ended.stderr:
        return f"status {ended.returncode}, {ended.stderr!r}"
    total = (case / "settlement.txt").read_text().splitlines()[-1].split("|")
    header = (case / "batch.bin").read_bytes()
    header = header[header.index(b"\x02"):]
    wanted = {
        "status": 0, "refused": None, "file": None,
        "lot": {"number": header[28:35].decode(), "created": header[35:43].decode()},
        "totals": dict(zip(("paid", "duplicate", "approved", "rejected", "net"), map(int, total[1:]))),
        "inputs": logs_of(folder, INPUTS, more),
        "outputs": logs_of(case, OUTPUTS, more),
    }
    run = {
        "stamp": stamp, "workers": 2, "plain": "--plain" in more, "desk": "--desk" in more, "safe": "--safe" in more,
        "counts": {"records": header.count(b"\x02") - 2, "end_books_lines": (case / "books-out.txt").read_bytes().count(b"\n"),
                   "codes": codes_in((case / "response.bin").read_bytes())},
        "words": {"fault": None, "warning": None},
    }
    fault = differs(wanted, log) or differs(run, log["run"]) or shards_fault(log, more)
    if fault:
        return fault
    if set(log["microseconds"]) != STEPS or any(not isinstance(step, int) for step in log["microseconds"].values()):
        return f"microseconds is {log['microseconds']}"
    start, duration = log["run"]["time"]["start"], log["run"]["time"]["duration"]
    if log["peak_kilobytes"] <= 0 or duration < sum(log["microseconds"].values()) - len(STEPS):
        return f"peak {log['peak_kilobytes']}, {duration} microseconds of {log['microseconds']}"
    age = datetime.datetime.now(datetime.timezone.utc) - datetime.datetime.fromisoformat(start.replace("Z", "+00:00"))
    if not start.endswith("Z") or not 0 <= age.total_seconds() < 60:
        return f"start {start}"
    if log["run"]["machine"]["host"] != socket.gethostname():
        return f"machine {log['run']['machine']}"
    rights = (folder / "log.json").stat().st_mode & 0o777
    return None if rights == 0o600 else f"the log has the rights {rights:o}"


def added(program, folder, case, more):
    """Each run adds a line, a refused one too, and runs at once add whole lines."""
    stamp = (case / "stamp").read_text()
    logged(program, folder, stamp, more)
    logged(program, folder, "1", more)
    words = ["run", "--stamp", stamp, "--workers", "1", "--log", "log.json", *more]
    words += [word for name, path in INPUTS.items() for word in ("--" + name, path)]
    runs = []
    for place in range(8):
        outputs = [word for name, path in OUTPUTS.items() for word in (OPTIONS.get(name, "--" + name), f"{place}-{path}")]
        runs.append(subprocess.Popen([program, *words, *outputs], cwd=folder, stdin=subprocess.DEVNULL))
    statuses = [run.wait() for run in runs]
    lines = lines_of(folder)
    if [line["status"] for line in lines[:2]] != [0, 1] or statuses != [0] * 8 or len(lines) != 10:
        return f"{len(lines)} lines, statuses {statuses}"
    wanted = {(run.pid, f"{place}-response.bin") for place, run in enumerate(runs)}
    found = {(line["run"]["machine"]["process"], line["outputs"]["response"]["path"]) for line in lines[2:]}
    return None if found == wanted else "a line is missing"


def refused(program, folder, case, more):
    (folder / "sheet.toml").write_bytes(b"fee = ")
    ended, log = logged(program, folder, (case / "stamp").read_text(), more)
    numbers = [int(word) for word in ended.stderr.split()[1:]]
    if ended.returncode != 1 or len(numbers) != 3:
        return f"status {ended.returncode}, {ended.stderr!r}"
    wanted = {"status": 1, "refused": numbers, "file": None, "totals": None,
              "inputs": logs_of(folder, INPUTS, more),
              "outputs": {name: unknown(path) for name, path in OUTPUTS.items()}, "shards": None}
    return differs(wanted, log)


def refused_in_words(program, folder, case, more):
    (folder / "sheet.toml").write_bytes(b"fee = ")
    ended, log = logged(program, folder, (case / "stamp").read_text(), ["-v", *more])
    told = ended.stderr.decode().splitlines()
    lines = [line.split() for line in told if line.startswith("refused ")]
    if ended.returncode != 1 or len(lines) != 1:
        return f"status {ended.returncode}, {ended.stderr!r}"
    fault = differs({"status": 1, "refused": [int(word) for word in lines[0][1:]], "file": None}, log)
    return fault or differs({"words": {"fault": told[-1], "warning": None}}, log["run"])


def absent(program, folder, case, more):
    (folder / "batch.bin").unlink()
    ended, log = logged(program, folder, (case / "stamp").read_text(), more)
    if ended.returncode != 3 or ended.stderr != b"file 3\n":
        return f"status {ended.returncode}, {ended.stderr!r}"
    fault = differs({"status": 3, "refused": None, "file": 3, "lot": None, "totals": None}, log)
    return fault or differs({"words": {"fault": "--batch batch.bin: no such file or directory", "warning": None},
                             "counts": {"records": None, "end_books_lines": None, "codes": None}}, log["run"])


def one_output(program, folder, case, more):
    ended, log = logged(program, folder, (case / "stamp").read_text(), more, {"settlement": "./response.bin"})
    if ended.returncode != 2:
        return f"status {ended.returncode}, {ended.stderr!r}"
    fault = differs({"status": 2, "refused": None, "file": None}, log)
    return fault or differs({"words": {"fault": "--response and --settlement are the same file", "warning": None}}, log["run"])


def over_an_input(program, folder, case, more):
    shutil.copy(folder / "books.txt", folder / "kept.txt")
    (folder / "log.json").symlink_to("books.txt")
    ended, _ = logged(program, folder, (case / "stamp").read_text(), more)
    if ended.returncode != 2 or ended.stderr != b"rxbatch: --books and --log are the same file\n":
        return f"status {ended.returncode}, {ended.stderr!r}"
    return None if (folder / "books.txt").read_bytes() == (folder / "kept.txt").read_bytes() else "the books were changed"


def over_an_output(program, folder, case, more):
    ended, _ = logged(program, folder, (case / "stamp").read_text(), more, {"settlement": "./log.json"})
    if ended.returncode != 2 or ended.stderr != b"rxbatch: --settlement and --log are the same file\n":
        return f"status {ended.returncode}, {ended.stderr!r}"
    return "files were made" if {path.name for path in folder.iterdir()} != set(INPUTS.values()) else None


def in_no_folder(program, folder, case, more):
    (folder / "log.json").symlink_to("no/log.json")
    ended, _ = logged(program, folder, (case / "stamp").read_text(), more)
    if ended.returncode != 3 or ended.stderr != b"file 7\n":
        return f"status {ended.returncode}, {ended.stderr!r}"
    return "an output was made" if any((folder / path).exists() for path in OUTPUTS.values()) else None


def on_a_full_device(program, folder, case, more):
    (folder / "log.json").symlink_to("/dev/full")
    ended, _ = logged(program, folder, (case / "stamp").read_text(), more)
    if ended.returncode != 3 or ended.stderr != b"file 7\n":
        return f"status {ended.returncode}, {ended.stderr!r}"
    outputs = {path: (folder / path).read_bytes() for path in OUTPUTS.values()}
    return None if outputs == {path: (case / path).read_bytes() for path in OUTPUTS.values()} else "the outputs aren't the run's"


WAYS = (done, added, refused, refused_in_words, absent, one_output, over_an_input, over_an_output, in_no_folder, on_a_full_device)


def long_books(program):
    """What is wrong with a run whose end books have more lines than a run reads: it is reported, with -v and without."""
    case = CASES / "one-billing"
    books = (case / "books.txt").read_bytes().splitlines(True)
    # As many lines as a run reads, in families of 99 members and a total; the batch adds a claim.
    missing = 1_000_000 - len(books)
    members, totals = [], []
    for family in range(missing // 100 + 1):
        persons = 99 if family < missing // 100 else missing % 100 - 1
        members += [b"M|Z%06d|%02d|20260101|20261231|0\n" % (family, person) for person in range(1, persons + 1)]
        totals.append(b"T|Z%06d|0\n" % family)
    place = next(place for place, line in enumerate(books) if not line.startswith((b"BOOKS|", b"M|")))
    with tempfile.TemporaryDirectory(prefix="rxbatch-log-") as name:
        folder = pathlib.Path(name)
        for path in INPUTS.values():
            shutil.copy(case / path, folder)
        (folder / "books.txt").write_bytes(b"".join([*books[:place], *members, *books[place:], *totals]))
        for way in ([], ["-v"], ["--safe"]):
            (folder / "log.json").unlink(missing_ok=True)
            for is_logged in (True, False):
                paths = {**INPUTS, **OUTPUTS}
                words = ["run", "--stamp", (case / "stamp").read_text(), "--workers", "2", *way]
                words += ["--log", "log.json", "--sums"] if is_logged else []
                words += [word for key, path in paths.items() for word in (OPTIONS.get(key, "--" + key), path)]
                ended = subprocess.run([program, *words], cwd=folder, stdin=subprocess.DEVNULL, capture_output=True, text=True)
                lines = (folder / "books-out.txt").read_bytes().count(b"\n")
                warning = f"--books-out books-out.txt: {lines} lines, and no run reads books of more than 1000000 (age takes claims out)"
                if ended.returncode != 0 or lines <= 1_000_000 or not ended.stderr.endswith(f"rxbatch: {warning}\n"):
                    return f"long books: status {ended.returncode}, {lines} lines, {ended.stderr!r}"
            log = lines_of(folder)[0]
            run = log["run"]
            if (run["counts"]["end_books_lines"], run["words"]) != (lines, {"fault": None, "warning": warning}):
                return f"long books: {run['counts']}, {run['words']}"
            # inputs as long as these are summed by threads of their own
            if fault := differs({"inputs": logs_of(folder, INPUTS, ["--sums"]), "outputs": logs_of(folder, OUTPUTS, ["--sums"])}, log):
                return f"long books: {fault}"
    return None


def refused_claims(program):
    """What is wrong with the counts by reject code of batches whose records are rejected."""
    cases = [CASES / name for name in ("refill-too-soon", "wrong-bin-and-count", "empty-transmission")]
    jobs = [(case, (case / "stamp").read_text(), case / "response.bin") for case in cases]
    jobs.append((FIRST, "202603170600", FIRST / "expected" / "response.bin"))
    for case, stamp, response in jobs:
        with tempfile.TemporaryDirectory(prefix="rxbatch-log-") as path:
            folder = pathlib.Path(path)
            for file in INPUTS.values():
                shutil.copy(case / file, folder)
            ended, log = logged(program, folder, stamp)
        wanted = codes_in(response.read_bytes())
        if ended.returncode != 0 or not wanted or log["run"]["counts"]["codes"] != wanted:
            return f"{case.name}: status {ended.returncode}, {log and log['run']['counts']}, wanted {wanted}"
    return None


def version_fault(program):
    """What is wrong with the version, compared with the kit's if there is one."""
    ended = subprocess.run([program, "--version"], stdin=subprocess.DEVNULL, capture_output=True, text=True)
    if ended.returncode != 0 or ended.stderr or not ended.stdout.startswith("rxbatch ") or ended.stdout.count("\n") != 1:
        return f"--version: status {ended.returncode}, {ended.stdout!r}, {ended.stderr!r}"
    told = ended.stdout.split()[1]
    if CHANGES.search((ROOT / "CHANGELOG.md").read_text())[1] != told:
        return f"--version tells {told}, CHANGELOG.md another"
    if shutil.which("rt"):
        printed = subprocess.run(["rt", "version"], capture_output=True, text=True).stdout.strip()
        kit = EDITION.sub(r"\1", printed)
        if not ended.stdout.endswith(f" ({kit})\n"):
            return f"--version tells {ended.stdout!r}, the kit is {kit!r}"
    return None


def main(words):
    if len(words) != 1:
        sys.exit(__doc__)
    program = str(pathlib.Path(words[0]).resolve())
    faults = [version_fault(program), refused_claims(program), long_books(program)]
    for case in (CASES / "one-billing", CASES / "family-deductible-after-a-reversal"):
        for way in WAYS:
            for more in ([], ["--safe", "--sums"], ["--plain"], ["--desk", "--sums"]):
                with tempfile.TemporaryDirectory(prefix="rxbatch-log-") as name:
                    folder = pathlib.Path(name)
                    for path in INPUTS.values():
                        shutil.copy(case / path, folder)
                    fault = way(program, folder, case, more)
                    faults.append(fault and f"{case.name}, {way.__name__} {' '.join(more)}: {fault}")
    for fault in filter(None, faults):
        print(fault)
    failed = sum(fault is not None for fault in faults)
    print(f"{len(faults) - failed} passed, {failed} failed")
    return 1 if failed else 0


if __name__ == "__main__":
    sys.exit(main(sys.argv[1:]))
