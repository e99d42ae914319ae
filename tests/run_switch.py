#!/usr/bin/env python3
"""Runs `route` on the worked cases of tests/cases, put together, and cuts it off.

    tests/run_switch.py PROGRAM [--kills] [--calls] [--disk] [--memory] [--slurm]

Two plans and seven are made of worked cases of one batch number: each case is a plan with a BIN and a processor control number
of its own, and their records are dealt out to one batch in turn, with two strays between them. What each record is answered, and
each plan's end books and settlement, are those of its case, but for the authorization numbers, which have the places of the
batch. So no answer here comes from the program.

`route`, with and without `--safe`, has to give these bytes, and a log of them. Outputs that can't be written are tried. With
--kills (it needs strace) `route --safe` is killed before each of its system calls, and each call that writes, syncs or renames is
made to fail; with --calls (it needs `cc`) each of its calls on files fails or is the last, in place too; with --disk (it needs
root) it is done on small disks, page by page larger, until one holds it; with --memory (it needs `cc`) its Nth request for memory
is refused, for N = 1, 2 and on. Then each file has to be whole, and the new ones the first in the order response, settlement, and
of each plan settlement and end books; a run that fails leaves nothing else, and the same command again has to give the same bytes.

Twelve plans are done as tasks of examples/night/switch.sbatch, one of them refused and run again, and joined; with --slurm by
Slurm on this machine, too.

A case that differs has one line; the last line is `N passed, M failed`.
"""

import argparse
import collections
import errno
import itertools
import json
import os
import shlex
import subprocess
import sys
import tempfile
import time

HERE = os.path.dirname(os.path.abspath(__file__))
sys.path.insert(0, HERE)

import refused_memory  # noqa: E402
import run_failing  # noqa: E402
from options import cuts_of  # noqa: E402
from run_route import ETX, STX, records_of, settlement, write_all  # noqa: E402

CASES = os.path.join(HERE, "cases")
TWO = ["duplicate-of-an-earlier-fill", "four-transactions-in-one-record"]
SEVEN = TWO + ["refill-too-soon", "family-deductible", "percent-tier-rounds-down", "blocking-gates", "reversal-of-last-years-claim"]
TWELVE = SEVEN + ["charge-caps-the-payment", "cost-rounds-down", "no-family-deductible-left", "percent-tier",
                  "three-fills-reach-the-family-maximum"]
STAMP = "202603020600"
NUMBER = b"0000042"
PLANS = ["--plans", "plans.toml", "--batch", "batch.bin"]
OUTPUTS = ["--response", "response.bin", "--settlement", "settlement.txt"]
ROUTE = ["route", *PLANS, "--stamp", STAMP, *OUTPUTS]


def text_of(case, name):
    with open(os.path.join(CASES, case, name), "rb") as file:
        return file.read()


def read(folder, name):
    path = os.path.join(folder, name)
    if not os.path.exists(path):
        return None
    with open(path, "rb") as file:
        return file.read()


# ---------------------------------------------------------------- a job by hand

class Job:
    """The worked cases as plans of one batch: the files, and what is right."""

    def __init__(self, cases):
        self.files, self.right = {}, {}
        queues = [collections.deque(self.plan(number, case)) for number, case in enumerate(cases, 1)]
        records = []  # the plan, 0 for a stray, the place in its case, the request, the reply of its case
        while any(queues):
            records += [queue.popleft() for queue in queues if queue]
            if len(records) <= len(cases):
                request = records[0][2]
                records.append((0, 0, b"999999" + request[6:], stray(request, b"01")))
                records.append((0, 0, request[:10] + b"NONE      " + request[20:], stray(request, b"04")))
        self.plans = [record[0] for record in records]
        moves = collections.defaultdict(list)
        for place, (plan, old, _, _) in enumerate(records, 1):
            moves[plan] += [(b"%b%07d%d" % (NUMBER, old, nth), b"#%07d%d" % (place, nth)) for nth in range(1, 5)]
        replies = [moved(record[3], moves[record[0]]) for record in records]
        self.files["batch.bin"] = batch_of(text_of(cases[0], "batch.bin"), [record[2] for record in records], 0)
        self.right["response.bin"] = batch_of(text_of(cases[0], "response.bin"), replies, 2)
        self.right["settlement.txt"] = settlement(NUMBER, STAMP.encode(), replies)
        tables = []
        for number, case in enumerate(cases, 1):
            self.right[f"{number}/s.txt"] = text_of(case, "settlement.txt")
            self.right[f"{number}/end.txt"] = moved(text_of(case, "books-out.txt"), moves[number])
            tables.append(f'[[plan]]\nname = "plan {number}"\nsheet = "{number}/sheet.toml"\nbooks = "{number}/books.txt"\n'
                          f'books_out = "{number}/end.txt"\nresponse = "{number}/r.bin"\nsettlement = "{number}/s.txt"\n')
        self.files["plans.toml"] = "\n".join(tables).encode()
        self.count = len(cases)

    def plan(self, number, case):
        """Makes the files of a plan; its records."""
        bin, pcn = b"91%04d" % (number % 3), b"PLAN%d" % number
        lines = [line for line in text_of(case, "sheet.toml").split(b"\n") if not line.startswith((b"bin ", b"pcn "))]
        self.files[f"{number}/sheet.toml"] = b"\n".join([b'bin = "%b"' % bin, b'pcn = "%b"' % pcn, *lines])
        self.files[f"{number}/books.txt"] = text_of(case, "books.txt")
        asked, given = records_of(text_of(case, "batch.bin")), records_of(text_of(case, "response.bin"))
        for place, (request, reply) in enumerate(zip(asked[1:-1], given[1:-1]), 1):
            yield number, place, bin + request[18:22] + pcn.ljust(10) + request[32:], reply[12:]


def stray(request, code):
    """The rejection of a request with this code, in the shape of the worked case of a wrong BIN."""
    answer = records_of(text_of("wrong-bin-and-count", "response.bin"))[1].split(b"\x1d")[1]
    answer = answer[: answer.index(b"\x1cFA")] + b"\x1cFA01\x1cFB" + code
    groups = request.count(b"\x1d")
    return b"\x1d".join([b"D0" + request[8:10] + b"%d" % groups + b"R" + request[21:46]] + [answer] * groups)


def batch_of(case, texts, more):
    """A file with the header of a case and these details."""
    details = [b"G1%010d" % place + text for place, text in enumerate(texts, 1)]
    trailer = b"99" + NUMBER + b"%010d" % (len(texts) + more) + b" " * 35
    return b"".join(STX + record + ETX for record in [records_of(case)[0], *details, trailer])


def moved(text, pairs):
    """The text with the new authorization numbers for the old."""
    for old, new in pairs:
        text = text.replace(old, new)
    return text.replace(b"#", NUMBER)


def ended(program, folder, words, front=()):
    done = subprocess.run([*front, *program, *words], cwd=folder, stdin=subprocess.DEVNULL, capture_output=True, timeout=120)
    return done.returncode, done.stdout, done.stderr


# ---------------------------------------------------------------- what the commands give

def outputs_of(folder, job):
    return {name: read(folder, name) for name in job.right}


def wrong(folder, job, but=()):
    """The first output that isn't what it has to be."""
    return next((name for name, text in job.right.items() if name not in but and read(folder, name) != text), None)


def clear(folder, job):
    for name in job.right:
        if os.path.exists(os.path.join(folder, name)):
            os.remove(os.path.join(folder, name))


def routes(program, folder, job):
    for words in (["--workers", "1"], ["--workers", "2", "--safe"], ["--workers", "4"], ["--workers", "64", "-v"], []):
        clear(folder, job)
        status, out, err = ended(program, folder, ROUTE + words)
        name = wrong(folder, job)
        if status or out or name or (err and "-v" not in words):
            yield f"route {' '.join(words)}: status {status}, {err!r}, {name}"
        if "-v" in words and err.decode().splitlines() != [came_to(job, number) for number in range(1, job.count + 1)]:
            yield f"route -v: {err!r}"


def came_to(job, number):
    """What -v prints of a plan, by the last line of its settlement."""
    *counts, net = map(int, job.right[f"{number}/s.txt"].splitlines()[-1].split(b"|")[1:])
    dollars = f"{'-' if net < 0 else ''}{abs(net) // 100:,}.{abs(net) % 100:02}"
    return "plan 'plan {}': {} paid, {} duplicate, {} approved, {} rejected, net {}".format(number, *counts, dollars)


def logs(program, folder, job):
    clear(folder, job)
    status, _, err = ended(program, folder, ROUTE + ["--log", "log.jsonl"])
    lines = [json.loads(line) for line in (read(folder, "log.jsonl") or b"").splitlines()]
    if status or [line["run"]["plan"] for line in lines] != [f"plan {number}" for number in range(1, job.count + 1)]:
        yield f"log: status {status}, {err!r}, {lines}"
        return
    for number, line in enumerate(lines, 1):
        total = job.right[f"{number}/s.txt"].splitlines()[-1].split(b"|")[1:]
        totals = dict(zip(("paid", "duplicate", "approved", "rejected", "net"), map(int, total)))
        size = len(job.right[f"{number}/end.txt"])
        if line["totals"] != totals or line["outputs"]["books_out"]["bytes"] != size or line["status"] != 0:
            yield f"log: {line}"
    bad = {**job.files, "2/books.txt": b"BOOKS|9\n"}
    write_all(folder, bad)
    status, _, err = ended(program, folder, ROUTE + ["--log", "log.jsonl"])
    line = json.loads(read(folder, "log.jsonl").splitlines()[-1])
    if status != 1 or line["run"]["plan"] is not None or line["refused"] != [4, 1, 0] or "plan 2" not in line["run"]["words"]["fault"]:
        yield f"log of a refusal: status {status}, {err!r}, {line}"
    write_all(folder, job.files)


def long_books(program, folder, job):
    """End books that no run reads: of 1,000,001 lines, by members without a bill."""
    lines = job.files["1/books.txt"].splitlines(keepends=True)
    new = job.right["1/end.txt"].count(b"\n") - len(lines)
    families = [b"F%06d" % number for number in range((1_000_002 - new - len(lines)) // 2)]
    members = [b"M|%b|01|20260101|20261231|0\n" % family for family in families]
    place = max(place for place, line in enumerate(lines) if line.startswith(b"M|")) + 1
    books = b"".join([*lines[:place], *members, *lines[place:], *(b"T|%b|0\n" % family for family in families)])
    write_all(folder, {"1/books.txt": books})
    count = books.count(b"\n") + new
    status, _, err = ended(program, folder, ROUTE)
    told = b"rxbatch: plan 'plan 1': books_out 1/end.txt: %d lines, and no run reads books of more than 1000000 " % count
    if count <= 1_000_000 or books.count(b"\n") > 1_000_000 or status or not err.startswith(told) or wrong(folder, job) != "1/end.txt":
        yield f"end books of {count} lines: status {status}, {err!r}, {wrong(folder, job)}"


# ---------------------------------------------------------------- outputs that can't be written, and kills

def failing(program, folder, job):
    """Outputs that can't be written: what is said, and what is left."""
    cases = [
        (ROUTE[:-4] + ["--response", "/dev/full", "--settlement", "settlement.txt"], 3, b"file 4\n--response /dev/full: "),
        (ROUTE[:-1] + ["none/settlement.txt"], 3, b"file 6\n--settlement none/settlement.txt: "),
        (ROUTE + ["--safe", "--log", "none/log"], 3, b"file 7\n"),
    ]
    for words, status, told in cases:
        clear(folder, job)
        got = ended(program, folder, words)
        if got[0] != status or not got[2].startswith(told) or any(read(folder, f"{n}/end.txt") for n in range(1, job.count + 1)):
            yield f"{' '.join(words[-2:])}: status {got[0]}, {got[2]!r}"
    plans = job.files["plans.toml"].replace(b'"2/end.txt"', b'"none/end.txt"')
    write_all(folder, {"plans.toml": plans})
    clear(folder, job)
    got = ended(program, folder, ROUTE + ["--safe"])
    left = {name for name, text in outputs_of(folder, job).items() if text is not None}
    if got[0] != 3 or not got[2].startswith(b"file 5\nplan 'plan 2': books_out none/end.txt: ") or left:
        yield f"a plan's end books in no folder: status {got[0]}, {got[2]!r}, {left}"
    write_all(folder, job.files)
    for path in ("1/sheet.toml", "./1/books.txt"):
        plans = job.files["plans.toml"].replace(b'"2/books.txt"', b'"%b"' % path.encode())
        write_all(folder, {"plans.toml": plans})
        clear(folder, job)
        got = ended(program, folder, ROUTE)
        if got[0] != 2 or b"are the same file" not in got[2] or any(outputs_of(folder, job).values()):
            yield f"{path} twice: status {got[0]}, {got[2]!r}"
    write_all(folder, job.files)


EARLIER = b"earlier\n"


def fresh(folder, job):
    """The inputs, and earlier outputs."""
    write_all(folder, {**job.files, **{name: EARLIER for name in job.right}})


def torn(folder, job):
    """What is wrong after a `route --safe` that was cut off: the new outputs are the first of their order, each whole."""
    texts = outputs_of(folder, job)
    is_new = []
    for name, text in texts.items():
        if text not in (EARLIER, job.right[name]):
            return f"{name} is torn"
        is_new.append(text != EARLIER)
    if is_new != sorted(is_new, reverse=True):
        return f"new are {[name for name, new in zip(texts, is_new) if new]}"
    return None


def after_failure(folder, job, got, statuses=(0, 3)):
    """The same of one that failed, or was done all the same: nothing is left next to its outputs."""
    left = [name for _, _, names in os.walk(folder) for name in names if name.startswith(".rxbatch-")]
    if got[0] not in statuses or left or (got[0] == 0 and wrong(folder, job)):
        return f"status {got[0]}, {got[2]!r}, {left} left"
    return torn(folder, job)


def again(program, folder, words, job):
    """What is wrong with the same command again."""
    got = ended(program, folder, words)
    return f"the same command again: {got[2]!r}, {wrong(folder, job)}" if got[0] or wrong(folder, job) else None


SAFE = ROUTE + ["--safe", "--workers", "1"]


def kills(program, job):
    """Runs that are killed, or of which a call fails: how many, and what is wrong after one."""
    with tempfile.TemporaryDirectory(prefix="rxbatch-switch-") as folder:
        fresh(folder, job)
        trace = os.path.join(folder, "trace")
        ended(program, folder, SAFE, ["strace", "-f", "-o", trace])
        ways = list(cuts_of(read(folder, "trace").decode(errors="replace")))
    for way in ways:
        with tempfile.TemporaryDirectory(prefix="rxbatch-switch-") as folder:
            fresh(folder, job)
            got = ended(program, folder, SAFE, ["strace", "-f", "-o", "/dev/null", "-e", f"inject={way}"])
            fault = (after_failure(folder, job, got) if ":error=" in way else torn(folder, job)) or again(program, folder, SAFE, job)
        if fault:
            yield f"{way}: {fault}"
    print(f"{len(ways)} runs were cut off", flush=True)


def failing_calls(program, job):
    """Runs of which a call on files fails or is the last, with --safe and in place."""
    tried = 0
    with tempfile.TemporaryDirectory(prefix="rxbatch-switch-") as top:
        library = run_failing.compiled(top)
        for words in (SAFE, ROUTE):
            treated = lambda folder, **more: ended(program, folder, words, ["env", f"LD_PRELOAD={library}", *(
                f"CALLS_{name}={value}" for name, value in more.items())])
            with tempfile.TemporaryDirectory(dir=top) as folder:
                fresh(folder, job)
                treated(folder, LIST=os.path.join(folder, "list"))
                calls = read(folder, "list").decode().split()
            ways = [(place, call, {"ERROR": error}) for place, call in enumerate(calls, 1)
                    for error in run_failing.ERRORS.get(call, (errno.EIO,))]
            ways += [(place, call, {"KILL": when}) for place, call in enumerate(calls, 1) for when in ("before", "after")]
            for place, call, way in ways:
                with tempfile.TemporaryDirectory(dir=top) as folder:
                    fresh(folder, job)
                    got = treated(folder, NTH=place, **way)
                    fault = None
                    if words == SAFE and "ERROR" in way and call not in run_failing.REMOVING:
                        fault = after_failure(folder, job, got, (0, 2, 3))
                    elif words == SAFE:
                        fault = torn(folder, job)
                    fault = fault or again(program, folder, words, job)
                if fault:
                    yield f"{' '.join(words[9:])}: call {place}, {call}, {way}: {fault}"
            tried += len(ways)
    print(f"{tried} runs had a call that failed or was the last", flush=True)


def small_disks(program, job):
    """Runs on small disks."""
    tried = 0
    for pages in range(2 * job.count, 40 * job.count):
        with tempfile.TemporaryDirectory(prefix="rxbatch-switch-") as folder:
            subprocess.run(["mount", "-t", "tmpfs", "-o", f"size={pages * 4}k", "tmpfs", folder], check=True)
            try:
                fresh(folder, job)
                got = ended(program, folder, SAFE)
                tried += 1
                if fault := after_failure(folder, job, got):
                    yield f"{pages} pages: {fault}"
                if got[0] == 0:
                    print(f"{tried} disks were tried", flush=True)
                    return
            except OSError:  # the disk doesn't hold the inputs
                pass
            finally:
                subprocess.run(["umount", folder], check=True)
    yield "no disk held a run"


def refused_requests(program, job):
    """Runs of which a request for memory is refused."""
    with tempfile.TemporaryDirectory(prefix="rxbatch-switch-") as top:
        library = refused_memory.compiled(top)
        for request in itertools.count(1):
            with tempfile.TemporaryDirectory(dir=top) as folder:
                fresh(folder, job)
                met = os.path.join(top, f"met-{request}")
                words = {"LD_PRELOAD": library, "REFUSED_REQUEST": str(request), "REFUSED_MET": met}
                got = ended(program, folder, SAFE, ["env", *(f"{name}={value}" for name, value in words.items())])
                if fault := after_failure(folder, job, got, (0, 1, 3)) or again(program, folder, SAFE, job):
                    yield f"request {request}: {fault}"
            if not os.path.exists(met):
                print(f"{request} requests for memory", flush=True)
                return


# ---------------------------------------------------------------- a cluster of one machine

NIGHT = os.path.join(os.path.dirname(HERE), "examples", "night")
TASK = os.path.join(NIGHT, "switch.sbatch")


class Cluster:
    """The tasks of switch.sbatch, one after another without Slurm."""

    def __init__(self, folder, program):
        self.folder = folder
        self.surroundings = {**os.environ, "NIGHT": NIGHT, "RXBATCH": " ".join(program), "PLANS": "plans.toml", "BATCH": "batch.bin",
                             "STAMP": STAMP, "RESPONSE": "response.bin", "SETTLEMENT": "settlement.txt"}

    def asked(self, *words, **more):
        done = subprocess.run(words, cwd=self.folder, env={**self.surroundings, **more}, stdin=subprocess.DEVNULL,
                              capture_output=True, text=True, timeout=600)
        return done.returncode, done.stdout.strip(), done.stderr

    def done(self, left):
        """Does these plans, and then joins; what the last one that failed says, else the join."""
        tasks = [self.asked("sh", TASK, SLURM_ARRAY_TASK_ID=place) for place in left.split(",")]
        failed = [said for status, _, said in tasks if status]
        return failed[-1] if failed else self.asked("sh", TASK)[2]

    def end(self):
        pass


class Slurm(Cluster):
    """The same by Slurm on this machine."""

    def __init__(self, folder, program):
        super().__init__(folder, program)
        self.asked("sh", os.path.join(NIGHT, "slurm_here.sh"), "start", "slurm")
        self.surroundings["SLURM_CONF"] = os.path.join(folder, "slurm", "slurm.conf")

    def done(self, left):
        _, tasks, _ = self.asked("sbatch", "--parsable", f"--array={left}", TASK)
        self.asked("sbatch", "--wait", f"--dependency=afterok:{tasks}", TASK)
        texts = [read(self.folder, f"slurm-{tasks}_{place}.txt").decode() for place in left.split(",")]
        return "".join(text for text in texts if "refused" in text or "file " in text)

    def end(self):
        self.asked("sh", os.path.join(NIGHT, "slurm_here.sh"), "stop", "slurm")
        time.sleep(2)  # the daemons write their state


def night_of_plans(program, kind):
    """Twelve plans as tasks, one of them refused, mended and run again, and their join."""
    job = Job(TWELVE)
    with tempfile.TemporaryDirectory(prefix="rxbatch-switch-") as folder:
        write_all(folder, {**job.files, "5/sheet.toml": job.files["5/sheet.toml"].replace(b"fee =", b"fees =")})
        cluster = kind(folder, program)
        try:
            for left in (",".join(map(str, range(1, 13))), "5", ""):
                found = cluster.asked(sys.executable, os.path.join(NIGHT, "plans.py"), "plans.toml", "batch.bin", STAMP)
                if found != (0, left, ""):
                    yield f"{kind.__name__}: plans.py: {found}, expected {left}"
                    return
                said = cluster.done(left) if left else said
                is_written = any(read(folder, name) for name in ("response.bin", "5/end.txt"))
                if len(left) > 1 and (is_written or "5/sheet.toml: fee is missing" not in said):
                    yield f"{kind.__name__}, with a refused plan: {said}"
                write_all(folder, {"5/sheet.toml": job.files["5/sheet.toml"]})
            if name := wrong(folder, job):
                yield f"{kind.__name__}: {name} isn't that of the plans: {said}"
        finally:
            cluster.end()


def main(words):
    parser = argparse.ArgumentParser(description=__doc__, formatter_class=argparse.RawDescriptionHelpFormatter)
    parser.add_argument("program", metavar="PROGRAM")
    ways = {"kills": kills, "calls": failing_calls, "disk": small_disks, "memory": refused_requests}
    for way, call in ways.items():
        parser.add_argument(f"--{way}", action="store_true", help=call.__doc__)
    parser.add_argument("--slurm", action="store_true", help=Slurm.__doc__)
    options = parser.parse_args(words)
    program = [os.path.abspath(word) if os.path.exists(word) else word for word in shlex.split(options.program)]
    passed = failed = 0
    for cases in (TWO, SEVEN):
        job = Job(cases)
        for part in (routes, logs, long_books, failing):
            with tempfile.TemporaryDirectory(prefix="rxbatch-switch-") as folder:
                write_all(folder, job.files)
                faults = list(part(program, folder, job))
            for fault in faults:
                print(f"{len(cases)} plans: {fault}", flush=True)
            passed, failed = passed + (not faults), failed + bool(faults)
    nights = [night_of_plans(program, kind) for kind in [Cluster] + [Slurm] * options.slurm]
    for faults in nights + [call(program, Job(TWO)) for way, call in ways.items() if getattr(options, way)]:
        faults = list(faults)
        for fault in faults:
            print(fault, flush=True)
        passed, failed = passed + (not faults), failed + bool(faults)
    print(f"{passed} passed, {failed} failed")
    return 1 if failed else 0


if __name__ == "__main__":
    sys.exit(main(sys.argv[1:]))
