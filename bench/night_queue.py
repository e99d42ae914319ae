#!/usr/bin/env python3
"""How long a switch's day takes on 1, 10 and 100 nodes: its queue, simulated from measured times of jobs (docs/SWITCH.md).

    bench/night_queue.py [--nodes LIST] [--processors N] [--memory GIB] [--disk MB] [--plans N] [--claims N] [--records N]
        [--batches N] [--groups N] [--spread S] [--start SECONDS] [--rate N] [--join SECONDS]
        [--seed N]
    bench/night_queue.py --measure PROGRAM DIR [--rounds R]

A job is a `route` of a group of plans. Its seconds and memory go with the lines of their books, its own and others' records and the
plans, by least squares over MEASURED; `--measure` measures these anew: it makes the jobs in DIR, does each four times at once with
one worker, as a busy node does, and prints the middle round.

The claims of 4,000 plans are drawn from a lognormal distribution, with a fixed seed, none above what one plan's books hold; their
records go with their claims. Plans are dealt out into groups, the largest first into the group with the fewest claims: a group a
processor, or a multiple, so that a node's tasks take half of its memory and no batch has too many records, or `--groups`. A task
is a group. Tasks start by their size, at most `--rate` a second, on the first node with a free processor and the memory, `--start`
seconds each; a task has a processor's share of its node's disk.

Two days are drawn: `mixed`, whose batches have records of all plans, so that each group reads and writes its books once a batch,
and each batch is joined, `--join` seconds a response file; and `dealt`, whose records were dealt out to batches by group. Each line
has the minutes, how much of the processors' time is work, the memory of all tasks at once, bytes read and written, and in how many
minutes each resource would do its part if all else were free; the first is short first.
"""

import argparse
import concurrent.futures
import heapq
import math
import os
import random
import re
import shutil
import statistics
import subprocess
import sys
import time
import typing

HERE = os.path.dirname(os.path.abspath(__file__))
sys.path.insert(0, HERE)

from time_route import made, mixed, read, write  # noqa: E402
from time_run import DETAIL, stamp_of  # noqa: E402

# Lines of books, plans, own records, others' records, seconds, MiB: of one of four jobs at once.
MEASURED = (
    (99_980, 20, 100_000, 0, 2.008, 145),
    (99_980, 20, 1_000, 0, 0.287, 32),
    (99_980, 20, 0, 100_000, 0.656, 111),
    (900_020, 20, 100_000, 0, 2.806, 357),
    (900_020, 20, 1_000, 0, 1.620, 243),
    (900_020, 20, 0, 100_000, 2.148, 322),
    (900_500, 500, 100_000, 0, 6.131, 372),
    (900_500, 500, 1_000, 0, 4.220, 257),
)
MOST_CLAIMS = 720_000  # of a plan: its books have 900,000 lines, from which on `check` warns
MOST_RECORDS = 100_000  # of a batch
LINES = 1.25  # of books, for each claim
LINE_BYTES, REQUEST_BYTES, REPLY_BYTES = 85, 195, 170


# ---------------------------------------------------------------- measured jobs

class Job(typing.NamedTuple):
    """A route: where its files are, the name of its batch, and what its price goes with."""
    folder: str
    batch: str
    lines: int
    plans: int
    own: int
    others: int


def measured_jobs(top):
    """The jobs, whose files are made where they aren't there: of 20 plans and more or fewer lines a batch, 1,000 records of it, and
    others' records; and one of many plans."""
    jobs = []
    for lines in (100_000, 900_000):
        folder = os.path.join(top, f"route-{lines}")
        if not os.path.exists(f"{folder}/others.bin"):
            made(f"{folder}/one", 100_000, lines, 1)
            mixed(folder, argparse.Namespace(plans=20, records=100_000, lines=lines))
            head, *details = read(f"{folder}/batch.bin").split(DETAIL)
            others = [detail[:10] + b"8" + detail[11:] for detail in details]
            write(f"{folder}/few.bin", batch_of(head, details[:1_000], details[-1]))
            write(f"{folder}/others.bin", batch_of(head, others, details[-1]))
        count = sum(read(f"{folder}/{place}/books.txt").count(b"\n") for place in range(1, 21))
        jobs += [Job(folder, "batch.bin", count, 20, 100_000, 0), Job(folder, "few.bin", count, 20, 1_000, 0),
                 Job(folder, "others.bin", count, 20, 0, 100_000)]
    folder = os.path.join(top, "many")
    if not os.path.exists(f"{folder}/few.bin"):
        many_plans(folder, 500)
    count = 500 * read(f"{folder}/one/books.txt").count(b"\n")
    return [*jobs, Job(folder, "batch.bin", count, 500, 100_000, 0), Job(folder, "few.bin", count, 500, 1_000, 0)]


def batch_of(head, details, last):
    """A batch with these details, the last with the trailer after the last of another."""
    end = last.index(b"\x03") + 1
    trailer = last[end:end + 10] + b"%010d" % len(details) + last[end + 20:]
    whole = [detail[:detail.index(b"\x03") + 1] for detail in details]
    return DETAIL.join([head, *whole]) + trailer


def many_plans(folder, plans):
    """A job of this many plans with the same books, 900,000 lines in all."""
    one = f"{folder}/one"
    made(one, 100_000, 900_000 // plans, 1)
    for place in range(1, plans + 1):
        write(f"{folder}/{place}.toml", re.sub(rb'(?m)^bin = "\d+"', b'bin = "%06d"' % place, read(f"{one}/sheet.toml")))
        shutil.copy(f"{one}/books.txt", f"{folder}/{place}.txt")
    write(f"{folder}/plans.toml", b"".join(
        b'[[plan]]\nname = "p%d"\nsheet = "%d.toml"\nbooks = "%d.txt"\nbooks_out = "%d/out.txt"\n\n' % (place, place, place, place)
        for place in range(1, plans + 1)))
    head, *details = read(f"{one}/batch.bin").split(DETAIL)
    rng = random.Random(1)
    named = [detail[:10] + b"%06d" % rng.randint(1, plans) + detail[16:] for detail in details]
    write(f"{folder}/batch.bin", batch_of(head, named, details[-1]))
    write(f"{folder}/few.bin", batch_of(head, named[:1_000], details[-1]))


def words_of(job, into):
    """The words of a route whose outputs go there."""
    os.makedirs(into, exist_ok=True)
    plans = os.path.join(job.folder, f"plans-{os.path.basename(into)}.toml")
    named = rb'"%b/\1-\2' % os.path.abspath(into).encode()
    write(plans, re.sub(rb'"(\d+)/(out|settlement)', named, read(f"{job.folder}/plans.toml")))
    return ["route", "--stamp", stamp_of(f"{job.folder}/one"), "--plans", plans, "--batch", f"{job.folder}/{job.batch}",
            "--response", f"{into}/response.bin", "--settlement", f"{into}/settlement.txt", "--workers", "1"]


def four_at_once(program, job, into):
    """Mean seconds and MiB of a job of which four go at once."""
    jobs = [[program, *words_of(job, os.path.join(into, place))] for place in "1234"]
    begun, ended = time.perf_counter(), []
    running = {subprocess.Popen(words, stdin=subprocess.DEVNULL, stderr=subprocess.DEVNULL).pid for words in jobs}
    while running:
        pid, status, used = os.wait4(-1, 0)
        if status:
            sys.exit(f"{job}: status {status}")
        running.remove(pid)
        ended.append((time.perf_counter() - begun, used.ru_maxrss / 1024))
    return tuple(map(statistics.mean, zip(*ended)))


def measure(program, top, rounds):
    # By a process of its own, since the peak of a process that is started counts that of the one that starts it.
    with concurrent.futures.ProcessPoolExecutor(1) as other:
        jobs = other.submit(measured_jobs, top).result()
    for job in jobs:
        found = [four_at_once(program, job, os.path.join(top, "out")) for _ in range(rounds)]
        seconds, size = map(statistics.median, zip(*found))
        print(f"    ({job.lines:_}, {job.plans}, {job.own:_}, {job.others:_}, {seconds:.3f}, {size:.0f}),", flush=True)


# ---------------------------------------------------------------- what a job takes

def least_squares(rows, values):
    """The coefficients whose sums over the rows are nearest to the values: the normal equations, solved by elimination."""
    size = len(rows[0])
    table = [[sum(row[i] * row[j] for row in rows) for j in range(size)] + [sum(row[i] * value for row, value in zip(rows, values))]
             for i in range(size)]
    for i in range(size):
        pivot = max(range(i, size), key=lambda k: abs(table[k][i]))
        table[i], table[pivot] = table[pivot], table[i]
        table[i] = [value / table[i][i] for value in table[i]]
        for k in range(size):
            if k != i:
                table[k] = [a - table[k][i] * b for a, b in zip(table[k], table[i])]
    return [row[-1] for row in table]


class Prices:
    """Seconds and bytes of memory of a job."""

    def __init__(self):
        self.seconds = self.fitted([row[4] for row in MEASURED])
        self.memory = self.fitted([row[5] * 2 ** 20 for row in MEASURED])
        self.off = max(abs(self.of(self.seconds, *row[:4]) / row[4] - 1) for row in MEASURED)

    def fitted(self, values):
        """Prices whose relative errors are least."""
        rows = [[count / value for count in self.counts(*row[:4])] for row, value in zip(MEASURED, values)]
        return least_squares(rows, [1] * len(rows))

    @staticmethod
    def counts(lines, plans, own, others):
        """What the price goes with: the job, its plans, lines, records, and the plans at which a record is looked for."""
        return 1, lines, own, others, plans * (own / 2 + others), plans

    def of(self, prices, *job):
        return sum(price * count for price, count in zip(prices, self.counts(*job)))

    def told(self):
        start, line, own, other, look, plan = self.seconds
        return (f"a job: {start:.3f} s, {plan * 1e3:.1f} ms a plan, {line * 1e6:.2f} us a line, {own * 1e6:.1f} a record, "
                f"{other * 1e6:.2f} another's, {look * 1e9:.0f} ns a plan looked at; {self.memory[1]:.0f} bytes of memory a line; "
                f"measured jobs within {self.off:.0%}")


# ---------------------------------------------------------------- the day

def drawn(options):
    """The claims of each plan, the largest first."""
    rng = random.Random(options.seed)
    shares = [rng.lognormvariate(0, options.spread) for _ in range(options.plans)]
    claims, left = [0.0] * options.plans, float(options.claims)
    while left > 1:
        below = [plan for plan in range(options.plans) if claims[plan] < MOST_CLAIMS]
        if not below:
            sys.exit(f"{options.plans} plans hold at most {options.plans * MOST_CLAIMS:,} claims")
        whole = sum(shares[plan] for plan in below)
        for plan in below:
            claims[plan] = min(claims[plan] + left * shares[plan] / whole, MOST_CLAIMS)
        left = options.claims - sum(claims)
    return sorted(claims, reverse=True)


def grouped(claims, count):
    """The claims and the number of plans of each group."""
    heap = [(0.0, group, 0) for group in range(count)]
    for size in claims:
        whole, group, plans = heapq.heappop(heap)
        heapq.heappush(heap, (whole + size, group, plans + 1))
    return [(whole, plans) for whole, _, plans in heap]


class Task:
    """A group's jobs, one after another, and their traffic in bytes."""

    def __init__(self, claims, plans, options, prices, batches, is_mixed):
        lines, own = claims * LINES, claims * options.records / options.claims
        others = (options.records - own) * is_mixed
        self.work = batches * prices.of(prices.seconds, lines, plans, own / batches, others / batches)
        self.memory = prices.of(prices.memory, lines, plans, own / batches, others / batches)
        self.traffic = 2 * batches * lines * LINE_BYTES + (own + others) * (REQUEST_BYTES + REPLY_BYTES)
        self.seconds = options.start + self.work + self.traffic / (options.disk * 1e6 / options.processors)


def scheduled(tasks, nodes, options):
    """When the last task ends, and the most memory of all tasks at once."""
    free = [[options.processors, options.memory * 2 ** 30] for _ in range(nodes)]
    running, now, last, used, most = [], 0.0, 0.0, 0.0, 0.0
    for place, task in enumerate(sorted(tasks, key=lambda task: -task.seconds)):
        while True:
            node = next((n for n, (left, room) in enumerate(free) if left and room >= task.memory), None)
            if node is not None:
                break
            if not running:
                return None
            end, _, done, size = heapq.heappop(running)
            now = max(now, end)
            free[done][0] += 1
            free[done][1] += size
            used -= size
        free[node][0] -= 1
        free[node][1] -= task.memory
        used += task.memory
        most = max(most, used)
        now = max(now, last + 1 / options.rate)
        last = now
        heapq.heappush(running, (now + task.seconds, place, node, task.memory))
    return max(end for end, *_ in running), most


def day(options, prices, claims, nodes, is_mixed):
    """The line of a day on this many nodes."""
    processors = nodes * options.processors
    room = options.memory * 2 ** 30 / options.processors
    least = max(1.05 * options.records / MOST_RECORDS * (not is_mixed), 2 * prices.memory[1] * options.claims * LINES / room)
    groups = grouped(claims, options.groups or processors * math.ceil(least / processors))
    batches = options.batches if is_mixed else 1
    tasks = [Task(size, plans, options, prices, batches, is_mixed) for size, plans in groups]
    done = scheduled(tasks, nodes, options)
    if done is None:
        return f"{nodes} nodes: a task needs {max(task.memory for task in tasks) / 2 ** 30:.0f} GiB"
    end, most = done
    joins = 0.0
    if is_mixed:
        responses = len(groups) * (options.records / options.batches) * REPLY_BYTES
        joins = options.batches * (len(groups) * options.join + responses / (options.disk * 1e6 / options.processors)) / processors
        end += joins
    work, traffic = sum(task.work for task in tasks), sum(task.traffic for task in tasks)
    bounds = {"processors": work / processors, "disk": traffic / (nodes * options.disk * 1e6),
              "memory": sum(task.seconds * task.memory for task in tasks) / (nodes * options.memory * 2 ** 30)}
    by_need = sorted(bounds.items(), key=lambda bound: -bound[1])
    return (f"{'mixed' if is_mixed else 'dealt'}, {nodes} nodes, {len(groups)} groups: {end / 60:.1f} minutes (joins {joins / 60:.1f}), "
            f"longest task {max(task.seconds for task in tasks) / 60:.1f}, at work {work / (end * processors):.0%}, "
            f"memory {most / 2 ** 30:.0f} GiB, traffic {traffic / 1e12:.2f} TB; "
            + ", ".join(f"{name} {seconds / 60:.1f}" for name, seconds in by_need))


def main():
    parser = argparse.ArgumentParser(description=__doc__, formatter_class=argparse.RawDescriptionHelpFormatter)
    parser.add_argument("--measure", nargs=2, metavar=("PROGRAM", "DIR"))
    parser.add_argument("--rounds", type=int, default=3)
    parser.add_argument("--nodes", default="1,10,100")
    for name, value in (("processors", 4), ("memory", 16), ("disk", 500), ("plans", 4000), ("claims", 300_000_000),
                        ("records", 10_000_000), ("batches", 100), ("groups", 0), ("seed", 1)):
        parser.add_argument(f"--{name}", type=int, default=value)
    for name, value in (("spread", 1.0), ("start", 3.5), ("rate", 100.0), ("join", 0.1)):
        parser.add_argument(f"--{name}", type=float, default=value)
    options = parser.parse_args()
    if options.measure:
        return measure(os.path.abspath(options.measure[0]), options.measure[1], options.rounds)
    prices, claims = Prices(), drawn(options)
    print(prices.told())
    print(f"{options.plans:,} plans, claims {claims[-1]:,.0f} to {claims[0]:,.0f}, middle {claims[options.plans // 2]:,.0f}")
    for is_mixed in (True, False):
        for nodes in options.nodes.split(","):
            print(day(options, prices, claims, int(nodes), is_mixed))


if __name__ == "__main__":
    main()
