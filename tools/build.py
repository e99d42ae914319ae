#!/usr/bin/env python3
"""Proves and builds the program: the libraries that it uses side by side, each as soon as those that it uses itself are done.

    python3 tools/build.py [--at-once N]

Without --at-once as many crates are proved at the same time as there are processors, but only one for each 4 GB of memory.
What was proved before and hasn't changed takes a second. A line for each crate that is done says how much of the work is over
and about how long the rest takes: at first a guess by the number of lines, then by the crates that were proved so far. Where
one isn't proved, its output is printed, no further one is begun, and the exit status is 1.
"""

import argparse
import concurrent.futures
import os
import pathlib
import subprocess
import sys
import time

ROOT = pathlib.Path(__file__).resolve().parent.parent
PROGRAM = "rxbatch"
# what a first check takes: this many seconds, and this many for each line of code, definitions and proofs
SECONDS_A_CRATE, SECONDS_A_LINE = 10, 0.05
# the memory of one check at its peak
MOST_MEMORY = 4 << 30
# a crate that was ready after this many seconds had been proved before
KEPT_SECONDS = 5


def libraries():
    """The libraries of this repository that each crate uses, by crates.txt."""
    uses = {}
    for line in (ROOT / "crates.txt").read_text().splitlines():
        words, colon, names = line.partition("#")[0].partition(":")
        if colon:
            uses[words.split()[0]] = names.split()
    return {crate: {it for it in names if it in uses} for crate, names in uses.items()}


def with_all_below(crate, uses):
    """The crate and all that it stands on."""
    return {crate}.union(*(with_all_below(it, uses) for it in uses[crate]))


def cost_of(crate):
    """A guess of the seconds of a first check."""
    texts = (path for part in ("src", "specs", "proofs") for path in (ROOT / "crates" / crate / part).rglob("*.*"))
    return SECONDS_A_CRATE + SECONDS_A_LINE * sum(len(path.read_text().splitlines()) for path in texts)


def chains(costs, uses):
    """For each crate the seconds from its beginning to the end of the longest chain of crates that stand on it."""
    found = {}

    def of(crate):
        if crate not in found:
            found[crate] = costs[crate] + max((of(it) for it in costs if crate in uses[it]), default=0)
        return found[crate]

    return {crate: of(crate) for crate in costs}


def ready(left, running, uses, chain):
    """The crates that can begin, those with the longest chain first."""
    return sorted((it for it in left if not uses[it] & (left | set(running))), key=lambda it: -chain[it])


def seconds_left(left, running, costs, uses, chain, at_once):
    """How long it takes until all are done, where each takes what it costs and `running` has what each running one still takes."""
    left, running, seconds = set(left), dict(running), 0
    while left or running:
        for crate in ready(left, running, uses, chain)[: at_once - len(running)]:
            running[crate] = costs[crate]
            left.remove(crate)
        step = min(running.values())
        seconds += step
        running = {crate: rest - step for crate, rest in running.items() if rest > step}
    return seconds


def prove(crate, jobs):
    """Proves a library, or proves, builds and runs the program: whether that passed, what it printed, and its seconds."""
    command = ["rt", "run", "--jobs", str(jobs), "--", "sample"] if crate == PROGRAM else ["rt", "lib", "--jobs", str(jobs)]
    start = time.monotonic()
    ended = subprocess.run(command, cwd=ROOT / "crates" / crate, stdout=subprocess.PIPE, stderr=subprocess.STDOUT, text=True)
    return ended.returncode == 0, ended.stdout, time.monotonic() - start


def in_words(seconds):
    """A length of time."""
    return f"{seconds:.0f} s" if seconds < 90 else f"{seconds / 60:.0f} minutes"


def most_at_once():
    """How many checks fit the processors and the memory."""
    processors = len(os.sched_getaffinity(0))
    memory = os.sysconf("SC_PAGE_SIZE") * os.sysconf("SC_PHYS_PAGES")
    return max(1, min(processors, memory // MOST_MEMORY))


class Build:
    """The crates that are left, those that are being proved, and what the finished ones took."""

    def __init__(self, at_once):
        self.uses, self.at_once = libraries(), at_once
        self.left = with_all_below(PROGRAM, self.uses)
        self.costs = {crate: cost_of(crate) for crate in self.left}
        self.chain = chains(self.costs, self.uses)
        self.running, self.done = {}, set()
        self.guessed = self.taken = sum(self.costs.values()) / 20

    def rest(self):
        """The seconds until all is done, by what the finished crates took."""
        pace, now = self.taken / self.guessed, time.monotonic()
        costs = {crate: cost * pace for crate, cost in self.costs.items()}
        running = {crate: max(costs[crate] - (now - start), 1 + costs[crate] / 10) for crate, start in self.running.values()}
        return seconds_left(self.left, running, costs, self.uses, self.chain, self.at_once)

    def begin(self, pool):
        """Begins as many crates as can be proved now; few at once get more processors each."""
        names = {crate for crate, _ in self.running.values()}
        begun = ready(self.left, names, self.uses, self.chain)[: self.at_once - len(names)]
        for crate in begun:
            jobs = max(1, self.at_once // (len(names) + len(begun)))
            self.running[pool.submit(prove, crate, jobs)] = (crate, time.monotonic())
            self.left.remove(crate)

    def end(self, future):
        """Takes a crate that has ended, and prints how far all is: whether it is proved."""
        crate, _ = self.running.pop(future)
        passed, printed, seconds = future.result()
        if not passed:
            print(f"{printed}\nbuild: {crate} is not proved", flush=True)
            return False
        self.done.add(crate)
        if seconds > KEPT_SECONDS:
            self.guessed, self.taken = self.guessed + self.costs[crate], self.taken + seconds
        part = sum(self.costs[it] for it in self.done) / sum(self.costs.values())
        rest = f"about {in_words(self.rest())} left" if self.left or self.running else "all done"
        print(f"build: {crate} in {in_words(seconds)}; {len(self.done)} of {len(self.costs)} crates, {part:.0%} of the work, {rest}", flush=True)
        return True

    def run(self):
        """Proves all: whether each crate passed."""
        print(f"build: {len(self.costs)} crates, {self.at_once} at once: about {in_words(self.rest())} if none was proved before", flush=True)
        passed = True
        with concurrent.futures.ThreadPoolExecutor(self.at_once) as pool:
            while self.running or (passed and self.left):
                if passed:
                    self.begin(pool)
                for future in concurrent.futures.wait(self.running, return_when=concurrent.futures.FIRST_COMPLETED).done:
                    passed = self.end(future) and passed
        return passed


def main():
    words = argparse.ArgumentParser(description="proves and builds the program, with its libraries side by side")
    words.add_argument("--at-once", type=int, default=most_at_once(), metavar="N", help="how many crates are proved at the same time")
    return 0 if Build(max(1, words.parse_args().at_once)).run() else 1


if __name__ == "__main__":
    sys.exit(main())
