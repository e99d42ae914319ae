#!/usr/bin/env python3
"""Runs a program with rxbatch's words on worked cases while its Nth request for memory is refused, for N = 1, 2 and on.

    tests/refused_memory.py PROGRAM [--only WORD] [--all] [--step N] [--seconds S]

PROGRAM is a path or a command line. A library is compiled with `cc` from refused_memory.c next to this file and preloaded
into the program; without `cc` nothing can be tried. Each job runs with 1 worker, plainly too, and with 2 workers, at a desk
too; one of 0 workers with none. With `--all` each later request is refused too; with `--step N` only each Nth is tried.

A run has to end by itself. It answers what it answers with ample memory, or out of memory: status 1 with the line
`refused 6 0 0` (or without a line, where no memory is left to write one), and then its outputs are empty; or, where a
path couldn't be opened where memory runs out, status 3 and `file K`. A job is swept until a run meets no refusal, and that
run's answer is the case's. Each job has one line with its counts; the last line is `N passed, M failed`.
"""

import argparse
import itertools
import os
import shlex
import shutil
import subprocess
import sys
import tempfile
from collections import Counter
from typing import NamedTuple

import run_cases
from run_cases import HERE, OUTPUTS, read

JOBS = ("one-billing", "three-fills-reach-the-family-maximum", "reverse-twice-and-bill-again",
        "four-transactions-in-one-record", "family-deductible")
REFUSALS = ("damaged-books/01-", "damaged-sheets/1-", "cut-and-damaged-files/10-", "cut-and-damaged-files/14-",
            "cut-and-damaged-files/16-")
WAYS = (("1", "--plain"), ("1", None), ("2", None), ("2", "--desk"))
MEMORY = b"refused 6 0 0\n"


class Settings(NamedTuple):
    program: list
    library: str
    all: bool
    step: int
    seconds: float


def compiled(into):
    """The library that refuses, compiled into the folder."""
    library = os.path.join(into, "refused_memory.so")
    source = os.path.join(HERE, "refused_memory.c")
    subprocess.run(["cc", "-O1", "-shared", "-fPIC", "-o", library, source], check=True)
    return library


def answer_of(settings, words, folder, request):
    """What the program answers where this request is refused, and whether it made that request."""
    met = os.path.join(folder, "met")
    surroundings = {**os.environ, "LD_PRELOAD": settings.library, "REFUSED_REQUEST": str(request), "REFUSED_MET": met}
    if settings.all:
        surroundings["REFUSED_ALL"] = "1"
    ended = subprocess.run(settings.program + words, cwd=folder, stdin=subprocess.DEVNULL, capture_output=True,
                           timeout=settings.seconds, env=surroundings)
    outputs = {name: read(folder, name) for name in OUTPUTS.values()}
    return run_cases.Answer(ended.returncode, ended.stdout, ended.stderr, outputs), os.path.exists(met)


def kind_of(wanted, got):
    """What an answer is: the case's own, out of memory, or a file that couldn't be opened; None if it is none."""
    if run_cases.first_difference(wanted, got) is None:
        return "its own answer"
    if got.stdout or any(got.outputs.values()):
        return None
    if got.status == 1 and got.stderr in (MEMORY, b""):
        return "want of memory"
    return "a file" if got.status == 3 and got.stderr.startswith(b"file ") else None


def sweep(settings, folder, number, way, into):
    """How often each kind was answered, and the first wrong answer, None if there is none."""
    words, wanted = run_cases.run_words(folder, number, way), run_cases.wanted_of_run(folder)
    kinds = Counter()
    for request in itertools.count(1, settings.step):
        run_cases.fresh_copy(folder, into)
        try:
            got, met = answer_of(settings, words, into, request)
        except subprocess.TimeoutExpired:
            return kinds, f"request {request}: no end after {settings.seconds:g} s"
        if not met:
            return kinds, run_cases.first_difference(wanted, got)
        kind = kind_of(wanted, got)
        if kind is None:
            found = run_cases.first_difference(wanted, got)
            return kinds, f"request {request}: {found}, {got.stderr[:60]!r}"
        kinds[kind] += 1


def swept_folders(only):
    """The folders of the jobs and of the refusals."""
    top = os.path.join(HERE, "cases")
    folders = [os.path.relpath(folder, top) for folder in run_cases.case_folders(top)]
    wanted = [folder for folder in folders if folder in JOBS or folder.startswith(REFUSALS)]
    return [os.path.join(top, folder) for folder in wanted if only in folder]


def ways_of(folder):
    """The numbers of workers with which a job is swept, each with an option or none; its own where that is no lawful number."""
    own = read(folder, "workers").decode()
    return WAYS if 1 <= int(own) <= 64 else [(own, way) for way in ("--plain", None, "--desk")]


def main(words):
    parser = argparse.ArgumentParser(description=__doc__, formatter_class=argparse.RawDescriptionHelpFormatter)
    parser.add_argument("program", metavar="PROGRAM")
    parser.add_argument("--only", default="", help="only cases with this word in their path")
    parser.add_argument("--all", action="store_true", help="refuse all later requests too")
    parser.add_argument("--step", type=int, default=1)
    parser.add_argument("--seconds", type=float, default=60, help="for one run of the program; default: 60")
    options = parser.parse_args(words)
    program = [os.path.abspath(word) if os.path.exists(word) else word for word in shlex.split(options.program)]
    if not program or shutil.which(program[0]) is None:
        parser.error(f"can't run {options.program}")
    if shutil.which("cc") is None:
        parser.error("there is no cc to compile refused_memory.c with")
    passed = failed = 0
    with tempfile.TemporaryDirectory(prefix="rxbatch-refused-") as top:
        settings = Settings(program, compiled(top), options.all, options.step, options.seconds)
        for folder in swept_folders(options.only):
            for number, way in ways_of(folder):
                kinds, found = sweep(settings, folder, number, way, os.path.join(top, "case"))
                name = f"{os.path.relpath(folder, os.path.join(HERE, 'cases'))}, workers {number}{', ' + way if way else ''}"
                counts = ", ".join(f"{count} times {kind}" for kind, count in sorted(kinds.items()))
                print(f"{name}: {counts or 'no request refused'}" + (f"; {found}" if found else ""), flush=True)
                passed, failed = passed + (found is None), failed + (found is not None)
    print(f"{passed} passed, {failed} failed")
    return 1 if failed or not passed else 0


if __name__ == "__main__":
    sys.exit(main(sys.argv[1:]))
