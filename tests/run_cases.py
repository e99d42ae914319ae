#!/usr/bin/env python3
"""Runs a program with rxbatch's words on the worked cases, and compares what it answers byte for byte.

    tests/run_cases.py PROGRAM [--cases DIR | --big] [--plan] [--only WORD] [--jobs J] [--seconds S]

PROGRAM is a path or a command line. The cases are the folders below DIR (tests/cases next to this file), or with `--big` those
that tools/make_big.py makes; tests/cases/README.md names their files. Each case is copied to a temporary folder and run there:
`run` with workers 1, 2 and 64 and with the number that the case names, each also with `--plain`, and with `--desk` and workers
2, 3 and 64; then `show` and `sample` where the case has their texts, and with `--plan` also `plan`. Compared are the exit
status, standard output, standard error and the output files, and the inputs have to stay as they were. A folder without `status`
has no expected answer: there `run` with one worker, with `--plain` and with two workers have to answer the same.

A case that differs has one line with its first difference. The last line is `N passed, M failed`; the exit status is 0
where M is 0, else 1, and 2 where no case was found.
"""

import argparse
import concurrent.futures
import os
import shlex
import shutil
import subprocess
import sys
import tempfile
from typing import NamedTuple, Optional

HERE = os.path.dirname(os.path.abspath(__file__))
MAKE_BIG = os.path.join(os.path.dirname(HERE), "tools", "make_big.py")
INPUTS = {"--sheet": "sheet.toml", "--books": "books.txt", "--batch": "batch.bin"}
OUTPUTS = {"--response": "response.bin", "--books-out": "books-out.txt", "--settlement": "settlement.txt"}
TEXTS = {"show": ("--sheet", "--batch"), "plan": ("--sheet", "--books", "--batch"), "sample": ()}
NUMBERS_OF_WORKERS = ("1", "2", "64")
WORKERS_AT_A_DESK = ("2", "3", "64")
ANSWERS = ("status", "show", "show-refused", "plan", "plan-refused", "sample")


class Answer(NamedTuple):
    """What a run answers; as what is expected, None leaves a part open. An output that isn't there is None; it may be
    away where a file couldn't be opened."""
    status: Optional[int]
    stdout: Optional[bytes]
    stderr: Optional[bytes]
    outputs: dict


class Settings(NamedTuple):
    program: list
    plan: bool
    seconds: float


def read(folder, name):
    """The bytes of a file of the folder, None where it isn't there."""
    try:
        with open(os.path.join(folder, name), "rb") as file:
            return file.read()
    except FileNotFoundError:
        return None


def case_folders(top):
    """The folders below the top, itself included, that hold a case."""
    wanted = set(ANSWERS) | {"workers"}
    return [folder for folder, _, names in sorted(os.walk(top)) if set(names) & wanted]


# ---------------------------------------------------------------- what is run

def run_words(folder, number, way=None):
    paths = {**INPUTS, **OUTPUTS}
    words = ["run"] + [word for pair in paths.items() for word in pair]
    stamp = os.fsdecode(read(folder, "stamp"))
    return words + ["--stamp", stamp, "--workers", number] + ([way] if way else [])


def text_words(name):
    return [name] + [word for option in TEXTS[name] for word in (option, INPUTS[option])]


def ways_of(folder):
    """The numbers of workers, each with an option or none: the case's own and the usual ones; its own only where that is no
    lawful number; where no answer is expected, three that have to be the same."""
    if read(folder, "status") is None:
        return [("1", None), ("1", "--plain"), ("2", None)]
    own = read(folder, "workers").decode()
    numbers = list(dict.fromkeys((own,) + NUMBERS_OF_WORKERS)) if 1 <= int(own) <= 64 else [own]
    at_a_desk = WORKERS_AT_A_DESK if len(numbers) > 1 else numbers
    return [(number, way) for number in numbers for way in (None, "--plain")] + [(number, "--desk") for number in at_a_desk]


def wanted_of_run(folder):
    status = read(folder, "status")
    if status is None:
        return None
    if int(status) == 0:
        return Answer(0, b"", b"", {name: read(folder, name) for name in OUTPUTS.values()})
    outputs = dict.fromkeys(OUTPUTS.values(), b"") if int(status) == 1 else {}
    return Answer(int(status), b"", read(folder, "refused"), outputs)


def wanted_of_text(folder, name):
    text, line = read(folder, name), read(folder, name + "-refused")
    if text is not None:
        return Answer(0, text, b"", {})
    return Answer(1 if line.startswith(b"refused") else 3, b"", line, {})


def runs_of(folder, settings):
    """Each run of the case as its name, its words and the answer that is expected."""
    words = read(folder, "words")
    if words is not None:
        return [("words", words.decode().splitlines(), Answer(int(read(folder, "status")), b"", None, {}))]
    runs = []
    if read(folder, "workers") is not None and read(folder, "stamp") is not None:
        wanted = wanted_of_run(folder)
        for number, way in ways_of(folder):
            name = f"run, {number} workers" + (f", {way}" if way else "")
            runs.append((name, run_words(folder, number, way), wanted))
    for name in TEXTS:
        has = read(folder, name) is not None or read(folder, name + "-refused") is not None
        if has and (name != "plan" or settings.plan):
            runs.append((name, text_words(name), wanted_of_text(folder, name)))
    return runs


# ---------------------------------------------------------------- one run

def answer_of(settings, words, folder):
    """What the program answers in the folder."""
    ended = subprocess.run(settings.program + words, cwd=folder, stdin=subprocess.DEVNULL, capture_output=True,
                           timeout=settings.seconds)
    outputs = {name: read(folder, name) for name in OUTPUTS.values()}
    return Answer(ended.returncode, ended.stdout, ended.stderr, outputs)


def difference(what, wanted, got):
    """How two texts differ, in a few words; None where they don't."""
    if wanted is None or wanted == got:
        return None
    if got is None:
        return f"{what} wasn't made"
    at = next((i for i, (a, b) in enumerate(zip(wanted, got)) if a != b), min(len(wanted), len(got)))
    front = max(at - 12, 0)
    return f"{what} differs at byte {at}: {got[front:at + 24]!r}, wanted {wanted[front:at + 24]!r}"


def first_difference(wanted, got):
    """The first difference of two answers, None if there is none."""
    if wanted.status is not None and wanted.status != got.status:
        return f"status {got.status}, wanted {wanted.status}" + (f" ({got.stderr[:60]!r})" if got.stderr else "")
    parts = [("standard error", wanted.stderr, got.stderr), ("standard output", wanted.stdout, got.stdout)]
    parts += [(name, text, got.outputs[name]) for name, text in wanted.outputs.items()]
    return next((text for part in parts if (text := difference(*part))), None)


def fresh_copy(folder, into):
    """The case's inputs in an empty folder."""
    shutil.rmtree(into, ignore_errors=True)
    os.makedirs(into)
    inputs = {}
    for name in INPUTS.values():
        inputs[name] = read(folder, name)
        if inputs[name] is not None:
            with open(os.path.join(into, name), "wb") as file:
                file.write(inputs[name])
    return inputs


def try_case(folder, settings):
    """How many runs the case has, and its first difference, None if there is none."""
    runs = runs_of(folder, settings)
    with tempfile.TemporaryDirectory(prefix="rxbatch-case-") as top:
        into, common = os.path.join(top, "case"), None
        for name, words, wanted in runs:
            inputs = fresh_copy(folder, into)
            try:
                got = answer_of(settings, words, into)
            except subprocess.TimeoutExpired:
                return len(runs), f"{name}: no end after {settings.seconds:g} s"
            common = common or got
            found = first_difference(wanted or common, got)
            changed = [name for name, text in inputs.items() if read(into, name) != text]
            if found or changed:
                return len(runs), f"{name}: {found or 'the input ' + changed[0] + ' was changed'}"
    return len(runs), None


# ---------------------------------------------------------------- all cases

def tried(folders, top, settings, jobs):
    """How many of the cases passed, and how many failed; each of those has a line."""
    passed = failed = 0
    with concurrent.futures.ThreadPoolExecutor(jobs) as pool:
        for folder, (count, found) in zip(folders, pool.map(lambda folder: try_case(folder, settings), folders)):
            if found:
                print(f"{os.path.relpath(folder, top)}: {found}", flush=True)
            passed, failed = passed + (count > 0 and found is None), failed + (found is not None)
    return passed, failed


def main(words):
    parser = argparse.ArgumentParser(description=__doc__, formatter_class=argparse.RawDescriptionHelpFormatter)
    parser.add_argument("program", metavar="PROGRAM")
    parser.add_argument("--cases", default=os.path.join(HERE, "cases"))
    parser.add_argument("--big", action="store_true", help="the cases of tools/make_big.py in place of DIR")
    parser.add_argument("--plan", action="store_true", help="run `plan` too")
    parser.add_argument("--only", default="", help="only cases with this word in their path")
    parser.add_argument("--jobs", type=int, default=2)
    parser.add_argument("--seconds", type=float, default=60, help="for one run of the program; default: 60")
    options = parser.parse_args(words)
    program = [os.path.abspath(word) if os.path.exists(word) else word for word in shlex.split(options.program)]
    if not program or shutil.which(program[0]) is None:
        parser.error(f"can't run {options.program}")
    settings = Settings(program, options.plan, options.seconds)
    with tempfile.TemporaryDirectory(prefix="rxbatch-big-") as made:
        if options.big:
            subprocess.run([sys.executable, MAKE_BIG, made, "--cuts", "--bytes"], check=True)
        top = made if options.big else os.path.abspath(options.cases)
        passed, failed = tried([folder for folder in case_folders(top) if options.only in folder], top, settings, options.jobs)
    print(f"{passed} passed, {failed} failed")
    return 1 if failed else 0 if passed else 2


if __name__ == "__main__":
    sys.exit(main(sys.argv[1:]))
