#!/usr/bin/env python3
"""Runs `settle` of a program with rxbatch's words on response files, and compares what it prints.

    tests/run_settle.py PROGRAM [--cases DIR] [--only WORD] [--pairs N] [--seed S] [--jobs J] [--seconds S]

PROGRAM is a path or a command line. Of each folder below DIR (tests/cases next to this file) with a `response.bin` and a
`settlement.txt` the response file has to give the settlement, byte for byte, and with `--provider` only one of its lines.
N pairs of these files, and all of them at once, have to give what this script adds up from their settlements. Files that
are no response files, and details that hold no reply, have to be refused by their lines on standard error, also as the
second of two files. No file may be changed. A run may take S seconds.

A case that differs has one line. The last line is `N passed, M failed`; the exit status is 0 where M is 0, else 1, and
2 where no case was found.
"""

import concurrent.futures
import os
import random
import subprocess
import sys
import tempfile
from typing import NamedTuple

from options import parser_of, read_options
from run_cases import HERE, read
from run_replies import FRONT, HEADER, JOB, no_responses, with_texts

RESPONSE, SETTLEMENT = "response.bin", "settlement.txt"


class Case(NamedTuple):
    """The files by name, the words after `settle`, and the answer that is expected; of standard error the first line."""
    name: str
    files: dict
    words: list
    status: int
    stdout: bytes
    stderr: bytes
    stdin: bytes = b""


# ---------------------------------------------------------------- what is expected

def added_up(settlements):
    """The settlement of several together: their head lines, and the sums by provider in order of first appearance."""
    heads, sums, total = [], {}, [0] * 5
    for text in settlements:
        head, *lines, last = text.decode().splitlines()
        heads.append(head)
        for line in lines:
            _, provider, *numbers = line.split("|")
            old = sums.get(provider, [0] * 5)
            sums[provider] = [a + int(b) for a, b in zip(old, numbers)]
        total = [a + int(b) for a, b in zip(total, last.split("|")[1:])]
    rows = [["P", provider, *map(str, numbers)] for provider, numbers in sums.items()]
    return "".join(line + "\n" for line in [*heads, *map("|".join, rows), "|".join(["TOTAL", *map(str, total)])]).encode()


def lines_of(settlement):
    """Each provider with its line."""
    return [(line.split(b"|")[1].decode(), line) for line in settlement.splitlines(True) if line.startswith(b"P|")]


# ---------------------------------------------------------------- cases

def jobs(top):
    """The response file and the settlement of each folder that has both."""
    for folder, _, names in sorted(os.walk(top)):
        if RESPONSE in names and SETTLEMENT in names:
            response = read(folder, RESPONSE)
            if response:
                yield os.path.relpath(folder, top), response, read(folder, SETTLEMENT)


def alone(name, response, settlement):
    """One response file, and each of its providers."""
    words = ["--response", "a"]
    yield Case(name, {"a": response}, words, 0, settlement, b"")
    for provider, line in lines_of(settlement):
        yield Case(f"{name} --provider {provider}", {"a": response}, [*words, "--provider", provider], 0, line, b"")
        yield Case(f"{name} --provider {provider} and blanks", {"a": response}, [*words, "--provider", provider + "  "], 0,
                   line, b"")
    yield Case(f"{name} of nobody", {"a": response}, [*words, "--provider", "nobody"], 4, b"",
               b"rxbatch: --provider nobody: the files have no answer of it\n")
    yield Case(f"{name} by standard input", {}, ["--response", "-"], 0, settlement, b"", response)


def together(name, parts, repeated):
    """Several response files, by one option or by one for each."""
    files = {f"f{n}": response for n, (_, response, _) in enumerate(parts)}
    words = [w for f in files for w in ("--response", f)] if repeated else ["--response", *files]
    settlements = [settlement for _, _, settlement in parts]
    whole = added_up(settlements)
    yield Case(name, files, words, 0, whole, b"")
    for provider, line in lines_of(whole)[:3]:
        yield Case(f"{name} --provider {provider}", files, ["--provider", provider, *words], 0, line, b"")


def refused():
    """Files that are refused, as the first, the second and the only one."""
    response, trailer = read(JOB, RESPONSE), read(JOB, RESPONSE).rindex(b"\x02")
    reply = response[HEADER + FRONT:trailer - 1]
    bad = [(case.name, case.file, case.stderr) for case in no_responses(response, trailer)]
    for name, text, fault in (("no text", b"", 1), ("no answer", reply[:31], 2), ("an answer X", reply.replace(b"ANP", b"ANX"), 3)):
        bad.append((name, with_texts(response, trailer, [text]), b"reply %d 1\n" % fault))
        bad.append((f"{name} behind a reply", with_texts(response, trailer, [reply, text, b""]), b"reply %d 2\n" % fault))
    for name, file, line in bad:
        yield Case(name, {"a": file}, ["--response", "a"], 1, b"", line)
        yield Case(f"{name}, the second", {"a": response, "b": file}, ["--response", "a", "b"], 1, b"", line)
        yield Case(f"{name}, before another", {"a": file, "b": b""}, ["--response", "a", "b"], 1, b"", line)
    yield Case("a file that isn't there", {}, ["--response", "a"], 3, b"", b"file 4\n")
    yield Case("no file", {}, [], 2, b"", None)
    yield Case("standard input twice", {"a": response}, ["--response", "-", "a", "--response=-"], 2, b"",
               b"rxbatch: --response and --response are both -: only one path may be (/dev/stdin and /dev/stdout are the same "
               b"streams)\n")


def all_cases(top, options):
    parts = [part for part in jobs(top) if options.only in part[0]]
    for part in parts:
        yield from alone(*part)
    if not parts:
        return
    chance = random.Random(options.seed)
    for n in range(options.pairs):
        pair = [chance.choice(parts) for _ in range(chance.choice([2, 2, 2, 3]))]
        yield from together(" + ".join(name for name, _, _ in pair), pair, n % 2 == 1)
    yield from together("all cases", parts, False)


# ---------------------------------------------------------------- running

def difference(options, case):
    """What is wrong with a run of the case, or nothing."""
    with tempfile.TemporaryDirectory() as folder:
        for name, content in case.files.items():
            with open(os.path.join(folder, name), "wb") as file:
                file.write(content)
        run = subprocess.run([*options.program, "settle", *case.words], cwd=folder, input=case.stdin, capture_output=True,
                             timeout=options.seconds, check=False)
        changed = [name for name, content in case.files.items() if read(folder, name) != content]
    line, end, words = run.stderr.partition(b"\n")
    if case.stderr is not None and line + end != case.stderr or case.status == 1 and len(words) < 8:
        return f"expected on standard error {case.stderr} and words, found {run.stderr}"
    if (run.returncode, run.stdout) != (case.status, case.stdout):
        return f"expected {(case.status, case.stdout)}, found {(run.returncode, run.stdout)}"
    return f"changed {changed}" if changed else ""


def main(words):
    parser = parser_of(__doc__)
    parser.add_argument("--cases", help="only the cases below this folder")
    parser.add_argument("--pairs", type=int, default=100)
    parser.add_argument("--seed", default="settle")
    options = read_options(parser, words)
    cases = list(all_cases(options.cases or os.path.join(HERE, "cases"), options))
    if options.cases is None:
        cases += [case for case in refused() if options.only in case.name]
    failed = 0
    with concurrent.futures.ThreadPoolExecutor(options.jobs) as pool:
        for case, wrong in zip(cases, pool.map(lambda case: difference(options, case), cases)):
            if wrong:
                failed += 1
                print(f"{case.name}: {wrong}", flush=True)
    print(f"{len(cases) - failed} passed, {failed} failed")
    return 1 if failed else 0 if cases else 2


if __name__ == "__main__":
    sys.exit(main(sys.argv[1:]))
