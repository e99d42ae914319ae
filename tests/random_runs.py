#!/usr/bin/env python3
"""Compares a program with itself on random inputs: `run` with `--plain` and one worker against workers 1, 2,
3, 7 and 64, and with `--desk` and 3.

    tests/random_runs.py PROGRAM [--runs N] [--seed S] [--keep DIR]

The inputs are small jobs of bench/make_job.py with few families, so that records share: records are repeated, sent for
other families, taken back, cut and damaged, and now and then a byte of a whole input is another one. All runs of one
input have to answer the same status, standard error and bytes. An input on which they differ is kept in a folder of DIR
and has one line; the last line is `N passed, M failed`.

That several answers are the same doesn't show that they are right: tests/run_cases.py compares with answers of another
program.
"""

import argparse
import os
import random
import shlex
import subprocess
import sys
import tempfile
from types import SimpleNamespace

HERE = os.path.dirname(os.path.abspath(__file__))
sys.path.insert(0, os.path.join(HERE, "..", "bench"))

import make_job  # noqa: E402

INPUTS = {"--sheet": "sheet.toml", "--books": "books.txt", "--batch": "batch.bin"}
OUTPUTS = {"--response": "response.bin", "--books-out": "books-out.txt", "--settlement": "settlement.txt"}
RUNS = (("1", "--plain"), ("1", None), ("2", None), ("3", None), ("7", None), ("64", None), ("3", "--desk"), ("64", "--plain"))
FRONT = 13              # STX, `G1` and the reference of a detail
SPECIAL = (0x02, 0x03, 0x1C, 0x1D, 0x1E, 0x00, 0x20, 0x30, 0x7C, 0xFF)


# ---------------------------------------------------------------- inputs

def changed(rng, text):
    """The text with one byte changed, put in or taken out."""
    if not text:
        return text
    place, byte = rng.randrange(len(text)), bytes([rng.choice(SPECIAL)])
    return text[:place] + rng.choice((byte, byte + text[place:place + 1], b"")) + text[place + 1:]


def family_changed(rng, text, families):
    """The transmission sent for another family."""
    front, found, rest = text.partition(b"\x1cC2")
    return front + found + rng.choice(families).encode() + rest[8:] if found else text


def taken_back(text):
    """A reversal of the first fill of a billing; another transmission as it is."""
    head, _, groups = text.partition(b"\x1d")
    fields = groups.split(b"\x1d")[0].split(b"\x1c")
    wanted = [field for field in fields if field[:2] in (b"EM", b"D2", b"E1", b"D7")]
    if text[8:10] != b"B1" or len(wanted) != 4:
        return text
    return head[:8] + b"B2" + head[10:20] + b"1" + head[21:56] + b"\x1d\x1e\x1cAM07\x1c" + b"\x1c".join(wanted)


def transmissions(rng, job, texts):
    """The records' transmissions, some sent again and some of these changed."""
    sent = []
    for text in texts:
        sent.append(text)
        while rng.random() < 0.35:
            text = rng.choice(sent)
            kind = rng.randrange(5)
            sent.append((text, taken_back(text), family_changed(rng, text, job.families), changed(rng, text),
                         text[:rng.randrange(len(text) + 1)])[kind])
    return sent


def inputs_of(rng):
    """The files of one job."""
    options = SimpleNamespace(seed=rng.random(), records=rng.choice((0, 1, 2, 3, 5, 10, 30)),
                              families=rng.choice((1, 2, 3, 8)), members=rng.choice((1, 3)), providers=2,
                              claims=rng.choice((0, 1, 10)), drugs=3, transactions=rng.choice((1, 4)),
                              reversals=rng.choice((0, 30)), hot=0, billed=0, billed_claims=None, again=0)
    job = make_job.Job(options)
    first, *details, last = [text.encode("ascii") for text in make_job.batch_records(job)]
    sent = transmissions(rng, job, [detail[FRONT:-1] for detail in details])
    batch = first + b"".join(b"\x02G1%010d" % place + text + b"\x03" for place, text in enumerate(sent, 1))
    files = {"sheet.toml": make_job.sheet_text(job).encode(), "books.txt": "".join(make_job.books_lines(job)).encode(),
             "batch.bin": batch + last[:10] + b"%010d" % len(sent) + last[20:], "stamp": make_job.STAMP.encode()}
    if rng.random() < 0.15:
        name = rng.choice(list(INPUTS.values()))
        files[name] = changed(rng, files[name])
    return files


# ---------------------------------------------------------------- runs

def write(folder, files):
    os.makedirs(folder, exist_ok=True)
    for name, text in files.items():
        with open(os.path.join(folder, name), "wb") as file:
            file.write(text)


def read(folder, name):
    """The bytes of a file, None where it wasn't made."""
    try:
        with open(os.path.join(folder, name), "rb") as file:
            return file.read()
    except FileNotFoundError:
        return None


def answer_of(program, folder, number, way):
    """Status, standard output, standard error and the output files of one run."""
    words = ["run", "--stamp", make_job.STAMP, "--workers", number] + ([way] if way else [])
    words += [word for pair in {**INPUTS, **OUTPUTS}.items() for word in pair]
    ended = subprocess.run(program + words, cwd=folder, stdin=subprocess.DEVNULL, capture_output=True, timeout=60)
    return [ended.returncode, ended.stdout, ended.stderr] + [read(folder, name) for name in OUTPUTS.values()]


def difference(program, folder):
    """Which run differs from the first one, None where all are the same."""
    wanted = answer_of(program, folder, *RUNS[0])
    if wanted[0] != 0 and not (wanted[0] == 1 and wanted[2].startswith(b"refused ")):
        return f"status {wanted[0]}: {wanted[2][:60]!r}"
    for number, way in RUNS[1:]:
        got = answer_of(program, folder, number, way)
        if got != wanted:
            parts = ("status", "standard output", "standard error") + tuple(OUTPUTS.values())
            part = next(name for name, a, b in zip(parts, wanted, got) if a != b)
            return f"{part} of {number} workers{' with ' + way if way else ''} isn't that of one with --plain"
    return None


def main(words):
    parser = argparse.ArgumentParser(description=__doc__, formatter_class=argparse.RawDescriptionHelpFormatter)
    parser.add_argument("program", metavar="PROGRAM")
    parser.add_argument("--runs", type=int, default=200)
    parser.add_argument("--seed", default="1")
    parser.add_argument("--keep", help="where inputs on which runs differ are kept; default: a new folder")
    options = parser.parse_args(words)
    program = [os.path.abspath(word) if os.path.exists(word) else word for word in shlex.split(options.program)]
    keep = options.keep or tempfile.mkdtemp(prefix="rxbatch-random-")
    passed = failed = 0
    for place in range(1, options.runs + 1):
        files = inputs_of(random.Random(f"{options.seed}.{place}"))
        with tempfile.TemporaryDirectory(prefix="rxbatch-run-") as folder:
            write(folder, files)
            found = difference(program, folder)
        if found:
            print(f"{options.seed}.{place}: {found}; kept in {os.path.join(keep, str(place))}", flush=True)
            write(os.path.join(keep, str(place)), files)
        passed, failed = passed + (found is None), failed + (found is not None)
    print(f"{passed} passed, {failed} failed")
    return 1 if failed else 0


if __name__ == "__main__":
    sys.exit(main(sys.argv[1:]))
