#!/usr/bin/env python3
"""Runs one contended job again and again with many workers, and compares every answer with that of one worker.

    tests/contended_runs.py PROGRAM [--desk] [--runs N] [--workers W] [--records R] [--families F] [--jobs J] [--seconds S]

PROGRAM is a path or a command line. The job is made by bench/make_job.py: R records over F families, so that nearly
every record waits for another; with `--desk` its runs share the records at a desk. Each run has to end by itself within S seconds, with status 0 and the three outputs of
the run with one worker; the first that doesn't is reported with what differs. The last line is `N passed, M failed`.
"""

import argparse
import concurrent.futures
import hashlib
import os
import shlex
import subprocess
import sys
import tempfile

HERE = os.path.dirname(os.path.abspath(__file__))
MAKER = os.path.join(HERE, "..", "bench", "make_job.py")
INPUTS = {"--sheet": "sheet.toml", "--books": "books.txt", "--batch": "batch.bin"}
OUTPUTS = {"--response": "response.bin", "--books-out": "books-out.txt", "--settlement": "settlement.txt"}


def made_job(folder, records, families):
    """The job's files; each family has one member and, on the middle, two claims."""
    words = ["--records", str(records), "--families", str(families), "--members", "1", "--providers", "3",
             "--claims", str(2 * families), "--reversals", "20", "--hot", "0"]
    subprocess.run([sys.executable, MAKER, folder] + words, check=True, stdout=subprocess.DEVNULL)
    with open(os.path.join(folder, "stamp"), encoding="ascii") as file:
        return file.read()


def answer_of(program, folder, stamp, workers, at_desk, seconds):
    """The status, what stood on standard error, and a digest of each output."""
    with tempfile.TemporaryDirectory(prefix="rxbatch-contended-") as into:
        words = ["run", "--stamp", stamp, "--workers", str(workers)] + ["--desk"] * at_desk
        for files, place in ((INPUTS, folder), (OUTPUTS, into)):
            for option, name in files.items():
                words += [option, os.path.join(place, name)]
        try:
            ended = subprocess.run(program + words, stdin=subprocess.DEVNULL, capture_output=True, timeout=seconds)
        except subprocess.TimeoutExpired:
            return "no end", b"", ()
        digests = []
        for name in OUTPUTS.values():
            with open(os.path.join(into, name), "rb") as file:
                digests.append(hashlib.sha256(file.read()).hexdigest())
        return ended.returncode, ended.stderr, tuple(digests)


def main(words):
    parser = argparse.ArgumentParser(description=__doc__, formatter_class=argparse.RawDescriptionHelpFormatter)
    parser.add_argument("program", metavar="PROGRAM")
    parser.add_argument("--desk", action="store_true", help="run with --desk")
    parser.add_argument("--runs", type=int, default=10_000)
    parser.add_argument("--workers", type=int, default=64)
    parser.add_argument("--records", type=int, default=200)
    parser.add_argument("--families", type=int, default=4)
    parser.add_argument("--jobs", type=int, default=2)
    parser.add_argument("--seconds", type=float, default=60, help="for one run of the program; default: 60")
    options = parser.parse_args(words)
    program = [os.path.abspath(word) if os.path.exists(word) else word for word in shlex.split(options.program)]
    passed = failed = 0
    with tempfile.TemporaryDirectory(prefix="rxbatch-contended-") as folder:
        stamp = made_job(folder, options.records, options.families)
        wanted = answer_of(program, folder, stamp, 1, False, options.seconds)
        if wanted[0] != 0:
            sys.exit(f"one worker answers {wanted[0]}: {wanted[1]!r}")
        with concurrent.futures.ThreadPoolExecutor(options.jobs) as pool:
            runs = pool.map(lambda _: answer_of(program, folder, stamp, options.workers, options.desk, options.seconds),
                            range(options.runs))
            for number, got in enumerate(runs, 1):
                if got == wanted:
                    passed += 1
                    continue
                failed += 1
                differing = [name for name, a, b in zip(OUTPUTS.values(), wanted[2], got[2]) if a != b]
                print(f"run {number}: status {got[0]} {got[1]!r} {' '.join(differing)}", flush=True)
    print(f"{passed} passed, {failed} failed")
    return 1 if failed else 0


if __name__ == "__main__":
    sys.exit(main(sys.argv[1:]))
