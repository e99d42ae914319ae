#!/usr/bin/env python3
"""Times `route` over several plans next to `run` of one plan of the same size in all.

    bench/time_route.py PROGRAM DIR [--plans N] [--records N] [--lines N] [--workers LIST] [--rounds R]

make_job.py writes one job of these records and about these lines of books (100,000 and 900,000), and N jobs (20) whose records
and lines are as many together; their records are mixed into one batch, each with its own plan's BIN. Each round times `run`,
then `route`; for each number of workers the best and the middle seconds of both are printed, and their shares.
"""

import argparse
import os
import random
import re
import shlex
import statistics
import subprocess
import sys

HERE = os.path.dirname(os.path.abspath(__file__))
sys.path.insert(0, HERE)

from time_run import stamp_of, timed  # noqa: E402

STX, ETX = b"\x02", b"\x03"


def read(path):
    with open(path, "rb") as file:
        return file.read()


def write(path, text):
    with open(path, "wb") as file:
        file.write(text)


def made(folder, records, lines, seed):
    """Makes a job, where it isn't there: nine lines in ten are claims."""
    families = lines // 30
    words = ["--records", records, "--families", families, "--members", 2, "--claims", lines * 9 // 10, "--seed", seed]
    if not os.path.exists(os.path.join(folder, "stamp")):
        os.makedirs(folder, exist_ok=True)
        subprocess.run([sys.executable, "-B", os.path.join(HERE, "make_job.py"), folder, *map(str, words)], check=True)


def mixed(top, options):
    """The plans file, and the batch of all plans' records; how many lines their books have."""
    requests, tables, lines = [], [], 0
    for place in range(1, options.plans + 1):
        folder = os.path.join(top, str(place))
        made(folder, options.records // options.plans, options.lines // options.plans, place)
        bin = b"9%05d" % place
        sheet = re.sub(rb'(?m)^bin = "\d+"', b'bin = "%b"' % bin, read(f"{folder}/sheet.toml"))
        write(f"{folder}/sheet.toml", sheet)
        lines += read(f"{folder}/books.txt").count(b"\n")
        requests += [bin + record[12:].split(ETX)[0][6:] for record in read(f"{folder}/batch.bin").split(STX)[2:-1]]
        tables.append(f'[[plan]]\nname = "p{place}"\nsheet = "{place}/sheet.toml"\nbooks = "{place}/books.txt"\n'
                      f'books_out = "{place}/out.txt"\nsettlement = "{place}/settlement.txt"\n')
    random.Random(1).shuffle(requests)
    whole = read(f"{top}/one/batch.bin").split(STX)
    details = b"".join(STX + b"G1%010d" % place + request + ETX for place, request in enumerate(requests, 1))
    write(f"{top}/batch.bin", STX + whole[1] + details + STX + whole[-1][:9] + b"%010d" % len(requests) + b" " * 35 + ETX)
    write(f"{top}/plans.toml", "\n".join(tables).encode())
    return lines


def main(words):
    parser = argparse.ArgumentParser(description=__doc__, formatter_class=argparse.RawDescriptionHelpFormatter)
    parser.add_argument("program", metavar="PROGRAM")
    parser.add_argument("folder", metavar="DIR")
    parser.add_argument("--plans", type=int, default=20)
    parser.add_argument("--records", type=int, default=100_000)
    parser.add_argument("--lines", type=int, default=900_000)
    parser.add_argument("--workers", default="1,4")
    parser.add_argument("--rounds", type=int, default=5)
    options = parser.parse_args(words)
    program, top = shlex.split(options.program), options.folder
    made(f"{top}/one", options.records, options.lines, 1)
    print(f"run: {read(f'{top}/one/books.txt').count(10)} lines, route: {mixed(top, options)} lines")
    common = ["--stamp", stamp_of(f"{top}/one"), "--response", f"{top}/response.bin", "--settlement", f"{top}/settlement.txt"]
    one = [word for option, name in (("--sheet", "sheet.toml"), ("--books", "books.txt"), ("--batch", "batch.bin"))
           for word in (option, f"{top}/one/{name}")]
    for workers in options.workers.split(","):
        run = [*program, "run", *common, "--workers", workers, *one, "--books-out", f"{top}/books-out.txt"]
        route = [*program, "route", *common, "--workers", workers, "--plans", f"{top}/plans.toml", "--batch", f"{top}/batch.bin"]
        rounds = [(timed(run)[0], timed(route)[0]) for _ in range(options.rounds)]
        best, middle = map(min, zip(*rounds)), map(statistics.median, zip(*rounds))
        (a, b), (c, d) = best, middle
        print(f"{workers} workers: run {a:.2f}, {c:.2f} s, route {b:.2f}, {d:.2f} s, share {b / a:.2f}, {d / c:.2f}")


if __name__ == "__main__":
    main(sys.argv[1:])
