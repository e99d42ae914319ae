#!/usr/bin/env python3
"""Times `members`, `age` and `family` next to `run` on the same books, and prints a table.

    bench/time_upkeep.py PROGRAM DIR [--rows N] [--rounds R] [--workers W]

DIR is a folder that make_job.py wrote, best with `--records 1`, so that `run` only reads and writes the books. A members table
of N rows (200,000) is made of the books: each listed member, every second one with another last day, and then new persons of
the families in turn. `age` takes out the older half of the claims, `family` prints the first family. The commands are timed in
turn, R rounds; of each the best and the middle of the times are printed, and the processor time of the best.
"""

import argparse
import itertools
import os
import shlex
import statistics
import sys
import tempfile

from time_run import INPUTS, OUTPUTS, paths, stamp_of, timed


def table_of(books, rows):
    """A members table, and the day before which half of the claims are dated."""
    members, days = [], []
    for line in books:
        kind, *fields = line.rstrip("\n").split("|")
        if kind == "M":
            members.append(fields)
        elif kind == "C":
            days.append(fields[2])
    families = sorted({fields[0] for fields in members})
    lines = [f"{family}\t{person}\t{first}\t{'20261130' if place % 2 else last}\n"
             for place, (family, person, first, last, *_) in enumerate(members)]
    new = (f"{family}\tn{number}\t20260101\t20261231\n" for number in range(10) for family in families)
    lines += itertools.islice(new, max(0, rows - len(lines)))
    return "family\tperson\tfirst\tlast\n" + "".join(lines[:rows]), sorted(days)[len(days) // 2], families[0]


def main():
    parser = argparse.ArgumentParser(description=__doc__, formatter_class=argparse.RawDescriptionHelpFormatter)
    parser.add_argument("program")
    parser.add_argument("folder", metavar="DIR")
    parser.add_argument("--rows", type=int, default=200_000)
    parser.add_argument("--rounds", type=int, default=5)
    parser.add_argument("--workers", default="4")
    options = parser.parse_args()
    program = shlex.split(options.program)
    books = os.path.join(options.folder, "books.txt")
    with open(books, encoding="ascii") as file:
        table, day, family = table_of(file, options.rows)
    with tempfile.TemporaryDirectory(prefix="rxbatch-upkeep-", dir=options.folder) as into:
        members, end, left = (os.path.join(into, name) for name in ("members.tsv", "end.txt", "left.txt"))
        with open(members, "w", encoding="ascii") as file:
            file.write(table)
        sheet = os.path.join(options.folder, "sheet.toml")
        given = ["--books", books]
        commands = {
            "`run`": ["run", "--stamp", stamp_of(options.folder), "--workers", options.workers, *paths(INPUTS, options.folder),
                      *paths(OUTPUTS, into)],
            f"`members`, {options.rows:,} rows": ["members", *given, "--members", members, "--books-out", end],
            "`age`, half of the claims": ["age", *given, "--before", day, "--period", f"{day}-99991231", "--refill-percent", "75",
                                          "--books-out", end, "--dropped", left],
            "`age`, no claim": ["age", *given, "--before", "00000101", "--refill-percent", "75", "--books-out", end, "--dropped", left],
            "`family`": ["family", *given, "--family", family],
            "`family`, with a sheet": ["family", *given, "--family", family, "--sheet", sheet],
            "`check`, which reads": ["check", "--sheet", sheet, *given],
        }
        times = {name: [] for name in commands}
        for _ in range(options.rounds):
            for name, words in commands.items():
                times[name].append(timed(program + words))
    print("| Command | Best | Middle | Processor time |\n|---|---|---|---|")
    for name, found in times.items():
        middle = statistics.median(seconds for seconds, _ in found)
        print(f"| {name} | {min(found)[0]:.2f} s | {middle:.2f} s | {min(found)[1]:.2f} s |")


if __name__ == "__main__":
    sys.exit(main())
