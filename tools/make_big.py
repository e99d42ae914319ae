#!/usr/bin/env python3
"""Makes the cases that are too big or too many to be stored, which `run_cases.py PROGRAM --big` runs.

    tools/make_big.py DIR [--cuts] [--bytes]

Always these two:

    DIR/too-many-line-feeds      books of 1,000,001 line feeds
    DIR/too-many-details         a batch of 100,001 details without a transmission

With `--cuts` DIR/cuts/000 to 325: one-billing's batch file (tests/cases/README.md) cut to each number of bytes. With `--bytes`
DIR/bytes/000-STX and so on: each of its bytes in turn replaced by each of seven; these 2,282 have no expected
answer, but all their runs have to answer the same.
"""

import argparse
import os
import sys

CASES = os.path.join(os.path.dirname(os.path.dirname(os.path.abspath(__file__))), "tests", "cases")
REPLACEMENTS = {"STX": b"\x02", "ETX": b"\x03", "FS": b"\x1c", "GS": b"\x1d", "SS": b"\x1e", "00": b"\x00",
                "FF": b"\xff"}
HEADER = 75             # bytes of a batch header
TRAILER = 56            # bytes of a batch trailer with a message of 35
BOOKS, BATCH = 4, 5     # the faults of a run, as docs/CLI.md numbers them
BOOKS_TOO_MUCH = 6
NO_HEADER, UNCLOSED, NO_TRAILER, BATCH_TOO_MUCH = 2, 4, 8, 12


def one_billing():
    """The inputs of case one-billing."""
    inputs = {}
    for name in ("sheet.toml", "books.txt", "batch.bin", "stamp", "workers"):
        with open(os.path.join(CASES, "one-billing", name), "rb") as file:
            inputs[name] = file.read()
    return inputs


def write_case(top, name, changes, refusal=None):
    """The folder of one-billing with other inputs, refused with these three numbers."""
    files = {**one_billing(), **changes}
    if refusal is not None:
        files["status"], files["refused"] = b"1", b"refused %d %d %d\n" % refusal
    folder = os.path.join(top, name)
    os.makedirs(folder, exist_ok=True)
    for name, text in files.items():
        with open(os.path.join(folder, name), "wb") as file:
            file.write(text)


def many_details(batch, count):
    """The batch with this many details that have no transmission."""
    details = b"".join(b"\x02G1%010d\x03" % place for place in range(1, count + 1))
    trailer = batch[-TRAILER:]
    return batch[:HEADER] + details + trailer[:10] + b"%010d" % count + trailer[20:]


def refusal_of_cut(size, whole):
    """The answer to the first `size` bytes of a file of one detail: the record that is cut, or what is missing."""
    trailer = whole - TRAILER
    if size in (0, HEADER, trailer):
        return BATCH, NO_HEADER if size == 0 else NO_TRAILER, size
    return BATCH, UNCLOSED, max(start for start in (0, HEADER, trailer) if start < size)


def main(words):
    parser = argparse.ArgumentParser(description=__doc__, formatter_class=argparse.RawDescriptionHelpFormatter)
    parser.add_argument("folder", metavar="DIR")
    parser.add_argument("--cuts", action="store_true")
    parser.add_argument("--bytes", action="store_true")
    options = parser.parse_args(words)
    top, batch = options.folder, one_billing()["batch.bin"]
    write_case(top, "too-many-line-feeds", {"books.txt": b"\n" * 1_000_001}, (BOOKS, BOOKS_TOO_MUCH, 0))
    write_case(top, "too-many-details", {"batch.bin": many_details(batch, 100_001)},
               (BATCH, BATCH_TOO_MUCH, HEADER + 100_000 * 14))
    if options.cuts:
        for size in range(len(batch)):
            write_case(top, f"cuts/{size:03d}", {"batch.bin": batch[:size]}, refusal_of_cut(size, len(batch)))
    if options.bytes:
        for place in range(len(batch)):
            for name, byte in REPLACEMENTS.items():
                write_case(top, f"bytes/{place:03d}-{name}",
                           {"batch.bin": batch[:place] + byte + batch[place + 1:]})
    return 0


if __name__ == "__main__":
    sys.exit(main(sys.argv[1:]))
