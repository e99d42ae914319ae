#!/usr/bin/env python3
"""Runs a program with rxbatch's words where two of the six paths of `run` lead to one file: it has to end with 2 and a
line that names both options (none for one text twice), write nothing to either output, make no file, and leave the
files as they were (docs/CLI.md, "Files").

    run_paths.py PROGRAM
"""
import pathlib
import shutil
import subprocess
import sys
import tempfile

JOB = pathlib.Path(__file__).parent / "cases" / "one-billing"
PATHS = {
    "--sheet": "sheet.toml", "--books": "books.txt", "--batch": "batch.bin",
    "--response": "response.bin", "--books-out": "books-out.txt", "--settlement": "settlement.txt",
}


def one_text(folder):
    """One path twice."""
    return {"--books-out": "books.txt"}, ""


def another_text(folder):
    """One file under two texts."""
    return {"--books-out": "./books.txt"}, "--books and --books-out"


def hard_link(folder):
    """One file under two names."""
    (folder / "again.txt").hardlink_to(folder / "books.txt")
    return {"--books-out": "again.txt"}, "--books and --books-out"


def symbolic_link(folder):
    """A name that leads to another."""
    (folder / "again.txt").symlink_to("batch.bin")
    return {"--response": "again.txt"}, "--batch and --response"


def two_outputs(folder):
    """Two outputs that are one file."""
    (folder / "kept.txt").write_bytes(b"kept\n")
    (folder / "again.txt").symlink_to("kept.txt")
    return {"--response": "kept.txt", "--settlement": "again.txt"}, "--response and --settlement"


def two_new_outputs(folder):
    """Two outputs that are one file, which isn't there yet."""
    return {"--response": "out.bin", "--books-out": "./out.bin"}, "--response and --books-out"


def absolute_and_relative(folder):
    """Two outputs that are one new file, by an absolute and a relative path."""
    return {"--books-out": "out.bin", "--settlement": str(folder / "out.bin")}, "--books-out and --settlement"


def link_to_nothing(folder):
    """An output, and a link to it before it is there."""
    (folder / "link.bin").symlink_to("out.bin")
    return {"--response": "link.bin", "--books-out": "out.bin"}, "--response and --books-out"


def texts_in(folder):
    return {path.name: path.read_bytes() if path.exists() else None for path in folder.iterdir()}


def fault_of(program, arrange):
    """What is wrong with the program's answer, or None."""
    with tempfile.TemporaryDirectory() as name:
        folder = pathlib.Path(name)
        for file in ("sheet.toml", "books.txt", "batch.bin"):
            shutil.copy(JOB / file, folder)
        changed, options = arrange(folder)
        paths = PATHS | changed
        before = texts_in(folder)
        words = [word for pair in paths.items() for word in pair] + ["--stamp", "202603020600", "--workers", "1"]
        ended = subprocess.run([program, "run"] + words, cwd=folder, stdin=subprocess.DEVNULL, capture_output=True)
        if ended.returncode != 2:
            return f"status {ended.returncode} and not 2"
        told = f"rxbatch: {options} are the same file\n".encode() if options else b""
        if ended.stdout or ended.stderr != told:
            return f"{ended.stderr!r} on standard error and not {told!r}"
        return None if texts_in(folder) == before else "files were made or changed"


def main(words):
    if len(words) != 1:
        sys.exit(__doc__)
    program = str(pathlib.Path(words[0]).resolve())
    failed = 0
    ways = (
        one_text, another_text, hard_link, symbolic_link, two_outputs, two_new_outputs, absolute_and_relative,
        link_to_nothing,
    )
    for arrange in ways:
        fault = fault_of(program, arrange)
        if fault:
            failed += 1
            print(f"{arrange.__doc__} {fault}")
    print(f"{len(ways) - failed} passed, {failed} failed")
    sys.exit(1 if failed else 0)


if __name__ == "__main__":
    main(sys.argv[1:])
