#!/usr/bin/env python3
"""Shows what rxbatch makes of a folder with sheet.toml, books.txt and batch.bin, by a build without proofs.

    python3 tools/look.py [FOLDER] [--record PLACE[.NTH]] [--stamp CCYYMMDDHHMM] [--lines N]

Without a folder it is examples/first_job. The build takes about two minutes, and nothing of it is kept. Then `check`, `run`,
`report`, `explain` and `replies` go one after another. Printed are the exit status of each, the first N lines (40) of its
output, and of the settlement and the end books. out/look has all of them whole, and the response file. The exit status is 1
where the program can't be built or doesn't end.
"""

import argparse
import pathlib
import re
import shutil
import subprocess
import sys
import time

ROOT = pathlib.Path(__file__).resolve().parent.parent
FIRST_JOB = ROOT / "examples" / "first_job"
LOOK = ROOT / "out" / "look"
NAMES = ("sheet.toml", "books.txt", "batch.bin")
INPUTS = "--sheet sheet.toml --books books.txt --batch batch.bin"
# how `rt try` prints a case, and what it says of one that prints too much
CASE = re.compile(r"^(?:== \S+|the end of the program's standard output:)\n(.*?)^case=\d-(\S+) run=(\S+)(?: status=(\d+))?[^\n]*$", re.M | re.S)
LIMIT = "the program wrote more than"
TOO_LONG = "(it prints more than 1 MiB, which a build without proofs doesn't show)"
# the kit's compiler without the sanitizer, which takes a third of the build and looks for what the proofs exclude
CLANG = """#!/bin/sh
for word do
  shift
  [ "$word" = -fsanitize=address ] || set -- "$@" "$word"
done
exec {clang} "$@"
"""


def commands(record, stamp):
    """The commands in their order, each as its arguments; outputs are named by whole paths, since the program runs elsewhere."""
    outputs = f"--response {LOOK}/response.bin --books-out {LOOK}/books-out.txt --settlement {LOOK}/settlement.txt"
    return {
        "check": f"check {INPUTS}",
        "run": f"run {INPUTS} --stamp {stamp} --workers 4 {outputs}",
        "report": f"report {INPUTS}",
        "explain": f"explain {INPUTS} --record {record}",
        "replies": f"replies --response {LOOK}/response.bin",
    }


def quick_rt():
    """The command `rt` of a kit in out/look that leads to the installed one, but for its compiler."""
    installed = pathlib.Path(shutil.which("rt")).resolve().parent.parent
    kit = LOOK / "kit"
    shutil.rmtree(kit, ignore_errors=True)
    for folder in (".", "bin", "toolchain", "toolchain/bin"):
        (kit / folder).mkdir(parents=True, exist_ok=True)
        for file in (installed / folder).iterdir():
            if folder == "bin" and file.name in ("rt", "rtlib.py"):
                shutil.copy(file, kit / folder)
            elif file.relative_to(installed).as_posix() not in ("bin", "toolchain", "toolchain/bin", "toolchain/bin/clang"):
                (kit / folder / file.name).symlink_to(file)
    clang = kit / "toolchain" / "bin" / "clang"
    clang.write_text(CLANG.format(clang=installed / "toolchain" / "bin" / "clang"))
    clang.chmod(0o755)
    return str(kit / "bin" / "rt")


def prepare(folder, arguments):
    """Empties out/look, and writes a case for each command. Gives the words that build the program and run it on them."""
    cases = LOOK / "cases"
    cases.mkdir(parents=True, exist_ok=True)
    for path in [*LOOK.glob("*.*"), *cases.iterdir()]:
        path.unlink()
    for at, (name, words) in enumerate(arguments.items()):
        (cases / f"{at}-{name}").touch()
        (cases / f"{at}-{name}.args").write_text(words.replace(" ", "\n") + "\n")
    data = [word for name in NAMES for word in ("--data", f"{name}={folder / name}")]
    # `rt try` interprets each case too, which takes longer than all else and shows the same: that ends at its first step
    return [quick_rt(), "try", "--steps", "1", *data, "--cases", str(cases)]


def show(heading, text, most):
    """Prints the first lines of a text below a heading."""
    lines = text.splitlines()
    print(f"\n== {heading}")
    print("\n".join(lines[:most]) or "(prints nothing)")
    if len(lines) > most:
        print(f"(and {len(lines) - most:,} lines more in out/look)")


def read(name):
    """A text that the run has left, or nothing."""
    path = LOOK / name
    return path.read_text(errors="replace") if path.exists() else ""


def printed_by(text, ended):
    """What a command printed, or why that isn't known."""
    return text if ended == "ended" else TOO_LONG if LIMIT in text else f"it didn't end:\n{text}"


def show_outputs(replies, most):
    """Prints what the run has written."""
    show("settlement: paid, duplicate, reversed, rejected, net in cents", read("settlement.txt"), most)
    show("response: record, answer, status, ..", replies, most)
    show("end books", read("books-out.txt"), min(most, 10))


def look(folder, arguments, most):
    """Builds the program, runs it and prints all: whether each command ended."""
    print("look: building without proofs, which takes about two minutes", flush=True)
    start = time.monotonic()
    tried = subprocess.run(prepare(folder, arguments), cwd=ROOT / "crates" / "rxbatch", stdout=subprocess.PIPE, stderr=subprocess.STDOUT)
    text = tried.stdout.decode("utf-8", "replace")
    print(f"look: built and run in {time.monotonic() - start:.0f} s")
    found = {name: (printed_by(printed, ended), ended, status) for printed, name, ended, status in CASE.findall(text)}
    if set(found) != set(arguments):
        print(text)
        return False
    for name, (printed, ended, status) in found.items():
        (LOOK / f"{name}.txt").write_text(printed)
        if name != "replies":
            show(f"rxbatch {arguments[name]}: exit status {status or 'unknown'}".replace(f"{LOOK}/", ""), printed, most)
        if name == "run" and status == "0":
            show_outputs(found["replies"][0], most)
    return all(ended == "ended" or printed == TOO_LONG for printed, ended, _ in found.values())


def main():
    words = argparse.ArgumentParser(description="shows what rxbatch makes of a folder, by a build without proofs")
    words.add_argument("folder", nargs="?", default=FIRST_JOB, type=pathlib.Path)
    words.add_argument("--record", help="the record that is explained: 2 of the first job, else 1")
    words.add_argument("--stamp", help="the stamp of the run: that of the first job, else the time of now")
    words.add_argument("--lines", default=40, type=int, metavar="N", help="how many lines of each output are printed")
    given = words.parse_args()
    folder = given.folder.resolve()
    missing = [name for name in NAMES if not (folder / name).is_file()]
    if missing:
        sys.exit(f"look: {folder} has no {' and no '.join(missing)}")
    is_first = folder == FIRST_JOB
    record = given.record or ("2" if is_first else "1")
    stamp = given.stamp or ("202603170600" if is_first else time.strftime("%Y%m%d%H%M"))
    return 0 if look(folder, commands(record, stamp), given.lines) else 1


if __name__ == "__main__":
    sys.exit(main())
