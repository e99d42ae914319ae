#!/usr/bin/env python3
"""Runs the commands of docs/DISPUTE.md, all in one session, and compares what they print and write.

    tests/run_dispute.py PROGRAM

The session begins with the inputs of examples/dispute in a folder of their own, where `rxbatch` is PROGRAM, a path. What each
command prints has to be what the page shows below it, and the session has to leave the inputs as they were and, below them, just
the files of examples/dispute/expected, byte for byte.

What differs has a line. The last line is `N passed, M failed`; the exit status is 1 where M isn't 0.
"""

import os
import pathlib
import shutil
import sys
import tempfile

from run_pages import BLOCK, ROOT, SHOWN, STORY, printed_by

INPUTS = ROOT / "examples" / "dispute"
EXPECTED = INPUTS / "expected"


def files_in(folder):
    """The files below a folder, by their paths in it."""
    return {path.relative_to(folder).as_posix(): path.read_bytes() for path in folder.rglob("*") if path.is_file()}


def left_by(session, program):
    """What each command of a session prints, and the files that are there at its end."""
    with tempfile.TemporaryDirectory(prefix="rxbatch-dispute-") as place:
        top = pathlib.Path(place)
        (top / "bin").mkdir()
        (top / "bin" / "rxbatch").symlink_to(program)
        shutil.copytree(INPUTS, top / "job", ignore=shutil.ignore_patterns(EXPECTED.name))
        environment = {**os.environ, "PATH": f"{top / 'bin'}:{os.environ['PATH']}"}
        return printed_by(session, top / "job", environment), files_in(top / "job")


def main(words):
    if len(words) != 1:
        sys.exit(__doc__)
    shown = [pair for block in BLOCK.findall(STORY.read_text()) for pair in SHOWN.findall(block)]
    printed, files = left_by([command for command, _ in shown], pathlib.Path(words[0]).resolve())
    failed = [f"$ {command}\n{there}" for (command, text), there in zip(shown, printed, strict=True) if text != there]
    expected = {name: text for name, text in files_in(INPUTS).items() if not name.startswith(f"{EXPECTED.name}/")}
    expected.update(files_in(EXPECTED))
    failed += [f"{name} differs" for name in sorted({*files, *expected}) if files.get(name) != expected.get(name)]
    for line in failed:
        print(line)
    count = len(shown) + len({*files, *expected})
    print(f"{count - len(failed)} passed, {len(failed)} failed")
    return 1 if failed or not shown else 0


if __name__ == "__main__":
    sys.exit(main(sys.argv[1:]))
