#!/usr/bin/env python3
"""Runs the commands that the pages show, and compares what they print with what stands below them.

    tests/run_pages.py PROGRAM

A shown command is a line `$ COMMAND` in a block of a page, which goes on where a line ends in `\\`; below it stands what it
prints, up to the next one or the end of the block. The commands of a block are those of one session, in the page's folder of a
tree that has bench/ and examples/ and `rxbatch` at its top, as `make demo` leaves it; `rxbatch` is also found by name, and is
PROGRAM, a path. Those of docs/DISPUTE.md are left to run_dispute.py: all its blocks are one session.

Commands that take too long here or change the system stand without `$`. Of them, in blocks and in backquotes, each goal of
`make` has to be there, and each script `python3 PATH ..`, which has to know the options.

The last line is `N passed, M failed`; the exit status is 1 where M isn't 0.
"""

import os
import pathlib
import re
import shutil
import subprocess
import sys
import tempfile

ROOT = pathlib.Path(__file__).resolve().parent.parent
PAGES = ("*.md", "docs/*.md", "bench/*.md", "examples/*/*.md", "tests/*.md", "tests/cases/*.md")
STORY = ROOT / "docs/DISPUTE.md"
BLOCK = re.compile(r"^```\w*\n(.*?)^```$", re.M | re.S)
SHOWN = re.compile(r"^\$ ((?:.*\\\n)*.*)\n((?:(?!\$ ).*\n)*)", re.M)
QUOTED = re.compile(r"`([^`\n]+)`")
GOAL = re.compile(r"(?:^|\s)make ([a-z][a-z-]*)")
SCRIPT = re.compile(r"(?:^|\s)python3 ([\w./]+\.py)([^&|\n]*)")
END = "\x1e"


def printed_by(commands, folder, environment):
    """What each of these commands of one session prints, on standard output and standard error."""
    session = "".join(f"{command}\nprintf '\\036'\n" for command in commands)
    ended = subprocess.run(["sh", "-c", f"exec 2>&1\n{session}"], cwd=folder, env=environment, stdin=subprocess.DEVNULL,
                           stdout=subprocess.PIPE, timeout=600, check=False)
    printed = ended.stdout.decode("utf-8", "replace").split(END)
    return printed[:len(commands)] + ["the session ended"] * (len(commands) - len(printed))


def try_block(page, shown, program):
    """How each command of a block differs that doesn't print what the page shows."""
    with tempfile.TemporaryDirectory(prefix="rxbatch-pages-") as place:
        top = pathlib.Path(place)
        for folder in ("bench", "examples"):
            shutil.copytree(ROOT / folder, top / folder, ignore=shutil.ignore_patterns("__pycache__"))
        (top / "rxbatch").symlink_to(program)
        folder = top / page.parent.relative_to(ROOT)
        folder.mkdir(parents=True, exist_ok=True)
        environment = {**os.environ, "PATH": f"{top}:{os.environ['PATH']}"}
        printed = printed_by([command for command, _ in shown], folder, environment)
    return [f"$ {command}\n{there}" for (command, text), there in zip(shown, printed) if there != text]


def has_goal(goal):
    """Whether `make` knows a goal."""
    return subprocess.run(["make", "-n", goal], cwd=ROOT, stdout=subprocess.DEVNULL, stderr=subprocess.DEVNULL, check=False).returncode == 0


def knows(script, options):
    """Whether a script is there and has all these options."""
    if not options:
        return script.exists()
    shown = subprocess.run([sys.executable, script, "--help"], stdout=subprocess.PIPE, stderr=subprocess.STDOUT, text=True, check=False)
    return shown.returncode == 0 and all(re.search(rf"{option}\b", shown.stdout) for option in options)


def named_in(page, text):
    """The goals and scripts that a page names without running them, each as the words that stand there and whether they hold."""
    unshown = "\n".join([SHOWN.sub("", block) for block in BLOCK.findall(text)] + QUOTED.findall(BLOCK.sub("", text)))
    for goal in sorted(set(GOAL.findall(unshown))):
        yield f"make {goal}", has_goal(goal)
    for path, words in sorted(set(SCRIPT.findall(unshown))):
        beside = page.parent / path
        script = beside if beside.exists() else ROOT / path
        yield f"python3 {path}{words}", knows(script, re.findall(r"(?<!\S)--[a-z-]+", words))


def try_page(page, program):
    """How many commands of a page hold, and those that don't."""
    text = page.read_text()
    blocks = [shown for shown in map(SHOWN.findall, BLOCK.findall(text)) if shown and page != STORY]
    failed = [line for shown in blocks for line in try_block(page, shown, program)]
    named = list(named_in(page, text))
    failed += [words for words, holds in named if not holds]
    return sum(map(len, blocks)) + len(named) - len(failed), [f"{page.relative_to(ROOT)}: {line}" for line in failed]


def main(words):
    if len(words) != 1:
        sys.exit(__doc__)
    program = pathlib.Path(words[0]).resolve()
    answers = [try_page(page, program) for pattern in PAGES for page in sorted(ROOT.glob(pattern))]
    failed = [line for _, lines in answers for line in lines]
    for line in failed:
        print(line)
    print(f"{sum(passed for passed, _ in answers)} passed, {len(failed)} failed")
    return 1 if failed else 0


if __name__ == "__main__":
    sys.exit(main(sys.argv[1:]))
