"""What the tests of whole cases share: the words on the command line, the loop over the cases, and how a run is cut off."""

import argparse
import collections
import concurrent.futures
import os
import re
import shlex
import shutil
import subprocess

WRITING = ("write", "fsync", "rename", "renameat", "renameat2", "fchmod", "fchown")


def cuts_of(trace):
    """The ways in which `strace` cuts off a run of which this is a trace: a kill before each system call, and a failure of each
    that writes, syncs or renames."""
    calls = collections.Counter(re.findall(r"^\d+ +(\w+)\(", trace, re.M))
    for call, count in sorted(calls.items()):
        if call in ("execve", "exit_group", "exit"):
            continue
        yield from (f"{call}:signal=KILL:when={at}" for at in range(1, count + 1))
        if call in WRITING:
            yield from (f"{call}:error={error}:when={at}" for at in range(1, count + 1) for error in ("ENOSPC", "EIO"))


def is_line_with_words(told, line):
    """Whether standard error has this line of numbers, and words after it."""
    front, _, words = told.partition(b"\n")
    return front + b"\n" == line and words.endswith(b"\n") and len(words) > 8


def parser_of(what):
    """A parser of PROGRAM, `--only`, `--jobs` and `--seconds`; `what` says what the script does."""
    parser = argparse.ArgumentParser(description=what, formatter_class=argparse.RawDescriptionHelpFormatter)
    parser.add_argument("program", metavar="PROGRAM")
    parser.add_argument("--only", default="", help="only cases with this word in their name")
    parser.add_argument("--jobs", type=int, default=os.cpu_count() or 1)
    parser.add_argument("--seconds", type=float, default=60, help="for one run of the program; default: 60")
    return parser


def read_options(parser, words):
    """The options of these words, `program` among them as the words of a command line that can be run."""
    options = parser.parse_args(words)
    program = [os.path.abspath(word) if os.path.exists(word) else word for word in shlex.split(options.program)]
    if not program or shutil.which(program[0]) is None:
        parser.error(f"can't run {options.program}")
    options.program = program
    return options


def try_cases(options, cases):
    """Tries each case whose name has the word of `--only`, and prints what differs; the exit status. A case is its name, a
    function and what that is given after the options; the function says what differs, or nothing."""
    cases = [case for case in cases if options.only in case[0]]

    def difference(case):
        try:
            return case[1](options, case[2])
        except (AssertionError, OSError, ValueError, IndexError, subprocess.SubprocessError) as error:
            return f"{type(error).__name__} {error}"

    failed = 0
    with concurrent.futures.ThreadPoolExecutor(options.jobs) as pool:
        for case, found in zip(cases, pool.map(difference, cases)):
            if found:
                failed += 1
                print(f"{case[0]}: {found}", flush=True)
    print(f"{len(cases) - failed} passed, {failed} failed")
    return 1 if failed or not cases else 0
