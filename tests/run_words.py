#!/usr/bin/env python3
"""Runs a program with words that rxbatch doesn't understand: it has to end with 2, write nothing to standard output, and say
what is wrong on standard error, as `clap` words it (docs/CLI.md, "Exit statuses"). `help` prints its text on standard output.

    run_words.py PROGRAM
"""
import os
import subprocess
import sys
import tempfile

INPUTS = ("--sheet=s", "--books=b", "--batch=c")
OUTPUTS = ("--stamp=d", "--response=e", "--books-out=f", "--settlement=g")
RUN = ("run", *INPUTS, *OUTPUTS)
PLANS = ("--plans=p", "--batch=c")
ROUTE = ("route", *PLANS, "--stamp=d", "--response=e", "--settlement=g")
JOIN = ("join", *PLANS, "--response=e", "--settlement=g")
EXPLAIN = ("explain", *INPUTS)
EXCERPT = ("excerpt", *INPUTS, "--out=o")
ADJUDICATE = ("adjudicate", *INPUTS, "--out=o")
REPORT = ("report", *INPUTS)
VERIFY = ("verify", *INPUTS, *OUTPUTS)
MEMBERS = ("members", "--members=m", "--books-out=o")
AGE = ("age", "--books=b", "--before=20260101", "--books-out=o", "--dropped=d")
UNUSED = "the argument '{}' cannot be used with"

# Words, how the text begins, and what it has further on.
REFUSED = (
    ((), "", "Usage: rxbatch <COMMAND>"),
    (("--help",), "", "Usage: rxbatch <COMMAND>"),
    (("pay",), "error: unrecognized subcommand 'pay'\n", ""),
    (("p\x1b[2J\ty",), "error: unrecognized subcommand 'p<1B>[2J<09>y'\n", ""),
    (("sample", "more"), "error: unexpected argument 'more' found\n", "Usage: rxbatch sample"),
    (("show", "--sheet=s"), "error: the following required arguments were not provided:\n  --batch <", "Usage: rxbatch show"),
    *(((*words,), "error: expected one of '--sheet <FILE>' and '--plans <FILE>', and '--books <FILE>' only with '--sheet'\n",
       "Usage: rxbatch check") for words in (("check", "--books=b"), ("check", *PLANS, "--sheet=s"), ("check", *PLANS, "--books=b"))),
    ((*RUN, "--workers=+5"), "error: invalid value '+5' for '--workers <N>': expected a number from 1 to 64\n\nUsage: rxbatch run ", ""),
    ((*RUN, "--workers=65536"), "error: invalid value '65536' for '--workers <N>': expected a number from 1 to 64", ""),
    ((*RUN, "--workers="), "error: ", "--workers <N>"),
    (RUN[:-1], "error: the following required arguments were not provided:\n  --settlement <FILE>\n", "Usage: rxbatch run "),
    (("adjudicate", *INPUTS), "error: the following required arguments were not provided:\n  --out <DIR>\n",
     "Usage: rxbatch adjudicate "),
    ((*ADJUDICATE, "--workers=+2"), "error: invalid value '+2' for '--workers <N>': expected a number from 1 to 64", "rxbatch adjudicate "),
    ((*ADJUDICATE, "--safe"), "error: unexpected argument '--safe' found\n", "Usage: rxbatch adjudicate "),
    (("fault", "4", "5"), "error: the following required arguments were not provided:\n  <P>\n", "Usage: rxbatch fault "),
    (("fault", "4", "5", "x"), "error: expected the three numbers of a line 'refused N M P'\n", "Usage: rxbatch fault "),
    (ROUTE[:-1], "error: the following required arguments were not provided:\n  --settlement <FILE>\n", "Usage: rxbatch route "),
    ((*ROUTE, "--workers=+4"), "error: invalid value '+4' for '--workers <N>': expected a number from 1 to 64", "rxbatch route "),
    ((*ROUTE, "--sheet=s"), "error: unexpected argument '--sheet' found\n", "Usage: rxbatch route "),
    (JOIN[:-1], "error: the following required arguments were not provided:\n  --settlement <FILE>\n", "Usage: rxbatch join "),
    ((*JOIN, "--stamp=d"), "error: unexpected argument '--stamp' found\n", "Usage: rxbatch join "),
    *(((*words, "--record=4"), "error: expected '--sheet <FILE>' and '--books <FILE>', or '--plans <FILE>'\n", "Usage: rxbatch explain ")
      for words in ((*EXPLAIN, "--plans=p"), ("explain", *PLANS, "--books=b"), ("explain", "--batch=c"), EXPLAIN[:2] + EXPLAIN[3:])),
    *((words, "error: expected '--sheet <FILE>', '--books <FILE>' and '--books-out <FILE>', or '--plans <FILE>'\n",
       "Usage: rxbatch verify ") for words in (("verify", *PLANS, *OUTPUTS), (*VERIFY, "--plans=p"), (*VERIFY[:-2], VERIFY[-1]))),
    (("verify", *PLANS, "--stamp=d", "--response=e", "--settlement=g", "--desk"),
     "rxbatch: --plans: expected neither '--plain' nor '--desk'\n", ""),
    ((*REPORT, "--plans=p"), "error: expected '--sheet <FILE>' and '--books <FILE>', or '--plans <FILE>'\n", "Usage: rxbatch report "),
    (("report", *PLANS, "--html"), "rxbatch: --plans: expected a report without '--html' and '--html-dir'", ""),
    ((*VERIFY, "--workers=+4"), "error: invalid value '+4' for '--workers <N>': ", "Usage: rxbatch verify "),
    (EXPLAIN, "error: expected one of '--record <PLACE>', '--number <AUTHORIZATION>' and", "\n\nUsage: rxbatch explain "),
    ((*EXPLAIN, "--record=4", "--number=1"), "error: ", "\n\nUsage: rxbatch explain "),
    *(((*EXPLAIN, word), "error: expected only digits after '--record', '--number' and '--rx'", "Usage: rxbatch explain ")
      for word in ("--record=x", "--record=", "--record=5.", "--record=.1", "--record=1.2.3", "--record=+1", "--number=12a",
                   "--number=", "--rx=4-1", "--rx= 4")),
    (EXCERPT, "error: the following required arguments were not provided:\n  --record <PLACE>\n", "Usage: rxbatch excerpt "),
    *(((*EXCERPT, word), "error: expected only digits after '--record': an excerpt is of a whole record, as 5\n\n",
       "Usage: rxbatch excerpt ") for word in ("--record=x", "--record=", "--record=5.1", "--record=+1")),
    ((*EXPLAIN, "--record=4", "--provider=P1"), "error: ", "\n\nUsage: rxbatch explain "),
    ((*EXPLAIN, "--number=1", "--rx=412"), "error: ", "\n\nUsage: rxbatch explain "),
    ((*REPORT, "--family=F1", "--provider=P1"), "error: ", "\n\nUsage: rxbatch report "),
    ((*REPORT, "--tsv", "--json"), "error: ", "\n\nUsage: rxbatch report "),
    ((*REPORT, "--json", "--jsonl"), "error: ", "'--tsv', '--json', '--jsonl', '--html' and '--html-dir <DIR>'"),
    (MEMBERS[:-1], "error: the following required arguments were not provided:\n  --books-out <FILE>\n", "Usage: rxbatch members "),
    *(((*MEMBERS, *more), "error: expected one of '--books <FILE>' and '--period <FIRST-LAST>'\n", "Usage: rxbatch members ")
      for more in ((), ("--books=b", "--period=20260101-20261231"))),
    ((*MEMBERS, "--books=b", "--sheet=s"), "error: unexpected argument '--sheet' found", "Usage: rxbatch members "),
    (AGE[:-1], "error: the following required arguments were not provided:\n  --dropped <FILE>\n", "Usage: rxbatch age "),
    *(((*AGE, *more), "error: expected one of '--sheet <FILE>' and '--refill-percent <N>'\n", "Usage: rxbatch age ")
      for more in ((), ("--sheet=s", "--refill-percent=75"))),
    (("age", "--books=b", "--before=2026011", "--books-out=o", "--dropped=d", "--refill-percent=75"),
     "rxbatch: --before: expected a date of eight digits\n", ""),
    *(((*AGE, f"--refill-percent={number}"), "rxbatch: --refill-percent: expected 0 to 100\n", "") for number in ("101", "x", "")),
    *(((*AGE, "--refill-percent=75", f"--period={period}"), "rxbatch: --period: expected two dates of eight digits with a hyphen", "")
      for period in ("20260101", "20261231-20260101", "20260101-20260230", "2026-01-01-2026-12-31")),
)

# One path under two options is shown by the status only.
TWICE = (
    (*RUN, "--workers=1", "--log=b"),
    (*RUN[:-1], "--settlement=b", "--workers=1"),
)

# The command `help` is no fault: its text is on standard output.
HELP = (("help",), ("help", "join"), ("help", "run"), ("help", "adjudicate"), ("help", "members"), ("help", "age"))

# What is understood goes on to its files, which aren't here: the number of the one that can't be opened. Commands for people
# say it in words too.
NO_SHEET = b"file 1\n--sheet s: no such file or directory\n"
NO_PLANS = b"file 13\n--plans p: no such file or directory\n"
UNDERSTOOD = (
    (RUN, b"file 1\n"),
    ((*ADJUDICATE, "--stamp=d", "--workers=3", "--again", "--strict", "--quiet"), NO_SHEET),
    ((*EXPLAIN, "--record=5.3"), NO_SHEET),
    ((*EXPLAIN, "--number=000000100000011"), NO_SHEET),
    ((*EXPLAIN, "--rx=007", "--provider=P1"), NO_SHEET),
    (REPORT, NO_SHEET),
    (ROUTE, NO_PLANS),
    ((*JOIN, "--safe"), NO_PLANS),
    (("check", *PLANS), b"file 13\n"),
    (("explain", *PLANS, "--rx=007"), NO_PLANS),
    (("report", *PLANS, "--jsonl"), NO_PLANS),
    (("verify", *PLANS, "--stamp=d", "--response=e", "--settlement=g", "--workers=2"), NO_PLANS),
    ((*REPORT, "--jsonl"), NO_SHEET),
    (("run", "--plain", *INPUTS, *OUTPUTS, "--workers=007"), b"file 1\n"),
    (("run", "-v", *INPUTS, *OUTPUTS, "--safe", "--log=h", "--workers=4"), None),
    (("plan", "--batch", "c", "--books", "b", "--sheet", "s"), b"file 1\n"),
    (("show", "--sheet=s", "--batch=c", "--tsv"), b"file 1\n"),
    (VERIFY, NO_SHEET),
    ((*MEMBERS, "--books=b"), b"file 8\n--members m: no such file or directory\n"),
    ((*AGE, "--sheet=s"), NO_SHEET),
    ((*AGE, "--refill-percent=075", "--period=20260101-20261231"), b"file 2\n--books b: no such file or directory\n"),
)


def main():
    if len(sys.argv) != 2:
        sys.exit(__doc__)
    program, failures = os.path.abspath(sys.argv[1]), []
    with tempfile.TemporaryDirectory() as folder:
        def run(words):
            return subprocess.run([program, *words], cwd=folder, stdin=subprocess.DEVNULL, capture_output=True, timeout=60)

        for words, front, more in REFUSED:
            done = run(words)
            text = done.stderr.decode()
            if (done.returncode, done.stdout) != (2, b"") or not text.startswith(front) or more not in text:
                failures.append((words, done))
        for words in TWICE:
            done = run(words)
            if (done.returncode, done.stdout, done.stderr) != (2, b"", b""):
                failures.append((words, done))
        for words in HELP:
            done = run(words)
            if (done.returncode, done.stderr) != (0, b"") or b"Usage: rxbatch " not in done.stdout:
                failures.append((words, done))
        for words, wanted in UNDERSTOOD:
            done = run(words)
            if done.returncode != 3 or wanted not in (None, done.stderr, done.stdout):
                failures.append((words, done))
    for words, done in failures:
        print(f"{' '.join(words)!r}: status {done.returncode}, {done.stdout[:80]!r}, {done.stderr[:300]!r}")
    total = len(REFUSED) + len(TWICE) + len(HELP) + len(UNDERSTOOD)
    print(f"{total - len(failures)} passed, {len(failures)} failed")
    return 1 if failures else 0


if __name__ == "__main__":
    sys.exit(main())
