#!/usr/bin/env python3
"""Times two programs in turn on the same files, and prints what the second takes of the first.

    bench/compare_programs.py OLD NEW DIR [--few DIR] [--small DIR] [--steps] [--rounds R]

DIR and the folder of --few have what make_job.py wrote: `run` is timed with 1, 2 and 4 workers on both, on DIR with `-v`, `--log`
and `--log --sums` too, each as a share of the plain run of the same program. The folder of --small has a sheet, books and a batch
of few records: there each command is timed, in processor time too. With `--steps` both programs write logs on DIR and on the folder
of --few, with 1 and 4 workers, and their steps are compared: where few records touch few claims, most of `adjudicate` are the books
read, and the end books made of their unchanged lines. All programs have to end with status 0, and both to write the same files. A
line has the best and the middle of R rounds in seconds for both, the shares of both, and of a run the peaks of memory in MiB.
"""

import argparse
import os
import statistics
import subprocess
import sys
import tempfile
import time

from time_run import INPUTS, OUTPUTS, STEPS, paths, stamp_of, steps_of

# the first job's stamp is as good as any for commands that only read
STAMP = "202603170600"
# how often a small command is run in one round, which is then timed as one
TIMES = 20
# the seconds that a step has to take to be compared
LEAST = 0.001


def timed(words):
    """Seconds by the clock, the peak of memory in MiB, and seconds of processor time, of a command that has to end with status 0."""
    begun = time.perf_counter()
    process = subprocess.Popen(words, stdin=subprocess.DEVNULL, stdout=subprocess.DEVNULL, stderr=subprocess.DEVNULL)
    _, status, used = os.wait4(process.pid, 0)
    if status:
        sys.exit(f"{' '.join(words)}: status {os.waitstatus_to_exitcode(status)}")
    return time.perf_counter() - begun, used.ru_maxrss / 1024, used.ru_utime + used.ru_stime


def in_turn(commands, rounds, times=1):
    """For each command, given by name, what it took in each round: all commands go once before any goes again."""
    found = {name: [] for name in commands}
    for _ in range(rounds):
        for name, words in commands.items():
            each = [timed(words) for _ in range(times)]
            clock, peaks, processor = zip(*each)
            found[name].append((sum(clock) / times, max(peaks), sum(processor) / times))
    return found


def best_and_middle(found, of=0):
    """The best and the middle of the seconds: by the clock, or of processor time."""
    seconds = [it[of] for it in found]
    return min(seconds), statistics.median(seconds)


def line(name, old, new, with_peaks=True, of=0):
    """A line of the table: both programs' seconds, the shares of the best and of the middle, and the peaks."""
    (best, middle), (new_best, new_middle) = best_and_middle(old, of), best_and_middle(new, of)
    peak, new_peak = (max(it[1] for it in found) for found in (old, new))
    peaks = f"{peak:.0f}, {new_peak:.0f} ({new_peak / peak:.2f})" if with_peaks else ""
    print(f"| {name} | {best:.4f}, {middle:.4f} | {new_best:.4f}, {new_middle:.4f} | "
          f"{new_best / best:.2f}, {new_middle / middle:.2f} | {peaks} |", flush=True)


def run_words(program, folder, into, workers, more=()):
    """`run` on a job's folder."""
    return [program, "run", "--stamp", stamp_of(folder), "--workers", str(workers), *paths(INPUTS, folder), *paths(OUTPUTS, into), *more]


def whole_runs(name, programs, folder, into, rounds):
    """Prints a line for each number of workers; both programs have to write the same bytes."""
    new = {}
    for workers in (1, 2, 4):
        found = in_turn({it: run_words(it, folder, f"{into}/{at}", workers) for at, it in enumerate(programs)}, rounds)
        for file in OUTPUTS.values():
            subprocess.run(["cmp", f"{into}/0/{file}", f"{into}/1/{file}"], check=True)
        line(f"{name}, {workers} workers", *found.values())
        new[workers] = found[programs[1]]
    line(f"{name}, new: 1 worker, 4 workers", new[1], new[4])


def logged_runs(programs, folder, into, rounds):
    """Prints what `-v`, `--log` and `--sums` take of a run without them, of the same program."""
    kinds = {"plain": [], "-v": ["-v"], "--log": ["--log", f"{into}/log"], "--log --sums": ["--log", f"{into}/log", "--sums"]}
    for workers in (1, 4):
        for at, program in enumerate(programs):
            try:
                found = in_turn({kind: run_words(program, folder, into, workers, more) for kind, more in kinds.items()}, rounds)
            except SystemExit:
                # the older program may know fewer options
                found = in_turn({kind: run_words(program, folder, into, workers, more) for kind, more in list(kinds.items())[:3]}, rounds)
            plain, plain_middle = best_and_middle(found.pop("plain"))
            for kind, took in found.items():
                best, middle = best_and_middle(took)
                print(f"| {('old', 'new')[at]}: {kind}, {workers} workers | {best / plain:.2f}, {middle / plain_middle:.2f} of the run without |", flush=True)


def small_commands(programs, folder, into, rounds):
    """Prints a line for each command on few records."""
    inputs, outputs = paths(INPUTS, folder), paths(OUTPUTS, into)
    batch, response = inputs[4:], outputs[:2]
    kinds = {
        "run": ["run", "--stamp", STAMP, "--workers", "1", *inputs, *outputs],
        "check": ["check", *inputs],
        "report": ["report", *inputs],
        "report --html": ["report", "--html", *inputs],
        "explain": ["explain", "--record", "1", *inputs],
        "verify": ["verify", "--stamp", STAMP, "--workers", "1", *inputs, *outputs],
        "show": ["show", *batch],
        "plan": ["plan", *batch],
        "replies": ["replies", *response],
    }
    for kind, words in kinds.items():
        try:
            found = in_turn({it: [it, *words] for it in programs}, rounds, TIMES).values()
            line(kind, *found, with_peaks=False)
            line(f"{kind}, processor time", *found, with_peaks=False, of=2)
        except SystemExit as ended:
            print(f"| {kind}: {ended} |", flush=True)


def logged_steps(name, programs, folder, into, rounds):
    """Prints a line for each step that takes a millisecond, by the logs of both programs."""
    log = f"{into}/log"
    for workers in (1, 4):
        found = {it: [] for it in programs}
        for _ in range(rounds):
            for program in programs:
                timed(run_words(program, folder, into, workers, ["--log", log]))
                found[program].append(steps_of(log))
        for step in STEPS:
            old, new = ([(each[step], 0) for each in found[it]] for it in programs)
            if min(*old, *new)[0] >= LEAST:
                line(f"{name}, {workers} workers: {step}", old, new, with_peaks=False)


def main():
    parser = argparse.ArgumentParser(description=__doc__, formatter_class=argparse.RawDescriptionHelpFormatter)
    parser.add_argument("old")
    parser.add_argument("new")
    parser.add_argument("folder", metavar="DIR")
    parser.add_argument("--few", metavar="DIR", help="a job of few records over many claims")
    parser.add_argument("--small", metavar="DIR", help="a job of few records and few claims")
    parser.add_argument("--steps", action="store_true", help="compare the steps in the logs of runs, too")
    parser.add_argument("--rounds", type=int, default=7)
    given = parser.parse_args()
    programs = [os.path.abspath(given.old), os.path.abspath(given.new)]
    print("| | Old: best, middle | New: best, middle | Share | Peaks of memory |\n|---|---|---|---|---|")
    with tempfile.TemporaryDirectory(prefix="rxbatch-bench-", dir=given.folder) as into:
        for at in range(len(programs)):
            os.mkdir(f"{into}/{at}")
        whole_runs("run", programs, given.folder, into, given.rounds)
        if given.few:
            whole_runs("few records", programs, given.few, into, given.rounds)
        logged_runs(programs, given.folder, into, given.rounds)
        if given.steps:
            logged_steps("run", programs, given.folder, into, given.rounds)
            if given.few:
                logged_steps("few records", programs, given.few, into, given.rounds)
        if given.small:
            small_commands(programs, given.small, into, given.rounds)


if __name__ == "__main__":
    main()
