#!/usr/bin/env python3
"""Times `run` on the inputs that make_job.py wrote, and prints a table.

    bench/time_run.py PROGRAM DIR [--workers LIST] [--rounds R] [--plain] [--desk] [--steps] [--retraced]

PROGRAM is a path or a command line. For each number of workers it runs R rounds and prints the best and the middle of
their times, the processor time of the best and its records a second; with `--plain` and `--desk` it times these ways
too. Every run has to end with status 0 and to write the bytes that the first one wrote. With `--steps` each run writes a log, and a
second table has the best and the middle of each step in it (docs/CLI.md, "Log"). With `--retraced` it then times, in turn,
`run` with one worker, `explain` of the first, the middle and the last record, `verify` with one worker, and `cat` of the
three outputs, which `verify` reads next to the inputs.
"""

import argparse
import hashlib
import json
import os
import resource
import shlex
import statistics
import subprocess
import sys
import tempfile
import time

INPUTS = {"--sheet": "sheet.toml", "--books": "books.txt", "--batch": "batch.bin"}
OUTPUTS = {"--response": "response.bin", "--books-out": "books-out.txt", "--settlement": "settlement.txt"}
DETAIL = b"\x02G1"
# the steps of a run, as its log names them
STEPS = ("sheet", "books", "batch", "adjudicate", "response", "books_out", "settlement", "end")


def processor_seconds():
    used = resource.getrusage(resource.RUSAGE_CHILDREN)
    return used.ru_utime + used.ru_stime


def stamp_of(folder):
    with open(os.path.join(folder, "stamp"), encoding="ascii") as file:
        return file.read()


def paths(files, place):
    """The options of files in a folder, each with its path."""
    return [word for option, name in files.items() for word in (option, os.path.join(place, name))]


def timed(words):
    """Seconds by the clock and seconds of processor time that a command takes, which has to end with status 0."""
    used, begun = processor_seconds(), time.perf_counter()
    ended = subprocess.run(words, stdin=subprocess.DEVNULL, capture_output=True)
    seconds, used = time.perf_counter() - begun, processor_seconds() - used
    if ended.returncode != 0:
        sys.exit(f"status {ended.returncode}: {ended.stderr.decode(errors='replace').strip()}")
    return seconds, used


def steps_of(log):
    """The seconds of each step of the run that wrote the last line of a log."""
    with open(log, encoding="utf-8") as file:
        micros = json.loads(file.readlines()[-1])["microseconds"]
    return {step: (micros[step] or 0) / 1e6 for step in STEPS}


def print_steps(found):
    """Prints a table of the steps; `found` has those of each round, by the name of a column."""
    print(f"\n| Step, workers | {' | '.join(found)} |\n|---|{'---|' * len(found)}")
    for step in STEPS:
        columns = ([each[step] for each in rounds] for rounds in found.values())
        print(f"| {step} | {' | '.join(f'{min(it):.3f}, {statistics.median(it):.3f} s' for it in columns)} |")


def one_run(program, folder, into, number, way, log=None):
    """Seconds by the clock, seconds of processor time, a digest of what was written, and the steps of the run's log, if it has one."""
    words = ["run", "--stamp", stamp_of(folder), "--workers", str(number), *way] + (["--log", log] if log else [])
    seconds, used = timed(program + words + paths(INPUTS, folder) + paths(OUTPUTS, into))
    digest = hashlib.sha256()
    for name in OUTPUTS.values():
        with open(os.path.join(into, name), "rb") as file:
            digest.update(file.read())
    return seconds, used, digest.hexdigest(), steps_of(log) if log else None


def retraced(program, folder, into, records, rounds):
    """Times what replays a batch besides the run itself, in turn, and prints a line for each."""
    inputs, outputs = paths(INPUTS, folder), paths(OUTPUTS, into)
    stamp = ["--stamp", stamp_of(folder), "--workers", "1"]
    commands = {"`run`, 1 worker": program + ["run"] + stamp + inputs + outputs}
    for name, place in (("first", 1), ("middle", (records + 1) // 2), ("last", records)):
        commands[f"`explain`, {name} record"] = program + ["explain", "--record", str(place)] + inputs
    commands["`verify`, 1 worker"] = program + ["verify"] + stamp + inputs + outputs
    commands["outputs read"] = ["cat"] + outputs[1::2]
    times = {name: [] for name in commands}
    for _ in range(rounds):
        for name, words in commands.items():
            times[name].append(timed(words))
    print("\n| Command | Best | Middle | Processor time |\n|---|---|---|---|")
    for name, found in times.items():
        middle = statistics.median(seconds for seconds, _ in found)
        print(f"| {name} | {min(found)[0]:.3f} s | {middle:.3f} s | {min(found)[1]:.3f} s |")


def main(words):
    parser = argparse.ArgumentParser(description=__doc__, formatter_class=argparse.RawDescriptionHelpFormatter)
    parser.add_argument("program", metavar="PROGRAM")
    parser.add_argument("folder", metavar="DIR")
    parser.add_argument("--workers", default="1,2,4", help="numbers of workers; default: 1,2,4")
    parser.add_argument("--rounds", type=int, default=3)
    parser.add_argument("--plain", action="store_true", help="time --plain with one worker too")
    parser.add_argument("--desk", action="store_true", help="time --desk too")
    parser.add_argument("--steps", action="store_true", help="print each step's times, too")
    parser.add_argument("--retraced", action="store_true", help="time explain and verify beside run, too")
    options = parser.parse_args(words)
    program = [os.path.abspath(word) if os.path.exists(word) else word for word in shlex.split(options.program)]
    with open(os.path.join(options.folder, "batch.bin"), "rb") as file:
        records = file.read().count(DETAIL)
    numbers = options.workers.split(",")
    kinds = [(number, []) for number in numbers] + [(number, ["--desk"]) for number in numbers if options.desk and number != "1"]
    kinds += [("1", ["--plain"])] * options.plain
    first, steps = None, {}
    print("| Workers | Best | Middle | Processor time | Records a second |\n|---|---|---|---|---|")
    with tempfile.TemporaryDirectory(prefix="rxbatch-bench-") as into:
        log = os.path.join(into, "log") if options.steps else None
        for number, way in kinds:
            rounds = [one_run(program, options.folder, into, number, way, log) for _ in range(options.rounds)]
            first = first or rounds[0][2]
            if any(digest != first for _, _, digest, _ in rounds):
                sys.exit(f"{number} workers wrote other bytes")
            name, best = " ".join([number, *way]), min(rounds, key=lambda it: it[0])
            middle = statistics.median(seconds for seconds, _, _, _ in rounds)
            steps[name] = [it[3] for it in rounds]
            print(f"| {name} | {best[0]:.3f} s | {middle:.3f} s | {best[1]:.3f} s "
                  f"| {records / best[0]:,.0f} |", flush=True)
        if options.steps:
            print_steps(steps)
        if options.retraced:
            retraced(program, options.folder, into, records, options.rounds)


if __name__ == "__main__":
    main(sys.argv[1:])
