#!/usr/bin/env python3
"""Collects the logs of a night into one table, a line for each pair, with a tab between fields.

    table.py FOLDER..      the folders of the pairs, out/*/

The last line of a log counts. A pair without a log was stopped before its run; one whose last line isn't whole was cut.
"""
import json
import pathlib
import sys

COUNTS = ("paid", "duplicate", "approved", "rejected", "net")


def log_of(folder):
    """The last line of a pair's log; None if it was cut or isn't there."""
    try:
        return json.loads((folder / "log.jsonl").read_text().splitlines()[-1])
    except (OSError, ValueError, IndexError):
        return None


def why_of(log):
    words = log["run"]["words"]
    return (words["fault"] or words["warning"] or "").replace("\t", " ")


def fields(folder):
    log = log_of(folder)
    if log is None:
        return [folder.name, "cut" if (folder / "log.jsonl").exists() else "stopped", "", *[""] * len(COUNTS), "", ""]
    totals = log["totals"] or {}
    counts = [totals.get(name, "") for name in COUNTS]
    seconds = sum(step or 0 for step in log["microseconds"].values()) / 1e6
    return [folder.name, log["status"], why_of(log), *counts, f"{seconds:.3f}", log["peak_kilobytes"]]


print("\t".join(["name", "status", "why", *COUNTS, "seconds", "peak_kilobytes"]))
for word in sys.argv[1:]:
    print("\t".join(map(str, fields(pathlib.Path(word)))))
