#!/usr/bin/env python3
"""plans.py PLANS BATCH STAMP: the places in the plans file of the plans whose own run of this batch, with this stamp, isn't done,
joined by commas, as `sbatch --array` takes them. plans.py PLANS N: sheet, books, end books and response of plan N, each on a line."""
import json
import pathlib
import sys
import tomllib


def read_plans(path):
    """Each plan's paths: sheet, books, end books and response."""
    with open(path, "rb") as file:
        plans = tomllib.load(file)["plan"]
    if any("response" not in plan for plan in plans):
        sys.exit(f"{path}: each plan needs a response, which join reads")
    folder = pathlib.Path(path).parent
    return [[folder / plan[key] for key in ("sheet", "books", "books_out", "response")] for plan in plans]


def is_done(plan, batch, stamp):
    """Whether the last run in the plan's log was of these inputs, by their sizes, the stamp and the batch's number."""
    sheet, books, _, response = plan
    try:
        log = json.loads(pathlib.Path(f"{response}.log").read_text().splitlines()[-1])
        sizes = [log["inputs"][name]["bytes"] for name in ("sheet", "books", "batch")]
        number = batch.read_bytes()[28:35].decode()
        right = sizes == [path.stat().st_size for path in (sheet, books, batch)] and log["lot"]["number"] == number
        return log["status"] == 0 and right and log["run"]["stamp"] == stamp
    except (OSError, ValueError, IndexError, TypeError):
        return False


found = read_plans(sys.argv[1])
if len(sys.argv) == 3:
    print(*found[int(sys.argv[2]) - 1], sep="\n")
else:
    batch, stamp = pathlib.Path(sys.argv[2]), sys.argv[3]
    print(*(place for place, plan in enumerate(found, 1) if not is_done(plan, batch, stamp)), sep=",")
