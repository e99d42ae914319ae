#!/usr/bin/env python3
"""The gate's proofs, edits and programs: `rt ci`, with the must-fail edits of the crates that aren't as they were.

Whether an edit of a crate means something else than its contracts say is decided by the texts of the crate, and by what the
crates below it state: their definitions (`specs/`), their types, and the signatures and clauses of their functions. How these
functions do it, and how that was proved, decides nothing. So where all of this and the kit's logic are as they were when each
edit of the crate was last seen refused, trying them again can show nothing new: these crates' edits are set aside while `rt ci`
runs, and all others are tried. `edits_seen.txt` has a line for each crate: its name, and the digest of these texts, without
comments and tests, however their lines are laid out and in whichever order they import. `renames.txt` has the crates' earlier
names, by which the digests are made: what was seen refused under an old name stays seen.

    gate.py            the gate
    gate.py --all      the gate with the edits of all crates
    gate.py --list     which crates' edits the gate would try
    gate.py --see [NAME..]   tries the edits of these crates (none named: of those that the gate would try), and writes down
                       those of which each was refused
    gate.py --note     writes down all crates' edits, after a gate that passed on these very texts and tried them all

The proofs, tests and programs come first. Edits are tried then, of a few crates at a time and the lowest first, for as long as
GATE_MINUTES (45) since the start aren't over: of three hours the scripts that follow take 8 minutes on four processors, and
about twice that on two. After the first part and at the end one line says how many minutes it took, by the clock and of
processors; out/gate-minutes keeps these lines.
"""

import argparse
import hashlib
import os
import re
import shutil
import signal
import subprocess
import sys
import tempfile
import threading
import time

TOP = os.path.dirname(os.path.dirname(os.path.abspath(__file__)))
SEEN = f"{TOP}/.ci/edits_seen.txt"
RENAMES = f"{TOP}/.ci/renames.txt"
ASIDE = f"{TOP}/out/edits-aside"
OWN = ("src", "specs", "proofs", "must-fail")
STATED = ("src", "specs")
# how long the gate may take before it tries no further edit
MINUTES = 45
# what `rt` says of an edit that can't be applied, and of one that says nothing of the contract: a proof file names what it took away
BAD = ("BAD EDIT", "only because a proof file names what the edit took away")
# how many crates' edits are tried at once: those of one crate go one after another
AT_ONCE = 8


def crates_below(top):
    """Each crate's libraries of the repository, its own and those below these, by crates.txt."""
    direct = {}
    for line in open(f"{top}/crates.txt", encoding="utf-8"):
        words, colon, libraries = line.partition("#")[0].partition(":")
        if colon:
            direct[words.split()[0]] = libraries.split()
    below = {}

    def of(crate):
        if crate not in below:
            own = [it for it in direct[crate] if it in direct]
            below[crate] = set(own).union(*(of(it) for it in own))
        return below[crate]

    return {crate: of(crate) for crate in direct}


def earlier_names():
    """Each renamed crate's earlier name."""
    lines = [line.split() for line in open(RENAMES, encoding="utf-8") if line.strip() and not line.startswith("#")]
    return {now: earlier for earlier, now in lines}


def is_test(path):
    """Whether a file of a crate has only tests."""
    return "tests" in path.removesuffix(".rt").split("/")


def without_debug(line):
    """The line without a derived `Debug`, which has no contract."""
    return re.sub(r"^\s*#\[derive\(\)\]", "", re.sub(r"(#\[derive\((?:.*, )?)Debug(?:, )?(.*\)\])", r"\1\2", line).replace(", )]", ")]"))


def said(text):
    """The lines of a text that mean something to the prover: no comment, no empty line, no derived `Debug`, no tests next to the
    code."""
    lines = [without_debug(line) for line in text.splitlines() if not line.lstrip().startswith(("//", "--"))]
    lines = [line for line in lines if line.strip()]
    return [line for at, line in enumerate(lines) if line.strip() not in ("#[cfg(test)]", "mod tests;")]


def words_of(lines):
    """The words of a text, however it is laid out: in lines or in one, a list's last comma, names taken in one `use` or in several."""
    text = " ".join(" ".join(lines).split())
    text = re.sub(r"(?<=[(\[{]) | (?=[)\]}])", "", re.sub(r"[,;] ?(?=[)\]}])", "", text))
    names = r"((?:ghost |pub )?use [^{};\s]*(?:\.|::))\{([^{}]*)\};?"
    text = re.sub(names, lambda it: " ".join(f"{it[1]}{name}" for name in it[2].split(", ")), text)
    imports = r"(?:ghost |pub )?use [^{};\s]+;?"
    return " ".join([re.sub(f"{imports} ?", "", text), *sorted(re.findall(imports, text))])


def stated(lines):
    """The lines of a source file without the bodies of its functions, and without what only guides their proofs, by the layout of
    `rt fmt`: a body ends at the first `}` that stands where its `fn` does."""
    within, body_begins, body_ends = False, None, None
    for line in lines:
        indent = line[: len(line) - len(line.lstrip())]
        if body_ends is not None:
            body_ends = None if line == body_ends else body_ends
            continue
        if line.startswith("#[tactic(", len(indent)):
            continue
        if re.match(r"\s*(pub(\([a-z]+\))? )?(const )?(unsafe )?fn ", line):
            within, body_begins = True, indent
        yield line
        if within and indent == body_begins:
            if line.endswith("{") and not re.search(r"\b(requires|ensures)\b", line):
                within, body_ends = False, f"{indent}}}"
            elif line.endswith(("}", ";")) and not line.lstrip().startswith(("requires", "ensures")):
                within = False


def texts_of(top, crate, parts):
    """The crate's files in these folders, by their paths in it, each with what it says."""
    for part in parts:
        for at, folders, files in sorted(os.walk(f"{top}/crates/{crate}/{part}")):
            for name in sorted(files):
                path = os.path.relpath(f"{at}/{name}", f"{top}/crates/{crate}")
                if not is_test(path):
                    yield path, said(open(f"{at}/{name}", encoding="utf-8").read())


def digest(top, crate, below, logic, earlier):
    """A number of all that decides whether the crate's edits are refused; crates stand by their earlier names."""
    crate_name = re.compile(r"\b(" + "|".join(earlier) + r")\b") if earlier else re.compile(r"(?!)")

    def by_earlier_names(lines):
        return [crate_name.sub(lambda it: earlier[it[0]], line) for line in lines]

    found = hashlib.sha256(logic.encode())
    for path, lines in texts_of(top, crate, OWN):
        lines = by_earlier_names(lines)
        words = "\n".join(lines) if path.endswith(".edit") else words_of(lines)
        found.update(f"\0{path}\n{words}".encode())
    for name in sorted(below, key=lambda it: earlier.get(it, it)):
        for path, lines in texts_of(top, name, STATED):
            lines = by_earlier_names(lines)
            words = words_of(stated(lines) if path.endswith(".rt") else lines)
            found.update(f"\0{earlier.get(name, name)}/{path}\n{words}".encode())
    return found.hexdigest()[:32]


def edited(top):
    """The crates that have must-fail edits."""
    folders = {it: f"{top}/crates/{it}/must-fail" for it in sorted(os.listdir(f"{top}/crates"))}
    return [it for it, folder in folders.items() if os.path.isdir(folder) and any(name.endswith(".edit") for name in os.listdir(folder))]


def digests(top):
    """The digest of each crate that has edits."""
    version = subprocess.run(["rt", "version"], capture_output=True, text=True, check=True).stdout
    logic = version.split()[-1]
    below, earlier = crates_below(top), earlier_names()
    return {it: digest(top, it, below[it], logic, earlier) for it in edited(top)}


def read_seen():
    """What edits_seen.txt says: a crate's digest when its edits were last seen refused."""
    if not os.path.isfile(SEEN):
        return {}
    lines = [line.split() for line in open(SEEN, encoding="utf-8") if line.strip() and not line.startswith("#")]
    return {crate: number for crate, number in lines}


def write_seen(seen):
    """Writes edits_seen.txt."""
    with open(SEEN, "w", encoding="utf-8") as file:
        file.write("# Each crate's texts when its must-fail edits were last seen refused, each of them: see gate.py.\n")
        file.writelines(f"{crate} {number}\n" for crate, number in sorted(seen.items()))


def put_back():
    """Puts edits that were set aside back into their crates."""
    for crate in sorted(os.listdir(ASIDE)) if os.path.isdir(ASIDE) else []:
        os.rename(f"{ASIDE}/{crate}", f"{TOP}/crates/{crate}/must-fail")
    shutil.rmtree(ASIDE, ignore_errors=True)


def passed_on(run, bad):
    """Passes on what the run says, and notes each edit that shows nothing, which `rt` prints and doesn't take for a fault."""
    for line in run.stdout:
        print(line, end="", flush=True)
        if any(it in line for it in BAD):
            bad.append(line)


def rt_ci(at, seconds=None):
    """`rt ci` over the repository that stands there, with a check on each processor: its status, 1 where an edit shows nothing, or
    None where it took longer. Without RT_JOBS `rt` would keep to the memory that it counts for each crate, which is more than each
    takes: with 23 GB the largest would go one after another, 160 minutes in place of 133 on four processors."""
    jobs, bad = os.environ.get("RT_JOBS") or str(len(os.sched_getaffinity(0))), []
    run = subprocess.Popen(
        ["rt", "ci"], cwd=at, env={**os.environ, "RT_JOBS": jobs}, start_new_session=True, stdout=subprocess.PIPE, stderr=subprocess.STDOUT, text=True
    )
    listener = threading.Thread(target=passed_on, args=(run, bad), daemon=True)
    listener.start()
    try:
        status = run.wait(seconds)
        listener.join()
        if bad:
            print(f"gate: {len(bad)} edits can't be applied, or break only a name in a proof:\n{''.join(bad)}", end="", flush=True)
        return status or (1 if bad else 0)
    except BaseException as stopped:
        os.killpg(run.pid, signal.SIGKILL)
        run.wait()
        if isinstance(stopped, subprocess.TimeoutExpired):
            return None
        raise


def copied(to, edited, below):
    """A copy of these crates, with their edits, and of those that they stand on, without."""
    for crate in sorted(set(edited).union(*(below[it] for it in edited))):
        left_out = ("out",) if crate in edited else ("out", "must-fail")
        shutil.copytree(f"{TOP}/crates/{crate}", f"{to}/crates/{crate}", ignore=shutil.ignore_patterns(*left_out), symlinks=True)
    with open(f"{TOP}/crates.txt", encoding="utf-8") as lines, open(f"{to}/crates.txt", "w", encoding="utf-8") as kept:
        kept.writelines(it for it in lines if os.path.isdir(f"{to}/crates/{re.split('[ :]', it)[0]}"))
    shutil.copyfile(f"{TOP}/HANDLES", f"{to}/HANDLES")


def try_edits(changed, end):
    """Tries the edits of these crates until the time is over, in copies, so that what was built here stays: a status that isn't 0
    where one isn't refused."""
    below = crates_below(TOP)
    left = sorted(changed, key=lambda it: (len(below[it]), it))
    while left:
        seconds = end - time.monotonic()
        with tempfile.TemporaryDirectory(prefix="gate-edits-") as room:
            copied(room, left[:AT_ONCE], below)
            status = rt_ci(room, seconds) if seconds > 0 else None
        if status is None:
            print(f"gate: the time for edits is over, those of {len(left)} crates weren't tried: {' '.join(left)}", flush=True)
            return 0
        if status:
            return status
        left = left[AT_ONCE:]
    return 0


def print_minutes(what, start):
    """Prints how many minutes have passed since the start, and how many of processors the ended commands took, and keeps it."""
    by_processors = os.times().children_user + os.times().children_system
    line = f"gate: {what} took {by_processors / 60:.1f} processor minutes, {(time.monotonic() - start) / 60:.1f} by the clock"
    print(line, flush=True)
    with open(f"{TOP}/out/gate-minutes", "a", encoding="utf-8") as kept:
        print(line, file=kept)


def gate(now, changed):
    """Runs `rt ci` without edits, and then tries those of the crates that changed, for as long as there is time."""
    start = time.monotonic()
    end = start + 60 * float(os.environ.get("GATE_MINUTES") or MINUTES)
    same = [it for it in now if it not in changed]
    print(f"gate: the edits of {len(changed)} crates are to be tried: {' '.join(changed) or 'none'}")
    print(f"gate: those of {len(same)} were each seen refused on these very texts (.ci/edits_seen.txt): {' '.join(same) or 'none'}", flush=True)
    os.makedirs(ASIDE)
    try:
        for crate in now:
            os.rename(f"{TOP}/crates/{crate}/must-fail", f"{ASIDE}/{crate}")
        status = rt_ci(TOP)
    finally:
        put_back()
    print_minutes("proofs, tests and programs", start)
    status = status or try_edits(changed, end)
    print_minutes("all", start)
    return status


def are_refused(crate):
    """Whether each edit of the crate can be applied, and is refused then for more than a name in a proof."""
    run = subprocess.run(["rt", "must-fail", crate], cwd=TOP, stdout=subprocess.PIPE, stderr=subprocess.STDOUT, text=True)
    print(run.stdout, end="", flush=True)
    return run.returncode == 0 and not any(it in run.stdout for it in BAD)


def see(now, names):
    """Tries the edits of these crates, and notes those of which each was refused."""
    failed = [it for it in names if not are_refused(it)]
    seen = {it: number for it, number in read_seen().items() if it in now}
    write_seen({**seen, **{it: now[it] for it in names if it not in failed}})
    print(f"{len(names) - len(failed)} passed, {len(failed)} failed")
    return 1 if failed else 0


def main():
    words = argparse.ArgumentParser(description="proofs, must-fail edits and programs: rt ci, with the edits of the crates that changed")
    words.add_argument("--all", action="store_true", help="with the edits of all crates")
    words.add_argument("--list", action="store_true", help="say which crates' edits would be tried")
    words.add_argument("--see", nargs="*", metavar="NAME", help="try the edits of these crates, and write down that they were refused")
    words.add_argument("--note", action="store_true", help="write down that all edits were refused, as a gate that passed has shown")
    given = words.parse_args()
    put_back()
    now, seen = digests(TOP), read_seen()
    changed = [it for it in now if given.all or seen.get(it) != now[it]]
    if given.list:
        print("\n".join(changed))
        return 0
    if given.note:
        write_seen(now)
        return 0
    if given.see is not None:
        return see(now, given.see or changed)
    return gate(now, changed)


if __name__ == "__main__":
    sys.exit(main())
