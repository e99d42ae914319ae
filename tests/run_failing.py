#!/usr/bin/env python3
"""Runs a program with rxbatch's words by `run`, in place and with --safe, while one of its calls on files fails or is its
last, and two runs at once on the same outputs (docs/CLI.md, "run").

    run_failing.py PROGRAM [--pairs N] [--only WORD]

A library is compiled with `cc` from refused_calls.c next to this file and preloaded into the program. A call that fails
ends the run with its reason in words, or the run is done all the same; nothing but the outputs is left, with --safe each
output is whole, and with status 0 all three are the run's. After a kill before or after a call another run is done, and
leaves nothing but its outputs. Of two runs at once the outputs are those of one, and a run that isn't done says why.
"""
import argparse
import errno
import fcntl
import os
import pathlib
import re
import shutil
import subprocess
import sys
import tempfile

HERE = pathlib.Path(__file__).resolve().parent
JOB = HERE / "cases" / "one-billing"
INPUTS = {"--sheet": "sheet.toml", "--books": "books.txt", "--batch": "batch.bin"}
OUTPUTS = {"--response": "response.bin", "--books-out": "books-out.txt", "--settlement": "settlement.txt"}
WHOLE = {name: (JOB / name).read_bytes() for name in OUTPUTS.values()}
STAMP = (JOB / "stamp").read_text()
EARLIER = b"earlier\n"
NAMES = set(INPUTS.values()) | set(OUTPUTS.values())
# What each kind of call may answer; a call that isn't named fails with an I/O error.
ERRORS = {"create": (errno.ENOSPC, errno.EDQUOT, errno.EROFS, errno.EACCES), "open": (errno.EACCES, errno.EIO),
          "write": (errno.ENOSPC, errno.EDQUOT, errno.EFBIG, errno.EIO), "fsync": (errno.ENOSPC, errno.EIO),
          "rename": (errno.ENOSPC, errno.EACCES)}
# A file that can't be removed stays.
REMOVING = ("unlink",)


def compiled(into):
    """The library that makes a call fail, compiled into the folder."""
    library = os.path.join(into, "refused_calls.so")
    subprocess.run(["cc", "-O1", "-shared", "-fPIC", "-o", library, str(HERE / "refused_calls.c"), "-ldl"], check=True)
    return library


class Folder:
    """A folder with the inputs of a case, and earlier outputs if asked for."""

    def __init__(self, path, has_earlier):
        self.path = pathlib.Path(path)
        self.has_earlier = has_earlier
        for name in INPUTS.values():
            shutil.copy(JOB / name, self.path)
        if has_earlier:
            for name in OUTPUTS.values():
                (self.path / name).write_bytes(EARLIER)

    def texts(self):
        paths = {name: self.path / name for name in OUTPUTS.values()}
        return {name: path.read_bytes() if path.exists() else None for name, path in paths.items()}

    def names(self):
        return {path.name for path in self.path.iterdir()}

    def words(self, more, stamp=STAMP):
        paths = {**INPUTS, **OUTPUTS}
        return ["run", *more, "--stamp", stamp, "--workers", "2"] + [word for pair in paths.items() for word in pair]

    def run(self, program, more=(), library=None, **treated):
        surroundings = dict(os.environ)
        if library:
            surroundings.update({"LD_PRELOAD": library, **{name.upper(): str(value) for name, value in treated.items()}})
        return subprocess.run([program, *self.words(more)], cwd=self.path, stdin=subprocess.DEVNULL, capture_output=True,
                              env=surroundings)

    def earlier(self):
        return {name: EARLIER if self.has_earlier else None for name in OUTPUTS.values()}

    def torn(self):
        """What is wrong with the outputs of a safe run that was cut."""
        texts, earlier = self.texts(), self.earlier()
        for name, text in texts.items():
            if text not in (earlier[name], WHOLE[name]):
                return f"{name} is torn"
        if texts["books-out.txt"] != earlier["books-out.txt"] and texts != WHOLE:
            return "the end books are new, and another output isn't"
        return None


def calls_of(program, library, more, has_earlier):
    """The calls of a run that is done, by name."""
    with tempfile.TemporaryDirectory(prefix="rxbatch-calls-") as top:
        path = pathlib.Path(top) / "job"
        path.mkdir()
        ended = Folder(path, has_earlier).run(program, more, library, calls_list=f"{top}/list")
        if ended.returncode != 0:
            sys.exit(f"the run that is watched: status {ended.returncode}, {ended.stderr!r}")
        return (pathlib.Path(top) / "list").read_text().split()


def told_fault(ended, error):
    """What is wrong with what a run prints whose call answered this error."""
    lines = ended.stderr.decode().splitlines()
    if ended.returncode == 3:
        numbers = [place for place, line in enumerate(lines) if re.fullmatch("file [1-7]", line)]
        if len(numbers) != 1 or numbers[0] != len(lines) - 2:
            return f"no line `file K` with a line in words after it: {lines}"
        words = os.strerror(error)
        if not lines[-1].endswith(": " + words[0].lower() + words[1:]):
            return f"{lines[-1]!r} doesn't tell {words!r}"
        option = lines[-1].split(" ")[0]
        number = (*INPUTS, *OUTPUTS).index(option) + 1
        return None if lines[-2] == f"file {number}" else f"{lines[-2:]}"
    if ended.returncode == 2:
        return None if lines and lines[-1].endswith(" are the same file") else f"status 2, {lines}"
    return None if ended.returncode == 0 else f"status {ended.returncode}, {lines}"


def after_a_fault(folder, ended, call, is_safe):
    """What is wrong with the files after a run of which a call failed."""
    texts, more = folder.texts(), folder.names() - NAMES
    if more and call not in REMOVING:
        return f"{sorted(more)} left"
    if ended.returncode == 0:
        return None if texts == WHOLE else "status 0, and the outputs aren't the run's"
    if is_safe:
        return folder.torn()
    kept = [text for name, text in texts.items() if text not in (folder.earlier()[name], WHOLE[name])]
    if any(text is None or text not in (b"",) and not any(whole.startswith(text) for whole in WHOLE.values()) for text in kept):
        return "an output is none of the run's"
    return None


def failing_calls(program, library):
    """Runs of which one call fails."""
    for more in ([], ["--safe"]):
        for has_earlier in (True, False):
            calls = calls_of(program, library, ["-v", *more], has_earlier)
            for place, call in enumerate(calls, 1):
                for error in ERRORS.get(call, (errno.EIO,)):
                    with tempfile.TemporaryDirectory(prefix="rxbatch-calls-") as path:
                        folder = Folder(path, has_earlier)
                        ended = folder.run(program, ["-v", *more], library, calls_nth=place, calls_error=error)
                        fault = told_fault(ended, error) or after_a_fault(folder, ended, call, bool(more))
                        again = folder.run(program, more)
                        if not fault and (again.returncode != 0 or folder.texts() != WHOLE or folder.names() != NAMES):
                            fault = f"a run after it: {again.returncode}, {sorted(folder.names() ^ NAMES)}"
                    yield fault and f"run {' '.join(more)}: call {place}, {call}, {errno.errorcode[error]}: {fault}"


def killed_runs(program, library):
    """Runs that are killed before or after a call."""
    for more in ([], ["--safe"]):
        for has_earlier in (True, False):
            calls = calls_of(program, library, more, has_earlier)
            for place, call in enumerate(calls, 1):
                for when in ("before", "after"):
                    with tempfile.TemporaryDirectory(prefix="rxbatch-calls-") as path:
                        folder = Folder(path, has_earlier)
                        ended = folder.run(program, more, library, calls_nth=place, calls_kill=when)
                        fault = None if ended.returncode == -9 else f"status {ended.returncode}"
                        fault = fault or (folder.torn() if more else None)
                        again = folder.run(program, more)
                        if not fault and (again.returncode != 0 or folder.texts() != WHOLE or folder.names() != NAMES):
                            fault = f"a run after it: {again.returncode}, {sorted(folder.names() ^ NAMES)}, {again.stderr!r}"
                    yield fault and f"run {' '.join(more)}: killed {when} call {place}, {call}: {fault}"


def failed_writes(program, library):
    """A write that fails makes no file, however its reason is printed."""
    for more in ([], ["--safe"]):
        for way in ([], ["-v"], ["--log", "/dev/null"]):
            words = [*way, *more]
            calls = calls_of(program, library, words, False)
            # The three writes of the outputs are the last before the first sync.
            writes = [place for place, call in enumerate(calls, 1) if call == "write" and place <= calls.index("fsync")]
            with tempfile.TemporaryDirectory(prefix="rxbatch-calls-") as top:
                path = pathlib.Path(top) / "job"
                path.mkdir()
                ended = Folder(path, False).run(program, words, library, calls_nth=writes[-3], calls_error=errno.ENOSPC,
                                                calls_list=f"{top}/list")
                made = (pathlib.Path(top) / "list").read_text().split().count("create")
                fault = None
                if ended.returncode != 3 or b"file 4\n" not in ended.stderr or made != calls.count("create"):
                    fault = f"status {ended.returncode}, {ended.stderr!r}, {made} files made"
            yield fault and f"a failed write, {words}: {fault}"


def whole_of(program, stamp):
    """The outputs of a run with this stamp."""
    with tempfile.TemporaryDirectory(prefix="rxbatch-pair-") as path:
        folder = Folder(path, False)
        subprocess.run([program, *folder.words([], stamp)], cwd=path, check=True)
        return folder.texts()


BUSY = re.compile(r"file [456]\n(--response response.bin|--books-out books-out.txt|--settlement settlement.txt): "
                  r"another run is writing it\n")


def pairs_of_runs(program, pairs):
    """Two runs at once on the same outputs."""
    stamps = ("202603020600", "202603020601")
    wholes = [whole_of(program, stamp) for stamp in stamps]
    ways = (([], []), (["--safe"], ["--safe"]), ([], ["--safe"]))
    for pair in range(pairs):
        one_way, other_way = ways[pair % len(ways)]
        with tempfile.TemporaryDirectory(prefix="rxbatch-pair-") as path:
            folder = Folder(path, pair % 2 == 0)
            runs = [subprocess.Popen([program, *folder.words(way, stamp)], cwd=path, stdin=subprocess.DEVNULL,
                                     stdout=subprocess.PIPE, stderr=subprocess.PIPE)
                    for way, stamp in zip((one_way, other_way), stamps)]
            tellings = [run.communicate()[1].decode() for run in runs]
            fault = pair_fault(folder, [run.returncode for run in runs], tellings, wholes)
        yield fault and f"pair {pair}, {one_way} and {other_way}: {fault}"


def pair_fault(folder, statuses, tellings, wholes):
    for status, telling in zip(statuses, tellings):
        if status not in (0, 3) or (telling if status == 0 else not BUSY.fullmatch(telling)):
            return f"status {status}, {telling!r}"
    done = [whole for status, whole in zip(statuses, wholes) if status == 0]
    if not done:
        return "no run is done"
    if folder.texts() not in done:
        return f"the outputs are of no run that is done, {statuses}"
    return None if folder.names() == NAMES else f"{sorted(folder.names() ^ NAMES)} left"


def locked_outputs(program):
    """Runs of which another one has a single output: they end at once and change nothing. A lock that a kill left holds nothing."""
    for more in ([], ["--safe"]):
        for has_earlier in (True, False):
            for option, name in OUTPUTS.items():
                with tempfile.TemporaryDirectory(prefix="rxbatch-locked-") as path:
                    folder = Folder(path, has_earlier)
                    lock = folder.path / f".rxbatch-{name}"
                    with open(lock, "w") as held:
                        fcntl.flock(held, fcntl.LOCK_EX)
                        ended = folder.run(program, more)
                    kept = folder.texts() == folder.earlier() and lock.exists()
                    after = folder.run(program, more)
                    fault = None
                    if ended.returncode != 3 or not BUSY.fullmatch(ended.stderr.decode()) or option.encode() not in ended.stderr:
                        fault = f"status {ended.returncode}, {ended.stderr!r}"
                    elif not kept:
                        fault = "an output was changed, or the lock is gone"
                    elif after.returncode != 0 or folder.texts() != WHOLE or folder.names() != NAMES:
                        fault = f"a run after it: {after.returncode}, {sorted(folder.names() ^ NAMES)}"
                yield fault and f"run {' '.join(more)}: {name} is locked: {fault}"


def main(words):
    parser = argparse.ArgumentParser(description=__doc__, formatter_class=argparse.RawDescriptionHelpFormatter)
    parser.add_argument("program", metavar="PROGRAM")
    parser.add_argument("--pairs", type=int, default=200, help="how often two runs are started at once; default: 200")
    parser.add_argument("--only", default="", help="only sweeps with this word in their name")
    options = parser.parse_args(words)
    program = str(pathlib.Path(options.program).resolve())
    passed = failed = 0
    with tempfile.TemporaryDirectory(prefix="rxbatch-calls-") as top:
        library = compiled(top)
        sweeps = {"failing calls": lambda: failing_calls(program, library),
                  "killed runs": lambda: killed_runs(program, library),
                  "failed writes": lambda: failed_writes(program, library),
                  "locked outputs": lambda: locked_outputs(program),
                  "two runs at once": lambda: pairs_of_runs(program, options.pairs)}
        for name, sweep in sweeps.items():
            if options.only not in name:
                continue
            faults = list(sweep())
            found = [fault for fault in faults if fault]
            print("\n".join([*found, f"{name}: {len(faults) - len(found)} passed, {len(found)} failed"]))
            passed, failed = passed + len(faults) - len(found), failed + len(found)
    print(f"{passed} passed, {failed} failed")
    return 1 if failed or not passed else 0


if __name__ == "__main__":
    sys.exit(main(sys.argv[1:]))
