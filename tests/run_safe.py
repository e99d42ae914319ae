#!/usr/bin/env python3
"""Runs a program with rxbatch's words by `run --safe`, and looks at what is left: a refused run and one that can't be
written leave the earlier outputs as they were and nothing else; a run that is done leaves the three outputs
whole, with the rights that they had (docs/CLI.md, "Safe runs").

    run_safe.py PROGRAM [--kills] [--disk] [--memory]

With --kills (it needs strace) a run is also killed before and after each of its system calls, and each system call that
writes, syncs or renames is made to fail. After each the three outputs have to be the earlier or the new ones, each whole,
and the end books new only where all are; and a run after it has to be done. With --disk (it needs root) a run is done on
small disks, page by page larger, until one holds it. With --memory (it needs `cc`) a run with a log is done while its Nth
request for memory is refused, for N = 1, 2 and on.
"""
import argparse
import fcntl
import itertools
import json
import os
import pathlib
import resource
import shutil
import signal
import subprocess
import sys
import tempfile

import refused_memory
from options import cuts_of

JOB = pathlib.Path(__file__).resolve().parent / "cases" / "one-billing"
INPUTS = {"--sheet": "sheet.toml", "--books": "books.txt", "--batch": "batch.bin"}
OUTPUTS = {"--response": "response.bin", "--books-out": "books-out.txt", "--settlement": "settlement.txt"}
NUMBERS = {"--response": 4, "--books-out": 5, "--settlement": 6}
EARLIER = b"earlier\n"


class Folder:
    """A folder with the inputs of a case, and earlier outputs if asked for."""

    def __init__(self, path, earlier=True):
        self.path = pathlib.Path(path)
        for name in INPUTS.values():
            shutil.copy(JOB / name, self.path)
        if earlier:
            for name in OUTPUTS.values():
                (self.path / name).write_bytes(EARLIER)
                (self.path / name).chmod(0o640)

    def words(self, changed=(), is_safe=True):
        paths = {**INPUTS, **OUTPUTS, **dict(changed)}
        more = ["--safe"] if is_safe else []
        stamp = (JOB / "stamp").read_text()
        return ["run", *more, "--stamp", stamp, "--workers", "2"] + [word for pair in paths.items() for word in pair]

    def texts(self):
        return {name: (self.path / name).read_bytes() if (self.path / name).exists() else None
                for name in OUTPUTS.values()}

    def names(self):
        return {path.name for path in self.path.iterdir()}

    def run(self, program, changed=(), before=(), first=None, surroundings=None, is_safe=True):
        return subprocess.run([*before, program, *self.words(changed, is_safe)], cwd=self.path, stdin=subprocess.DEVNULL,
                              capture_output=True, preexec_fn=first, env=surroundings)


WHOLE = {name: (JOB / name).read_bytes() for name in OUTPUTS.values()}
PLAIN_NAMES = set(INPUTS.values()) | set(OUTPUTS.values())


def answered(ended, status, told):
    if ended.returncode != status:
        return f"status {ended.returncode} and not {status} ({ended.stderr[:80]!r})"
    if ended.stdout or ended.stderr != told:
        return f"{ended.stderr!r} on standard error and not {told!r}"
    return None


def untouched(folder, names):
    if folder.names() != names:
        return f"other files: {sorted(folder.names() ^ names)}"
    if any(text != EARLIER for text in folder.texts().values()):
        return "an earlier output was changed"
    return None


def without_rights(folder):
    """The words before a program that runs as a user who may not write everywhere, who owns the folder."""
    if os.geteuid() != 0:
        return ()
    for path in (folder.path, *folder.path.iterdir()):
        os.chown(path, 65534, 65534)
    return ("setpriv", "--reuid=65534", "--regid=65534", "--clear-groups")


# ---------------------------------------------------------------- the cases

def new_outputs(program, path):
    """Outputs that weren't there."""
    folder = Folder(path, earlier=False)
    fault = answered(folder.run(program), 0, b"")
    if fault or folder.texts() != WHOLE or folder.names() != PLAIN_NAMES:
        return fault or "the outputs aren't the run's"
    rights = {(folder.path / name).stat().st_mode & 0o777 for name in OUTPUTS.values()}
    return None if rights == {0o600} else "a new output has other rights than 0600"


def earlier_outputs(program, path):
    """Outputs that were there."""
    folder = Folder(path)
    fault = answered(folder.run(program), 0, b"")
    if fault or folder.texts() != WHOLE or folder.names() != PLAIN_NAMES:
        return fault or "the outputs aren't the run's"
    rights = {(folder.path / name).stat().st_mode & 0o777 for name in OUTPUTS.values()}
    return None if rights == {0o640} else "an output lost its rights"


def refused_run(program, path):
    """A run that is refused."""
    folder = Folder(path)
    (folder.path / "sheet.toml").write_bytes(b"fee = ")
    ended = folder.run(program)
    if ended.returncode != 1 or not ended.stderr.startswith(b"refused 3 "):
        return f"status {ended.returncode}, {ended.stderr!r}"
    return untouched(folder, PLAIN_NAMES)


def absent_input(program, path):
    """An input that isn't there."""
    folder = Folder(path)
    (folder.path / "batch.bin").unlink()
    return answered(folder.run(program), 3, b"file 3\n") or untouched(folder, PLAIN_NAMES - {"batch.bin"})


def absent_folder(program, path):
    """A folder that isn't there."""
    folder = Folder(path)
    fault = answered(folder.run(program, {"--settlement": "no/settlement.txt"}), 3, b"file 6\n")
    return fault or untouched(folder, PLAIN_NAMES)


def locked_folder(program, path):
    """A folder that can't be written (as a user who may not write everywhere)."""
    folder = Folder(path)
    locked = folder.path / "locked"
    locked.mkdir(mode=0o500)
    before = without_rights(folder)
    fault = answered(folder.run(program, {"--books-out": "locked/out.txt"}, before), 3, b"file 5\n")
    return fault or untouched(folder, PLAIN_NAMES | {"locked"})


def followed_link(program, path):
    """An output that is a link."""
    folder = Folder(path)
    kept = folder.path / "kept"
    kept.mkdir()
    (folder.path / "books-out.txt").rename(kept / "books-2.txt")
    (folder.path / "books-out.txt").symlink_to("kept/books-2.txt")
    fault = answered(folder.run(program), 0, b"")
    if fault or folder.texts() != WHOLE or folder.names() != PLAIN_NAMES | {"kept"}:
        return fault or "the outputs aren't the run's"
    if not (folder.path / "books-out.txt").is_symlink() or {path.name for path in kept.iterdir()} != {"books-2.txt"}:
        return "the link wasn't followed"
    return None


def link_to_nothing(program, path):
    """An output that is a link to nothing."""
    folder = Folder(path)
    (folder.path / "link.txt").symlink_to("nothing.txt")
    ended = folder.run(program, {"--settlement": "link.txt"})
    fault = answered(ended, 2, b"rxbatch: --settlement isn't a regular file\n")
    return fault or untouched(folder, PLAIN_NAMES | {"link.txt"})


def device(program, path):
    """An output that is a device."""
    folder = Folder(path)
    ended = folder.run(program, {"--response": "/dev/null"})
    return answered(ended, 2, b"rxbatch: --response isn't a regular file\n") or untouched(folder, PLAIN_NAMES)


def protected_file(program, path):
    """An output that nobody may write."""
    folder = Folder(path)
    (folder.path / "books-out.txt").chmod(0o440)
    before = without_rights(folder)
    return answered(folder.run(program, (), before), 3, b"file 5\n") or untouched(folder, PLAIN_NAMES)


def one_file(program, path):
    """Two outputs that are one file, by two names."""
    folder = Folder(path)
    (folder.path / "again.txt").hardlink_to(folder.path / "response.bin")
    ended = folder.run(program, {"--settlement": "again.txt"})
    fault = answered(ended, 2, b"rxbatch: --response and --settlement are the same file\n")
    return fault or untouched(folder, PLAIN_NAMES | {"again.txt"})


def one_new_file(program, path):
    """Two outputs that are to be one new file."""
    folder = Folder(path)
    ended = folder.run(program, {"--response": "new.bin", "--books-out": "./new.bin"})
    fault = answered(ended, 2, b"rxbatch: --response and --books-out are the same file\n")
    return fault or untouched(folder, PLAIN_NAMES)


def name_of_a_file_beside(program, path):
    """An output with a name that a file next to another may have."""
    folder = Folder(path)
    for is_safe in (True, False):
        ended = folder.run(program, {"--response": ".rxbatch-books-out.txt"}, is_safe=is_safe)
        fault = answered(ended, 3, b"file 4\n") or untouched(folder, PLAIN_NAMES)
        if fault:
            return fault
    return None


def kept_files(program, path):
    """An input and a log that stand where a file next to an output is to be made: they stay."""
    name = ".rxbatch-books-out.txt"
    for is_safe in (True, False):
        with tempfile.TemporaryDirectory(dir=path) as inner:
            folder = Folder(inner)
            (folder.path / "books.txt").rename(folder.path / name)
            kept = (folder.path / name).read_bytes()
            fault = answered(folder.run(program, {"--books": name}, is_safe=is_safe), 3, b"file 5\n")
            fault = fault or untouched(folder, PLAIN_NAMES - {"books.txt"} | {name})
            if fault or (folder.path / name).read_bytes() != kept:
                return fault or "the input was changed"
            (folder.path / name).rename(folder.path / "books.txt")
            fault = answered(folder.run(program, {"--log": name}, is_safe=is_safe), 3, b"file 5\n")
            if fault or not (folder.path / name).read_bytes().endswith(b"}\n"):
                return fault or "the log was lost"
    return None


def path_of_a_folder(program, path):
    """An output that ends as the path of a folder."""
    folder = Folder(path)
    for end in ("no/", "no/.", ".."):
        wanted = (2, b"rxbatch: --settlement isn't a regular file\n") if end == ".." else (3, b"file 6\n")
        fault = answered(folder.run(program, {"--settlement": end}), *wanted) or untouched(folder, PLAIN_NAMES)
        if fault:
            return f"{end}: {fault}"
    return None


def left_by_a_kill(program, path):
    """Files next to the outputs that a killed run left, of this user or with other rights."""
    for rights in (0o600, 0o444):
        with tempfile.TemporaryDirectory(dir=path) as inner:
            folder = Folder(inner)
            for name in OUTPUTS.values():
                (folder.path / f".rxbatch-{name}").write_bytes(b"left\n")
                (folder.path / f".rxbatch-{name}").chmod(rights)
            fault = answered(folder.run(program), 0, b"")
            if fault or folder.texts() != WHOLE or folder.names() != PLAIN_NAMES:
                return fault or f"the outputs aren't the run's, or {sorted(folder.names() - PLAIN_NAMES)} is left"
    return None


def in_the_way(program, path):
    """A link, a pipe and a folder where a file next to an output is to be made: they stay."""
    for arrange in (lambda place: place.symlink_to("nothing.txt"), lambda place: place.symlink_to("books.txt"),
                    os.mkfifo, os.mkdir):
        with tempfile.TemporaryDirectory(dir=path) as inner:
            folder = Folder(inner)
            arrange(folder.path / ".rxbatch-settlement.txt")
            fault = answered(folder.run(program), 3, b"file 6\n")
            fault = fault or untouched(folder, PLAIN_NAMES | {".rxbatch-settlement.txt"})
            if fault:
                return fault
    return None


def held_by_another(program, path):
    """Outputs that another run is writing, in place and with --safe: the end books, and each of the others."""
    for option, name in OUTPUTS.items():
        for is_safe in (True, False) if option == "--books-out" else (True,):
            with tempfile.TemporaryDirectory(dir=path) as inner:
                folder = Folder(inner)
                with open(folder.path / f".rxbatch-{name}", "w") as held:
                    fcntl.flock(held, fcntl.LOCK_EX)
                    ended = folder.run(program, is_safe=is_safe)
                told = f"file {NUMBERS[option]}\n{option} {name}: another run is writing it\n"
                fault = answered(ended, 3, told.encode()) or untouched(folder, PLAIN_NAMES | {f".rxbatch-{name}"})
                if fault:
                    return f"{option}, {'safe' if is_safe else 'in place'}: {fault}"
    return None


def limited_size(program, path):
    """Files that may not grow past a size."""
    sizes = sorted(len(text) for text in WHOLE.values())
    for limit in (0, *(size - 1 for size in sizes)):
        with tempfile.TemporaryDirectory(dir=path) as inner:
            folder = Folder(inner)

            def first():
                signal.signal(signal.SIGXFSZ, signal.SIG_IGN)
                resource.setrlimit(resource.RLIMIT_FSIZE, (limit, limit))

            larger = [NUMBERS[option] for option, name in OUTPUTS.items() if len(WHOLE[name]) > limit]
            fault = answered(folder.run(program, (), (), first), 3, f"file {min(larger)}\n".encode())
            fault = fault or untouched(folder, PLAIN_NAMES)
            if fault:
                return f"{limit}: {fault}"
    return None


def output_over_input(program, path):
    """An output that is an input."""
    folder = Folder(path)
    ended = folder.run(program, {"--books-out": "./books.txt"})
    fault = answered(ended, 2, b"rxbatch: --books and --books-out are the same file\n")
    return fault or untouched(folder, PLAIN_NAMES)


CASES = (
    new_outputs, earlier_outputs, refused_run, absent_input, absent_folder, locked_folder, followed_link, link_to_nothing,
    device, protected_file, one_file, one_new_file, output_over_input, name_of_a_file_beside, kept_files,
    path_of_a_folder,
    left_by_a_kill, in_the_way, held_by_another, limited_size,
)


# ---------------------------------------------------------------- kills and faults, by strace

def torn(folder):
    """What is wrong with the outputs after a run that was cut."""
    texts = folder.texts()
    for name, text in texts.items():
        if text not in (EARLIER, WHOLE[name]):
            return f"{name} is torn"
    if texts["books-out.txt"] != EARLIER and texts != WHOLE:
        return "the end books are new, and another output isn't"
    return None


def trace_of(program, path):
    """The system calls of a run, as `strace` writes them."""
    folder = Folder(path)
    trace = folder.path.parent / "trace"
    ended = folder.run(program, (), ("strace", "-f", "-o", str(trace)))
    if ended.returncode != 0:
        sys.exit(f"strace: {ended.stderr!r}")
    return trace.read_text()


def cut_runs(program):
    """Runs that are killed, or of which a call fails: how many, and what is wrong after one."""
    with tempfile.TemporaryDirectory(prefix="rxbatch-safe-") as top:
        os.mkdir(os.path.join(top, "first"))
        trace = trace_of(program, os.path.join(top, "first"))
    tried, faults = 0, []
    for way in cuts_of(trace):
        with tempfile.TemporaryDirectory(prefix="rxbatch-safe-") as path:
            folder = Folder(path)
            ended = folder.run(program, (), ("strace", "-f", "-o", "/dev/null", "-e", f"inject={way}"))
            tried += 1
            fault = torn(folder)
            if not fault and ":error=" in way:
                if ended.returncode not in (0, 3) or folder.names() != PLAIN_NAMES:
                    fault = f"status {ended.returncode}, {sorted(folder.names() - PLAIN_NAMES)} left"
            if not fault and (folder.run(program).returncode != 0 or folder.texts() != WHOLE):
                fault = "a run after it isn't done"
            if fault:
                faults.append(f"{way}: {fault}")
    return tried, faults


def small_disks(program):
    """Runs on small disks: how many, and what is wrong after one."""
    tried, faults = 0, []
    for pages in range(3, 16):
        with tempfile.TemporaryDirectory(prefix="rxbatch-safe-") as path:
            disk = pathlib.Path(path) / "disk"
            disk.mkdir()
            subprocess.run(["mount", "-t", "tmpfs", "-o", f"size={pages * 4}k", "tmpfs", str(disk)], check=True)
            try:
                ended, fault = on_disk(program, path, disk)
            finally:
                subprocess.run(["umount", str(disk)], check=True)
        tried += 1
        if fault:
            faults.append(f"{pages} pages: {fault}")
        if ended.returncode == 0:
            return tried, faults
    return tried, faults + ["no disk held a run"]


def one_folder_twice(program):
    """Two outputs that aren't there yet, through a folder that is mounted twice: how many runs, and what is wrong after one."""
    faults = []
    with tempfile.TemporaryDirectory(prefix="rxbatch-safe-") as path:
        folder = Folder(path, earlier=False)
        for name in ("one", "other"):
            (folder.path / name).mkdir()
        subprocess.run(["mount", "--bind", str(folder.path / "one"), str(folder.path / "other")], check=True)
        try:
            ended = folder.run(program, {"--response": "one/new", "--settlement": "other/new"})
            fault = answered(ended, 2, b"rxbatch: --response and --settlement are the same file\n")
            if fault or list((folder.path / "one").iterdir()):
                faults.append(fault or "a file is left")
        finally:
            subprocess.run(["umount", str(folder.path / "other")], check=True)
    return 1, faults


def on_disk(program, path, disk):
    """A run whose outputs are on this disk, and what is wrong after it."""
    folder = Folder(path, earlier=False)
    for name in OUTPUTS.values():
        (disk / name).write_bytes(EARLIER)
    ended = folder.run(program, {option: f"disk/{name}" for option, name in OUTPUTS.items()})
    texts = {name: (disk / name).read_bytes() for name in OUTPUTS.values()}
    if ended.returncode == 0:
        return ended, None if texts == WHOLE else "the outputs aren't the run's"
    fault = None
    if ended.returncode != 3 or ended.stderr not in [f"file {number}\n".encode() for number in NUMBERS.values()]:
        fault = f"status {ended.returncode}, {ended.stderr!r}"
    elif any(text != EARLIER for text in texts.values()) or {file.name for file in disk.iterdir()} != set(texts):
        fault = "an earlier output was changed, or a file is left"
    return ended, fault


# ---------------------------------------------------------------- refused requests for memory

def refused_requests(program):
    """Runs of which a request for memory is refused: how many, and what is wrong after one."""
    faults = []
    with tempfile.TemporaryDirectory(prefix="rxbatch-safe-") as top:
        library = refused_memory.compiled(top)
        for request in itertools.count(1):
            with tempfile.TemporaryDirectory(dir=top) as path:
                folder, met = Folder(path), pathlib.Path(top) / f"met-{request}"
                surroundings = {**os.environ, "LD_PRELOAD": library, "REFUSED_REQUEST": str(request), "REFUSED_MET": str(met)}
                ended = folder.run(program, {"--log": "log.json"}, (), None, surroundings)
                fault = torn(folder) or without_memory(folder, ended)
            if fault:
                faults.append(f"request {request}: {fault}")
            if not met.exists():
                return request, faults


def without_memory(folder, ended):
    """What is wrong with the end of a run that may lack memory."""
    if ended.returncode == 0:
        return None if folder.texts() == WHOLE else "the outputs aren't the run's"
    log = folder.path / "log.json"
    if folder.names() - {"log.json"} != PLAIN_NAMES or ended.returncode not in (1, 3):
        return f"status {ended.returncode}, {ended.stderr!r}, {sorted(folder.names() - PLAIN_NAMES)} left"
    if log.exists() and log.read_bytes() and json.loads(log.read_bytes())["status"] not in (0, ended.returncode):
        return f"the log tells another status than {ended.returncode}"
    return None


def main(words):
    parser = argparse.ArgumentParser(description=__doc__, formatter_class=argparse.RawDescriptionHelpFormatter)
    parser.add_argument("program", metavar="PROGRAM")
    parser.add_argument("--kills", action="store_true", help="kill a run at each system call, too")
    parser.add_argument("--disk", action="store_true", help="run on small disks, too")
    parser.add_argument("--memory", action="store_true", help="refuse each request for memory, too")
    options = parser.parse_args(words)
    program = str(pathlib.Path(options.program).resolve())
    failed = 0
    for case in CASES:
        with tempfile.TemporaryDirectory(prefix="rxbatch-safe-") as path:
            fault = case(program, path)
        if fault:
            failed += 1
            print(f"{case.__doc__} {fault}")
    print(f"{len(CASES) - failed} passed, {failed} failed")
    sweeps = ((options.kills, cut_runs, "cut runs"), (options.disk, small_disks, "runs on small disks"),
              (options.disk, one_folder_twice, "runs in a folder that is mounted twice"),
              (options.memory, refused_requests, "runs without memory"))
    for wanted, sweep, name in sweeps:
        if wanted:
            tried, faults = sweep(program)
            for fault in faults:
                print(fault)
            print(f"{name}: {tried - len(faults)} passed, {len(faults)} failed")
            failed += len(faults)
    return 1 if failed else 0


if __name__ == "__main__":
    sys.exit(main(sys.argv[1:]))
