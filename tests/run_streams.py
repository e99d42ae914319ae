#!/usr/bin/env python3
"""Runs a program with rxbatch's words with standard streams that are closed, lead to an output, or break off, and on files
with hostile names (docs/CLI.md, "Streams and names").

    run_streams.py PROGRAM
"""
import os
import pathlib
import shlex
import shutil
import subprocess
import sys
import tempfile

JOB = pathlib.Path(__file__).resolve().parent / "cases" / "one-billing"
INPUTS = {"--sheet": "sheet.toml", "--books": "books.txt", "--batch": "batch.bin"}
OUTPUTS = {"--response": "response.bin", "--books-out": "books-out.txt", "--settlement": "settlement.txt"}
WHOLE = {name: (JOB / name).read_bytes() for name in OUTPUTS.values()}
RUN = ("--stamp", (JOB / "stamp").read_text(), "--workers", "2")
# The name of a file that forges a line, drives a terminal and breaks a command.
HOSTILE = "a'\n$(touch made)\x1b[2J\\é refused 0 0 0.txt"


def words_of(paths):
    return [word for pair in paths.items() for word in pair]


def texts_of(folder):
    return {name: (folder / name).read_bytes() if (folder / name).exists() else None for name in OUTPUTS.values()}


def closed(streams):
    """What closes these streams before the program begins."""
    def close():
        for stream in streams:
            os.close(stream)
    return close


def closed_streams(program, folder):
    """No file gets the number of a stream that is closed at the start."""
    for streams in ((0,), (1,), (2,), (0, 1), (0, 2), (1, 2), (0, 1, 2)):
        for more in ([], ["--safe"], ["-v", "--log", "log.json"]):
            for name in (*OUTPUTS.values(), "log.json"):
                (folder / name).unlink(missing_ok=True)
            words = ["run", *more, *words_of(INPUTS | OUTPUTS), *RUN]
            ended = subprocess.run([program, *words], cwd=folder, stdout=subprocess.DEVNULL, stderr=subprocess.DEVNULL,
                                   preexec_fn=closed(streams))
            if ended.returncode != 0 or texts_of(folder) != WHOLE:
                return f"{streams} {more}: status {ended.returncode}, or the outputs aren't the run's"
            if more[-1:] == ["log.json"] and not (folder / "log.json").read_bytes().startswith(b"{"):
                return f"{streams}: lines of -v in the log"
    ended = subprocess.run([program, "replies", "--response", JOB / "response.bin"], cwd=folder, stderr=subprocess.PIPE,
                           preexec_fn=closed((1,)))
    return None if (ended.returncode, ended.stderr) == (3, b"file 0\nstandard output: bad file descriptor\n") else f"a closed output: {ended}"


def streams_on_outputs(program, folder):
    """An output or a log that is the file of standard output or standard error."""
    for option, name in (*OUTPUTS.items(), ("--log", "log.json")):
        for stream, called in (("stdout", "standard output"), ("stderr", "standard error")):
            for more in ([], ["--safe"]):
                (folder / name).write_bytes(b"earlier\n")
                paths = INPUTS | OUTPUTS | {option: name}
                with open(folder / name, "ab") as file:
                    streams = {"stderr": subprocess.DEVNULL, stream: file}
                    ended = subprocess.run([program, "run", *more, *words_of(paths), *RUN], cwd=folder, **streams)
                lines = f"rxbatch: {option} and {called} are the same file\n" if option != "--log" else \
                    f"rxbatch: {called} and --log are the same file\n"
                kept = b"earlier\n" + (lines.encode() if stream == "stderr" else b"")
                if ended.returncode != 2 or (folder / name).read_bytes() != kept:
                    return f"{option}, {called} {more}: status {ended.returncode}, {(folder / name).read_bytes()!r}"
    return None


def broken_pipe(program, folder):
    """A pipe whose reader is gone ends a command quietly."""
    reading, writing = os.pipe()
    os.close(reading)
    ended = subprocess.run([program, "show", "--sheet", "sheet.toml", "--batch", "batch.bin"], cwd=folder, stdout=writing,
                           stderr=subprocess.PIPE)
    os.close(writing)
    return None if (ended.returncode, ended.stderr) == (3, b"") else f"{ended}"


def full_output(program, folder):
    """A device that takes nothing isn't quiet."""
    with open("/dev/full", "wb") as full:
        ended = subprocess.run([program, "sample"], cwd=folder, stdout=full, stderr=subprocess.PIPE)
    return None if (ended.returncode, ended.stderr) == (3, b"file 0\n") else f"{ended}"


def hostile_names(program, folder):
    """A hostile name is one word of a shell on one printable line, and its mending command does only what it says."""
    text = (folder / "books.txt").read_bytes().replace(b"\n", b"\r\n")
    (folder / HOSTILE).write_bytes(text)
    for words in (["check", *words_of(INPUTS | {"--books": HOSTILE})],
                  ["run", "-v", *words_of(INPUTS | OUTPUTS | {"--books": HOSTILE}), *RUN],
                  ["run", "-v", *words_of(INPUTS | OUTPUTS | {"--books": f"no/{HOSTILE}"}), *RUN]):
        ended = subprocess.run([program, *words], cwd=folder, stdin=subprocess.DEVNULL, capture_output=True)
        told = (ended.stdout + ended.stderr).decode()
        if not told.isascii() or any(byte < " " and byte != "\n" for byte in told) or "\nrefused 0" in told:
            return f"{words[0]}: {told!r}"
        if "$'" not in told:
            return f"{words[0]}: the name isn't told: {told!r}"
    ended = subprocess.run([program, "check", *words_of(INPUTS | {"--books": HOSTILE})], cwd=folder, capture_output=True)
    command = ended.stdout.decode().rsplit(" (", 1)[1].rstrip("\n").removesuffix(")")
    subprocess.run(["bash", "-c", command], cwd=folder, check=True)
    if (folder / HOSTILE).read_bytes() != (folder / "books.txt").read_bytes() or (folder / "made").exists():
        return f"the mending command {command!r} did something else"
    return None


def plain_quotes(program, folder):
    """A name with a blank is quoted for the shell."""
    shutil.copy(folder / "books.txt", folder / "my books.txt")
    (folder / "my books.txt").write_bytes((folder / "books.txt").read_bytes().replace(b"\n", b"\r\n"))
    ended = subprocess.run([program, "check", *words_of(INPUTS | {"--books": "my books.txt"})], cwd=folder, capture_output=True)
    line = ended.stdout.decode()
    if not line.startswith("'my books.txt':1: ") or "my books.txt" not in shlex.split(line.rsplit(" (", 1)[1].rstrip(")\n")):
        return line
    return None


def failed_log(program, folder):
    """A log that can't be opened is reported in words with -v."""
    ended = subprocess.run([program, "run", "-v", "--log", "no/log", *words_of(INPUTS | OUTPUTS), *RUN], cwd=folder,
                           capture_output=True)
    return None if (ended.returncode, ended.stderr) == (3, b"file 7\n--log no/log: no such file or directory\n") else f"{ended}"


WAYS = (closed_streams, streams_on_outputs, broken_pipe, full_output, hostile_names, plain_quotes, failed_log)


def main(words):
    if len(words) != 1:
        sys.exit(__doc__)
    program = str(pathlib.Path(words[0]).resolve())
    failed = 0
    for way in WAYS:
        with tempfile.TemporaryDirectory(prefix="rxbatch-streams-") as name:
            folder = pathlib.Path(name)
            for path in INPUTS.values():
                shutil.copy(JOB / path, folder)
            fault = way(program, folder)
        if fault:
            failed += 1
            print(f"{way.__doc__} {fault}")
    print(f"{len(WAYS) - failed} passed, {failed} failed")
    return 1 if failed else 0


if __name__ == "__main__":
    sys.exit(main(sys.argv[1:]))
