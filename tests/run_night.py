#!/usr/bin/env python3
"""Does small nights of examples/night by a program with rxbatch's words: one that is done, again, cut by a kill, in yesterday's
folder, with a changed input, with warnings that stop a pair, and two at once (examples/night/README.md).

    run_night.py PROGRAM
"""
import fcntl
import json
import os
import pathlib
import shutil
import signal
import subprocess
import sys
import tempfile
import time

ROOT = pathlib.Path(__file__).resolve().parent.parent
NIGHT = ROOT / "examples" / "night"
CASES = ROOT / "tests" / "cases"
PAIRS = {"one": "one-billing", "two": "family-deductible-after-a-reversal", "three": "four-transactions-in-one-record"}
OUTPUTS = {"response.bin": "response.bin", "books.txt": "books-out.txt", "settlement.txt": "settlement.txt"}
STAMP = "202603020600"


class Night:
    """A folder with the inputs of three pairs."""

    def __init__(self, path, program):
        self.path, self.program = pathlib.Path(path), program
        lines = []
        for name, case in PAIRS.items():
            shutil.copytree(CASES / case, self.path / "jobs" / name)
            lines.append(f"{name} jobs/{name}/sheet.toml jobs/{name}/books.txt jobs/{name}/batch.bin\n")
        (self.path / "pairs.txt").write_text("".join(lines))

    def surroundings(self, **more):
        return {**os.environ, "RXBATCH": self.program, "STAMP": STAMP, "WORKERS": "2", **more}

    def go(self, **more):
        return subprocess.run(["sh", NIGHT / "night.sh"], cwd=self.path, env=self.surroundings(**more),
                              stdin=subprocess.DEVNULL, capture_output=True, text=True)

    def wait_until_free(self):
        """Waits until the last process of a killed night is gone, for ten seconds at most."""
        with open(self.path / "night.lock", "a") as lock:
            for _ in range(1_000):
                try:
                    fcntl.flock(lock, fcntl.LOCK_EX | fcntl.LOCK_NB)
                    return
                except BlockingIOError:
                    time.sleep(0.01)

    def lines(self, name):
        """The lines of a pair's log."""
        log = self.path / "out" / name / "log.jsonl"
        return [json.loads(line) for line in log.read_text().splitlines()] if log.exists() else []

    def fault(self, done=tuple(PAIRS)):
        """What is wrong with the outputs of the pairs that are done: `verify` compares them."""
        for name in done:
            out, job = self.path / "out" / name, self.path / "jobs" / name
            words = ["verify", "--sheet", job / "sheet.toml", "--books", job / "books.txt", "--batch", job / "batch.bin",
                     "--stamp", STAMP, "--response", out / "response.bin", "--books-out", out / "books.txt",
                     "--settlement", out / "settlement.txt"]
            if subprocess.run([self.program, *words], capture_output=True).returncode != 0:
                return f"{name}: verify finds a difference"
            left = {path.name for path in out.iterdir()} - {*OUTPUTS, "log.jsonl", "run.txt"}
            if left:
                return f"{name}: {left} left"
        return None

    def failed(self):
        return subprocess.run(["sh", NIGHT / "failed.sh"], cwd=self.path, capture_output=True, text=True).stdout.strip()


def ended(got, status, *words):
    """What is wrong with the end of a night."""
    if got.returncode != status:
        return f"status {got.returncode} and not {status}: {got.stderr}"
    if len(got.stderr.splitlines()) != len(words) or any(word not in line for word, line in zip(words, got.stderr.splitlines())):
        return f"{got.stderr!r} in the journal, expected {words}"
    return None


def done_and_again(night):
    """A night that is done, and again: nothing is run twice."""
    fault = ended(night.go(), 0) or night.fault() or ended(night.go(), 0) or night.fault()
    counts = [len(night.lines(name)) for name in PAIRS]
    return fault or (None if counts == [1, 1, 1] and night.failed() == "" else f"runs: {counts}, failed: {night.failed()}")


def yesterdays_folder(night):
    """Other inputs than those of the outputs that lie there: the pair isn't run, and says so."""
    fault = ended(night.go(), 0)
    earlier = (night.path / "out" / "two" / "response.bin").read_bytes()
    for name in ("sheet.toml", "books.txt", "batch.bin"):
        shutil.copy(CASES / PAIRS["one"] / name, night.path / "jobs" / "two" / name)
    fault = fault or ended(night.go(), 1, "two: out/two has the outputs of other inputs: move it away")
    if fault or (night.path / "out" / "two" / "response.bin").read_bytes() != earlier or night.failed() != "2":
        return fault or "an output was changed, or the pair counts as done"
    (night.path / "out" / "two").rename(night.path / "yesterday")
    return ended(night.go(), 0) or night.fault()


def changed_output(night):
    """An output that was lost is made again."""
    fault = ended(night.go(), 0)
    (night.path / "out" / "one" / "response.bin").unlink()
    return fault or ended(night.go(), 0) or night.fault()


def refused_pair(night):
    """A pair that is refused: the journal has its name and the reason, the others are done."""
    sheet = night.path / "jobs" / "two" / "sheet.toml"
    sheet.write_text("".join(line for line in sheet.read_text().splitlines(True) if not line.startswith("fee")))
    return ended(night.go(), 1, "two: jobs/two/sheet.toml") or night.fault(("one", "three"))


def failed_run(night):
    """A pair whose run fails: the journal has its name and the reason."""
    (night.path / "out" / "two" / "response.bin").mkdir(parents=True)
    return ended(night.go(), 1, "two: rxbatch: response.bin in --out isn't a regular file") or night.fault(("one", "three"))


def adjudicated_already(night):
    """A batch that was adjudicated already stops its pair, unless that is accepted."""
    fault = ended(night.go(), 0)
    shutil.copy(night.path / "out" / "one" / "books.txt", night.path / "jobs" / "one" / "books.txt")
    shutil.rmtree(night.path / "out" / "one")
    fault = fault or ended(night.go(), 1, "it was adjudicated already")
    if fault or (night.path / "out" / "one" / "response.bin").exists():
        return fault or "the pair was run"
    return ended(night.go(ACCEPT_WARNINGS="1"), 0) or night.fault()


def other_plan(night):
    """A batch of another plan stops its pair."""
    sheet = night.path / "jobs" / "one" / "sheet.toml"
    lines = [line if not line.startswith("pcn") else 'pcn = "ANOTHER"\n' for line in sheet.read_text().splitlines(True)]
    sheet.write_text("".join(lines))
    fault = ended(night.go(), 1, "one: jobs/one/batch.bin: warning: no record names the sheet's bin and pcn")
    return fault or ("the pair was run" if (night.path / "out" / "one" / "response.bin").exists() else None)


def two_at_once(night):
    """A second night ends at once."""
    with open(night.path / "night.lock", "w") as lock:
        fcntl.flock(lock, fcntl.LOCK_EX)
        fault = ended(night.go(), 75, "another night goes on")
    return fault or ended(night.go(), 0) or night.fault()


def cut_nights(night):
    """Nights that are killed after a while, each started again."""
    for delay in (0, 5, 10, 20, 30, 40, 60, 80, 120, 200):
        shutil.rmtree(night.path / "out", ignore_errors=True)
        running = subprocess.Popen(["sh", NIGHT / "night.sh"], cwd=night.path, env=night.surroundings(),
                                   stdin=subprocess.DEVNULL, stdout=subprocess.DEVNULL, stderr=subprocess.DEVNULL,
                                   start_new_session=True)
        time.sleep(delay / 1000)
        os.killpg(running.pid, signal.SIGKILL)
        running.wait()
        night.wait_until_free()
        fault = ended(night.go(), 0) or night.fault()
        if fault:
            return f"cut after {delay} ms: {fault}"
    return None


WAYS = (done_and_again, yesterdays_folder, changed_output, refused_pair, failed_run, adjudicated_already, other_plan,
        two_at_once, cut_nights)


def main(words):
    if len(words) != 1:
        sys.exit(__doc__)
    program = str(pathlib.Path(words[0]).resolve())
    failed = 0
    for way in WAYS:
        with tempfile.TemporaryDirectory(prefix="rxbatch-night-") as path:
            fault = way(Night(path, program))
        if fault:
            failed += 1
            print(f"{way.__doc__} {fault}")
    print(f"{len(WAYS) - failed} passed, {failed} failed")
    return 1 if failed else 0


if __name__ == "__main__":
    sys.exit(main(sys.argv[1:]))
