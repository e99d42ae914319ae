#!/usr/bin/env python3
"""Installs and uninstalls the program in a folder of its own, and makes the Debian package (README.md, "Install").

    run_packaging.py PROGRAM [--shells]

With --shells completions are tried in live shells too. What isn't on the machine (groff, man, dpkg-deb, lintian, bash, zsh)
isn't tried, and a line says so.
"""
import os
import pathlib
import pty
import re
import select
import shutil
import subprocess
import sys
import tempfile
import time

ROOT = pathlib.Path(__file__).resolve().parent.parent
PLACES = [
    "bin/rxbatch",
    "lib/rxbatch/night.sh",
    "lib/rxbatch/table.py",
    "lib/systemd/system/rxbatch-night.service",
    "lib/systemd/system/rxbatch-night.timer",
    "share/bash-completion/completions/rxbatch",
    "share/doc/rxbatch/CLI.md",
    "share/doc/rxbatch/README.md",
    "share/man/man1/rxbatch.1",
    "share/zsh/site-functions/_rxbatch",
]
# what a shell draws a line with
DRAWN = re.compile(r"\x1b\[[0-9;?]*[A-Za-z]|[\x00\x07\x08\r]")
# what is typed before the tabulator, and what stands there after it, or doesn't
TYPED = [
    ("rxbatch ver", "verify", None),
    ("rxbatch run --she", "--sheet", None),
    ("rxbatch run --verb", "--verbose", None),
    ("rxbatch run --plain --pla", None, "--plain --plain"),
    ("rxbatch run --plain --verb", "--verbose", None),
    ("rxbatch run --workers --pla", None, "--plain"),
    ("rxbatch run --sheet packag", "packaging/", None),
    ("rxbatch run --sheet=packag", "packaging/", None),
    ("rxbatch adjudicate --sheet CONTRIB", "CONTRIBUTING.md", None),
    ("rxbatch adjudicate --out examp", "examples/", None),
    ("rxbatch hel", "help", None),
    ("rxbatch help adj", "adjudicate", None),
]


def files_below(folder):
    return {str(path.relative_to(folder)) for path in folder.rglob("*") if path.is_file()}


def make(goal, program, folder, prefix):
    words = ["make", "--silent", goal, f"PROGRAM={program}", f"DESTDIR={folder}", f"PREFIX={prefix}"]
    return subprocess.run(words, cwd=ROOT, capture_output=True, text=True)


def installed_and_removed(program, folder):
    """Each file is at its place, the units name the prefix, and nothing is left after uninstalling."""
    done = make("install", program, folder, "/opt/x")
    if done.returncode != 0:
        return done.stderr
    missing = set(PLACES) - files_below(folder / "opt/x")
    if missing:
        return f"not installed: {sorted(missing)}"
    service = (folder / "opt/x/lib/systemd/system/rxbatch-night.service").read_text()
    if "/usr/local" in service or "/opt/x/lib/rxbatch/night.sh" not in service:
        return "the unit doesn't name the prefix"
    done = make("uninstall", program, folder, "/opt/x")
    left = files_below(folder)
    return done.stderr or (f"left after uninstalling: {sorted(left)}" if left else None)


def shown_by(*words):
    """Nothing is said of the manual page, and it is shown to its end."""
    def tried(_program, _folder):
        done = subprocess.run([*words, ROOT / "packaging/rxbatch.1"], capture_output=True, text=True)
        return done.stderr or (None if "docs/CLI.md" in done.stdout else "the manual page ends early")

    return tried


def package_is_fine(program, folder):
    names = os.environ | {"DEBFULLNAME": "A Packager", "DEBEMAIL": "packager@debian.org"}
    words = ["sh", ROOT / "packaging/make_deb.sh", program, folder]
    done = subprocess.run(words, cwd=ROOT, env=names, capture_output=True, text=True)
    packages = list(folder.glob("*.deb"))
    if done.returncode != 0 or len(packages) != 1:
        return done.stderr or "no package"
    listed = subprocess.run(["dpkg-deb", "--contents", packages[0]], capture_output=True, text=True).stdout
    missing = [place for place in PLACES if place.startswith(("bin", "lib")) and f"./usr/{place}" not in listed]
    if missing:
        return f"not in the package: {missing}"
    if shutil.which("lintian"):
        done = subprocess.run(["lintian", "--allow-root", packages[0]], capture_output=True, text=True)
        return done.stdout or done.stderr or None
    print("run_packaging: lintian isn't on this machine: not tried")
    return None


class Shell:
    """A live shell at a terminal of its own."""

    def __init__(self, words, start):
        self.process, self.terminal = pty.fork()
        if self.process == 0:
            os.chdir(ROOT)
            os.environ.update(TERM="vt100", PS1="", COLUMNS="200")
            os.execvp(words[0], words)
        os.write(self.terminal, f"{start}; echo rea''dy\n".encode())
        end = time.monotonic() + 60
        while "ready" not in self.read(5.0) and time.monotonic() < end:
            pass

    def read(self, seconds):
        """What it prints until it has been silent for half a second, or for so long at most."""
        end, text = time.monotonic() + seconds, b""
        while time.monotonic() < end and select.select([self.terminal], [], [], 0.5 if text else seconds)[0]:
            try:
                text += os.read(self.terminal, 65536)
            except OSError:
                break
        return DRAWN.sub("", text.decode("utf-8", "replace"))

    def completed(self, typed, there):
        """What stands after the tabulator is pressed, once this is there or after a time; the line is then deleted."""
        os.write(self.terminal, typed.encode() + b"\t")
        text, end = self.read(5.0), time.monotonic() + 20
        while there and there not in text and time.monotonic() < end:
            text += self.read(1.0)
        os.write(self.terminal, b"\x15")
        self.read(0.5)
        return text

    def end(self):
        os.close(self.terminal)
        os.waitpid(self.process, 0)


def completions_of(words, start):
    def tried(_program, _folder):
        shell = Shell(words, start)
        try:
            for typed, there, absent in TYPED:
                text = shell.completed(typed, there)
                if (there and there not in text) or (absent and absent in text):
                    return f"{words[0]}: {typed!r} became {text!r}"
        finally:
            shell.end()
        return None

    return tried


def main():
    words = [word for word in sys.argv[1:] if word != "--shells"]
    if len(words) != 1:
        sys.exit(__doc__)
    program = pathlib.Path(words[0]).resolve()
    folder = ROOT / "packaging"
    tests = [
        ("make", "installed and removed", installed_and_removed),
        ("groff", "the manual page", shown_by("groff", "-man", "-ww", "-Tutf8")),
        ("man", "the manual page", shown_by("man", "--warnings", "--local-file")),
        ("dpkg-deb", "the package", package_is_fine),
    ]
    if "--shells" in sys.argv:
        tests += [
            ("bash", "completions", completions_of(["bash", "--norc", "-i"], f"source {folder}/rxbatch.bash")),
            ("zsh", "completions", completions_of(["zsh", "-f", "-i"], f"fpath=({folder} $fpath); autoload -U compinit; compinit -u -D")),
        ]
    failed = 0
    tried = 0
    for needed, name, test in tests:
        if not shutil.which(needed):
            print(f"run_packaging: {needed} isn't on this machine: not tried")
            continue
        with tempfile.TemporaryDirectory() as given:
            wrong = test(program, pathlib.Path(given))
        tried += 1
        if wrong:
            failed += 1
            print(f"{needed}: {name}: {wrong}")
    print(f"{tried - failed} passed, {failed} failed")
    return 1 if failed else 0


if __name__ == "__main__":
    sys.exit(main())
