#!/usr/bin/env python3
"""Finds the definitions that the headline promise cites, directly or through others.

    python3 tools/trusted.py [FOLDER]

It begins with the contract of `rx_switch::run` and follows the imports from one file of specs/ to the next. What `rt` makes of
the code's own types (`specs.declared`) and the standard library's definitions aren't counted. It prints each file with its
lines, and at last the sums: lines, files and crates. docs/GUARANTEES.md has the files in the order in which to read them.
"""

import pathlib
import re
import sys

HEADLINE = "crates/rx_switch/src/running.rt"
IMPORT = re.compile(r"\buse Rattle\.(rx_\w+)\.specs\.(?!declared\b)(\w+(?:\.[A-Z]\w*)*)")


def files_in(root, text):
    """The files of definitions that a text imports."""
    return [root / "crates" / crate / "specs" / f"{path.replace('.', '/')}.antt" for crate, path in IMPORT.findall(text)]


def trusted(root):
    """The text of each file of definitions that the headline cites, by its path."""
    found = {}
    left = files_in(root, (root / HEADLINE).read_text())
    while left:
        path = left.pop()
        if path not in found:
            found[path] = path.read_text()
            left += files_in(root, found[path])
    return found


def sums(found):
    """How many lines, files and crates there are."""
    return sum(len(text.splitlines()) for text in found.values()), len(found), len({path.parent for path in found})


def main():
    root = pathlib.Path(sys.argv[1] if len(sys.argv) > 1 else pathlib.Path(__file__).parent.parent)
    found = trusted(root)
    for path in sorted(found):
        print(f"{len(found[path].splitlines()):5} {path.relative_to(root)}")
    print("{:,} lines in {} files of {} crates".format(*sums(found)))


if __name__ == "__main__":
    main()
