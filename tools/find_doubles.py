#!/usr/bin/env python3
"""Finds code and definitions that stand twice: six or more lines that are equal, names aside.

    python3 tools/find_doubles.py [FOLDER] [--least N] [--allowed N] [--crate NAME]

Read are crates/*/src and crates/*/specs below FOLDER, tests aside. Lines are equal, names aside, where one becomes the other
by giving each name, number and text another one throughout; keywords stay. Only these are no lines:

- blank lines, comments, imports, attributes, and lines of brackets only;
- the further lines of a table: lines of one form that follow each other, as a list of fields or the arms of a `match` of
  codes, count as one.

One row is printed for each double, the longest first: how many lines, and all places where they stand. The last line counts
the rows; the exit status is 1 where there are more than --allowed. --crate shows only those that touch a crate.
"""

import argparse
import collections
import pathlib
import re
import sys

TOKEN = re.compile(r'b?"(?:\\.|[^"\\])*"|b?\'(?:\\.|[^\'\\])\'|[^\W\d][\w\'-]*|\d[\w.]*|\S')
WORD = re.compile(r"[^\W\d]")
NUMBER_OR_TEXT = re.compile(r"\d|b?[\"']")
IMPORT = re.compile(r"(pub(\(\w+\))? )?(ghost )?(use|mod)\b|#!?\[")
COMMENT = {".rt": re.compile(r"//.*$"), ".antt": re.compile(r"-- .*$|--$")}
KEYWORDS = set("""
    abbrev as break const continue data elim else ensures enum fn for ghost if impl in invariant let loop match mod move mut
    open pub record ref requires return self Self struct then trait type unfoldable unfolding use where while
    bool char false i64 str true u128 u16 u32 u64 u8 usize Bool Err List None Ok Option Result Some Type Vec
""".split())


def is_name(token):
    return token not in KEYWORDS and (WORD.match(token) or NUMBER_OR_TEXT.match(token))


def form_of(tokens):
    """A line with every name left out."""
    return " ".join("_" if is_name(token) else token for token in tokens)


def shape_of(lines):
    """Lines with each name given a number, by where it stands first."""
    numbers = {}
    rows = [[str(numbers.setdefault(token, len(numbers))) if is_name(token) else token for token in tokens] for _, tokens in lines]
    return "\n".join(map(" ".join, rows))


def lines_of(path):
    """The lines of a file that count, each as (its number, its tokens)."""
    found, in_import, form = [], False, ""
    for number, text in enumerate(path.read_text().splitlines(), 1):
        text = COMMENT[path.suffix].sub("", text).strip()
        if in_import or IMPORT.match(text):
            in_import = "}" not in text and (in_import or "{" in text)
            continue
        tokens = TOKEN.findall(text)
        if not any(WORD.match(token) or NUMBER_OR_TEXT.match(token) for token in tokens):
            continue
        if found and form_of(tokens) == form:
            found[-1][1].extend(tokens)
        else:
            found.append((number, tokens))
        form = form_of(tokens)
    return found


def is_read(path):
    """Whether a file has code or definitions, and no tests."""
    return not any(part.startswith(("tests", "rx_tests")) for part in path.parts)


def places_of(files, least):
    """For each shape of `least` lines the places where it begins, as (file, index of the first line)."""
    places = collections.defaultdict(list)
    for file, lines in files.items():
        for at in range(len(lines) - least + 1):
            places[shape_of(lines[at:at + least])].append((file, at))
    return places


def apart(places, least):
    """Those places that don't overlap the one before, in order."""
    found = []
    for file, at in sorted(places):
        if not found or found[-1][0] != file or at - found[-1][1] >= least:
            found.append((file, at))
    return found


def doubles_of(files, least):
    """The doubles, each as {file: the indexes of its lines}: shapes whose places overlap are one."""
    shapes = [found for found in (apart(it, least) for it in places_of(files, least).values()) if len(found) > 1]
    owner, doubles = {}, {}
    for number, found in enumerate(shapes):
        lines = {(file, at + step) for file, at in found for step in range(least)}
        for other in {owner[line] for line in lines if line in owner}:
            lines |= doubles.pop(other)
        doubles[number] = lines
        owner.update((line, number) for line in lines)
    for lines in doubles.values():
        at = collections.defaultdict(list)
        for file, index in sorted(lines):
            at[file].append(index)
        yield at


def runs_of(indexes):
    """Ascending indexes as runs without a gap."""
    runs = []
    for index in indexes:
        if runs and index == runs[-1][1] + 1:
            runs[-1][1] = index
        else:
            runs.append([index, index])
    return runs


def row_of(root, files, double):
    """How many lines the longest place of a double has, and what is printed of it."""
    places = [(file, first, last) for file, indexes in double.items() for first, last in runs_of(indexes)]
    most = max(last - first + 1 for _, first, last in places)
    names = [f"{file.relative_to(root)}:{files[file][first][0]}-{files[file][last][0]}" for file, first, last in places]
    return most, f"{most:4} lines  " + " = ".join(names)


def main():
    words = argparse.ArgumentParser(description=__doc__.splitlines()[0])
    words.add_argument("folder", nargs="?", default=pathlib.Path(__file__).parent.parent, type=pathlib.Path)
    words.add_argument("--least", type=int, default=6)
    words.add_argument("--allowed", type=int, default=0)
    words.add_argument("--crate")
    given = words.parse_args()
    paths = [*given.folder.glob("crates/*/src/**/*.rt"), *given.folder.glob("crates/*/specs/**/*.antt")]
    files = {path: lines_of(path) for path in sorted(paths) if is_read(path.relative_to(given.folder))}
    rows = sorted((row_of(given.folder, files, it) for it in doubles_of(files, given.least)), key=lambda row: (-row[0], row[1]))
    for _, row in rows:
        if not given.crate or f"crates/{given.crate}/" in row:
            print(row)
    print(f"{len(rows)} doubles of {given.least} lines or more in {len(files)} files, {given.allowed} allowed")
    return 1 if len(rows) > given.allowed else 0


if __name__ == "__main__":
    sys.exit(main())
