#!/usr/bin/env python3
"""Counts words that this project used in a sense of its own where plain English has a better one.

    python3 tools/count_dialect.py [FOLDER] [--allowed N] [--show] [--only pages|docs|comments|messages]

Read are, below FOLDER: pages without their blocks and quotations; comments of code, definitions, proofs and scripts, `docs`
being those of public items and modules (`///`, `//!`, and the first lines of definitions) without examples; and the texts in
quotes in the code, tests aside, which the program prints. Names aren't read: what is in backquotes, in braces or bold. WORDS has
each word with what to write instead.

--show prints each place. The last lines count the places by kind and in all; the exit status is 1 where there are more than
--allowed. That number only falls.
"""

import argparse
import collections
import pathlib
import re
import sys

# a word, and what to write
WORDS = {
    r"(?:tells?|told|telling)(?! apart)": "prints, says, reports, names",
    r"want(?:s|ed|ing)?": "expected; out of memory",
    r"hears?|heard": "accepted, seen",
    r"beside": "next to, in parallel, besides",
    r"behind": "after",
    r"so many": "this many, N",
    r"alone": "only",
    r"hand(?:s|ed|ing)? out": "returns, gives to",
    r"where (?:there|it) (?:is|are) (?:one|any|some|none|no)": "if there is one, if any",
    r"gone (?:over|through)": "replayed, read, visited",
    r"let(?:s|ting)? go": "frees, drops",
    r"in earnest": "production",
    r"is no (?:plain|text|number|file|response|books|batch)": "isn't a",
    r"whom": "who, that",
    r"passed over": "ignored, skipped",
    r"any ?more": "no longer",
}
PAGES, DOCS, COMMENTS, MESSAGES = "pages", "docs", "comments", "messages"
WORD = re.compile(r"\b(?:" + "|".join(WORDS) + r")\b", re.I)
NAMES = re.compile(r"`[^`]*`(?: \([a-z_, ]+\))?|\{\w+\}|\*\*[^*]*\*\*")
TEXT = re.compile(r'"((?:\\.|[^"\\])*)"')
BLOCK = re.compile(r"^```.*?^```$", re.M | re.S)
CODE_COMMENT = re.compile(r"^(?P<code>(?:[^\"/]|\"(?:\\.|[^\"\\])*\"|/(?!/))*)(?P<mark>//[/!]?)(?P<text>.*)$")


def is_test(path):
    """Whether a file of code has only tests."""
    return any(part.startswith(("tests", "rx_tests")) for part in path.parts)


def of_code(path, text):
    """The comments of a file of code, and the texts that it prints."""
    in_example = False
    for number, line in enumerate(text.splitlines(), 1):
        comment = CODE_COMMENT.match(line)
        code = comment["code"] if comment else line
        in_example ^= bool(comment) and comment["text"].strip().startswith("```")
        if comment and not in_example:
            yield (DOCS if comment["mark"] != "//" else COMMENTS), number, comment["text"]
        if not is_test(path):
            yield MESSAGES, number, " ".join(TEXT.findall(code))


def of_definitions(path, text):
    """The comments of a file of definitions or of a proof."""
    for number, line in enumerate(text.splitlines(), 1):
        code, mark, comment = line.partition("--")
        if mark:
            first = "specs" in path.parts and not code and number == 1
            yield (DOCS if first else COMMENTS), number, comment


def of_script(text):
    """The comments of a script, and its texts in three quotes."""
    within = False
    for number, line in enumerate(text.splitlines(), 1):
        quotes = line.count('"""')
        if within or quotes or re.match(r"\s*#", line):
            yield COMMENTS, number, line
        within ^= quotes % 2 == 1


def of_page(text):
    """The lines of a page, without its blocks."""
    for number, line in enumerate(BLOCK.sub(lambda it: "\n" * it[0].count("\n"), text).splitlines(), 1):
        if not line.startswith("> "):
            yield PAGES, number, line


def lines_of(path):
    """What is read of a file: each line with its kind and number."""
    text = path.read_text()
    if path.suffix == ".rt":
        return of_code(path, text)
    if path.suffix == ".antt":
        return of_definitions(path, text)
    return of_page(text) if path.suffix == ".md" else of_script(text)


def places_in(root):
    """Each place of such a word: its kind, file, line and word."""
    patterns = ("crates/*/src/**/*.rt", "crates/*/specs/**/*.antt", "crates/*/proofs/**/*.antt", "**/*.md", "**/*.py", "**/*.sh", "Makefile")
    paths = sorted({path for pattern in patterns for path in root.glob(pattern)})
    for path in paths:
        inner = path.relative_to(root)
        if "out" in inner.parts or inner.name == pathlib.Path(__file__).name:
            continue
        for kind, number, line in lines_of(path):
            for match in WORD.finditer(NAMES.sub("", line)):
                yield kind, inner, number, match[0], line.strip()


def main():
    words = argparse.ArgumentParser(description=__doc__.splitlines()[0])
    words.add_argument("folder", nargs="?", default=pathlib.Path(__file__).resolve().parent.parent, type=pathlib.Path)
    words.add_argument("--allowed", type=int, default=0)
    words.add_argument("--show", action="store_true")
    words.add_argument("--only", choices=(PAGES, DOCS, COMMENTS, MESSAGES))
    given = words.parse_args()
    found = [it for it in places_in(given.folder) if given.only in (None, it[0])]
    if given.show:
        for kind, path, number, word, line in found:
            print(f"{kind} {path}:{number}: {word}: {line}")
    counts = collections.Counter(kind for kind, *_ in found)
    print(", ".join(f"{counts[kind]} in {kind}" for kind in (PAGES, DOCS, COMMENTS, MESSAGES)))
    print(f"{len(found)} places, {given.allowed} allowed")
    return 1 if len(found) > given.allowed else 0


if __name__ == "__main__":
    sys.exit(main())
