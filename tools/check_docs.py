#!/usr/bin/env python3
"""Checks that the pages say what is there: calls, clauses, crates, paths, headings and figures.

    python3 tools/check_docs.py [FOLDER]

- Each call, law and type in the tables of docs/GUARANTEES.md is public in the crate that its row names, or in one that this
  crate passes on; each clause, written `call` (clause), is a clause of that call; each edit is in the must-fail folder of its
  crate; and each crate of the storeys has a row.
- Each crate of crates.txt has one line in docs/MAP.md and one place in its drawing, and uses no crate of a storey
  above its own.
- The headline stands in the README and in the code as docs/GUARANTEES.md has it.
- The definitions to be trusted are those that tools/trusted.py finds, with their number of lines in hundreds, there and in the
  README.
- The README's table of times has the date and the figures of bench/README.md, "Whole runs".
- Each path in a page is there, and each heading, or term in bold, that a page or the code names stands in the page that it
  names. No page or comment names a page that isn't there.
- Each name in docs/GLOSSARY.md is a name of the code or of a definition.
- Each script that tests/README.md names is there, and it names each one of tests/, tools/ and .ci/.
- Each worked case of tests/cases/README.md has its folder, or a line in tests/cases/runs.txt. Each sentence there that names a
  run has such a line, and what this names is a test, or a script that `make cases` runs with these options. Numbers of workers
  in a sentence that tests/run_cases.py runs are among those of the script and of the case's folders.
- The pages have at most 25,000 words together, and the README at most 100 lines.

The last line is `N passed, M failed`; the exit status is 1 where M isn't 0.
"""

import pathlib
import re
import sys

from trusted import sums, trusted

FUNCTION = re.compile(r"\bfn (\w+)(.*?)(?=\n\s*(?:pub(?:\(crate\))? )?fn |\Z)", re.S)
PUBLIC = re.compile(r"\bpub (?:const )?(?:fn|struct|enum|trait|type|const|mod) (\w+)")
PASSED_ON = re.compile(r"\bpub use (\w+)::")
LABEL = re.compile(r"ensures\*? (\w+) \{")
CLAUSES = re.compile(r"`([^`]+)`|\(([a-z_]+(?:, [a-z_]+)*)\)")
HEADING = re.compile(r"^#+ (.+)$|\*\*([^*\n]+?)\.?\*\*", re.M)
PAGE = r"(?:docs/[A-Z]+|[A-Z]+|(?:tests|tests/cases|bench|examples/\w+)/README)\.md"
REFERENCE = re.compile(rf"`?((?<![\w/.]){PAGE})`?(?:, \"([^\"]+)\"(?: and \"([^\"]+)\")?)?")
PATH = re.compile(r"`((?:docs|crates|tests|tools|bench|examples|packaging|\.ci)/[A-Za-z0-9_./-]*)`")
LINK = re.compile(r"\]\(([^)#\s]+)(?:#([^)]*))?\)")
CASE = re.compile(r"\*\*([\w-]+)\.\*\* ?(.*)")
# What names a run in a sentence of the worked cases: a call, a command, or one of these words.
NAMES_A_RUN = re.compile(
    r"`(?:--)?(?:run|plain|plan|show|sample|take|give|next|close|feed|finish|fits|start|job_is|enter\(\d\)|\w+::\w+"
    r"|[a-z]+_(?:io|read|batch|reply|member|row))\b"
    r"|\b(?:workers|[Ww]aves|footprints?|[Rr]un again|refused run|job|reader|writer|fed|cut to|handed back|read and written)\b")
WORKERS = re.compile(r"\bworkers ((?:\d+, )*\d+)|\b((?:\d+, )*\d+(?: and \d+)?) workers\b")
MOST_WORDS = 25_000
MOST_LINES = 100


class Checks:
    """Counts what holds, and prints what doesn't."""

    def __init__(self):
        self.passed = 0
        self.failed = 0

    def expect(self, holds, message):
        if holds:
            self.passed += 1
        else:
            self.failed += 1
            print(message)


class Crate:
    """What a crate's code says: its public names, and the names of each function's clauses."""

    def __init__(self, folder):
        text = "\n".join(re.sub(r"//[^\n]*", "", path.read_text()) for path in sorted(folder.glob("src/**/*.rt")))
        self.public = set(PUBLIC.findall(text))
        self.passes_on = set(PASSED_ON.findall(text))
        self.labels = {}
        for name, body in FUNCTION.findall(text):
            self.labels.setdefault(name, set()).update(LABEL.findall(body))


def crates_of(root):
    return {path.parent.name: Crate(path.parent) for path in sorted(root.glob("crates/*/src"))}


def names_in(call):
    """The names in a call as the pages write it: `Books::{read, write}` are two, and the type before them one."""
    inside = re.search(r"\{([^}]*)\}", call)
    return inside[1].split(", ") if inside else [call.split("::")[-1]]


def pages_of(root):
    """All pages, by their paths in the repository."""
    found = {path.relative_to(root).as_posix(): path.read_text() for path in sorted(root.rglob("*.md"))
             if not {"out", ".git"} & set(path.relative_to(root).parts)}
    return found


def rows_of(text):
    """The rows of all tables in a text, each as its cells, without headings and rules."""
    lines = text.splitlines()
    return [[cell.strip() for cell in line.strip("| ").split(" | ")] for at, line in enumerate(lines)
            if line.startswith("| ") and not (at + 1 < len(lines) and lines[at + 1].startswith("|---"))]


def section(page, heading):
    """What stands under a heading, down to the next one of its height."""
    match = re.search(rf"^(#+) {re.escape(heading)}$", page, re.M)
    return re.split(rf"^#{{1,{len(match[1])}}} ", page[match.end():], maxsplit=1, flags=re.M)[0]


def check_promises(root, pages, crates, checks):
    page = section(pages["docs/GUARANTEES.md"], "Promises")
    named = set()
    for cells in map(lambda row: row + [""] * (3 - len(row)), rows_of(page)):
        promise, carried, bugs = cells[:3]
        where, first = f"docs/GUARANTEES.md: {promise[:60]}", None
        checks.expect(carried and (bugs or "law" in carried or "prover" in carried), f"{where}: no clause, or no bug")
        crate, calls = None, []
        for call, clauses in CLAUSES.findall(carried):
            if call in crates:
                crate, calls = call, []
                first = first or call
                named.add(call)
            elif call and crate:
                calls += names_in(call)
                public = crates[crate].public.union(*(crates[it].public for it in crates[crate].passes_on if it in crates))
                # A method of a trait has no `pub`: then its type is public.
                public |= set(crates[crate].labels) if call.split("::")[0] in public else set()
                for name in [*call.split("::")[:-1], *names_in(call)]:
                    checks.expect(name in public, f"{where}: {crate} has no public {name}")
            elif clauses and crate:
                there = set().union(*(crates[crate].labels.get(name, set()) for name in calls))
                for clause in clauses.split(", "):
                    checks.expect(clause in there, f"{where}: {crate}: {', '.join(calls)}: no clause {clause}")
                calls = []
        crate = first
        for name in re.findall(r"`([^`]+)`", bugs):
            if name in crates:
                crate = name
            else:
                there = crate and (root / f"crates/{crate}/must-fail/{name}.edit").exists()
                checks.expect(there, f"{where}: {crate}: no edit {name}")
    faces = {"rx_d0", "rx_books", "rxbatch", "rx_tests"}
    for crate in sorted(set(crates) - named - faces):
        checks.expect(False, f"docs/GUARANTEES.md: no promise of {crate}")


def libraries(root):
    """The libraries of each crate, as crates.txt has them."""
    found = {}
    for line in (root / "crates.txt").read_text().splitlines():
        if line.strip() and not line.startswith("#"):
            name, _, uses = line.partition(":")
            found[name.split()[0]] = uses.split()
    return found


def storeys(page):
    """The storey of each crate in the drawing, the lowest 0; crates next to the house stand on top."""
    drawing = re.search(r"```\n(.*?)```", page, re.S)[1]
    rows = [re.findall(r"\brx\w*\b", line) for line in drawing.splitlines()]
    house = list(reversed([row for row in rows if row][:-1]))
    beside = [row for row in rows if row][-1]
    return {crate: height for height, row in enumerate([*house, beside]) for crate in row}


def check_crates(root, pages, checks):
    """Each crate has one line and one place in the drawing, and uses nothing of a storey above its own."""
    name = "docs/MAP.md"
    lines = re.findall(r"^- `(rx\w*)`: ", section(pages[name], "The crates"), re.M)
    height, crates = storeys(pages[name]), libraries(root)
    for crate, uses in crates.items():
        checks.expect((root / "crates" / crate / "src").is_dir(), f"crates.txt: {crate}: no such crate")
        checks.expect(lines.count(crate) == 1, f"{name}: {crate}: {lines.count(crate)} lines")
        checks.expect(crate in height, f"{name}: {crate}: not in the drawing")
        above = [it for it in uses if it in crates and height.get(it, 0) > height.get(crate, 0)]
        checks.expect(not above, f"{name}: {crate}: uses {' '.join(above)}, which the drawing has above it")
    for crate in {*lines, *height}:
        checks.expect(crate in crates, f"{name}: {crate}: crates.txt has no such crate")


def check_headline(root, pages, checks):
    """The headline promise, word for word, in the README and above the function that carries it."""
    headline = re.search(r"^> (.*)$", pages["docs/GUARANTEES.md"], re.M)[1]
    for path in ("README.md", "crates/rx_switch/src/running.rt"):
        text = " ".join(re.sub(r"^\s*///", "", (root / path).read_text(), flags=re.M).split())
        checks.expect(headline in text, f"{path}: the headline isn't that of docs/GUARANTEES.md")


def check_trusted(root, pages, checks):
    name = "docs/GUARANTEES.md"
    found = trusted(root)
    lines, files, crates = sums(found)
    told = set()
    for cells in rows_of(section(pages[name], "What is trusted, in reading order")):
        crate = None
        for word in re.findall(r"`([^`]+)`", cells[-1]):
            if (root / "crates" / word).is_dir():
                crate = word
            else:
                told.add(root / "crates" / str(crate) / "specs" / f"{word}.antt")
    for path in sorted(set(found) - told):
        checks.expect(False, f"{name}: {path.relative_to(root)} isn't among what is trusted")
    for path in sorted(told):
        checks.expect(path in found, f"{name}: {path.relative_to(root)}: the headline doesn't cite it")
    for page, sentence in ((name, f"about {round(lines, -2):,} lines in {files} files of {crates} crates"),
                           ("README.md", f"about {round(lines, -2):,} lines of definitions in {files} files")):
        checks.expect(sentence in pages[page], f"{page}: it should say {sentence!r}")


def check_times(pages, checks):
    """The README's times are those of the bench's page, of the same day."""
    performance, runs = section(pages["README.md"], "Performance"), section(pages["bench/README.md"], "Whole runs")
    day = re.search(r"\d{4}-\d\d-\d\d", performance)
    checks.expect(day and day[0] == re.search(r"\d{4}-\d\d-\d\d", runs)[0], "README.md: times of another day than the bench's")
    there = rows_of(runs)
    for cells in rows_of(performance):
        holds = any(cells[0] == row[0] and set(cells) <= set(row) for row in there)
        checks.expect(holds, f"README.md: {' | '.join(cells)}: bench/README.md has other figures")


def headings_of(page):
    """What a page can be quoted by: its headings, and its terms in bold."""
    return {re.sub(r"[`*]", "", "".join(match)) for match in HEADING.findall(page)}


def anchors_of(page):
    """The anchors of a page's headings."""
    return {re.sub(r"[^\w -]", "", heading.lower()).replace(" ", "-") for heading in re.findall(r"^#+ (.+)$", page, re.M)}


def check_places(root, pages, checks):
    headings = {name: headings_of(text) for name, text in pages.items()}
    for name, text in pages.items():
        folder = (root / name).parent
        for path in PATH.findall(text):
            generated = path.startswith(("crates/rxbatch/out", "crates/rx_tests/out", "crates/NAME"))
            checks.expect(generated or (root / path).exists(), f"{name}: {path}: no such path")
        for link, anchor in LINK.findall(text):
            there = (folder / link).resolve()
            checks.expect("://" in link or there.exists(), f"{name}: {link}: no such file")
            if anchor and there.exists():
                checks.expect(anchor in anchors_of(there.read_text()), f"{name}: {link} has no #{anchor}")
    sources = [root / name for name in pages]
    for pattern in ("crates/*/src/**/*.rt", "crates/*/specs/**/*.antt", "crates/*/proofs/**/*.antt", "tests/**/*.py",
                    "tools/*.py", ".ci/*.py", "bench/*.py", "examples/**/*.py", "examples/**/*.sh", "packaging/*.py", "Makefile"):
        sources += sorted(root.glob(pattern))
    for source in sources:
        text = re.sub(r"\n\s*(//[/!]?|--|#) ", " ", source.read_text())
        for match in REFERENCE.finditer(text):
            where, page = source.relative_to(root), match[1]
            beside = (where.parent / page).as_posix()
            page = beside if page not in pages and beside in pages else page
            checks.expect(page in pages, f"{where}: {page}: no such page")
            for heading in filter(None, (match[2], match[3])):
                holds = re.sub(r"[`*]", "", " ".join(heading.split())) in headings.get(page, set())
                checks.expect(holds, f"{where}: {page} has no heading {heading!r}")


def check_glossary(root, pages, checks):
    names = set()
    for pattern in ("crates/*/src/**/*.rt", "crates/*/specs/**/*.antt"):
        for path in root.glob(pattern):
            names |= set(re.findall(r"\b[A-Za-z_]\w*\b", re.sub(r"(//|-- )[^\n]*", "", path.read_text())))
    for cells in rows_of(pages["docs/GLOSSARY.md"]):
        for name in re.findall(r"`(\w+)`", cells[-1]):
            checks.expect(name in names, f"docs/GLOSSARY.md: {name}: no such name")


def check_tests(root, pages, checks):
    tests = (root / "crates/rx_tests/src/workers.rt").read_text()
    for cells in rows_of(section(pages["tests/README.md"], "What only the tests of the workers refuse")):
        for name in re.findall(r"`([^`]+)`", cells[-1]):
            checks.expect(f"#[test]\nfn {name}(" in tests, f"tests/README.md: {cells[0]}: rx_wave has no test {name}")
    named = {(root / "tests" / path).resolve() for path in re.findall(r"`([\w./]+\.(?:py|txt))", pages["tests/README.md"])}
    scripts = {path for folder in ("tests", "tools", ".ci") for path in (root / folder).glob("*.py")}
    for path in sorted(named | scripts):
        checks.expect(path.exists(), f"tests/README.md: {path.name}: no such file")
        checks.expect(path in named, f"tests/README.md: nothing about {path.relative_to(root)}")


def sentences_of(page):
    """Each sentence of the worked cases, with its case; those before the first case are of "all"."""
    case, found = "all", []
    for line in page.splitlines():
        if (start := CASE.match(line)):
            case, line = start.groups()
        line = re.sub(r"^(?:- |\d+\. )", "", line)
        found += [(case, sentence) for sentence in re.split(r"(?<=\.) (?=[A-Z`])", line) if sentence and line[0] != "#"]
    return found


def runs_of(root):
    """The lines of tests/cases/runs.txt: case, how its sentences begin, and what runs them."""
    lines = (root / "tests/cases/runs.txt").read_text().splitlines()
    rows = [line.split(" | ") for line in lines if not line.startswith("#")]
    return [(case, begins, targets.split(", ")) for case, begins, targets in rows]


def is_run(root, target):
    """Whether the target is a test, or a script that `make cases` runs with these options."""
    if "::" in target:
        crate, *module, name = target.split("::")
        path = root / "crates" / crate / "src" / f"{'/'.join(module)}.rt"
        return path.exists() and f"#[test]\nfn {name}(" in path.read_text()
    recipe = re.search(r"^cases:.*\n((?:\t.*\n)+)", (root / "Makefile").read_text(), re.M)[1]
    script, *options = target.split()
    runs = [line.replace('"', " ").split() for line in recipe.splitlines()]
    return any(f"tests/{script}" in words and set(options) <= set(words) for words in runs)


def numbers_of_workers(root, case):
    """The numbers of workers with which tests/run_cases.py runs a case."""
    usual = re.search(r"^NUMBERS_OF_WORKERS = \((.*)\)$", (root / "tests/run_cases.py").read_text(), re.M)[1]
    own = [path.read_text() for path in (root / "tests/cases").glob(f"{case}/**/workers")]
    return {*re.findall(r"\d+", usual), *own}


def check_runs(root, pages, checks):
    name = "tests/cases/README.md"
    sentences, runs = sentences_of(pages[name]), runs_of(root)
    folders = {path.name for path in (root / "tests/cases").iterdir() if path.is_dir()}
    cases = {case for case, _ in sentences} - {"all"}
    for case in sorted(folders | cases):
        checks.expect(case in cases, f"{name}: nothing about {case}")
        checks.expect(case in folders or any(case == row[0] for row in runs), f"{name}: {case}: no folder, and nothing runs it")
    for case, begins, targets in runs:
        begun = [sentence for of, sentence in sentences if of == case and sentence.startswith(begins)]
        checks.expect(begun, f"tests/cases/runs.txt: {case}: no sentence begins {begins!r}")
        for target in targets:
            checks.expect(is_run(root, target), f"tests/cases/runs.txt: {case}: `make test` doesn't run {target}")
        for sentence in begun if any(target.startswith("run_cases.py") for target in targets) else []:
            named = {number for match in WORKERS.findall(sentence) for number in re.findall(r"\d+", "".join(match))}
            checks.expect(named <= numbers_of_workers(root, case), f"{name}: {case}: not with these workers: {sentence[:60]}")
    for case, sentence in sentences:
        holds = any(case == of and sentence.startswith(begins) for of, begins, _ in runs)
        if case != "all" and NAMES_A_RUN.search(sentence):
            checks.expect(holds, f"{name}: {case}: nothing runs {sentence[:60]!r}")


def check_size(pages, checks):
    words = sum(len(text.split()) for text in pages.values())
    checks.expect(words <= MOST_WORDS, f"the pages have {words:,} words, more than {MOST_WORDS:,}")
    lines = len(pages["README.md"].splitlines())
    checks.expect(lines <= MOST_LINES, f"README.md: {lines} lines, more than {MOST_LINES}")


def main():
    root = pathlib.Path(sys.argv[1] if len(sys.argv) > 1 else pathlib.Path(__file__).parent.parent).resolve()
    pages, crates, checks = pages_of(root), crates_of(root), Checks()
    check_promises(root, pages, crates, checks)
    check_crates(root, pages, checks)
    check_headline(root, pages, checks)
    check_trusted(root, pages, checks)
    check_times(pages, checks)
    check_places(root, pages, checks)
    check_glossary(root, pages, checks)
    check_tests(root, pages, checks)
    check_runs(root, pages, checks)
    check_size(pages, checks)
    print(f"{checks.passed} passed, {checks.failed} failed")
    return 1 if checks.failed else 0


if __name__ == "__main__":
    sys.exit(main())
