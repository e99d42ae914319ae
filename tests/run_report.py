#!/usr/bin/env python3
"""Runs `report` and `show --tsv` of a program on jobs, and compares what they say with the files of a run.

    tests/run_report.py PROGRAM [--cases DIR]... [--only WORD] [--seconds S]

PROGRAM is a path or a command line. The jobs are the folders below DIR that hold sheet.toml, books.txt, batch.bin and
stamp (tests/cases and examples/first_job where no DIR is given), and some that this script makes of the first job: ids
with marks of HTML, JSON and terminals, and more lines than a page shows. Of each job:

- the lines have to be the answers of the response file, read here from its bytes, each with its figures;
- counts and net, summed over the lines of the table, have to be the settlement's, and so has what the columns, the JSON
  and the page say; with `--provider` its line only, with `--family` the sums of its lines, a reversal being of the family
  whose claim it reverses, and of four families the claims and sums worked by hand;
- the page's origin has to be the sheet's BIN and PCN, the paths as given, the files' SHA-256, the version and the time;
- with the run's stamp each form has to say it as the settlement has it, without it none; a stamp that is none has to be refused
  as by `run`, in its words;
- the page may hold the elements and attributes that it is made of and no others, each closed and in its place, and nothing
  from outside; its texts have a contrast of 4.5; its script is the same everywhere and the only one that its policy allows;
  each cell has its heading, each link its anchor; counts, codes and bars are those of the lines; each claim is a row, and
  unfolds to the lines that `explain` prints of its place, and where the job has a file in tests/explain, those lines have the
  answer, the number and the amounts that another program gives;
- of the pages of `--html-dir` the first has to have the providers in the order of their nets, with links to the others, and each
  other page the lines of its provider and no more, under the same conditions; a folder keeps its other files, and nothing is
  written where a page would replace an input file;
- no form may hold a byte that isn't printable, but line feeds and the table's tabs;
- `show --tsv` has to say what `show` says, and of a billing the amounts of its request;
- a refused input has to be refused as by `run`.

The last line is `N passed, M failed`; the exit status is 0 where M is 0, else 1, and 2 where no job was found.
"""

import argparse
import base64
import datetime
import hashlib
import html.parser
import json
import os
import re
import shlex
import subprocess
import sys
import tempfile
import tomllib

from options import is_line_with_words

HERE = os.path.dirname(os.path.abspath(__file__))
FIRST_JOB = os.path.join(HERE, "..", "examples", "first_job")
STX, ETX, FS, GS, SS = b"\x02", b"\x03", b"\x1c", b"\x1d", b"\x1e"
COLUMNS = ("record nth answer codes provider prescription date family person allowed deductible copay coinsurance "
           "member_pays plan_pays authorization product quantity days").split()
AMOUNTS = COLUMNS[9:15]
TABLE = COLUMNS + ["lot", "created", "stamp"]
SHOWN = "record nth kind provider prescription date family person product quantity days D9 DC DQ DU codes".split()
HEADINGS = "record ans codes rx date member allowed deduct. copay coins. member pays plan pays"
INPUTS = ["--sheet", "sheet.toml", "--books", "books.txt", "--batch", "batch.bin"]
MOST_LINES = 2000
ANSWERS = {"paid": "PAID", "duplicate": "DUPLICATE", "taken back": "TAKEN BACK", "refused": "REFUSED",
           "header rejected": "HEADER REJECTED"}


class Differs(Exception):
    """What is reported isn't what the files say."""


def want(found, wanted, what):
    if found != wanted:
        raise Differs(f"{what}: {str(found)[:300]} in place of {str(wanted)[:300]}")


class Program:
    def __init__(self, words, seconds):
        self.words, self.seconds = words, seconds

    def answer(self, folder, *words):
        """Status, standard output and standard error."""
        done = subprocess.run(self.words + list(words), cwd=folder, capture_output=True, timeout=self.seconds)
        return done.returncode, done.stdout, done.stderr

    def text(self, folder, *words):
        status, out, err = self.answer(folder, *words)
        want((status, err), (0, b""), " ".join(words))
        extra = "\n\t" if "--tsv" in words else "\n"
        text = out.decode("ascii")
        want({c for c in text if not " " <= c <= "~"} - set(extra), set(), "unprintable bytes of " + " ".join(words))
        return text


# ---------------------------------------------------------------- what the files of a run say

def signed(field):
    """An amount whose last character carries its digit and its sign."""
    last = chr(field[-1])
    digit, minus = ("{ABCDEFGHI".index(last), False) if last in "{ABCDEFGHI" else ("}JKLMNOPQR".index(last), True)
    number = int(field[:-1] + b"%d" % digit)
    return -number if minus else number


def is_id(field):
    text = field.rstrip(b" ")
    return bool(text) and b"|" not in text and all(32 <= b <= 126 for b in text)


def details(batch):
    """The texts of the details, whose reference numbers are ten digits."""
    return [record[12:] for record in re.findall(rb"\x02([^\x03]*)\x03", batch) if record.startswith(b"G1")]


def fields_of(segment):
    return [(field[:2], field[2:]) for field in segment.split(FS)[1:]]


def answers(response):
    """The rows of the response file but for the members: what a report says of each answer."""
    rows = []
    for place, text in enumerate(details(response), 1):
        head, *groups = text.split(GS)
        provider = head[8:23].rstrip(b" ").decode() if is_id(head[8:23]) else ""
        for nth, group in enumerate(groups, 1):
            fields = [field for segment in group.split(SS)[1:] for field in fields_of(segment)]
            first = dict(reversed(fields))
            row = dict.fromkeys(COLUMNS, "")
            row.update(record=str(place), nth=str(nth), answer=first[b"AN"].decode(), provider=provider)
            row.update(date=head[23:31].decode())
            row.update(codes=",".join(value.decode() for name, value in fields if name == b"FB"))
            row.update(prescription=str(int(first[b"D2"])) if b"D2" in first else "")
            row.update(authorization=first.get(b"F3", b"").decode().strip())
            figures(row, first)
            rows.append(row)
    return rows


def figures(row, first):
    if row["answer"] in "PD":
        amounts = {name: signed(first.get(name, b"{")) for name in (b"F5", b"F6", b"F7", b"F9", b"FH", b"FI", b"4U")}
        row.update(allowed=str(amounts[b"F6"] + amounts[b"F7"]), deductible=str(amounts[b"FH"]))
        row.update(copay=str(amounts[b"FI"]), coinsurance=str(amounts[b"4U"]))
        row.update(member_pays=str(amounts[b"F5"]), plan_pays=str(amounts[b"F9"]))
    elif row["answer"] == "A":
        row.update(plan_pays=str(signed(first[b"F9"])))


def settlement_of(text):
    """(provider or None for the total, paid, duplicate, approved, rejected, net) of each line."""
    lines = []
    for line in text.splitlines()[1:]:
        *front, paid, duplicate, approved, rejected, net = line.split("|")
        lines.append((front[1] if front[0] == "P" else None, *map(int, (paid, duplicate, approved, rejected, net))))
    return lines


def sums(rows):
    count = [sum(row["answer"] == answer for row in rows) for answer in "PDAR"]
    return (*count, sum(int(row["plan_pays"]) for row in rows if row["answer"] in "PA"))


def by_provider(rows):
    groups = {}
    for row in rows:
        groups.setdefault(row["provider"], []).append(row)
    return groups


def dollars(cents):
    return f"{'-' if cents < 0 else ''}{abs(cents) // 100}.{abs(cents) % 100:02d}"


# ---------------------------------------------------------------- the forms

def table(text, columns):
    heading, *lines = text.split("\n")
    want(lines.pop(), "", "the table's end")
    want(heading.split("\t"), columns, "the table's heading")
    for line in lines:
        want(len(line.split("\t")), len(columns), "cells in a row")
    return [dict(zip(columns, line.split("\t"))) for line in lines]


def told_of(line):
    """A line of JSON as a row of the table."""
    return {name: "" if line[name] is None else str(line[name]) for name in COLUMNS}


def check_lines_of_json(text, rows, lot, stamp):
    """Each line is an object: a row, and its batch."""
    lines = [json.loads(line) for line in text.splitlines()]
    want(text.count("\n"), len(rows), "lines of JSON")
    batches = [(line.pop("lot"), line.pop("stamp")) for line in lines]
    want(batches, [(lot, stamp)] * len(rows), "the batch in each line of JSON")
    want([list(line) for line in lines], [COLUMNS] * len(rows), "the names in a line of JSON")
    want([told_of(line) for line in lines], rows, "the lines of JSON")


def check_json(text, rows, lines, only, lot, stamp):
    report = json.loads(text)
    want((report["lot"], report["stamp"]), (lot, stamp), "the batch in JSON")
    want({name: report[name] for name in report if name.startswith("only")}, only, "the portion in JSON")
    counts = ("paid", "duplicate", "approved", "rejected", "net")
    groups = by_provider(rows)
    found = [(part["provider"] or "", *(part[name] for name in counts)) for part in report["sections"]]
    want(found, lines[:-1], "sections in JSON")
    want((None, *(report["total"][name] for name in counts)), lines[-1], "the total in JSON")
    for part in report["sections"]:
        want([told_of(line) for line in part["lines"]], groups[part["provider"] or ""], "lines in JSON")


def terminal(text):
    return text.replace("\\", "\\x5C")


def tally_words(line):
    return "{} paid, {} duplicate, {} reversed, {} rejected, net {}".format(*line[1:5], dollars(line[5]))


def stamp_in_words(stamp):
    return f"{stamp[:4]}-{stamp[4:6]}-{stamp[6:8]} {stamp[8:10]}:{stamp[10:]}"


def check_columns(text, rows, lines, scope, stamp):
    blocks = text.split("\n\n")
    if stamp:
        want(blocks.pop(0), f"stamp {stamp_in_words(stamp)}", "the stamp above the columns")
    groups = by_provider(rows)
    want(blocks.pop(), f"{scope}: {tally_words(lines[-1])}\n", "the last line")
    want(len(blocks), len(lines) - 1, "providers in columns")
    for block, line in zip(blocks, lines):
        first, heading, *printed = block.split("\n")
        want(first, f"provider {terminal(line[0])}: {tally_words(line)}", "a provider's line")
        want(" ".join(heading.split()), HEADINGS, "the headings")
        want(len(printed), len(groups[line[0]]), "lines in columns")
        for one, row in zip(printed, groups[line[0]]):
            check_line(one, row)


def check_line(line, row):
    member = [terminal(f"{row['family']}/{row['person']}")] if row["family"] else []
    date = f"{row['date'][:4]}-{row['date'][4:6]}-{row['date'][6:]}"
    amounts = [dollars(int(row[name])) for name in AMOUNTS if row[name]]
    words = [f"{row['record']}.{row['nth']}", row["answer"], row["codes"], row["prescription"], date]
    want(" ".join(line.split()), " ".join(" ".join(words + member + amounts).split()), "a line in columns")


class Node:
    """An element of a page: its tag, its attributes, and the elements and texts in it."""

    def __init__(self, tag, attributes, above):
        self.tag, self.attributes, self.above, self.parts = tag, dict(attributes), above, []

    def below(self, *tags):
        """The elements with these tags in it, but for those in a table that is in it."""
        found = []
        for part in self.parts:
            if isinstance(part, Node):
                found += [part] if part.tag in tags else []
                found += part.below(*tags) if part.tag != "table" else []
        return found

    def text(self):
        return "".join(part if isinstance(part, str) else part.text() for part in self.parts)

    def words(self):
        return " ".join(self.text().split())


class Page(html.parser.HTMLParser):
    """The elements of a page that is made as it has to be: each known, each closed, in a place where it may stand."""
    LONE = {"meta", "input"}
    KNOWN = {"html": "", "head": "html", "meta": "head", "title": "head", "style": "head", "body": "html", "header": "body",
             "main": "body", "h1": "header", "h2": "section", "p": "header main div details", "table": "main section details",
             "caption": "table", "thead": "table", "tbody": "table", "tfoot": "table", "tr": "thead tbody tfoot", "th": "tr",
             "td": "tr", "a": "body th td p", "i": "td", "span": "td p div", "b": "span", "section": "div", "div": "main",
             "details": "td", "summary": "details", "dl": "header details", "dt": "dl", "dd": "dl", "pre": "div", "code": "p dd",
             "label": "header", "input": "label", "script": "body"}
    ATTRIBUTES = set("lang charset http-equiv content name scope class style href id colspan type".split())

    def __init__(self, text):
        super().__init__(convert_charrefs=True)
        self.top = self.here = Node("", {}, None)
        self.ids, self.links, self.script = [], [], ""
        self.feed(text)
        self.close()
        want(self.here is self.top, True, "elements left open")

    def handle_starttag(self, tag, attributes):
        want(self.here.tag in self.KNOWN.get(tag, "?").split() or self.here.tag == self.KNOWN.get(tag), True,
             f"element {tag} in {self.here.tag}")
        for name, value in attributes:
            want(name in self.ATTRIBUTES, True, f"attribute {name} of {tag}")
            if name == "style":
                want(bool(re.fullmatch(r"--share:\d{1,5}|flex-grow:\d+", value)), True, f"style {value}")
        node = Node(tag, attributes, self.here)
        self.ids += [node.attributes["id"]] if "id" in node.attributes else []
        self.links += [node.attributes["href"]] if "href" in node.attributes else []
        self.here.parts.append(node)
        if tag not in self.LONE:
            self.here = node

    def handle_endtag(self, tag):
        want(self.here.tag, tag, "the element closed")
        self.here = self.here.above

    def handle_data(self, data):
        self.here.parts.append(data)
        if self.here.tag == "style":
            want([word for word in ("url", "@import", "expression", "//") if word in data], [], "parts from outside")
        if self.here.tag == "script":
            self.script += data

    def tables(self, kind):
        return [node for node in self.all("table") if node.attributes.get("class") == kind]

    def all(self, tag, node=None):
        found = []
        for part in (node or self.top).parts:
            if isinstance(part, Node):
                found += ([part] if part.tag == tag else []) + self.all(tag, part)
        return found


def headed_cells(table):
    """The cells of each row of a table by their headings; each cell has to have one, in its columns or in its row."""
    heading = [row for part in table.below("thead") for row in part.below("tr")]
    want(len(heading), 1, "rows of headings")
    titles = [cell.words() for cell in heading[0].below("th")]
    want([cell.attributes.get("scope") for cell in heading[0].below("th", "td")], ["col"] * len(titles), "scopes of headings")
    rows = []
    for row in [row for part in table.below("tbody", "tfoot") for row in part.below("tr")]:
        cells, at = {}, 0
        of_row = [cell for cell in row.below("th") if cell.attributes.get("scope") == "row"]
        want(len(of_row) == len(row.below("th")), True, "the scope of a row's heading")
        for cell in row.below("th", "td"):
            width = int(cell.attributes.get("colspan", 1))
            want(any(titles[at:at + width]) or bool(of_row), True, "a cell's heading")
            cells[" ".join(titles[at:at + width])] = cell
            at += width
        want(at, len(titles), "cells in a row")
        rows.append(cells)
    return rows


TITLES = ["Record", "Answer", "Authorization", "Rx", "Date", "Member", "Product", "Quantity", "Days", "Member pays", "Plan pays"]
WORD = {"P": "paid", "D": "duplicate", "A": "reversed", "R": "rejected"}


def check_head(text, lines, origin, others):
    """What each page has before its tables, the same on each; of its links those to other pages."""
    want(text.startswith("<!DOCTYPE html>\n"), True, "the page's first line")
    page = Page(text)
    check_origin(page, origin)
    want(len(set(page.ids)), len(page.ids), "anchors that are the same")
    want([link for link in page.links if link[:1] != "#" or link[1:] not in page.ids], others, "links that lead to no anchor of the page")
    check_script(page)
    check_contrast(page)
    check_sheets(page, origin)
    check_summary(page, lines[-1])
    return page


def check_page(text, rows, lines, whole, whys, origin, others=()):
    page = check_head(text, lines, origin, list(others))
    check_rejects(page, rows, not (whole and len(rows) > MOST_LINES))
    check_providers(page, lines)
    tables = page.tables("claims")
    if whole and len(rows) > MOST_LINES:
        (command,) = [node.words() for node in page.all("pre")]
        want((tables, command), ([], shlex.join(["rxbatch", "report", *INPUTS, "--html-dir", "DIR"])), "the table and a command")
        return
    groups = list(by_provider(rows).items())
    want([node.words() for node in page.all("h2")], [f"Provider {name or '(no id)'}" for name, _ in groups], "the headings")
    want(len(tables), len(groups), "tables of claims")
    for table, (_, group) in zip(tables, groups):
        check_claims(page, table, group, whys)


def check_providers(page, lines):
    """The table of providers is these lines, each with its bar."""
    (providers,) = [table for table in page.all("table") if table.attributes.get("class", "").startswith("providers")]
    below = any(line[5] < 0 for line in lines[:-1])
    want(providers.attributes["class"], "providers signed" if below else "providers", "room for nets below zero")
    want(bool(providers.below("caption")[0].words()), True, "the caption")
    longest = max([abs(line[5]) for line in lines[:-1]], default=0)
    bars = [(span.attributes.get("class"), span.attributes["style"]) for span in page.all("span", providers)]
    want(bars, [("minus" if line[5] < 0 else None, f"--share:{abs(line[5]) * 10000 // longest}") for line in lines[:-1] if line[5]],
         "the bars")
    cells = [[cell for cell in row.values()] for row in headed_cells(providers)]
    found = [[row[0].words(), *(int(count_in(cell)) for cell in row[1:5]), row[5].words()] for row in cells]
    names = [line[0] or "(no id)" for line in lines[:-1]] + [found[-1][0]]
    want(found, [[name, *line[1:5], dollars(line[5])] for name, line in zip(names, lines)], "the table of providers")


def check_folder(program, folder, rows, lines, words, whys, stamp=None):
    """The pages of these lines in a folder: a first page in the order of nets, and of each provider the page of its lines."""
    origin = origin_of(program, folder, INPUTS, stamp)
    words = words + stamp_option(stamp)
    with tempfile.TemporaryDirectory() as top:
        to = os.path.join(top, "pages")
        want(program.text(folder, "report", *INPUTS, *words, "--html-dir", to), f"{to}/index.html\n", "the first page")
        pages = {}
        for name in sorted(os.listdir(to)):
            with open(os.path.join(to, name), encoding="ascii") as file:
                pages[name] = file.read()
    ordered = sorted(lines[:-1], key=lambda line: -line[5])
    names = [f"p{at}.html" for at in range(1, len(ordered) + 1)]
    want(sorted(pages), sorted(["index.html", *names]), "the files of the folder")
    index = check_head(pages["index.html"], lines, origin, names)
    check_rejects(index, rows, False)
    check_providers(index, [*ordered, lines[-1]])
    want(index.tables("claims"), [], "claims on the first page")
    groups = by_provider(rows)
    for name, line in zip(names, ordered):
        few = whys if len(rows) <= MOST_LINES else None
        check_page(pages[name], groups[line[0]], [line, (None, *line[1:])], False, few, origin, ["index.html"])


def check_origin(page, wanted):
    """The batch, the plan, the files with their sums, the program, and a time of the last minutes."""
    (origin,) = [node for node in page.all("dl") if node.attributes.get("class") == "origin"]
    found = dict(zip([node.words() for node in origin.below("dt")], [node.words() for node in origin.below("dd")]))
    made = datetime.datetime.strptime(found.pop("Made"), "%Y-%m-%d %H:%M")
    want(abs((datetime.datetime.now() - made).total_seconds()) < 600, True, "the time of the page")
    (found["Batch"],) = [node.words() for node in page.all("h1")]
    want(found, wanted, "the origin of the page")


def stamp_option(stamp):
    return ["--stamp", stamp] if stamp else []


def origin_of(program, folder, inputs, stamp=None):
    """What a page of these files says of its origin, by the files themselves."""
    paths = dict(zip(("Sheet", "Books", "Batch file"), inputs[1::2]))
    texts = {}
    for name, path in paths.items():
        with open(os.path.join(folder, path), "rb") as file:
            texts[name] = file.read()
    sheet = tomllib.loads(texts["Sheet"].decode())
    sums = {name: f"{as_bytes_shown(path)} {hashlib.sha256(texts[name]).hexdigest()}" for name, path in paths.items()}
    plan = {"Plan": f"BIN {sheet['bin']}, PCN {sheet['pcn']}".strip()}
    of_run = {"Stamp": stamp_in_words(stamp)} if stamp else {}
    batch = {"Batch": "Batch " + lot_in(texts["Batch file"])["number"]}
    return plan | of_run | sums | batch | {"Program": program.text(folder, "--version").strip()}


def as_bytes_shown(path):
    """A path as a page has it: each byte a character."""
    return " ".join(path.encode().decode("latin-1").split())


def check_script(page):
    """The script is the same on each page, and the only one that the policy allows."""
    (policy,) = [node.attributes["content"] for node in page.all("meta") if "http-equiv" in node.attributes]
    digest = base64.b64encode(hashlib.sha256(page.script.encode()).digest()).decode()
    want(policy, f"default-src 'none'; style-src 'unsafe-inline'; script-src 'sha256-{digest}'", "the policy")
    SCRIPTS.add(page.script)
    want(len(SCRIPTS), 1, "scripts")


SCRIPTS = set()


def luminance(colour):
    parts = [int(part * 2 if len(colour) == 4 else part, 16) / 255
             for part in re.findall(r"." if len(colour) == 4 else r"..", colour[1:])]
    linear = [part / 12.92 if part <= 0.03928 else ((part + 0.055) / 1.055) ** 2.4 for part in parts]
    return 0.2126 * linear[0] + 0.7152 * linear[1] + 0.0722 * linear[2]


def check_contrast(page):
    """Text is at least 4.5 times as light or dark as what it stands on (WCAG 1.4.3), on a light and on a dark screen."""
    (style,) = [node.text() for node in page.all("style")]
    screens = re.findall(r":root\{([^}]*--ink:[^}]*--mark:[^}]*)\}", style)
    want(len(screens), 2, "colours of light and dark screens")
    for screen in screens:
        colours = dict(re.findall(r"--(\w+):(#\w+)", screen))
        for text in ("ink", "soft", "minus"):
            for ground in ("paper", "tint", "mark"):
                light, dark = sorted((luminance(colours[text]), luminance(colours[ground])), reverse=True)
                want((light + 0.05) / (dark + 0.05) >= 4.5, True, f"the contrast of {text} on {ground} in {screen}")


def check_sheets(page, origin):
    """On paper the batch stands at the head of each sheet."""
    (style,) = [node.text() for node in page.all("style")]
    want(style.splitlines()[-1], "@page{@top-left{content:'%s'}}" % origin["Batch"], "the head of each sheet")


def check_summary(page, total):
    words = "{} paid {} duplicate {} reversed {} rejected net {}".format(*total[1:5], dollars(total[5]))
    (summary,) = [node.words() for node in page.all("p") if node.attributes.get("class") == "sum"]
    want(summary, words, "the counts at the head")
    (bar,) = [node for node in page.all("div") if node.attributes.get("class") == "shares"]
    parts = [(span.attributes["class"], span.attributes["style"]) for span in bar.below("span")]
    want(parts, [(name, f"flex-grow:{count}") for name, count in zip(WORD.values(), total[1:5])], "the bar of the counts")


def check_rejects(page, rows, linked):
    """Each code that an answer has, with its name, how many have it, and links to them."""
    (rejects,) = page.tables("rejects")
    wanted = {}
    for row in [row for group in by_provider(rows).values() for row in group]:
        for code in dict.fromkeys(row["codes"].split(",") if row["codes"] else []):
            wanted.setdefault(code, []).append(f"{row['record']}.{row['nth']}")
    found = headed_cells(rejects)
    want([row["Code"].words() for row in found], sorted(wanted), "the codes of rejects")
    for row in found:
        code = row["Code"].words()
        want(NAMES[code] in row["Meaning"].words(), True, f"the words of {code}")
        want(int(row["Answers"].words()), len(wanted[code]), f"the answers with {code}")
        links = [(link.attributes["href"], link.words()) for link in page.all("a", row["Records"])]
        want(links, [("#r" + record, record) for record in wanted[code]] if linked else [], f"the records with {code}")


def count_in(cell):
    """A count without its label, which is seen on a phone only."""
    return "".join(part for part in cell.parts if isinstance(part, str))


def check_claims(page, table, rows, whys):
    want(bool(table.below("caption")[0].words()), True, "the caption")
    bodies = table.below("tbody")
    want(len(bodies), len(rows), "claims on the page")
    shown = headed_cells(table)
    for body, cells, why, row in zip(bodies, shown[::2], shown[1::2], rows):
        record = f"{row['record']}.{row['nth']}"
        want(list(cells), TITLES, "the columns of a claim")
        want(body.attributes, {"class": WORD[row["answer"]], "id": "r" + record}, "the anchor of a claim")
        want([link.attributes["href"] for link in page.all("a", cells["Record"])], ["#r" + record], "the link of a claim")
        check_claim({title: cell.words() for title, cell in cells.items()}, row)
        (cell,) = why.values()
        check_figures(cell, row)
        tables = [node for node in page.all("table", cell)]
        if whys is None:
            commands = [node.words() for node in page.all("code", cell)]
            want((tables, commands), ([], [f"rxbatch explain --sheet F --books F --batch F --record {record}"]), f"why of {record}")
            continue
        want([node.attributes.get("class") for node in tables], ["reasons"], f"why of {record}")
        whys.check([[part.words() for part in reason.values()] for reason in headed_cells(tables[0])], record)


# of each reject code a word of its name in the standard's list (NCPDP, reject codes)
NAMES = {"01": "BIN", "02": "version", "03": "transaction code", "04": "processor control number", "05": "provider",
         "07": "cardholder", "13": "other coverage", "15": "date of service", "16": "reference number", "19": "days supply",
         "20": "compound", "21": "product", "23": "ingredient cost", "52": "non-matched cardholder", "53": "person code",
         "65": "not covered", "70": "product not covered", "76": "plan limitations", "79": "refill too soon",
         "81": "too old", "82": "post-dated", "83": "duplicate", "87": "reversal not processed", "A9": "transaction count",
         "DC": "dispensing fee", "DQ": "usual and customary", "DU": "gross amount", "E1": "qualifier", "E7": "quantity",
         "EM": "reference qualifier", "R8": "syntax"}


def check_answer(found, row):
    """The answer in words; of a reject each code, and after it its name."""
    word, *named = re.split(r" (?=[0-9A-Z]{2} )", found)
    want((word, [one[:2] for one in named]), (WORD[row["answer"]], row["codes"].split(",") if row["codes"] else []), "the answer")
    for one in named:
        want(NAMES[one[:2]] in one[3:], True, f"the words of {one}")


def check_claim(cells, row):
    member = f"{row['family']}/{row['person']}" if row["family"] else ""
    thousandths = int(row["quantity"] or 0)
    quantity = f"{thousandths // 1000}" + (f".{thousandths % 1000:03d}" if thousandths % 1000 else "")
    pays = [dollars(int(row[name])) if row[name] else "" for name in ("member_pays", "plan_pays")]
    date = f"{row['date'][:4]}-{row['date'][4:6]}-{row['date'][6:]}"
    check_answer(cells["Answer"], row)
    wanted = [row["authorization"], row["prescription"], " ".join(date.split()), " ".join(member.split()), row["product"],
              quantity if row["quantity"] else "", row["days"], *pays]
    want([cells[title] for title in TITLES[2:]], wanted, "a claim on the page")


def check_figures(cell, row):
    """The figures that a claim unfolds to, each after its name."""
    amounts = [dollars(int(row[name])) if row[name] else "" for name in AMOUNTS]
    (figures,) = [part for node in cell.below("details") for part in node.below("dl")]
    wanted = [("Reject codes", row["codes"])] if row["answer"] == "R" else [("Given back", amounts[5])]
    if row["answer"] in "PD":
        names = ["Allowed", "Deductible", "Copay", "Coinsurance", "Member pays"]
        wanted = list(zip(names + ["Plan pays" if row["answer"] == "P" else "Plan paid before"], amounts))
    found = list(zip([node.words() for node in figures.below("dt")], [node.words() for node in figures.below("dd")]))
    want(found, wanted, "the figures of a claim")


# ---------------------------------------------------------------- a job

class Whys:
    """What `explain` prints of a job's answers; of a job of many records of some of them."""
    MOST_RECORDS = 60

    def __init__(self, program, folder, told):
        self.program, self.folder, self.told, self.records = program, folder, told, {}

    def blocks(self, place):
        """The explanations of a record, each from its line that isn't set in."""
        if place not in self.records:
            text = self.program.text(self.folder, "explain", *INPUTS, "--record", place)
            self.records[place] = re.findall(r"(?m)^record .*\n(?:  .*\n)*", text)
            want("".join(self.records[place]), text, "what explain prints")
        return self.records[place]

    def check(self, found, record):
        """The rows of a claim's reasons, against the lines of `explain` and against the other program's explanation."""
        place, nth = record.split(".")
        want(found[0][0][:len("record ")], "record ", "why a claim was answered so")
        if place in self.records or len(self.records) < self.MOST_RECORDS:
            blocks = self.blocks(place)
            block = blocks[int(nth) - 1] if len(blocks) > 1 else blocks[0]
            want([" ".join(" ".join(row).split()) for row in found], [" ".join(line.split()) for line in block.splitlines()],
                 f"why of {record}")
            parts = [row for row in found if len(row) == 3]
            want([re.fullmatch(r"\$[\d,]+\.\d\d", row[1]) is None for row in parts], [False] * len(parts), "the amounts")
        for told in self.told:
            if told["place"] == int(place) and told.get("nth", int(nth)) == int(nth) and "answer" in told:
                check_told(found, told)


def check_told(rows, told):
    """Answer, number and amounts of an explanation that another program made."""
    first = rows[0][0]
    record = str(told["place"]) + (f".{told['nth']}" if "nth" in told else "")
    want(first.startswith(f"record {record} {ANSWERS[told['answer']]}"), True, f"the answer in {first}")
    want(told.get("number", "") in first, True, f"the number in {first}")
    if told["answer"] == "paid":
        for label, name in (("member pays F5", "patient_pay"), ("plan pays F9", "total_paid")):
            found = [row[1] for row in rows if len(row) == 3 and row[0] == label]
            want(found, [f"${told[name] // 100:,}.{told[name] % 100:02d}"], label)


def lot_of(folder):
    with open(os.path.join(folder, "batch.bin"), "rb") as file:
        return lot_in(file.read())


def lot_in(batch):
    """The number and the day of the batch's header."""
    header = re.search(rb"\x02([^\x03]*)\x03", batch)[1].decode()
    return {"number": header[27:34], "created": f"{header[34:38]}-{header[38:40]}-{header[40:42]}"}


def check_portion(program, folder, rows, lines, words, scope, only, whys, stamp=None):
    """The five forms of the report of these lines."""
    report = ["report", *INPUTS, *words, *stamp_option(stamp)]
    lot = lot_of(folder)
    batch = {"lot": lot["number"], "created": lot["created"], "stamp": stamp or ""}
    want(table(program.text(folder, *report, "--tsv"), TABLE), [row | batch for row in rows], "the table")
    check_json(program.text(folder, *report, "--json"), rows, lines, only, lot, stamp)
    check_lines_of_json(program.text(folder, *report, "--jsonl"), rows, lot, stamp)
    check_columns(program.text(folder, *report), rows, lines, scope, stamp)
    check_page(program.text(folder, *report, "--html"), rows, lines, not words, whys, origin_of(program, folder, INPUTS, stamp))


def with_members(rows, shown, books):
    """The rows with what their requests name, which `show --tsv` has; a reversal with the member of the claim that it reverses."""
    members = {(row["record"], row["nth"]): (row["family"], row["person"]) for row in shown}
    asked = {(row["record"], row["nth"]): row for row in shown}
    standing = standing_in(books)
    for row in rows:
        key = (row["provider"], row["prescription"], row["date"])
        member = members.get((row["record"], row["nth"]), ("", ""))
        if row["answer"] == "P":
            standing[key] = member
        elif row["answer"] == "A":
            member = standing.pop(key)
        row["family"], row["person"] = member
        row.update({name: asked.get((row["record"], row["nth"]), row)[name] for name in ("product", "quantity", "days")})
    return rows


def standing_in(books):
    """The members of the claims of a books file, by provider, prescription and date."""
    claims = [line.split("|") for line in books.splitlines() if line.startswith("C|")]
    return {(line[1], line[2], line[3]): (line[4], line[5]) for line in claims}


def check_accepted(program, folder, told):
    with open(os.path.join(folder, "response.bin"), "rb") as file:
        response = file.read()
    with open(os.path.join(folder, "settlement.txt"), encoding="ascii") as file:
        text = file.read()
    settlement, stamp = settlement_of(text), text.splitlines()[0].split("|")[3]
    with open(os.path.join(folder, "books.txt"), encoding="ascii") as file:
        books = file.read()
    rows = with_members(answers(response), check_shown(program, folder), books)
    groups = by_provider(rows)
    want([(name, *sums(group)) for name, group in groups.items()] + [(None, *sums(rows))], settlement, "the sums")
    whys = Whys(program, folder, told)
    check_portion(program, folder, rows, settlement, [], "all", {}, whys)
    check_folder(program, folder, rows, settlement, [], whys)
    check_portion(program, folder, rows, settlement, [], "all", {}, whys, stamp)
    check_folder(program, folder, rows, settlement, [], whys, stamp)
    some = 4 if len(rows) < 500 else 1
    for name in list(groups)[:some]:
        line = [line for line in settlement if line[0] == name]
        total = (None, *(line[0][1:] if line else (0, 0, 0, 0, 0)))
        check_portion(program, folder, groups.get(name, []), line + [total], ["--provider", name],
                      f"all of provider {terminal(name)}", {"only_provider": name}, whys)
    families = list(dict.fromkeys(row["family"] for row in rows if row["family"]))
    for name in families[:some]:
        kept = [row for row in rows if row["family"] == name]
        lines = [(provider, *sums(group)) for provider, group in by_provider(kept).items()] + [(None, *sums(kept))]
        check_portion(program, folder, kept, lines, ["--family", name],
                      f"the lines shown, of family {terminal(name)}", {"only_family": name}, whys)
        check_folder(program, folder, kept, lines, ["--family", name], whys)
        padded = program.text(folder, "report", *INPUTS, "--family", name + "  ", "--tsv")
        want(padded, program.text(folder, "report", *INPUTS, "--family", name, "--tsv"), "blanks after the id")
    for option in ("--provider", "--family"):
        for form in ([], ["--tsv"], ["--json"], ["--html"], ["--html-dir", "no-pages"]):
            line = f"rxbatch: {option} 'no such id': the batch has no answer of it\n".encode()
            want(program.answer(folder, "report", *INPUTS, option, "no such id", *form), (4, b"", line), "no answer")
    want(os.path.exists(os.path.join(folder, "no-pages")), False, "a folder of no answer")


# Families whose claims are reversed, worked by hand: the claims, and paid, duplicate, reversed, rejected and net. Of the first
# job record 6 reverses a claim of the opening books, 283.50 + 2.00 less a copay of 35.00. In reversal-frees-a-key the claims
# under one fill key are C100's and then C200's, of 171.75 each; so is what each reversal gives back.
BY_HAND = {
    FIRST_JOB: {"H1008": ([("6.1", "A", "-25050")], (0, 0, 1, 0, -25050)),
                "H1001": ([("1.1", "P", "0"), ("8.1", "A", "0"), ("9.1", "P", "0")], (2, 0, 1, 0, 0))},
    os.path.join(HERE, "cases", "reversal-frees-a-key"): {
        "C100": ([("1.1", "A", "-17175"), ("4.1", "P", "17175")], (1, 0, 1, 0, 0)),
        "C200": ([("2.1", "P", "17175"), ("3.1", "A", "-17175")], (1, 0, 1, 0, 0))},
}


def check_families(program):
    """The reports of families whose claims are reversed."""
    for source, families in BY_HAND.items():
        inputs = [word if word.startswith("--") else os.path.abspath(os.path.join(source, word)) for word in INPUTS]
        for name, (claims, total) in families.items():
            report = ["report", *inputs, "--family", name]
            rows = table(program.text(source, *report, "--tsv"), TABLE)
            found = [(f"{row['record']}.{row['nth']}", row["answer"], row["plan_pays"]) for row in rows]
            want((found, sums(rows)), (claims, total), f"the claims of {name}")
            told = json.loads(program.text(source, *report, "--json"))["total"]
            names = ("paid", "duplicate", "approved", "rejected", "net")
            want(tuple(told[word] for word in names), total, f"the sums of {name}")


def check_shown(program, folder):
    """`show --tsv` against `show` and the requests; its rows."""
    words = ["--sheet", "sheet.toml", "--batch", "batch.bin"]
    shown = table(program.text(folder, "show", *words, "--tsv"), SHOWN)
    lines = {"bill": "provider prescription date family person", "reverse": "provider prescription date",
             "faulty": "codes", "rejected": "codes"}
    told = [" ".join([row["record"], row["nth"], row["kind"], *(row[name] for name in lines[row["kind"]].split())])
            for row in shown]
    want(told, program.text(folder, "show", *words).split("\n")[:-1], "what show says")
    with open(os.path.join(folder, "batch.bin"), "rb") as file:
        texts = details(file.read())
    for row in shown:
        if row["kind"] == "bill":
            check_bill(row, texts[int(row["record"]) - 1].split(GS)[int(row["nth"])])
    return shown


def check_bill(row, group):
    fields = dict(reversed([field for segment in group.split(SS) for field in fields_of(segment)]))
    want(row["product"], fields[b"D7"].strip().decode(), "the product")
    want((int(row["quantity"]), int(row["days"])), (int(fields[b"E7"]), int(fields[b"D5"])), "quantity and days")
    for name in ("D9", "DC", "DQ", "DU"):
        if row[name]:
            digits = re.sub(rb"\D", b"", fields[name.encode()].rstrip()[:-1])
            want(int(row[name]) // 10, int(digits or b"0"), f"the amount {name} but for its last digit")


def check_job(program, source):
    with tempfile.TemporaryDirectory() as folder:
        for name in ("sheet.toml", "books.txt", "batch.bin"):
            with open(os.path.join(source, name), "rb") as old, open(os.path.join(folder, name), "wb") as new:
                new.write(old.read())
        with open(os.path.join(source, "stamp"), encoding="utf-8") as file:
            stamp = file.read().strip()
        return check_copied(program, folder, stamp, explanations_of(source))


def explanations_of(source):
    """Those that another program made of the job, if there are any."""
    name = os.path.relpath(source, os.path.join(HERE, "cases"))
    if os.path.basename(source) == "first_job":
        name = "first_job"
    path = os.path.join(HERE, "explain", name.replace(os.sep, "--") + ".json")
    if not os.path.exists(path):
        return []
    with open(path, encoding="utf-8") as file:
        return [json.loads(line) for line in file]


def check_copied(program, folder, stamp, told):
    """False where the job is refused for its workers only, of which a report knows nothing."""
    outputs = ["--response", "response.bin", "--books-out", "books-out.txt", "--settlement", "settlement.txt"]
    status, _, err = program.answer(folder, "run", *INPUTS, "--stamp", stamp, "--workers", "1", *outputs)
    if status == 0:
        check_accepted(program, folder, told)
    elif re.match(rb"refused [345] ", err):
        for form in FORMS:
            for words in ([], ["--stamp", stamp]):
                status, out, told = program.answer(folder, "report", *INPUTS, *words, *form)
                want((status, out, is_line_with_words(told, err)), (1, b"", True), "a refused report")
    elif err == b"refused 2 0 0\n":
        check_refused_stamp(program, folder, INPUTS, stamp)
    else:
        return False
    return True


FORMS = ([], ["--tsv"], ["--json"], ["--jsonl"], ["--html"], ["--html-dir", "no-pages"])


def check_refused_stamp(program, folder, inputs, stamp):
    """A stamp that is none is refused as by `run -v`, and nothing is written."""
    with tempfile.TemporaryDirectory() as top:
        outputs = [word for name in ("response", "books-out", "settlement") for word in ("--" + name, os.path.join(top, name))]
        _, _, err = program.answer(folder, "run", *inputs, "--stamp=" + stamp, "--workers", "1", *outputs, "-v")
    told = err[err.index(b"refused 2 0 0\n"):]
    want(is_line_with_words(told, b"refused 2 0 0\n"), True, "the words of a run")
    for form in FORMS:
        want(program.answer(folder, "report", *inputs, "--stamp=" + stamp, *form), (1, b"", told), f"the stamp {stamp}")
    want(os.path.exists(os.path.join(folder, "no-pages")), False, "a folder of a refused report")


# ---------------------------------------------------------------- jobs made here

def write_job(folder, sheet, books, batch, stamp=b"202603170600"):
    os.makedirs(folder)
    for name, content in (("sheet.toml", sheet), ("books.txt", books), ("batch.bin", batch), ("stamp", stamp)):
        with open(os.path.join(folder, name), "wb") as file:
            file.write(content)


def made_jobs(top):
    """The first job with ids that hold marks, with providers that are no ids, and with too many lines for a page."""
    first = []
    for name in ("sheet.toml", "books.txt", "batch.bin"):
        with open(os.path.join(FIRST_JOB, name), "rb") as file:
            first.append(file.read())
    sheet, books, batch = first
    marks = [(b"H1001", b"<&\"'\\"), (b"H1002", b"=</b>")]
    providers = [(b"9000000011     ", b"<b>&\"'\\</table>"), (b"9000000029     ", b"\x1b[31m|\xff\"}]<br>  "),
                 (b"9000000037     ", b"'; alert(1)//  ")]
    write_job(os.path.join(top, "ids-with-marks"), sheet, books, replaced(batch, providers))
    write_job(os.path.join(top, "families-with-marks"), sheet, replaced(books, marks), replaced(batch, marks))
    write_job(os.path.join(top, "more-than-a-page"), sheet, books, longer(batch, 100))
    write_job(os.path.join(top, "as-much-as-a-page"), sheet, books, longer(batch, 86))


def replaced(text, pairs):
    for old, new in pairs:
        text = text.replace(old, new)
    return text


def longer(batch, times):
    """The batch with its details again and again; each record counts in the trailer."""
    records = re.findall(rb"\x02[^\x03]*\x03", batch)
    head, middle, trailer = records[0], records[1:-1], records[-1]
    count = len(middle) * times + 2
    numbered = [record[:3] + b"%010d" % at + record[13:] for at, record in enumerate(middle * times, 1)]
    return head + b"".join(numbered) + trailer[:10] + b"%010d" % count + trailer[20:]


def check_words(program):
    """What the words of `report` allow, and files that aren't there."""
    with tempfile.TemporaryDirectory() as folder:
        for words in (["--tsv", "--json"], ["--json", "--jsonl"], ["--json", "--html"], ["--provider", "A", "--family", "B"], ["--plain"],
                      ["--html", "--html-dir", "D"], ["--html-dir", "D", "--tsv"], ["--html-dir"], ["--stamp"]):
            status, out, err = program.answer(folder, "report", *INPUTS, *words)
            want((status, out, bool(err)), (2, b"", True), "words of report")
        missing = b"file 1\n--sheet sheet.toml: no such file or directory\n"
        want(program.answer(folder, "report", *INPUTS), (3, b"", missing), "a sheet that isn't there")
        want(program.answer(folder, "show", "--sheet", "s", "--batch", "b", "--tsv"), (3, b"", b"file 1\n"), "no sheet")
        for stamp in ("", "20260317060", "2026031706000", "202602290600", "202613010600", "202603172400", "202603170660", "2026-03-17",
                      "+20260317060", "20260317 600", "20260317060a"):
            check_refused_stamp(program, folder, first_inputs(), stamp)


def check_files(program):
    """A folder that is there keeps its other files, and its pages are replaced; what can't be written is named."""
    with tempfile.TemporaryDirectory() as top:
        report = ["report", *first_inputs(), "--html-dir"]
        to = os.path.join(top, "to")
        os.mkdir(to)
        for name in ("p2.html", "p9.html", "notes.txt"):
            with open(os.path.join(to, name), "w", encoding="ascii") as file:
                file.write("before")
        program.text(top, *report, "to")
        want(sorted(os.listdir(to)), ["index.html", "notes.txt", "p1.html", "p2.html", "p3.html", "p9.html"], "files of a folder")
        lengths = {name: os.path.getsize(os.path.join(to, name)) for name in ("p2.html", "p9.html", "notes.txt")}
        want((lengths["p2.html"] > 1000, lengths["p9.html"], lengths["notes.txt"]), (True, 6, 6), "what is replaced")
        os.remove(os.path.join(to, "p1.html"))
        os.mkdir(os.path.join(to, "p1.html"))
        failed = {"to": "to/p1.html: it isn't a regular file", "no/pages": "no/pages: no such file or directory",
                  "to/notes.txt": "to/notes.txt/p3.html: not a directory"}
        for folder, words in failed.items():
            line = f"file 10\n--html-dir {words}\n".encode()
            want(program.answer(top, *report, folder), (3, b"", line), "a page that can't be written")
        want([name for name in os.listdir(to) if name.startswith(".")], [], "files that are left")


def check_inputs_kept(program):
    """Where a page would replace an input file, or one that a standard stream leads to, nothing is written."""
    for name, at in (("sheet.toml", "index.html"), ("books.txt", "p3.html"), ("batch.bin", "p1.html")):
        for way in ("itself", "hard link", "symbolic link", "input by a link", "standard input"):
            with tempfile.TemporaryDirectory() as folder:
                check_input_kept(program, folder, name, at, way)
    with tempfile.TemporaryDirectory() as folder:
        os.mkdir(os.path.join(folder, "pages"))
        report = [*program.words, "report", *first_inputs(), "--html-dir", "pages"]
        with open(os.path.join(folder, "pages", "p2.html"), "wb") as page:
            done = subprocess.run(report, cwd=folder, stdout=page, stderr=subprocess.PIPE, timeout=program.seconds)
        line = b"rxbatch: a page in --html-dir and standard output are the same file\n"
        want((done.returncode, done.stderr, os.listdir(os.path.join(folder, "pages"))), (2, line, ["p2.html"]), "standard output")


def first_inputs():
    return [word if word.startswith("--") else os.path.abspath(os.path.join(FIRST_JOB, word)) for word in INPUTS]


def check_input_kept(program, folder, name, at, way):
    pages = os.path.join(folder, "pages")
    os.mkdir(pages)
    page, other = os.path.join(pages, at), os.path.join(folder, name)
    with open(os.path.join(FIRST_JOB, name), "rb") as old, open(page if way == "itself" else other, "wb") as new:
        text = old.read()
        new.write(text)
    if way == "hard link":
        os.link(other, page)
    elif way in ("symbolic link", "standard input"):
        os.symlink(other, page)
    elif way == "input by a link":
        os.rename(other, page)
        os.symlink(page, other)
    paths = {"itself": f"pages/{at}", "standard input": "-"}
    inputs = [paths.get(way, other) if word.endswith("/" + name) else word for word in first_inputs()]
    with open(page, "rb") as source:
        done = subprocess.run([*program.words, "report", *inputs, "--html-dir", "pages"], cwd=folder, stdin=source,
                              capture_output=True, timeout=program.seconds)
    option = inputs[[one.rpartition("/")[2] for one in first_inputs()].index(name) - 1]
    line = f"rxbatch: {option} and a page in --html-dir are the same file\n".encode()
    want((done.returncode, done.stdout, done.stderr), (2, b"", line), f"a page that is the {name} ({way})")
    with open(page, "rb") as file:
        want((file.read() == text, sorted(os.listdir(pages))), (True, [at]), f"the files left ({way})")


def check_paths(program):
    """A page of files whose paths hold marks of HTML, blanks and letters beyond ASCII."""
    names = {"sheet.toml": "<b>&\"' sheet.toml", "books.txt": "--><script>alert(1)", "batch.bin": "f\u00fcr M\u00e4rz.bin"}
    with tempfile.TemporaryDirectory() as folder:
        for name, other in names.items():
            with open(os.path.join(FIRST_JOB, name), "rb") as old, open(os.path.join(folder, other), "wb") as new:
                new.write(old.read())
        inputs = [names.get(word, word) for word in INPUTS]
        inputs = [f"{word}={path}" for word, path in zip(inputs[::2], inputs[1::2])]
        page = Page(program.text(folder, "report", *inputs, "--html"))
        check_origin(page, origin_of(program, folder, [names.get(word, word) for word in INPUTS]))
        check_script(page)


def jobs_below(top):
    needed = {"sheet.toml", "books.txt", "batch.bin", "stamp"}
    return [folder for folder, _, names in sorted(os.walk(top)) if needed <= set(names)]


def main():
    parser = argparse.ArgumentParser()
    parser.add_argument("program")
    parser.add_argument("--cases", action="append")
    parser.add_argument("--only", default="")
    parser.add_argument("--seconds", type=float, default=60)
    given = parser.parse_args()
    words = shlex.split(given.program)
    words[0] = os.path.abspath(words[0]) if os.path.exists(words[0]) else words[0]
    program = Program(words, given.seconds)
    with tempfile.TemporaryDirectory() as top:
        made_jobs(os.path.join(top, "made"))
        tops = given.cases or [os.path.join(HERE, "cases"), first_job(top), os.path.join(top, "made")]
        jobs = [job for folder in tops for job in jobs_below(folder) if given.only in job]
        passed, failed = counted(program, jobs, not given.cases)
    print(f"{passed} passed, {failed} failed")
    return 2 if not jobs else int(failed > 0)


def first_job(top):
    """The first job with its stamp, copied."""
    texts = []
    for name in ("sheet.toml", "books.txt", "batch.bin"):
        with open(os.path.join(FIRST_JOB, name), "rb") as file:
            texts.append(file.read())
    write_job(os.path.join(top, "first_job"), *texts)
    return os.path.join(top, "first_job")


def counted(program, jobs, with_words):
    checks = [(job, lambda job=job: check_job(program, job)) for job in jobs]
    if with_words:
        checks.append(("words", lambda: check_words(program)))
        checks.append(("families", lambda: check_families(program)))
        checks.append(("paths", lambda: check_paths(program)))
        checks.append(("files", lambda: check_files(program)))
        checks.append(("inputs that are pages", lambda: check_inputs_kept(program)))
    passed = failed = 0
    for name, check in checks:
        try:
            passed += check() is not False
        except (Differs, OSError, ValueError, KeyError, IndexError, subprocess.TimeoutExpired) as fault:
            failed += 1
            print(f"{os.path.basename(name)}: {type(fault).__name__}: {fault}")
    return passed, failed


if __name__ == "__main__":
    sys.exit(main())
