#!/usr/bin/env python3
"""Opens pages of `report --html` or `--html-dir` in Chromium, and compares what is seen with what their rows say.

    tests/look_at_page.py PAGE.. [--hostile PROGRAM] [--browser PROGRAM] [--pictures FOLDER]

The browser is worked through its debugging pipe, so each page stands as it is, under its own policy. Of each:

- it asks for nothing but itself, also while it is worked, opens no dialog, and has its own script and no handler in its markup;
- with each answer and each code chosen, and with a member's name and amounts written, the claims that are seen have to be those
  whose rows say so, and without any of these all claims; on a page without claims the same of the providers;
- a table whose heading is pressed once and twice has to stand in the order of the column, up and down;
- in the tree that a screen reader is given, each table that stands by itself has a name, each cell a named heading in its column,
  each link, button and field a name, and headings go down one level at a time;
- by the tabulator key each link, button, field and explanation is reached, first the link past the head, and Enter unfolds an
  explanation;
- on a phone of 390 pixels, with all explanations unfolded, nothing is outside, light and dark.

With --hostile this program makes pages of the first job whose ids, tiers and paths hold markup, quotes and scripts: a page, one
of too many claims, and a folder's first page and a pharmacy's. They are looked at as the others are, and have to show these texts
as they are.

With --pictures the first page is drawn as on a desktop, light and dark, on a phone and on paper. The last line is `same` or what
differs; the exit status is 0 or 1, and 2 where no browser is found.
"""

import argparse
import base64
import fcntl
import json
import os
import re
import shlex
import shutil
import subprocess
import sys
import tempfile

from run_report import FIRST_JOB, Differs, Page, count_in, headed_cells, longer, replaced, want

SEEN = """(asked) => { const parts = () => PARTS.filter(part => part.getClientRects().length).map(part => part.id || part.rowIndex);
const put = (at, value) => { const field = document.querySelectorAll('form input, form select')[at]; field.value = value;
field.dispatchEvent(new Event('input', { bubbles: true })); };
const found = asked.map(given => { given.forEach((value, at) => put(at, value)); return parts(); });
asked[0].forEach((_, at) => put(at, '')); return found; }"""
CLAIMS = "[...document.querySelectorAll('table.claims')].flatMap(table => [...table.tBodies])"
PROVIDERS = "[...document.getElementById('providers').tBodies[0].rows]"
SORTED = """() => { const found = [];
for (const table of document.querySelectorAll('table.claims, table.providers')) {
const rows = () => table.className === 'claims' ? [...table.tBodies].map(body => body.rows[0]) : [...table.tBodies[0].rows];
for (const button of table.querySelectorAll('thead button')) for (const turn of [1, 2]) { button.click();
const at = button.parentElement.cellIndex;
found.push(rows().map(row => [...row.cells[at].childNodes].filter(node => node.nodeName !== 'I').map(node => node.textContent).join(''))); } }
return found; }"""
STOPS = "[...document.querySelectorAll('a[href], button, input, select, summary')].filter(it => it.getClientRects().length)"
MARKUP = """[document.scripts.length, document.querySelectorAll('img, svg, iframe, object, link').length,
[...document.querySelectorAll('*')].filter(it => [...it.attributes].some(one => one.name.startsWith('on'))).length]"""
SHOWN = """[...document.querySelectorAll('h2, #providers th, .member, .origin dd, .reasons th, .reasons td, pre')]
.map(it => it.textContent)"""
PROVIDERS_WITH_MARKS = {b"9000000011     ": b"\"><script>a()//", b"9000000029     ": b"&amp;'\"<!--&lt;",
                        b"9000000037     ": b"<img src=x:y>&  "}
FAMILIES_WITH_MARKS = {b"H1001": b"<script>a=1</script>", b"H1002": b"=\"><svg/onload=a()>"}
PATH_WITH_MARKS = '"><script>alert(1)</script>'
NAMED = {"link", "button", "searchbox", "spinbutton", "combobox", "checkbox", "textbox"}


class Browser:
    """Chromium without a window, on one page."""

    def __init__(self, program, folder):
        to_browser, self.to = os.pipe()
        self.source, from_browser = os.pipe()
        ends = [fcntl.fcntl(end, fcntl.F_DUPFD, 20) for end in (to_browser, from_browser)]

        def place():
            os.dup2(ends[0], 3)
            os.dup2(ends[1], 4)

        words = [program, "--headless", "--no-sandbox", "--disable-gpu", "--disable-background-networking", "--hide-scrollbars",
                 "--remote-debugging-pipe", f"--user-data-dir={folder}", "about:blank"]
        self.process = subprocess.Popen(words, preexec_fn=place, pass_fds=(3, 4), stderr=subprocess.DEVNULL)
        self.rest, self.count, self.session, self.events = b"", 0, None, []
        target = self.call("Target.createTarget", url="about:blank")["targetId"]
        self.session = self.call("Target.attachToTarget", targetId=target, flatten=True)["sessionId"]
        for part in ("Page", "Network", "Runtime", "Accessibility"):
            self.call(part + ".enable")

    def heard(self):
        while b"\0" not in self.rest:
            piece = os.read(self.source, 1 << 20)
            want(bool(piece), True, "the browser's answer")
            self.rest += piece
        text, self.rest = self.rest.split(b"\0", 1)
        message = json.loads(text)
        want(message.get("method") == "Page.javascriptDialogOpening", False, "a dialog")
        return message

    def call(self, method, **parameters):
        self.count += 1
        message = {"id": self.count, "method": method, "params": parameters}
        if self.session:
            message["sessionId"] = self.session
        os.write(self.to, json.dumps(message).encode() + b"\0")
        while True:
            answer = self.heard()
            if answer.get("id") == self.count:
                want(answer.get("error"), None, method)
                return answer["result"]
            self.events.append(answer)

    def look(self, expression):
        """What an expression of the page's script gives."""
        answer = self.call("Runtime.evaluate", expression=expression, returnByValue=True)
        want(answer.get("exceptionDetails"), None, expression[:60])
        return answer["result"].get("value")

    def screen(self, width, dark=False, media=""):
        self.call("Emulation.setDeviceMetricsOverride", width=width, height=900, deviceScaleFactor=1, mobile=width < 500)
        features = [{"name": "prefers-color-scheme", "value": "dark" if dark else "light"}]
        self.call("Emulation.setEmulatedMedia", media=media, features=features)

    def open(self, path):
        """Opens a page; what it asked for."""
        self.events = []
        self.call("Page.navigate", url="file://" + os.path.abspath(path))
        while not any(event.get("method") == "Page.loadEventFired" for event in self.events):
            self.events.append(self.heard())
        return self.asked()

    def asked(self):
        """What the page has asked for since it was opened."""
        asked = [event for event in self.events if event.get("method") == "Network.requestWillBeSent"]
        return [event["params"]["request"]["url"] for event in asked]

    def press(self, key, code):
        for kind in ("rawKeyDown", "char", "keyUp"):
            text = {"text": "\r"} if key == "Enter" and kind == "char" else {}
            if kind != "char" or text:
                self.call("Input.dispatchKeyEvent", type=kind, key=key, code=key, windowsVirtualKeyCode=code, **text)

    def picture(self, path):
        answer = self.call("Page.captureScreenshot", captureBeyondViewport=False)
        with open(path, "wb") as file:
            file.write(base64.b64decode(answer["data"]))

    def end(self):
        self.process.kill()
        self.process.wait()


def claims_of(page):
    """Of each claim of a page its anchor, its answer, its codes, its text, and what the plan pays."""
    claims = []
    for table in page.tables("claims"):
        rows = headed_cells(table)[::2]
        for body, cells in zip(table.below("tbody"), rows):
            codes = [node.words() for node in page.all("b", cells["Answer"])]
            claims.append((body.attributes["id"], body.attributes["class"], codes, body.text().lower(), cells["Plan pays"].words()))
    return claims


def asked_of_claims(page):
    """What is chosen and written in the form, with the claims that fit: text, answer, code, least and most amount."""
    claims = claims_of(page)
    members = {row["Member"].words() for table in page.tables("claims") for row in headed_cells(table)[::2]} - {""}
    asked = [(["", "", "", "", ""], claims)]
    asked += [(["", answer, "", "", ""], [one for one in claims if one[1] == answer])
              for answer in ("paid", "duplicate", "reversed", "rejected")]
    for code in sorted({code for one in claims for code in one[2]}):
        asked.append((["", "", code, "", ""], [one for one in claims if code in one[2]]))
    for member in sorted(members)[:5]:
        asked.append(([member, "", "", "", ""], [one for one in claims if member.lower() in one[3]]))
    asked.append((["", "", "", "0.01", "200"], [one for one in claims if one[4] and 0.01 <= float(one[4]) <= 200]))
    return asked


def asked_of_providers(page):
    """The same of the providers, by name and net; each is known by the number of its row."""
    (table,) = [table for table in page.all("table") if table.attributes.get("id") == "providers"]
    rows = headed_cells(table)[:-1]
    providers = [(at, row["Provider"].words().lower(), float(count_in(row["Net"]))) for at, row in enumerate(rows, 1)]
    asked = [(["", "", ""], providers)]
    for _, name, net in providers[:5]:
        asked.append(([name, "", ""], [one for one in providers if name in one[1]]))
        asked.append((["", str(net), ""], [one for one in providers if one[2] >= net]))
        asked.append((["", "", str(net)], [one for one in providers if one[2] <= net]))
    return asked


def order(cell):
    """Numbers by their size, other texts with the numbers in them by theirs; what is empty first."""
    if re.fullmatch(r"-?\d+(\.\d+)?", cell):
        return (1, float(cell), [])
    return (2 if cell else 0, 0, [(0, int(part), "") if part.isdigit() else (1, 0, part) for part in re.findall(r"\d+|\D+", cell)])


def check_form(browser, page):
    """The form finds the parts whose rows say so, and headings sort."""
    has_claims = bool(page.tables("claims"))
    asked = asked_of_claims(page) if has_claims else asked_of_providers(page)
    seen = SEEN.replace("PARTS", CLAIMS if has_claims else PROVIDERS)
    found = browser.look(f"({seen})({json.dumps([given for given, _ in asked])})")
    for (given, fitting), parts in zip(asked, found):
        want(parts, [one[0] for one in fitting], f"what is found by {given}")
    columns = browser.look(f"({SORTED})()")
    want(bool(columns), True, "headings that sort")
    for at, column in enumerate(columns):
        want(column, sorted(column, key=order, reverse=at % 2 == 1), "the order of a column")


def check_tree(browser):
    """What a screen reader is given."""
    nodes = browser.call("Accessibility.getFullAXTree")["nodes"]
    by_id = {node["nodeId"]: node for node in nodes}
    role = lambda node: node.get("role", {}).get("value", "")
    name = lambda node: node.get("name", {}).get("value", "").strip()

    def below(node, kind, stop=()):
        found = []
        for child in [by_id[one] for one in node.get("childIds", []) if one in by_id]:
            if role(child) == kind:
                found.append(child)
            if role(child) not in stop:
                found += below(child, kind, stop)
        return found

    for node in nodes:
        want(role(node) not in NAMED or bool(name(node)), True, f"the name of a {role(node)}")
    levels = [one["value"]["value"] for node in nodes if role(node) == "heading"
              for one in node.get("properties", []) if one["name"] == "level"]
    want(levels[:1] == [1] and all(after - before <= 1 for before, after in zip(levels, levels[1:])), True, f"levels {levels}")
    tables = [node for node in nodes if role(node) == "table"]
    inner = {id(one) for node in tables for one in below(node, "table")}
    for table in tables:
        want(id(table) in inner or bool(name(table)), True, "the name of a table")
        rows = below(table, "row", ("table",))
        titles = [name(cell) for cell in below(rows[0], "columnheader", ("table",))]
        want(bool(titles) and all(titles), True, f"headings {titles}")
        for row in rows[1:]:
            cells = [len(below(row, kind, ("table",))) for kind in ("rowheader", "cell", "gridcell")]
            want(sum(cells) in (1, len(titles)), True, f"cells {cells} of a row under {titles}")


def check_keys(browser):
    """By the tabulator each stop is reached in its order, and Enter unfolds an explanation."""
    browser.look("document.activeElement.blur(), getSelection().removeAllRanges(), scrollTo(0, 0)")
    count = browser.look(f"{STOPS}.length")
    reached = []
    for _ in range(count):
        browser.press("Tab", 9)
        reached.append(browser.look(f"{STOPS}.indexOf(document.activeElement)"))
        if reached[-1] == count - 1:
            break
    want(reached, list(range(count)), "what the tabulator reaches")
    if browser.look("document.querySelector('summary') !== null"):
        browser.look("document.querySelector('summary').focus()")
        browser.press("Enter", 13)
        want(browser.look("document.querySelector('details').open"), True, "an explanation that Enter unfolds")


def check_markup(browser, path):
    """Nothing but the page's own script, and since the page was opened nothing was asked for but itself."""
    want(browser.look(MARKUP), [1, 0, 0], "scripts, handlers and parts from outside")
    want(browser.asked(), ["file://" + os.path.abspath(path)], "what the page asked for")


def check(browser, path):
    with open(path, encoding="ascii") as file:
        page = Page(file.read())
    for dark in (False, True):
        browser.screen(1280, dark)
        want(browser.open(path), ["file://" + os.path.abspath(path)], "what the page asks for")
        want(browser.look("document.querySelector('form') !== null"), True, "the form of the page's script")
    check_tree(browser)
    check_keys(browser)
    check_form(browser, page)
    browser.look("document.querySelectorAll('details').forEach(it => { it.open = true; })")
    for dark in (False, True):
        browser.screen(390, dark)
        want(browser.look("document.documentElement.scrollWidth <= 390"), True, "room on a phone")
    check_markup(browser, path)


def hostile_pages(program, top):
    """Pages of the first job with hostile ids, tiers and paths, each with texts that it has to show."""
    folder = os.path.join(top, PATH_WITH_MARKS)
    os.makedirs(folder)
    texts = {}
    for name in ("sheet.toml", "books.txt", "batch.bin"):
        with open(os.path.join(FIRST_JOB, name), "rb") as file:
            texts[name] = file.read()
    tier = b"'" + PATH_WITH_MARKS.encode() + b"'"
    texts["sheet.toml"] = replaced(texts["sheet.toml"], [(b"\ngeneric = ", b"\n" + tier + b" = "), (b'"generic"', tier)])
    texts["books.txt"] = replaced(texts["books.txt"], FAMILIES_WITH_MARKS.items())
    texts["batch.bin"] = replaced(texts["batch.bin"], [*FAMILIES_WITH_MARKS.items(), *PROVIDERS_WITH_MARKS.items()])
    texts["large.bin"] = longer(texts["batch.bin"], 100)
    for name, text in texts.items():
        with open(os.path.join(folder, name), "wb") as file:
            file.write(text)
    report = [program, "report", "--sheet", PATH_WITH_MARKS + "/sheet.toml", "--books", PATH_WITH_MARKS + "/books.txt"]
    batch, large = (["--batch", f"{PATH_WITH_MARKS}/{name}.bin"] for name in ("batch", "large"))
    for words, name in ((batch, "page.html"), (large, "large.html")):
        with open(os.path.join(top, name), "wb") as page:
            subprocess.run([*report, *words, "--html"], cwd=top, stdout=page, check=True)
    subprocess.run([*report, *batch, "--html-dir", "pages"], cwd=top, stdout=subprocess.DEVNULL, check=True)
    names = [id.decode().rstrip() for id in PROVIDERS_WITH_MARKS.values()]
    headings = [f"Provider {name}" for name in names]
    members = [f"{id.decode()}/01" for id in FAMILIES_WITH_MARKS.values()]
    command = shlex.join(["rxbatch", *report[1:], *large, "--html-dir", "DIR"])
    own = {f"p{at}.html": [name, f"Provider {name}"] for at, name in enumerate(by_net(os.path.join(top, "pages", "index.html")), 1)}
    want(sorted(part[0] for part in own.values()), sorted(names), "the providers of the first page")
    shown = {"page.html": names + headings + members + [PATH_WITH_MARKS], "large.html": names + [command], "pages/index.html": names}
    shown |= {"pages/" + name: texts for name, texts in own.items()}
    return {os.path.join(top, name): texts for name, texts in shown.items()}


def by_net(path):
    """The providers of a folder's first page, in its order."""
    with open(path, encoding="ascii") as file:
        page = Page(file.read())
    (table,) = [table for table in page.all("table") if table.attributes.get("id") == "providers"]
    return [row["Provider"].words() for row in headed_cells(table)[:-1]]


def check_shown(browser, path, texts):
    """Each text stands on the page as it is, in a cell of its own or, of a tier, in an explanation; the paths stand at the head."""
    browser.open(path)
    found = browser.look(SHOWN)
    for text in texts:
        within = text == PATH_WITH_MARKS
        want(any(text in one if within else text == one.strip() for one in found), True, f"{text} on {os.path.basename(path)}")
    for name in ("sheet.toml", "books.txt"):
        want(any(one.startswith(f"{PATH_WITH_MARKS}/{name} ") for one in found), True, f"the path of {name}")
    want(browser.look("typeof a"), "undefined", "what a script would set")
    check_markup(browser, path)


def draw(browser, path, folder):
    """Pictures of the page on a desktop and a phone, and on paper."""
    os.makedirs(folder, exist_ok=True)
    for name, width, dark in (("desktop", 1280, False), ("dark", 1280, True), ("phone", 390, False)):
        browser.screen(width, dark)
        browser.open(path)
        browser.picture(os.path.join(folder, name + ".png"))
    browser.screen(1280)
    paper = browser.call("Page.printToPDF", printBackground=True, preferCSSPageSize=True)
    with open(os.path.join(folder, "paper.pdf"), "wb") as file:
        file.write(base64.b64decode(paper["data"]))
    browser.screen(760, media="print")
    browser.picture(os.path.join(folder, "print.png"))


def main():
    parser = argparse.ArgumentParser()
    parser.add_argument("page", nargs="*")
    parser.add_argument("--hostile", metavar="PROGRAM")
    parser.add_argument("--browser", default="chromium")
    parser.add_argument("--pictures")
    given = parser.parse_args()
    if not given.page and not given.hostile:
        parser.error("expected a page or --hostile")
    if not shutil.which(given.browser):
        print(f"{given.browser} isn't there")
        return 2
    with tempfile.TemporaryDirectory(ignore_cleanup_errors=True) as folder:
        browser = Browser(given.browser, folder)
        try:
            hostile = hostile_pages(os.path.abspath(given.hostile), os.path.join(folder, "hostile")) if given.hostile else {}
            for path, texts in hostile.items():
                check_shown(browser, path, texts)
            for path in [*given.page, *hostile]:
                check(browser, path)
            if given.pictures:
                draw(browser, given.page[0], given.pictures)
        except Differs as fault:
            print(fault)
            return 1
        finally:
            browser.end()
    print(f"same ({len(given.page) + len(hostile)} pages)")
    return 0


if __name__ == "__main__":
    sys.exit(main())
