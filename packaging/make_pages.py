#!/usr/bin/env python3
"""Makes the manual page and the completions from what the program says of itself.

    python3 packaging/make_pages.py PROGRAM           writes rxbatch.1, rxbatch.bash and _rxbatch next to this script
    python3 packaging/make_pages.py PROGRAM --check   compares them with what would be written

PROGRAM is the built program, `crates/rxbatch/out/rxbatch`. With `--check` the last line is `N passed, M failed`, and the
exit status is 1 where M isn't 0.
"""

import os
import pathlib
import re
import subprocess
import sys

OPTION = re.compile(r"^ +(?:(-\w), )? *(--[\w-]+)(?: <([\w-]+)>(\.\.\.)?)? {2,}(.*)$")
COMMAND = re.compile(r"^  (\w+) {2,}(.*)$")
# What `--help` doesn't say.
STATUSES = [
    ("0", "Success."),
    ("1", "An input is refused: the line \"refused N M P\" on standard error, or \"response M P\" or \"reply M P\" for a response file."),
    ("2", "The arguments aren't understood or ask for help, or two options of run, or two files of route or join, lead to one file."),
    ("3", "A file failed: the line \"file K\" on standard error."),
    ("4", "check: warnings, and no fault. adjudicate: a warning stops it. explain, excerpt, family, fault: nothing of the kind; excerpt: the folder is there."),
    ("5", "verify: a file differs from the run's. explain, excerpt: the response file doesn't have this reply."),
]
# The numbers of the lines on standard error.
DIAGNOSTICS = [
    ("refused N M P", "N: 1 workers, 2 stamp, 3 sheet, 4 books, 5 batch, 6 out of memory, 7 thread, 8 members table, 9 books that "
                      "aren't kept up, 10 plans file, 11 a response that isn't joined. M: the fault of that input. P: the sheet's key, "
                      "the line of books or table, the byte of the batch, the plan, or the record. The words follow; of run, show and plan "
                      "with -v or on a terminal. fault N M P prints them."),
    ("file K", "K: 1 sheet, 2 books, 3 batch, 4 response, 5 end books, 6 settlement, 7 log, 8 members table, 9 claims that left, "
               "10 a page of a report, 11 members report, 12 a file of an excerpt, 13 plans file, 0 standard output."),
]
FILES = [
    ("plan sheet", "TOML: the plan's BIN and processor control number, period, figures, tiers and drugs."),
    ("plans file", "TOML: the plans of a switch, each with name, sheet, books, books_out and, if need be, response and settlement."),
    ("books", "Text: the members with their coverage, the standing claims, the totals of each family. The end books of a run are "
              "the opening books of the next."),
    ("batch, response", "NCPDP Batch 1.2 with transmissions of Telecommunication D.0: billings B1 and reversals B2, and their replies."),
    ("members table", "Text, tabs between the fields: the heading family, person, first, last, then a line for each member."),
    ("members report", "A members table with a fifth field, change: came in, changed or stayed."),
    ("settlement", "Text: for each pharmacy the answers paid, duplicate, reversed and rejected, and the net in cents."),
    ("log", "JSON, a line for each run, appended. New files have the rights 0600."),
]
EXAMPLES = [
    ("Adjudicate a batch, with the outputs in a folder:",
     "rxbatch adjudicate --sheet sheet.toml --books books.txt --batch batch.bin --out out"),
    ("The next day, on the end books:",
     "rxbatch adjudicate --sheet sheet.toml --books out/books.txt --batch next.bin --out next"),
    ("The same from a program, each file by an option:",
     "rxbatch run --safe --sheet sheet.toml --books books.txt --batch batch.bin \\",
     "    --stamp 202603170600 --workers 4 --response response.bin \\",
     "    --books-out books-out.txt --settlement settlement.txt"),
    ("One batch for several plans:",
     "rxbatch route --safe --plans plans.toml --batch batch.bin --stamp 202603170600 \\",
     "    --response response.bin --settlement settlement.txt"),
    ("A plan's first books, and each week the members who come and go:",
     "rxbatch members --period 20260101-20261231 --members members.tsv --books-out books.txt",
     "rxbatch members --books books.txt --members members.tsv --books-out next.txt"),
    ("In January, the year's claims but its last quarter's leave, and the new benefit period begins:",
     "rxbatch age --books books.txt --before 20261001 --period 20270101-20271231 \\",
     "    --sheet sheet.toml --books-out next.txt --dropped claims-2026.txt"),
    ("What does refused 4 5 6 mean?",
     "rxbatch fault 4 5 6"),
    ("Why was the second record answered so?",
     "rxbatch explain --sheet sheet.toml --books books.txt --batch batch.bin --record 2"),
    ("The same as a job of its own, to send to who disputes it:",
     "rxbatch excerpt --sheet sheet.toml --books books.txt --batch batch.bin --record 2 --out record-2"),
]


class Command:
    """What the help of a command says."""

    def __init__(self, name, about):
        self.name, self.about = name, about
        self.usage = ""
        # (short, long, value, dots where it may stand again, help)
        self.options = []


def help_of(program, *words):
    """The text of `--help`, which goes to standard error."""
    done = subprocess.run([program, *words, "--help"], capture_output=True, text=True, check=False)
    return done.stderr or done.stdout


def read_command(program, name, about):
    command = Command(name, about)
    for line in help_of(program, name).splitlines():
        option = OPTION.match(line)
        if line.startswith("Usage: "):
            command.usage = re.sub(r"^Usage: \S+", "rxbatch", line)
        elif option and option[2] != "--help":
            command.options.append(option.groups())
    return command


def read_commands(program):
    """The commands of the program, without `help`."""
    text = help_of(program).partition("Commands:")[2].partition("Options:")[0]
    names = [match.groups() for match in map(COMMAND.match, text.splitlines()) if match]
    return [read_command(program, name, about) for name, about in names if name != "help"]


def escaped(text):
    return text.replace("\\", "\\e").replace("-", "\\-").replace("'", "\\(aq")


def version_of(program):
    """The first two words of `--version`: `rxbatch 0.1.0`."""
    done = subprocess.run([program, "--version"], capture_output=True, text=True, check=False)
    return " ".join(done.stdout.split()[:2])


def manual(commands, version):
    lines = [f'.TH RXBATCH 1 "" "{version}"', ".SH NAME", "rxbatch \\- adjudicates pharmacy batch files", ".SH SYNOPSIS"]
    for command in commands:
        lines += [".B " + escaped(command.usage), ".br"]
    lines += [
        ".SH DESCRIPTION",
        "Takes a batch file of pharmacy claims, a plan sheet and the books of members and standing claims, and gives the",
        "response file, the end books and a settlement per pharmacy, byte for byte as if the file had been read one record",
        "after another.",
        ".SH COMMANDS",
    ]
    for command in commands:
        lines += [".SS " + command.name, escaped(command.about) + "."]
        for short, name, value, _, told in command.options:
            shown = "\\fB" + escaped(", ".join(filter(None, (short, name)))) + "\\fR"
            lines += [".TP", shown + (f" \\fI{value}\\fR" if value else ""), escaped(told) + "."]
    lines += [".SS help", "Prints the help, or that of a command, on standard output.",
              ".SS \\-\\-version, \\-V", "Prints the version, and the kit that proved it."]
    for heading, items in (("FILES", FILES), ("EXIT STATUS", STATUSES), ("DIAGNOSTICS", DIAGNOSTICS)):
        lines.append(".SH " + heading)
        for name, meaning in items:
            lines += [".TP", escaped(name), escaped(meaning)]
    lines.append(".SH EXAMPLES")
    for what, *given in EXAMPLES:
        lines += [".PP", escaped(what), ".PP", ".nf", *map(escaped, given), ".fi"]
    lines += [".SH SEE ALSO", "docs/CLI.md, docs/FORMATS.md and docs/RULES.md of the source."]
    return "\n".join(lines) + "\n"


def bash(commands):
    cases = []
    for command in commands:
        words = " ".join(" ".join(filter(None, (short, name))) for short, name, *_ in command.options)
        files = "|".join(name for _, name, value, *_ in command.options if value in ("FILE", "DIR"))
        others = "|".join(name for _, name, value, *_ in command.options if value not in ("FILE", "DIR", None))
        again = "".join(f"; again=' {name} '" for _, name, _, dots, _ in command.options if dots)
        cases.append(f"    {command.name}) words='{words}'; files='{files}'; others='{others}'{again} ;;")
    names = " ".join(command.name for command in commands)
    return f"""# Completions of rxbatch for bash.
_rxbatch() {{
  local word=${{COMP_WORDS[COMP_CWORD]}} before=${{COMP_WORDS[COMP_CWORD - 1]}} words files others again left name
  if [ "$COMP_CWORD" -eq 1 ]; then
    mapfile -t COMPREPLY < <(compgen -W '{names} help --help --version -V' -- "$word")
    return
  fi
  # --option=value is three words here
  if [ "$word" = = ]; then word=; elif [ "$before" = = ]; then before=${{COMP_WORDS[COMP_CWORD - 2]}}; fi
  case ${{COMP_WORDS[1]}} in
{chr(10).join(cases)}
    help) words='{names}'; files=''; others='' ;;
  esac
  if [ -n "$files" ] && [[ "|$files|" == *"|$before|"* ]]; then
    mapfile -t COMPREPLY < <(compgen -f -- "$word")
  elif [ -n "$others" ] && [[ "|$others|" == *"|$before|"* ]]; then
    COMPREPLY=()
  else
    left=
    for name in $words; do
      [[ " ${{COMP_WORDS[*]:2:COMP_CWORD-2}} " == *" $name "* && $again != *" $name "* ]] || left+=" $name"
    done
    mapfile -t COMPREPLY < <(compgen -W "$left" -- "$word")
  fi
}}
complete -o filenames -F _rxbatch rxbatch
"""


def zsh(commands):
    def quoted(text):
        return text.replace("'", "'\\''").replace("[", "\\[").replace("]", "\\]").replace(":", "\\:")

    told = "\n".join(f"    '{command.name}:{quoted(command.about)}'" for command in commands)
    cases = []
    for command in commands:
        options = []
        for short, name, value, dots, text in command.options:
            action = {"FILE": ":file:_files", "DIR": ":folder:_files -/", None: ""}.get(value, f":{value}:")
            names = f"'({short} {name})'{{{short},{name}}}'" if short else f"'{'*' if dots else ''}{name}{'=' if value else ''}"
            options.append(f"{names}[{quoted(text)}]{action}'")
        cases.append(f"    {command.name}) _arguments {' '.join(options)} ;;")
    return f"""#compdef rxbatch
# Completions of rxbatch for zsh.
_rxbatch() {{
  local -a commands=(
{told}
    'help:Prints the help'
  )
  if (( CURRENT == 2 )); then
    _describe command commands
    return
  fi
  local command=$words[2]
  shift words
  (( CURRENT-- ))
  case $command in
{chr(10).join(cases)}
    help) _describe command commands ;;
  esac
}}
_rxbatch "$@"
"""


def main():
    words = [word for word in sys.argv[1:] if word != "--check"]
    if len(words) != 1:
        sys.exit(__doc__)
    program = os.path.abspath(words[0])
    commands = read_commands(program)
    folder = pathlib.Path(__file__).parent
    pages = {"rxbatch.1": manual(commands, version_of(program)), "rxbatch.bash": bash(commands), "_rxbatch": zsh(commands)}
    passed = 0
    for name, text in pages.items():
        path = folder / name
        if "--check" not in sys.argv:
            path.write_text(text)
        elif commands and path.exists() and path.read_text() == text:
            passed += 1
        else:
            print(f"packaging/{name} isn't what the program says of itself: run packaging/make_pages.py")
    if "--check" in sys.argv:
        print(f"{passed} passed, {len(pages) - passed} failed")
        return 0 if passed == len(pages) else 1
    return 0


if __name__ == "__main__":
    sys.exit(main())
