#!/usr/bin/env python3
"""Compares what `explain` says with the tables of docs/DRIVERS.md, and what `--help` has with share/man/pclmin.1.

    tests/delivery/said.py PCLMIN

For each kind of DRIVERS.md, "By answer", `explain KIND` has to say the row's text. Then a job of each command, by its name, is
explained by the stated profile, and where the command or its value is refused the text has to be that of the row which names it, or of
the row with a letter left open that it fits, or, where there is none, that of the kind. No row may be without a command. The manual
page has to have each word that the help of a command has, in the synopsis and below. The help has commands in README.md's order, and no
line of it is longer than 100 columns. Each difference is printed, and the status is then 1.
"""

import pathlib
import re
import string
import subprocess
import sys

ROOT = pathlib.Path(__file__).resolve().parent.parent.parent
ROW = re.compile(r"^\| (`[^|]+`) \| ([^|]+) \|$", re.M)
LINE = re.compile(r"(?P<kind>\w+) at \d+ (?P<name>\S+)(?: [+-]?\d+)?(?: \(\d+ times\))?: (?P<text>.*)")
# A value that commands with numbers don't take, and data after those that take some.
VALUE, DATA = "5000", b"3W\0\0\0"
ACCEPTED = "nothing is refused\n"
# The longest line of a help.
COLUMNS = 100


def explain(pclmin, *words, job=b""):
    """What `explain` writes."""
    return subprocess.run([pclmin, "explain", *words], input=job, capture_output=True, timeout=60, check=False).stdout.decode()


# ---- the tables

def tables():
    """The rows of kinds and those of commands."""
    answers = (ROOT / "docs" / "DRIVERS.md").read_text().split("## By answer")[1]
    kinds, commands = answers.split("Of a command that isn't known")
    return ([(name.strip("`"), text) for name, text in ROW.findall(kinds)],
            [(name.strip("` "), text) for names, text in ROW.findall(commands) for name in names.split(",")])


def fits(row, name):
    """Whether a command has the name of a row, in which an ellipsis is any letter, and brackets hold those that are meant."""
    parts = re.split(r"(\[[^]]*\])", row)
    return re.fullmatch("".join(part if part.startswith("[") else re.escape(part).replace("…", ".") for part in parts), name) is not None


def wanted(name, kind, kinds, commands):
    """The text for a command that is refused: a row that names it comes before one with a letter left open."""
    found = sorted((("…" in row, text) for row, text in commands if fits(row, name)))
    return found[0][1] if found else dict(kinds)[kind]


# ---- what `explain` says

def kind_faults(pclmin, kinds):
    """Kinds of which `explain` says something else than their rows."""
    for name, text in kinds:
        said = explain(pclmin, name)
        if said != "%s: %s\n" % (name, text):
            yield "explain %s says %r, and docs/DRIVERS.md %r" % (name, said, text)


def jobs():
    """A job for each command's name, with a value that it doesn't take."""
    for first in "&*()":
        for group in string.ascii_lowercase:
            for last in string.ascii_uppercase:
                value = DATA if last == "W" else (VALUE + last).encode()
                yield first + group + last, b"\x1b" + (first + group).encode() + value
    for last in string.ascii_uppercase:
        for first in "%()":
            yield first + last, b"\x1b" + ("%s%s%s" % (first, VALUE, last)).encode()


def command_faults(pclmin, kinds, commands):
    """Commands of which `explain` says something else than their rows, and rows of which no command is refused."""
    count, seen = 0, set()
    for name, job in jobs():
        said = explain(pclmin, "--stated", job=job)
        line = LINE.fullmatch(said.split("\n")[0])
        if said == ACCEPTED or line and line["kind"] not in ("UnsupportedCommand", "UnsupportedValue"):
            continue
        count += 1
        if line is None or line["name"] != name or line["text"] != wanted(name, line["kind"], kinds, commands):
            yield "explain of %s says %r" % (name, said)
        seen |= {row for row, _ in commands if fits(row, name)}
    print("%d commands are refused and explained" % count)
    for row, _ in commands:
        if row not in seen:
            yield "docs/DRIVERS.md has %s, of which no command is refused" % row


# ---- help

def help_of(pclmin, *words):
    """The lines of a help."""
    return subprocess.run([pclmin, *words, "--help"], capture_output=True, text=True, timeout=60, check=True).stdout.splitlines()


def commands_of(pclmin):
    """The commands, in the order of the help."""
    lines = help_of(pclmin)
    listed = lines[lines.index("Commands:") + 1:]
    return [line.split()[0] for line in listed[:listed.index("")] if line.split()[0] != "help"]


def help_faults(pclmin, commands):
    """Commands that stand elsewhere in README.md, and lines that are too long."""
    usages = re.findall(r"^pclmin (\w+) ", (ROOT / "README.md").read_text(), re.M)
    if list(dict.fromkeys(usages)) != commands:
        yield "README.md has %s, and the help %s" % (list(dict.fromkeys(usages)), commands)
    for words in [(), *((command,) for command in commands)]:
        yield from ("%s --help has a line of %d columns: %s" % (" ".join(words), len(line), line)
                    for line in help_of(pclmin, *words) if len(line) > COLUMNS)


# ---- the manual page

def options(pclmin, *words):
    """The long words that a help has."""
    return re.findall(r"^ +(?:-\w, )?--([\w-]+)", "\n".join(help_of(pclmin, *words)), re.M)


def has_word(text, word):
    """Whether a part of the manual page has a word; `-o` alone stands for `--output`."""
    return re.search(r"^\.(?:Op|It|Fl|Pq) .*-%s(?![\w-])" % word, text, re.M) or word == "output" and "Fl o " in text


def manual_faults(pclmin, commands):
    """Words of the help that the manual page lacks, in the synopsis of a command or in what is said of it or of every command."""
    page = (ROOT / "share" / "man" / "pclmin.1").read_text()
    synopsis, text = page.split(".Sh DESCRIPTION")
    of_every, *sections = text.split(".Sh EXIT STATUS")[0].split(".Ss ")
    for command in commands:
        usages = "".join(part for part in synopsis.split(".Nm\n") if part.startswith(".Cm %s\n" % command))
        section = "".join(part for part in sections if part.startswith(command + "\n"))
        for word in options(pclmin, command):
            if word != "help" and not has_word(usages, word):
                yield "share/man/pclmin.1 has no --%s in the synopsis of %s" % (word, command)
            if word != "help" and not has_word(section + of_every, word):
                yield "share/man/pclmin.1 doesn't say what --%s of %s does" % (word, command)


def main(pclmin):
    kinds, names = tables()
    commands = commands_of(pclmin)
    faults = [*kind_faults(pclmin, kinds), *command_faults(pclmin, kinds, names), *help_faults(pclmin, commands),
              *manual_faults(pclmin, commands)]
    for fault in faults:
        print(fault)
    print("%d kinds and %d names of commands, %d faults" % (len(kinds), len(names), len(faults)))
    return 1 if faults else 0


if __name__ == "__main__":
    sys.exit(main(*sys.argv[1:]))
