#!/usr/bin/env python3
"""Runs the console blocks of documents, and compares what they print; and looks whether what documents point to is there.

    tests/delivery/blocks.py PCLMIN DOCUMENT..

A line that begins with `$ ` is a command, and the lines after it are what it prints on standard output and standard error
together. The commands of a document run in one shell after the other, in a copy of examples/ named so, with PCLMIN as
pclmin on the path. The file of a link has to be there, and the heading of a link with `#`; so have both where a document
names a heading of another one, as `docs/LANGUAGE.md, "Row data"`. README.md has to name the kit as `rt version` does. Each
difference is printed, and the status is then 1.
"""

import os
import pathlib
import re
import shutil
import subprocess
import sys
import tempfile

ROOT = pathlib.Path(__file__).resolve().parent.parent.parent
FENCED = re.compile(r"^```.*?^```$", re.M | re.S)
LINK = re.compile(r"\[[^\]]*\]\(([^)\s]+)\)")
# A heading that is named after its document, or before it.
NAMED = re.compile(r'(?P<file>[\w./-]+\.md)\)?, "(?P<heading>[^"]+)"')
NAMED_BEFORE = re.compile(r'"(?P<heading>[^"]+)" of (?:\[[^\]]*\]\()?(?P<file>[\w./-]+\.md)')


# ---- console blocks

def steps(text):
    """Each command of the console blocks, and what it is to print."""
    for block in re.findall(r"^```console\n(.*?)^```$", text, re.M | re.S):
        for part in re.split(r"^\$ ", block, flags=re.M)[1:]:
            command, _, printed = part.partition("\n")
            yield command, printed


def run_steps(pclmin, document):
    """How many commands a document has, and each that prints something else."""
    count, faults = 0, []
    with tempfile.TemporaryDirectory() as folder:
        home = pathlib.Path(folder)
        (home / "bin").mkdir()
        (home / "bin" / "pclmin").symlink_to(pathlib.Path(pclmin).resolve())
        shutil.copytree(ROOT / "examples", home / "examples")
        environment = {**os.environ, "PATH": "%s:%s" % (home / "bin", os.environ["PATH"])}
        for command, printed in steps(document.read_text()):
            run = subprocess.run(["bash", "-c", command], cwd=home, env=environment, text=True, stdin=subprocess.DEVNULL,
                                 stdout=subprocess.PIPE, stderr=subprocess.STDOUT, timeout=60)
            count += 1
            if run.stdout != printed:
                faults.append("%s: $ %s\n  prints %r\n  and not %r" % (document, command, run.stdout, printed))
    return count, faults


# ---- links

def headings(path):
    """The headings of a document."""
    return re.findall(r"^#+ (.+)$", FENCED.sub("", path.read_text()), re.M)


def anchor(heading):
    """What a link to a heading ends with."""
    return re.sub(r"[^\w -]", "", heading.lower()).replace(" ", "-")


def pointers(document):
    """What a document points to: files and headings as they are written, and whether a heading is written as an anchor."""
    text = FENCED.sub("", document.read_text())
    for target in LINK.findall(re.sub(r"`[^`\n]*`", "", text)):
        if not re.match(r"\w+:", target):
            file, _, heading = target.partition("#")
            yield file or document.name, heading, True
    for form in (NAMED, NAMED_BEFORE):
        for named in form.finditer(text):
            yield named["file"], named["heading"], False


def lost(document):
    """How many files and headings a document points to, and each that isn't there."""
    count, faults = 0, []
    for file, heading, is_anchor in pointers(document):
        count += 1
        path = next((place / file for place in (document.parent, ROOT) if (place / file).exists()), None)
        if path is None:
            faults.append("%s: there is no %s" % (document, file))
        elif heading and heading not in ([anchor(one) for one in headings(path)] if is_anchor else headings(path)):
            faults.append("%s: %s has no heading %r" % (document, file, heading))
    return count, faults


# ---- the kit

def kit_faults():
    """Whether README.md names another kit than this one."""
    kit = subprocess.run(["rt", "version"], stdout=subprocess.PIPE, text=True, check=True).stdout.strip()
    return [] if "`%s`" % kit in (ROOT / "README.md").read_text() else ["README.md doesn't name the kit `%s`" % kit]


def main(pclmin, *documents):
    faults = kit_faults()
    totals = {"commands print what the documents say": (0, 0), "files and headings are there": (0, 0)}
    for document in map(pathlib.Path, documents):
        for name, (count, found) in zip(totals, (run_steps(pclmin, document), lost(document))):
            totals[name] = totals[name][0] + count, totals[name][1] + len(found)
            faults.extend(found)
    for fault in faults:
        print(fault)
    for name, (count, wrong) in totals.items():
        print("%d of %d %s" % (count - wrong, count, name))
    return 1 if faults else 0


if __name__ == "__main__":
    sys.exit(main(*sys.argv[1:]))
