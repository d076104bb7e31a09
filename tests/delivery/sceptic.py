#!/usr/bin/env python3
"""Asks examples/check.py and `pclmin check` of written jobs and their certificates, as they are and changed in many ways.

    tests/delivery/sceptic.py PCLMIN

Both have to say yes of the same ones. They are those of the tables of certificates (crates/job_cases/data/certificates.txt, whose
words src/certificates.rt there tells), all in format 2, which is the one that check.py reads, and of each cut the first, the middle
and the last length; and a smaller job whose certificate has a byte changed here and there. check.py gets the pages from
`pclmin pbm`; images show no copies, so a yes of it counts where the copies that it prints are those of `pclmin pages`. A job that
is refused has no pages, and isn't asked of.
"""

import concurrent.futures
import json
import os
import pathlib
import random
import subprocess
import sys
import tempfile

ROOT = pathlib.Path(__file__).resolve().parent.parent.parent
TABLE = ROOT / "crates" / "job_cases" / "data" / "certificates.txt"
sys.path.insert(0, str(ROOT / "oracle"))
sys.dont_write_bytecode = True
from reference import bytes_of  # noqa: E402


class Pclmin:
    """The program, in a folder of its own."""

    def __init__(self, program, folder):
        self.program, self.folder = os.path.realpath(program), pathlib.Path(folder)
        self.made, self.images = {}, {}

    def run(self, *words):
        """What it ends with."""
        return subprocess.run([self.program, *words], capture_output=True, cwd=self.folder)

    def written(self, job, dpi):
        """What `min` writes of a job: the written job and its certificate of format 2; none of a refused one."""
        if (job, dpi) not in self.made:
            (self.folder / "job").write_bytes(job)
            done = self.run("min", "--dpi", dpi, "--cert", "made", "--format", "2", "job")
            self.made[job, dpi] = (done.stdout, (self.folder / "made").read_bytes()) if done.returncode == 0 else (b"", b"")
        return self.made[job, dpi]

    def pages(self, job, dpi):
        """The files of a job's page images, and the copies of each; none of a refused one."""
        if (job, dpi) not in self.images:
            (self.folder / "job").write_bytes(job)
            listed = self.run("pages", "--json", "--dpi", dpi, "job")
            pages = json.loads(listed.stdout)["pages"] if listed.returncode == 0 else []
            files = ["page-%d-%d.pbm" % (len(self.images), page["page"]) for page in pages]
            for page, file in zip(pages, files):
                self.run("pbm", "--dpi", dpi, "--page", str(page["page"]), "-o", file, "job")
            self.images[job, dpi] = (files, [page["copies"] for page in pages]) if listed.returncode == 0 else None
        return self.images[job, dpi]


class Table:
    """What the lines of the table say up to one of them."""

    def __init__(self, pclmin):
        self.pclmin, self.dpi, self.name = pclmin, "300", ""

    def write(self):
        """What the other job is written as, or the input where there is none."""
        return self.pclmin.written(self.job if self.other is None else self.other, self.made or self.dpi)

    def set(self, word, rest):
        """Takes a line that holds for all cases below it."""
        if word == "job":
            self.job, self.made, self.other, self.output = bytes_of(rest), None, None, None
        elif word == "more":
            self.job += bytes_of(rest)
        elif word == "other":
            self.output = self.write()[0] if self.output is None else self.output
            self.other = bytes_of(rest)
        elif word == "output":
            self.output = self.write()[0] if rest == "other" else bytes_of(rest)
        elif word in ("dpi", "made"):
            setattr(self, word, rest)
        elif word != "format":
            sys.exit("%s: %s %s" % (TABLE, word, rest))

    def change(self, word, rest):
        """Changes the certificate."""
        place, _, what = rest.partition(" " if word == "remove" else ": ")
        before, behind = self.certificate[:int(place)], self.certificate[int(place):]
        if word == "remove":
            self.certificate = before + behind[int(what):]
        else:
            new = bytes_of(what, in_hex=True)
            self.certificate = before + new + behind[len(new) if word == "put" else 0:]

    def lengths(self):
        """The lengths of the certificate that are asked of."""
        if self.cut is None:
            return [len(self.certificate)]
        span, _, step = self.cut.partition(" by ")
        first, _, last = span.partition("-")
        cuts = range(int(first), int(last or first) + 1, int(step or 1))
        return sorted({cuts[0], cuts[len(cuts) // 2], cuts[-1]})

    def questions(self):
        """The name, the input, the output, the certificate and the resolution of each question."""
        for line in TABLE.read_text().splitlines():
            word, _, rest = line.strip().partition(" ")
            if word == "case":
                made, self.certificate = self.write()
                self.name, self.cut, output = rest, None, made if self.output is None else self.output
            elif word == "cut":
                self.cut = rest
            elif word in ("put", "insert", "remove"):
                self.change(word, rest)
            elif word == "answer":
                for length in self.lengths():
                    yield self.name, self.job, output, self.certificate[:length], self.dpi
            elif word not in ("", "#"):
                self.set(word, rest)


def random_questions(pclmin):
    """A byte of a certificate changed here and there, where its rows are and where their lists are."""
    job = bytes_of("ESC&l1A ESC&l0E ESC*p0x0Y ESC*t300R ESC*r0A ESC*b7W[80 00 00 AA AA AA 01] ESC*b6W[80 00 00 AA AA AB] ESC*b3Y"
                   "ESC*b2W[FF 0F] ESC*rC")
    written, certificate = pclmin.written(job, "300")
    choice, lists = random.Random(1), 18 + 32 * 3151
    yield "as it is made", job, written, certificate, "300"
    for number in range(40):
        first, last = [(18, 300), (lists, lists + 200)][number % 2]
        place = choice.randrange(first, last)
        changed = certificate[:place] + bytes([choice.randrange(8)]) + certificate[place + 1:]
        yield "byte %d is %d" % (place, changed[place]), job, written, changed, "300"


def asked(pclmin, number, name, job, output, certificate, dpi):
    """Whether `pclmin check` and check.py agree; what each said where they don't, and none where there is nothing to ask."""
    pages = pclmin.pages(job, dpi)
    if pages is None:
        return None
    paths = [pclmin.folder / ("%d.%s" % (number, kind)) for kind in ("job", "out", "cert")]
    for path, content in zip(paths, (job, output, certificate)):
        path.write_bytes(content)
    return name, paths, pages, dpi


def answered(pclmin, name, paths, pages, dpi):
    """Whether both say yes, or neither; and what each said."""
    files, copies = pages
    ours = pclmin.run("check", "--dpi", dpi, *map(str, paths))
    other = subprocess.run([sys.executable, str(ROOT / "examples" / "check.py"), *map(str, paths[1:]), *files], capture_output=True,
                           text=True, cwd=pclmin.folder)
    yes = other.stdout.split() == ("proved; copies of each page: " + " ".join(map(str, copies))).split()
    said = "%s: pclmin: %s, check.py: %s" % (name, ours.stdout.decode().strip(), other.stdout.strip() or other.stderr.strip())
    return (ours.stdout == b"proved\n") == yes, yes, said


def main(program):
    with tempfile.TemporaryDirectory() as folder:
        pclmin = Pclmin(program, folder)
        questions = [*Table(pclmin).questions(), *random_questions(pclmin)]
        ready = [asked(pclmin, number, *question) for number, question in enumerate(questions)]
        with concurrent.futures.ThreadPoolExecutor(2) as pool:
            results = list(pool.map(lambda question: answered(pclmin, *question), filter(None, ready)))
    for agrees, _, said in results:
        if not agrees:
            print(said)
    held = sum(agrees for agrees, _, _ in results)
    print("%d of %d answers agree; %d of them are yes" % (held, len(results), sum(yes for agrees, yes, _ in results if agrees)))
    return 0 if held == len(results) else 1


if __name__ == "__main__":
    if len(sys.argv) != 2:
        sys.exit(__doc__)
    sys.exit(main(sys.argv[1]))
