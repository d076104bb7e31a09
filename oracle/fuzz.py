#!/usr/bin/env python3
"""Compares pclmin with the plain program (plain/), and with the second model (reference.py), on random and mutated jobs, and on triples.

    python3 oracle/fuzz.py PCLMIN PLAIN COUNT SEED [--triples | --drivers] [--model] [--workers N] [--seconds N] [--folder FOLDER]

PCLMIN is the program, which is started for each question, or the library, as build/libpclmin.so (`lib/build.sh shared`), which is called
in this script's own processes and answers far more of them. The library shows pages by the drivers' profile, and so does the plain
program beside it.

Each job is made of random commands of every part of docs/LANGUAGE.md, with values at and near their bounds, and every
fourth one is then changed in some of its bytes, cut, or joined from two (random_jobs.py). At a resolution that is drawn too, both programs
have to give the same status, the same bytes on standard output, and the same line on standard error: of a job that is
refused once, of one that is accepted for a page of it, and of every fourth for the page after its last one. Every
twentieth, where it is accepted, is also written again by both, and its pages are counted; every two hundredth is written with a
certificate of each format, both have to write the same one, and both have to prove it.

With --triples COUNT triples of a job, an output and a certificate are made, eight of each job. The first is what pclmin writes: it has to
be what the plain program writes, byte for byte, and be proved. In the others some of the three are changed (triples.py). Both programs
have to give the same status and the same line of `check`, and an output that is proved has to be as long as the one that was written.

With --drivers jobs have what drivers send besides, and are read by the drivers' profile: pclmin's `pages` has to refuse a job in the line
of the plain program, and its `same` has to find the pages of an accepted one in what the plain program writes of it. By the stated
profile, `min` has to write what the plain program writes, or to refuse it in the same line.

With --model the status, the line of a refusal and the image of a page also have to be those of reference.py, and a job
that was written again has to have the same pages by it; with --drivers these are the plain program's, by both profiles. Of two jobs
that differ in what they ask the printer, `same --asked` has to say what the model says, where pclmin is the program. The model takes most
of the time then.

A job on which the two differ is kept in FOLDER (build/fuzz) as SEED-NUMBER.pcl, and the output and the certificate of a triple beside it
as .out and .cert, with a line on standard output, and the status is then 1. The number of workers is 1 if it isn't given; what is made
doesn't depend on it. With --seconds no more are begun after so long. At the end it is told what was reached, beside what the tables of
crates/job_cases/data reach.
"""

import argparse
import collections
import concurrent.futures
import glob
import os
import random
import re
import sys
import time

sys.dont_write_bytecode = True
import programs
import reference
from random_jobs import asking_job, asking_pair, job_of, long_job, picture, right_job
from triples import Triple, changed

TABLES = os.path.join(os.path.dirname(os.path.abspath(__file__)), "..", "crates", "job_cases", "data", "*.txt")
REVERSED = bytes(int(format(byte, "08b")[::-1], 2) for byte in range(256))
MOST_PAGES = 256
# How often a job performs as many commands as it may, which takes each program some seconds.
LONG_JOBS = 1 / 20_000
TRIPLES_OF_A_JOB = 8
# Jobs whose certificates are longer are seldom taken for triples.
LONG_CERTIFICATE = 700_000
# How many jobs or triples a worker is given at once, whose questions go to the plain program together.
CHUNK = 40
# How many names of what is missing are printed.
MOST_NAMED = 20

KINDS = ["Truncated", "BadSequence", "ValueRange", "UnsupportedCommand", "UnsupportedValue", "FontHeader", "CharacterData", "NoFont",
         "MacroOpen", "MacroControl", "MacroDepth", "TooManyCommands", "TooManyPages", "NotPcl"]
NAMES = sorted([name.decode() for name in reference.NAMES] + ["text", "HT", "LF", "FF", "CR", "SO", "SI"]
               + [side + chr(letter) for side in "()" for letter in range(64, 95) if chr(letter) != "X"])
DRIVERS_NAMES = sorted(name.decode() for name in reference.DRIVERS_NAMES)
VERDICTS = (["proved", "proved with another output", "proved with another certificate", "refused", "page count", "frame"]
            + ["NotGrammar", "OtherPage", "Rows", "Length"]
            + ["certificate " + fault for fault in ("BadMagic", "Short", "Rows", "Places", "Extra")]
            + ["Place method %d" % method for method in range(4)]
            + ["Edge method %d %s" % (method, side) for method in range(4) for side in ("closed", "open")])
PROVED = (0, b"proved\n", b"")
SAME = (0, b"same\n")


class Reached:
    """What became of jobs or triples, and what stands in them."""

    def __init__(self):
        self.outcomes, self.names, self.pairs, self.refusals, self.verdicts, self.asked = (collections.Counter() for _ in range(6))

    def add(self, other):
        for mine, others in zip(vars(self).values(), vars(other).values()):
            mine.update(others)

    def add_job(self, answer, named):
        """Adds what became of a job: the kind of its refusal and the command, or the commands of one that is accepted."""
        line = answer[2].decode().split()
        if line[1:2] == ["refused:"]:
            self.outcomes[line[2]] += 1
            self.refusals[line[2], line[5]] += 1
        else:
            names = named[1].decode().split("\n")[:-1]
            self.outcomes["accepted"] += 1
            self.names.update(set(names))
            self.pairs.update(set(zip(names, names[1:])))


class Comparison:
    """The programs that are compared, and where the jobs come from.

    What compares a job or some triples is a coroutine: it gives lists of questions for the plain program, is sent the answers, and ends
    with what differs. So those of many jobs are asked at once, and neither program waits for the other at each.
    """

    def __init__(self, asked):
        self.pclmin, self.plain = programs.product(asked.pclmin, asked.folder), programs.Plain(asked.plain)
        self.seed, self.folder, self.count, self.has_model = asked.seed, asked.folder, asked.count, asked.model
        self.compare = self.compare_triples if asked.triples else self.compare_by_drivers if asked.drivers else self.compare_job
        self.reached = Reached()
        self.place = os.open(place_path(asked, os.getpid()), os.O_WRONLY | os.O_CREAT, 0o666)

    def compared(self, numbers):
        """What differs in the jobs of some numbers, and what they reached."""
        self.reached, faults = Reached(), []
        waiting = [(number, self.compare(number), None) for number in numbers]
        while waiting:
            asking, questions = [], []
            for number, comparison, answers in waiting:
                os.pwrite(self.place, b"%-20d" % number, 0)
                try:
                    more = comparison.send(answers)
                    asking.append((number, comparison, len(questions), len(questions) + len(more)))
                    questions += more
                except StopIteration as ended:
                    faults += ended.value
            answers = self.plain.answers(questions)
            waiting = [(number, comparison, answers[first:last]) for number, comparison, first, last in asking]
        return faults, self.reached

    def keep(self, number, *contents):
        for content, kind in zip(contents, ("pcl", "out", "cert")):
            with open(os.path.join(self.folder, "%d-%d.%s" % (self.seed, number, kind)), "wb") as out:
                out.write(content)

    # Jobs

    def compare_job(self, number):
        draw = random.Random("%d %d" % (self.seed, number))
        job = long_job(draw) if draw.random() < LONG_JOBS and not self.has_model else job_of(draw)
        dpi = draw.choice([300] * 5 + [600])
        at = ["--dpi", str(dpi)]
        (first, pages), (named, _) = yield [self.question(["pbm", "--page", "1"] + at, job), self.question(["names"], job)]
        self.reached.add_job(first, named)
        if first[2].startswith(b"pclmin: refused: "):
            words = draw.choice([["min"], ["pbm", "--page", "1"]]) + at
            (wanted, _), = yield [self.question(words, job)]
            came = self.pclmin.run(words, job)
            fault = None if came == wanted else "%s: pclmin %s, plain %s" % (words[0], told(came), told(wanted))
        else:
            fault = yield from self.accepted_fault(number, job, dpi, first, pages, draw)
        if self.has_model:
            fault = fault or self.model_fault(number, job, dpi, pages, first, draw)
        if not fault:
            return []
        self.keep(number, job)
        return ["job %d at %d: %s" % (number, dpi, fault)]

    def question(self, words, job):
        """What the plain program is asked where pclmin is asked with these words."""
        return words + ["--drivers"] * (words[0] in ("pbm", "names") and self.pclmin.shows_by_drivers), job

    def accepted_fault(self, number, job, dpi, first, pages, draw):
        """What differs in pages or what is written; of the first page the plain program's answer is there."""
        at = ["--dpi", str(dpi)]
        wanted = {draw.randint(1, pages) if pages else 1}
        if draw.random() < 0.25:
            wanted.add(min(pages + 1, MOST_PAGES))
        asked = [["pbm", "--page", str(page)] + at for page in sorted(wanted - {1})] + ([["min"] + at] if number % 20 == 0 else [])
        answers = yield [self.question(words, job) for words in asked]
        known = ([(["pbm", "--page", "1"] + at, first)] if 1 in wanted else []) + [
            (words, answer) for words, (answer, _) in zip(asked, answers)]
        for words, answer in known:
            came = self.pclmin.run(words, job)
            if came != answer:
                return "%s: pclmin %s, plain %s" % (" ".join(words), told(came), told(answer))
        if number % 20 == 0 and self.pclmin.pages(job, dpi) != pages:
            return "pclmin has %d pages, plain %d" % (self.pclmin.pages(job, dpi), pages)
        if number % 200 == 0 and answers[-1][0][0] == 0:
            for form in ("1", "2"):
                came, certificate = self.pclmin.certified(job, form, dpi)
                triple = Triple(job, came[1], certificate, dpi)
                fault = self.made_fault(triple, form, (yield made_questions(triple, form)))
                if fault:
                    return fault
        return None

    def model_fault(self, number, job, dpi, count, first, draw):
        """What differs from the model, where both programs answer the same."""
        profile = reference.Profile.DRIVERS if self.pclmin.shows_by_drivers else reference.Profile.STATED
        pages, line = modelled(job, dpi, profile)
        if pages is None:
            return None if first == (1, b"", line) else "%s, where the model has %s" % (told(first), line)
        if len(pages) != count or first[2].startswith(b"pclmin: refused: "):
            return "%s, where the model has %d pages" % (told(first), len(pages))
        if pages:
            page = draw.randint(1, count)
            words = ["pbm", "--page", str(page), "--dpi", str(dpi)]
            if self.pclmin.run(words, job) != (0, image(pages[page - 1], dpi), b""):
                return "page %d isn't the model's" % page
        if number % 20 == 0:
            status, written, _ = self.pclmin.run(["min", "--dpi", str(dpi)], job)
            if status == 0 and modelled(written, dpi)[0] != pages:
                return "the written job has other pages by the model"
        return None

    # Jobs by the drivers' profile

    def compare_by_drivers(self, number):
        draw = random.Random("%d %d drivers" % (self.seed, number))
        dpi = draw.choice([300, 300, 600])
        job, at = job_of(draw, drivers_dpi=dpi), ["--dpi", str(dpi)]
        by = ["--drivers"] + at
        (first, count), (written, _), (stated, stated_count), (named, _) = yield [
            (["pbm", "--page", "1"] + by, job), (["min"] + by, job), (["min"] + at, job), (["names", "--drivers"], job)]
        self.reached.add_job(first, named)
        fault = self.drivers_fault(job, written, dpi) or self.stated_fault(job, stated, dpi)
        if self.has_model and not fault:
            fault = yield from self.drivers_model_fault(job, dpi, written, count, draw)
            fault = fault or stated_model_fault(job, dpi, stated, stated_count)
            if not fault and hasattr(self.pclmin, "asked_same"):
                return self.asked_faults(number, job if written[0] == 0 and draw.random() < 0.3 else asking_job(draw), dpi, draw)
        if not fault:
            return []
        self.keep(number, job)
        return ["job %d at %d: %s" % (number, dpi, fault)]

    def drivers_fault(self, job, written, dpi):
        """What differs in the line of a refusal, or in the pages; of the job the plain program's answer to `min` is there."""
        refusal = self.pclmin.refusal(job, dpi)
        if refusal != written[2]:
            return "pclmin %r, plain %s" % (refusal, told(written))
        if written[0] == 0:
            came = self.pclmin.same(job, written[1], dpi)
            if came[:2] != SAME:
                return "what the plain program writes: %s" % told(came)
        return None

    def stated_fault(self, job, stated, dpi):
        """What differs by the stated profile, by which the plain program's answer to `min` is there."""
        came = self.pclmin.run(["min", "--dpi", str(dpi)], job)
        return None if came == stated else "min: pclmin %s, plain %s" % (told(came), told(stated))

    def drivers_model_fault(self, job, dpi, written, count, draw):
        """What differs between the model and the plain program."""
        pages, line = modelled(job, dpi, reference.Profile.DRIVERS)
        if pages is None:
            return None if written == (1, b"", line) else "plain %s, where the model has %s" % (told(written), line)
        if written[0] != 0 or len(pages) != count:
            return "plain %s with %d pages, where the model has %d" % (told(written), count, len(pages))
        if not pages:
            return None
        page = draw.randint(1, count)
        (came, _), = yield [(["pbm", "--page", str(page), "--drivers", "--dpi", str(dpi)], job)]
        return None if came == (0, image(pages[page - 1], dpi), b"") else "page %d isn't the model's" % page

    def asked_faults(self, number, job, dpi, draw):
        """What differs from the model in whether two jobs ask for the same, which are one but for a command."""
        try:
            commands = reference.read(job, reference.Profile.DRIVERS)
        except reference.Refused:
            return []
        places = [command.at for command in commands if job[command.at] == reference.ESC] + [len(job)]
        first, second = asking_pair(draw, job, places)
        holds = reference.asks_the_same(first, second, dpi)
        if holds is None:
            return []
        self.reached.asked["the same" if holds else "not the same"] += 1
        came = self.pclmin.asked_same(first, second, dpi)
        if (came[:2] == SAME) == holds and came[0] in (0, 1):
            return []
        self.keep(number, first, second)
        return ["jobs %d at %d: same --asked: %s, where the model has %s" % (number, dpi, told(came), "the same" if holds else "others")]

    # Triples

    def compare_triples(self, number):
        draw = random.Random("%d %d triple" % (self.seed, number))
        right, form = self.proved_triple(draw)
        count = min(TRIPLES_OF_A_JOB, self.count - number * TRIPLES_OF_A_JOB)
        others = [changed(draw, right, lambda: self.other_triple(draw, right, form)) for _ in range(count - 1)]
        made = made_questions(right, form)
        answers = yield made + [check_question(triple) for triple in others]
        found = [self.made_fault(right, form, answers[:len(made)])]
        found += [self.check_fault(triple, right, answer) for triple, (answer, _) in zip(others, answers[len(made):])]
        faults = []
        for place, (triple, fault) in enumerate(zip([right] + others, found), number * TRIPLES_OF_A_JOB):
            if fault:
                self.keep(place, triple.job, triple.output, triple.certificate)
                faults.append("triple %d at %d: %s" % (place, triple.dpi, fault))
        return faults

    def proved_triple(self, draw):
        """A job that is accepted, what it is written as, and the certificate of a format."""
        while True:
            dpi, form = draw.choice([300] * 5 + [600]), draw.choice(["1", "2", "2"])
            job = b"\f".join(draw.choice([right_job(draw), picture(draw, dpi)]) for _ in range(draw.choice([1, 1, 1, 2, 3])))
            came, certificate = self.pclmin.certified(job, form, dpi)
            if came[0] == 0 and (len(certificate) < LONG_CERTIFICATE or draw.random() < 0.02):
                return Triple(job, came[1], certificate, dpi), form

    def other_triple(self, draw, triple, form):
        """Another one, or that of the same job in the other format."""
        if draw.random() < 0.6:
            return self.proved_triple(draw)[0]
        came, certificate = self.pclmin.certified(triple.job, "1" if form == "2" else "2", triple.dpi)
        return Triple(triple.job, came[1], certificate, triple.dpi)

    def made_fault(self, triple, form, answers):
        """What is wrong with a triple that pclmin made, by the answers to the questions about it."""
        (written, _), (certificate, _), (checked, _) = answers
        if triple.output != written[1]:
            return "min with a certificate of format %s isn't the plain program's" % form
        if triple.certificate != certificate[1]:
            return "the certificate of format %s isn't the plain program's" % form
        return self.check_fault(triple, triple, checked)

    def check_fault(self, triple, right, wanted):
        """What differs in the answers of `check`, or what they can't be beside a triple that pclmin made."""
        came = self.pclmin.check(triple.job, triple.output, triple.certificate, triple.dpi)
        verdict = verdict_of(wanted)
        if verdict == "proved" and triple is not right:
            verdict += " with another output" if triple.output != right.output else " with another certificate"
        self.reached.verdicts[verdict] += 1
        if came != wanted:
            return "check: pclmin %s, plain %s" % (told(came), told(wanted))
        if triple is right and came != PROVED:
            return "what pclmin writes: %s" % told(came)
        is_same_job = (triple.job, triple.dpi) == (right.job, right.dpi)
        if is_same_job and came == PROVED and len(triple.output) != len(right.output):
            return "an output of %d bytes is proved, and pclmin writes %d" % (len(triple.output), len(right.output))
        return None


def check_question(triple):
    return ["check", "--dpi", str(triple.dpi)], triple.job, triple.output, triple.certificate


def made_questions(triple, form):
    """What the plain program is asked of a triple that pclmin made."""
    at = ["--dpi", str(triple.dpi)]
    return [(["min"] + at, triple.job), (["cert", "--format", form] + at, triple.job), check_question(triple)]


def verdict_of(came):
    """A verdict, without the numbers of pages, rows and places."""
    if came[2].startswith(b"pclmin: refused: "):
        return "refused"
    return re.sub("not proved: |page [0-9]+: | row [0-9]+| place [0-9]+", "", came[1].decode(errors="replace").strip())


def told(came):
    """A program's answer, in short."""
    status, written, said = came
    what = "%d bytes" % len(written) if len(written) > 99 else repr(written)
    return "status %d, %s, %s" % (status, what, said.decode(errors="replace").strip() or "no line")


def image(page, dpi):
    """The PBM image of a page of the model."""
    _, width, height = reference.SIZES[page.size]
    width, height = width * dpi // 300, height * dpi // 300
    in_row = (width + 7) // 8
    white = bytes(in_row)
    rows = [page.rows[y].to_bytes(in_row, "little").translate(REVERSED) if y in page.rows else white for y in range(height)]
    return b"P4\n%d %d\n" % (width, height) + b"".join(rows)


def modelled(job, dpi, profile=reference.Profile.STATED):
    """The pages of a job by the model, or the line of its refusal."""
    try:
        return reference.pages_of(job, dpi, profile), None
    except reference.Refused as refused:
        return None, b"pclmin: refused: %s\n" % str(refused).encode()


def stated_model_fault(job, dpi, stated, count):
    """What differs between the model and the plain program by the stated profile."""
    pages, line = modelled(job, dpi)
    if pages is None:
        return None if stated == (1, b"", line) else "plain %s by the stated profile, where the model has %s" % (told(stated), line)
    return None if (stated[0], count) == (0, len(pages)) else "plain %s by the stated profile, where the model has %d pages" % (
        told(stated), len(pages))


# What was reached


def tables_reached(path):
    """What the tables of jobs reach, by the plain program."""
    plain, reached, questions = programs.Plain(path), Reached(), []
    for table in glob.glob(TABLES):
        if os.path.basename(table) != "certificates.txt":
            with open(table, encoding="latin-1") as source:
                for case in reference.cases_of(source.read().split("\n")):
                    questions += [(["pbm", "--page", "1", "--dpi", str(case.dpi)], case.job()), (["names"], case.job())]
    for first in range(0, len(questions), CHUNK):
        answers = [answer for answer, _ in plain.answers(questions[first:first + CHUNK])]
        for answer, named in zip(answers[::2], answers[1::2]):
            reached.add_job(answer, named)
    return reached


def counts(counter):
    return ", ".join("%s %d" % pair for pair in counter.most_common())


def missing(wanted, counter):
    """How much of all that there is was reached, and some of what wasn't."""
    left = [name for name in wanted if name not in counter]
    some = ", ".join(left[:MOST_NAMED]) + (" and %d more" % (len(left) - MOST_NAMED) if len(left) > MOST_NAMED else "")
    return "%d of %d%s" % (len(wanted) - len(left), len(wanted), ", missing " + some if left else "")


def beside(counter, tables):
    """How much was reached, and how much of it by the tables too."""
    both = len(counter.keys() & tables.keys())
    return "%d, %d of them not in the tables, which have %d more" % (len(counter), len(counter) - both, len(tables) - both)


def tell_reached(asked, reached):
    if reached.outcomes:
        print("outcomes of jobs: %s" % counts(reached.outcomes))
        print("kinds of refusal: %s" % missing(KINDS, reached.outcomes))
        print("commands in accepted jobs: %s" % missing(NAMES + DRIVERS_NAMES * asked.drivers, reached.names))
        tables = tables_reached(asked.plain)
        print("commands one after the other there: %s" % beside(reached.pairs, tables.pairs))
        print("commands with a kind of refusal: %s" % beside(reached.refusals, tables.refusals))
    if reached.asked:
        print("pairs of jobs that ask for: %s" % counts(reached.asked))
    if reached.verdicts:
        print("verdicts: %s" % counts(reached.verdicts))
    if asked.triples:
        print("verdicts on triples: %s" % missing(VERDICTS, reached.verdicts))


# The workers


def place_path(asked, worker):
    """The file that has the number of the job at which a worker is."""
    return os.path.join(asked.folder, "%d-at-%s" % (asked.seed, worker))


def begin(asked):
    """Makes the comparison of this worker."""
    global comparison
    comparison = Comparison(asked)


def compare(numbers):
    return comparison.compared(numbers)


def compare_all(asked, reached):
    """Prints what differs; how many were compared, and how many of them differ."""
    size, chunk = (TRIPLES_OF_A_JOB, CHUNK // TRIPLES_OF_A_JOB) if asked.triples else (1, CHUNK)
    count = -(-asked.count // size)
    chunks = iter([range(first, min(first + chunk, count)) for first in range(0, count, chunk)])
    until = time.monotonic() + asked.seconds if asked.seconds else float("inf")
    done, differing, begun = 0, 0, collections.deque()
    with concurrent.futures.ProcessPoolExecutor(asked.workers, initializer=begin, initargs=[asked]) as workers:
        try:
            while True:
                numbers = next(chunks, None) if len(begun) < 2 * asked.workers and time.monotonic() < until else None
                if numbers:
                    begun.append((numbers, workers.submit(compare, numbers)))
                    continue
                if not begun:
                    break
                numbers, comparing = begun.popleft()
                faults, more = comparing.result()
                reached.add(more)
                done += min(len(numbers) * size, asked.count - numbers[0] * size)
                differing += len(faults)
                for fault in faults:
                    print(fault, flush=True)
        except concurrent.futures.process.BrokenProcessPool:
            differing += 1
            print("a worker ended; they were at the %s %s" % (
                "jobs of triples" if asked.triples else "jobs",
                " ".join(open(path).read().strip() for path in glob.glob(place_path(asked, "*")))))
    for path in glob.glob(place_path(asked, "*")):
        os.remove(path)
    return done, differing


def main():
    parser = argparse.ArgumentParser(description=__doc__, formatter_class=argparse.RawDescriptionHelpFormatter)
    parser.add_argument("pclmin")
    parser.add_argument("plain")
    parser.add_argument("count", type=int)
    parser.add_argument("seed", type=int)
    way = parser.add_mutually_exclusive_group()
    way.add_argument("--triples", action="store_true")
    way.add_argument("--drivers", action="store_true")
    parser.add_argument("--model", action="store_true")
    parser.add_argument("--workers", type=int, default=1)
    parser.add_argument("--seconds", type=int)
    parser.add_argument("--folder", default="build/fuzz")
    asked = parser.parse_args()
    if asked.triples and asked.model:
        parser.error("the model checks no triples")
    os.makedirs(asked.folder, exist_ok=True)
    reached, started = Reached(), time.monotonic()
    done, differing = compare_all(asked, reached)
    what = "triples" if asked.triples else "jobs"
    print("seed %d: %d %s in %d seconds, %d differ" % (asked.seed, done, what, time.monotonic() - started, differing))
    tell_reached(asked, reached)
    sys.exit(differing > 0)


if __name__ == "__main__":
    main()
