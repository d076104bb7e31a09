"""How fuzz.py asks the programs that it compares: pclmin as a program or as its library, and the plain program.

An answer is a status and the bytes of standard output and of standard error.
"""

import fcntl
import json
import os
import subprocess
import sys
import threading

PIPE_BYTES = 1 << 20


class Program:
    """A program that is started for each question, with its streams in files of memory."""

    # Whether pages are shown by the drivers' profile.
    shows_by_drivers = False

    def __init__(self, path, folder):
        self.path = os.path.abspath(path)
        self.files = [os.memfd_create(name) for name in ("input", "output", "errors")]
        self.names = [os.path.join(folder, "%d-%s" % (os.getpid(), name)) for name in ("in", "out", "cert")]

    def run(self, words, job):
        """The answer to the words of a command line, with a job as standard input."""
        source = self.files[0]
        os.ftruncate(source, 0)
        os.pwrite(source, job, 0)
        for file in self.files:
            os.lseek(file, 0, os.SEEK_SET)
        streams = [(os.POSIX_SPAWN_DUP2, file, stream) for stream, file in enumerate(self.files)]
        child = os.posix_spawn(self.path, [self.path] + words, os.environ, file_actions=streams)
        status = os.waitstatus_to_exitcode(os.waitpid(child, 0)[1])
        return (status, *(os.pread(file, os.lseek(file, 0, os.SEEK_CUR), 0) for file in self.files[1:]))

    def certified(self, job, form, dpi):
        """The answer of `min`, and the certificate of a format beside it."""
        came = self.run(["min", "--cert", self.names[2], "--format", form, "--dpi", str(dpi)], job)
        if came[0] != 0:
            return came, b""
        with open(self.names[2], "rb") as source:
            certificate = source.read()
        os.remove(self.names[2])
        return came, certificate

    def pages(self, job, dpi):
        """How many pages an accepted job has."""
        return len(json.loads(self.run(["pages", "--json", "--dpi", str(dpi)], job)[1])["pages"])

    def refusal(self, job, dpi):
        """The line by which a job is refused by the drivers' profile, or nothing."""
        status, _, said = self.run(["pages", "--dpi", str(dpi)], job)
        return said if status != 0 else b""

    def same(self, first, second, dpi, *options):
        """The answer of `same`."""
        return self.asked_of_files(["same", *options, "--dpi", str(dpi)], first, second)

    def asked_same(self, first, second, dpi):
        """The answer of `same --asked`."""
        return self.same(first, second, dpi, "--asked")

    def check(self, job, output, certificate, dpi):
        """The answer of `check`."""
        return self.asked_of_files(["check", "--dpi", str(dpi)], job, output, certificate)

    def asked_of_files(self, words, *contents):
        """The answer to the words of a command line and files after them."""
        names = self.names[:len(contents)]
        for name, content in zip(names, contents):
            with open(name, "wb") as out:
                out.write(content)
        came = self.run(words + names, b"")
        for name in names:
            os.remove(name)
        return came


class Library:
    """The library, which is asked in this process by lib/pclmin.py, and answers as the program would, `pbm` as with `--drivers`."""

    shows_by_drivers = True

    def __init__(self, path):
        os.environ["PCLMIN_LIBRARY"] = path
        sys.path.insert(0, os.path.join(os.path.dirname(os.path.abspath(__file__)), "..", "lib"))
        import pclmin
        self.calls = pclmin
        self.statuses = {pclmin.DONE: 0, pclmin.REFUSED: 1, pclmin.NO_PAGE: 1}

    def told(self, answer, written):
        """What the program would have written and said. What the fields of an answer say otherwise than its line is said beside it."""
        said = answer.line.encode("latin-1") if answer.fault != self.calls.DONE else b""
        if answer.fault == self.calls.REFUSED:
            begin = "pclmin: refused: %s at %d " % (self.calls.KINDS[answer.kind], answer.place)
            agrees = answer.line.startswith(begin) and answer.job == 1
        else:
            agrees = answer.kind == answer.job == answer.place == 0
        return self.statuses.get(answer.fault, 3), written, said if agrees else said + repr(answer).encode()

    def run(self, words, job):
        """The answer to the words of a command line."""
        options = dict(zip(words[1::2], words[2::2]))
        dpi = int(options["--dpi"])
        if words[0] == "pbm":
            page = int(options["--page"])
            answer = self.calls.preview(job, dpi, page, page)
        else:
            answer = self.calls.minimize(job, dpi)
        return self.told(answer, answer.bytes)

    def certified(self, job, form, dpi):
        """The answer of `min`, and the certificate of a format beside it."""
        answer = self.calls.minimize(job, dpi, int(form))
        return self.told(answer, answer.bytes), answer.certificate

    def check(self, job, output, certificate, dpi):
        """The answer of `check`."""
        answer = self.calls.check(job, output, certificate, dpi)
        if answer.fault != self.calls.DONE:
            return self.told(answer, b"")
        return (0 if answer.holds else 1), answer.line.encode("latin-1"), b""

    def refusal(self, job, dpi):
        """The line by which a job is refused by the drivers' profile, or nothing."""
        return self.told(self.calls.pages(job, dpi), b"")[2]

    def same(self, first, second, dpi):
        """The answer of `same`."""
        answer = self.calls.same(first, second, dpi)
        if answer.fault != self.calls.DONE:
            return self.told(answer, b"")
        return (0 if answer.holds else 1), answer.line.encode("latin-1"), b""

    def pages(self, job, dpi):
        """How many pages an accepted job has."""
        return self.calls.page_count(job, dpi).pages


class Plain:
    """The plain program, which answers all questions in one run. A question is the words of a command line, and what they are about."""

    def __init__(self, path):
        self.child = subprocess.Popen([path, "jobs"], stdin=subprocess.PIPE, stdout=subprocess.PIPE)
        for pipe in (self.child.stdin, self.child.stdout):
            fcntl.fcntl(pipe, fcntl.F_SETPIPE_SZ, PIPE_BYTES)

    def answers(self, questions):
        """The answer to each question, and how many pages the job has by `pbm` and `min`. All are sent before one is waited for."""
        lines = []
        for words, *inputs in questions:
            lines += [" ".join(words + [str(len(content)) for content in inputs]).encode(), b"\n", *inputs]
        sending = threading.Thread(target=self.send, args=[b"".join(lines)])
        sending.start()
        came = [self.answer() for _ in questions]
        sending.join()
        return came

    def send(self, content):
        self.child.stdin.write(content)
        self.child.stdin.flush()

    def answer(self):
        status, pages, written, zeros, said = map(int, self.child.stdout.readline().split())
        return (status, self.child.stdout.read(written) + bytes(zeros), self.child.stdout.read(said)), pages


def product(path, folder):
    """pclmin by its path: a library where that ends with .so, else a program."""
    return Library(path) if path.endswith(".so") else Program(path, folder)
