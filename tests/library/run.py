#!/usr/bin/env python3
"""The calls of build/libpclmin.a and build/libpclmin.so beside the program: each job of CASES goes through a C program (under
valgrind where that is there, else with -fsanitize=address), a Rust program (where rustc is there) and Python's ctypes, and
what these get is compared with what the program writes and says. The calls in which memory runs out, those of many threads with
small stacks, and those with pointers and numbers that no call takes have tests of their own below. Prints what doesn't hold and
how much does; status 1 if something doesn't.

    tests/library/run.py [PROGRAM]        PROGRAM is build/pclmin where none is given
"""
import json
import os
import shutil
import subprocess
import sys

HERE = os.path.dirname(os.path.abspath(__file__))
TOP = os.path.dirname(os.path.dirname(HERE))
BUILD = os.path.join(TOP, "build", "library")
ARCHIVE = os.path.join(TOP, "build", "libpclmin.a")
sys.path.insert(0, os.path.join(TOP, "lib"))
sys.dont_write_bytecode = True
import pclmin  # noqa: E402

NAMES = ("fault", "kind", "place", "job", "resolution", "holds", "pages")
# What is said of numbers that no call takes.
RESOLUTION = "pclmin: the resolution is 300 or 600, or 0 for the first at which the job is accepted\n"
PAGES = "pclmin: pages are 1 to 256, the last no earlier than the first, or 0 and 0 for all\n"
SCALE = "pclmin: a scale is 1 to 32\n"
FORMAT = "pclmin: the format of a certificate is 1 or 2, or 0 for none\n"

# Two pages, a page of two copies on another size, a raster that only 600 dots per inch takes, and jobs that are refused.
JOBS = {
    "two.pcl": b"\x1bE\x1b*p0x0Y\x1b*t300R\x1b*r0A\x1b*b1W\x80\x1b*rC\x0c\x1b*p30x40Y\x1b*c9a9b0P\x0c\x1bE",
    "copies.pcl": b"\x1bE\x1b&l26a2X\x1b*p100x100Y\x1b*c300a200b0P\x0c\x1bE",
    "fine.pcl": b"\x1bE\x1b*t600R\x1b*r0A\x1b*b2W\xaa\x55\x1b*rC\x0c\x1bE",
    "duplex.pcl": b"\x1b%-12345X@PJL SET DUPLEX=ON\n\x1bE\x1b&l1S\x1b*p100x100Y\x1b*c300a200b0P\x0c\x1bE\x1b%-12345X",
    "range.pcl": b"\x1b*p70000X",
    "cut.pcl": b"\x1bE\x1b*b9W\x80",
    "text.pcl": b"\x1bEHello",
    "xl.pcl": b") HP-PCL XL;2;0\n",
    "empty.pcl": b"",
}
# The page of duplex.pcl, on one side.
SIMPLEX = b"\x1bE\x1b*p100x100Y\x1b*c300a200b0P\x0c\x1bE"
# Squares of three tenths of a point, which at 600 dots per inch aren't those of 300 with dots of twice the side.
POINTS = b"\x1bE" + b"".join(b"\x1b*p%dx100Y\x1b*c3h3v0P" % (100 + 9 * place) for place in range(40)) + b"\x0c\x1bE"
# Rectangles half a dot of 300 apart: the same dots there, and others at 600.
ONE, OTHER = (b"\x1bE\x1b&u600D\x1b*p%dx%dY\x1b*c90a90b0P\x0c\x1bE" % (place, place) for place in (100, 101))
# A page that drivers move by an offset.
MOVED = b"\x1bE\x1b&l36U\x0c\x1b&l0U\x1b*p30x40Y\x1b*c90a90b0P\x0c\x1bE"


class Runner:
    """What was asked of each client, and what held."""

    def __init__(self, program):
        self.program = program
        self.held, self.failed = 0, 0
        self.clients = []

    def tell(self, holds, what):
        """Counts something that holds, or says that it doesn't."""
        if holds:
            self.held += 1
        else:
            self.failed += 1
            print(f"doesn't hold: {what}")

    def said(self, *words):
        """What the program writes, says and has for a status."""
        done = subprocess.run([self.program, *words], capture_output=True, cwd=BUILD)
        return done.stdout, done.stderr.decode("latin-1"), done.returncode

    def answers(self, *words):
        """What each client gets of a call, and that of Python last; the clients have to agree."""
        got = [(name, client_answer(command, words)) for name, command in self.clients]
        got.append(("python", python_answer(words)))
        wanted = got[-1][1]
        for name, answer in got:
            self.tell(answer == wanted, f"{name} gets what Python gets of {' '.join(words)}: {shown(answer)}, {shown(wanted)}")
        return wanted


def shown(answer):
    """An answer in a few words."""
    if isinstance(answer, str):
        return answer
    numbers = (answer.fault, answer.kind, answer.place, answer.job, answer.resolution, answer.holds)
    return f"{numbers} {answer.line!r} {len(answer.bytes)} bytes"


def client_answer(command, words):
    """The answer that a client writes for a call."""
    done = subprocess.run([*command, *words], capture_output=True, cwd=BUILD)
    if done.returncode != 0:
        return f"status {done.returncode}: {done.stderr.decode('latin-1')[-2000:]}"
    head, rest = done.stdout.split(b"\n", 1)
    *numbers, line_length, length, certificate_length = map(int, head.split())
    if len(rest) != line_length + length + certificate_length:
        return f"{len(rest)} bytes, where {head} was told"
    told = dict(zip(NAMES, numbers))
    told["holds"] = bool(told["holds"])
    made = rest[line_length:line_length + length]
    return pclmin.Answer(bytes=made, certificate=rest[line_length + length:], line=rest[:line_length].decode("latin-1"), **told)


def python_answer(words):
    """The answer that Python gets of the same call."""
    name, *rest = words
    jobs_from = {"preview": 3, "grey": 4, "min": 2}.get(name, 1)
    jobs = [b"" if job == "-" else open(os.path.join(BUILD, job), "rb").read() for job in rest[jobs_from:]]
    numbers = [int(number) for number in rest[:jobs_from]]
    call = pclmin.minimize if name == "min" else getattr(pclmin, name)
    return call(*jobs, *numbers)


def kind_and_place(line):
    """The number of the kind and the place in a line on a refusal."""
    words = line.split("refused: ")[1].split()
    return pclmin.KINDS.index(words[0]), int(words[2])


def compare_made(runner, call, words, job, resolution):
    """A call that makes bytes beside the program's command: the same bytes, or the same refusal."""
    made, said, status = runner.said(*words, "--dpi", "auto" if resolution == 0 else str(resolution), job)
    answer = runner.answers(*call, job)
    what = " ".join((*call, job))
    if status == 0:
        runner.tell(answer.fault == pclmin.DONE and answer.bytes == made, f"{what} makes what the program writes: {shown(answer)}")
        runner.tell(answer.line == "" and answer.kind == 0 and answer.job == 0, f"{what} says nothing")
        runner.tell(answer.resolution in ([300, 600] if resolution == 0 else [resolution]), f"{what} tells the resolution")
        return
    runner.tell(answer.line == said, f"{what} says what the program says: {answer.line!r}, {said!r}")
    runner.tell(answer.bytes == b"", f"{what} makes nothing")
    if said.startswith("pclmin: no page"):
        runner.tell(answer.fault == pclmin.NO_PAGE, f"{what} lacks a page: {shown(answer)}")
        return
    told = (answer.fault, answer.kind, answer.place, answer.job)
    runner.tell(told == (pclmin.REFUSED, *kind_and_place(said), 1), f"{what} is refused as the program says: {shown(answer)}, {said!r}")


def compare_jobs(runner, resolution, job):
    """All calls on one job beside the program's commands."""
    number = str(resolution)
    compare_made(runner, ["preview", number, "0", "0"], ["pbm"], job, resolution)
    for first, last in ((1, 1), (2, 2), (1, 2), (256, 256)):
        compare_made(runner, ["preview", number, str(first), str(last)], ["pbm", "--page", f"{first}-{last}"], job, resolution)
    for first, last, scale in ((0, 0, 10), (0, 0, 32), (2, 2, 1), (1, 2, 7), (256, 256, 8)):
        pages = [] if first == 0 else ["--page", f"{first}-{last}"]
        compare_made(runner, ["grey", number, str(first), str(last), str(scale)], ["pgm", "--drivers", "--scale", str(scale), *pages], job,
                     resolution)
    compare_made(runner, ["min", number, "0"], ["min", "--quiet"], job, resolution)
    compare_made(runner, ["shrink", number], ["shrink"], job, resolution)
    compare_made(runner, ["pages", number], ["pages", "--json"], job, resolution)
    compare_made(runner, ["explain", number], ["explain"], job, resolution)
    counted = runner.answers("page_count", number, job)
    listed = runner.answers("pages", number, job)
    if listed.fault == pclmin.DONE:
        runner.tell(counted.pages == len(json.loads(listed.bytes)["pages"]), f"{job} has as many pages as are listed")
    else:
        runner.tell(counted[2:] == listed[2:], f"pages of {job} aren't counted where they aren't listed")


def compare_verdict(runner, call, words, files, resolution):
    """A call that says whether something holds beside the program's command: the same line, yes or no, or the same refusal."""
    written, said, status = runner.said(*words, "--dpi", "auto" if resolution == 0 else str(resolution), *files)
    answer = runner.answers(*call, str(resolution), *files)
    what = " ".join((*call, *files))
    if said:
        which = 2 if "second job" in said else 1
        told = (answer.fault, answer.kind, answer.place, answer.job)
        runner.tell(answer.line == said, f"{what} says what the program says: {answer.line!r}, {said!r}")
        runner.tell(told == (pclmin.REFUSED, *kind_and_place(said), which), f"{what} is refused as the program says: {shown(answer)}")
        return answer
    runner.tell(answer.fault == pclmin.DONE and answer.line == written.decode(), f"{what} says what the program writes: {shown(answer)}")
    runner.tell(answer.holds == (status == 0), f"{what} holds where the program's status is 0: {shown(answer)}, {status}")
    return answer


def compare_certificates(runner, resolution, certificate_format, job):
    """A job that is written with a certificate, and checks of it."""
    runner.said("min", "--quiet", "--dpi", str(resolution), "--cert", "job.cert", "--format", str(certificate_format), "-o", "job.min", job)
    with open(os.path.join(BUILD, "job.min"), "rb") as file:
        output = file.read()
    with open(os.path.join(BUILD, "job.cert"), "rb") as file:
        certificate = file.read()
    answer = runner.answers("min", str(resolution), str(certificate_format), job)
    runner.tell(answer.bytes == output, f"min of {job} with a certificate of format {certificate_format} has the program's job")
    runner.tell(answer.certificate == certificate, f"min of {job} has the program's certificate of format {certificate_format}")
    yes = compare_verdict(runner, ["check"], ["check"], [job, "job.min", "job.cert"], resolution)
    runner.tell(yes.holds and yes.line == "proved\n", f"{job} is proved")
    write("longer.min", output + output[:2])
    write("other.cert", certificate[:-1])
    for output_name, certificate_name in (("longer.min", "job.cert"), ("job.min", "other.cert"), ("job.min", "empty.pcl")):
        no = compare_verdict(runner, ["check"], ["check"], [job, output_name, certificate_name], resolution)
        runner.tell(not no.holds and no.line.startswith("not proved: "), f"{job} isn't proved by {output_name} and {certificate_name}")
    compare_verdict(runner, ["check"], ["check"], ["text.pcl", "job.min", "job.cert"], resolution)
    compare_images(runner, resolution, job)


def compare_images(runner, resolution, job):
    """Checks beside images of pages: the job's own, others, those of an output that isn't the shortest, and an output that is refused."""
    write("job.pbm", runner.said("pbm", "--dpi", str(resolution), job)[0])
    call, words = ["check_pages"], ["check", "--page"]
    for at in (resolution, 0):
        yes = compare_verdict(runner, call, words, ["job.pbm", "job.min", "job.cert"], at)
        yes = compare_verdict(runner, call, words, ["job.pbm", "job.min", "job.cert"], at)
        runner.tell(yes.line == "proved\n", f"{job} is proved by its images")
    for files in (["copies.pcl", "job.min", "job.cert"], ["job.pbm", "longer.min", "job.cert"], ["job.pbm", job, "job.cert"],
                  ["job.pbm", "job.min", "other.cert"]):
        no = compare_verdict(runner, call, words, files, resolution)
        runner.tell(not no.holds, f"{job} isn't proved by {files}")
    compare_verdict(runner, call, words, ["job.pbm", "text.pcl", "job.cert"], resolution)


def check_points(runner):
    """A job that is smaller for one resolution than for both."""
    write("points.pcl", POINTS)
    for resolution in (300, 600, 0):
        compare_made(runner, ["shrink", str(resolution)], ["shrink"], "points.pcl", resolution)
    both = pclmin.shrink(POINTS, 0)
    runner.tell(pclmin.same(POINTS, both.bytes, 600).holds, "what is shrunk for both resolutions is the same at 600 dots per inch")
    runner.tell(not pclmin.same(POINTS, pclmin.shrink(POINTS, 300).bytes, 600).holds, "what is shrunk for 300 dots per inch isn't")
    runner.tell(both.resolution == 300, "the resolution is the first at which the job is accepted")


def check_fine(runner):
    """Two jobs that are the same at 300 dots per inch and accepted at 600, where they differ."""
    write("one.pcl", ONE)
    write("other.pcl", OTHER)
    for call, words in ((["same"], ["same"]), (["same_asked"], ["same", "--asked"])):
        for resolution, holds, told in ((300, True, 300), (600, False, 600), (0, False, 600)):
            answer = compare_verdict(runner, call, words, ["one.pcl", "other.pcl"], resolution)
            runner.tell((answer.holds, answer.resolution) == (holds, told), f"{call} of rectangles by {resolution}: {shown(answer)}")
            same = compare_verdict(runner, call, words, ["one.pcl", "one.pcl"], resolution)
            runner.tell((same.holds, same.resolution) == (True, told), f"{call} of one rectangle by {resolution}: {shown(same)}")


def check_arguments(runner):
    """Numbers and pointers that no call takes, and pointers that are null where there are no bytes."""
    for line, *words in ((RESOLUTION, "shrink", "301", "dot.pcl"), (PAGES, "preview", "300", "0", "1", "dot.pcl"),
                         (PAGES, "preview", "300", "2", "1", "dot.pcl"), (PAGES, "preview", "300", "1", "257", "dot.pcl"),
                         (PAGES, "grey", "300", "0", "1", "8", "dot.pcl"), (RESOLUTION, "grey", "301", "0", "0", "8", "dot.pcl"),
                         *((SCALE, "grey", "300", "1", "1", scale, "dot.pcl") for scale in ("0", "33", "4294967295")),
                         (SCALE, "grey", "300", "1", "1", "0", "text.pcl"), (FORMAT, "min", "300", "3", "dot.pcl"),
                         (RESOLUTION, "same", "72", "dot.pcl", "dot.pcl"), (RESOLUTION, "same_asked", "301", "dot.pcl", "text.pcl"),
                         (RESOLUTION, "check_pages", "599", "dot.pcl", "dot.pcl", "dot.pcl"),
                         (RESOLUTION, "check", "1", "dot.pcl", "dot.pcl", "dot.pcl"), (RESOLUTION, "explain", "4294967295", "dot.pcl")):
        answer = runner.answers(*words)
        runner.tell(answer.fault == pclmin.WRONG_ARGUMENT and answer.line == line, f"{words} are wrong: {shown(answer)}")
        runner.tell(answer.bytes == b"" and answer.kind == 0 and answer.job == 0, f"{words} make nothing")
    for words in (("preview", "300", "0", "0", "-"), ("grey", "300", "0", "0", "8", "-"), ("min", "300", "1", "-"), ("shrink", "0", "-"),
                  ("same", "600", "-", "-"), ("same_asked", "0", "-", "-"), ("check_pages", "300", "-", "-", "-"),
                  ("page_count", "300", "-"), ("pages", "300", "-"), ("explain", "300", "-"), ("check", "300", "-", "-", "-")):
        answer = runner.answers(*words)
        beside = runner.answers(*(word if word != "-" else "empty.pcl" for word in words))
        runner.tell(answer == beside and answer.fault == pclmin.DONE, f"{words} are an empty job: {shown(answer)}")


def check_version(runner):
    """The version that each client gets is the program's."""
    wanted = runner.said("--version")[0]
    told = [(name, subprocess.run([*command, "version"], capture_output=True).stdout) for name, command in runner.clients]
    for name, version in (*told, ("Python", pclmin.version().encode() + b"\n")):
        runner.tell(b"pclmin " + version == wanted, f"{name} gets the program's version: {version}")


def check_python(runner):
    """What only Python can hand over: jobs that aren't bytes, and numbers of more than 32 bits; and the calls where they are installed."""
    job = JOBS["two.pcl"]
    wanted = pclmin.page_count(job)
    for other in (bytearray(job), memoryview(job), memoryview(bytes(job) + b"\x1b")[:-1]):
        runner.tell(pclmin.page_count(other) == wanted, f"{type(other).__name__} is taken as bytes are")
    for number in (-1, (1 << 32) + 300, 1 << 64):
        try:
            answer = shown(pclmin.page_count(job, number))
        except ValueError:
            answer = "refused"
        runner.tell(answer == "refused", f"{number} is no resolution: {answer}")
    root = os.path.join(BUILD, "root", "usr")
    places = dict(os.environ, PYTHONPATH=os.path.join(root, "share/pclmin"), LD_LIBRARY_PATH=os.path.join(root, "lib"))
    words = "import pclmin; print(pclmin.LIBRARY, pclmin.page_count(open('two.pcl', 'rb').read()).pages)"
    done = subprocess.run([sys.executable, "-c", words], env=places, cwd=BUILD, capture_output=True)
    runner.tell(done.stdout == b"libpclmin.so 2\n", f"installed calls: {done.stdout} {done.stderr.decode()[-300:]}")


def install(runner):
    """Installs the library below a folder; what a C compiler is told of the archive there, by pkg-config where that is there."""
    root = os.path.join(BUILD, "root")
    subprocess.run(["make", "--no-print-directory", "-C", TOP, "install-lib", "DESTDIR=" + root, "PREFIX=/usr"], check=True,
                   stdout=subprocess.DEVNULL)
    with open(os.path.join(root, "usr/lib/pkgconfig/pclmin.pc")) as file:
        version = next(line.split()[1] for line in file if line.startswith("Version:"))
    runner.tell(runner.said("--version")[0].decode() == f"pclmin {version}\n", "pclmin.pc has the program's version")
    if shutil.which("pkg-config"):
        places = dict(os.environ, PKG_CONFIG_LIBDIR=os.path.join(root, "usr/lib/pkgconfig"), PKG_CONFIG_SYSROOT_DIR=root,
                      PKG_CONFIG_ALLOW_SYSTEM_CFLAGS="1", PKG_CONFIG_ALLOW_SYSTEM_LIBS="1")
        flags = subprocess.run(["pkg-config", "--cflags", "--libs", "pclmin"], env=places, check=True,
                               capture_output=True).stdout.decode().split()
    else:
        flags = ["-I" + root + "/usr/include", "-L" + root + "/usr/lib", "-lpclmin"]
    return ["-l:libpclmin.a" if flag == "-lpclmin" else flag for flag in flags]


def compile_clients(runner):
    """Builds the clients in C and in Rust, and the tests in C; whether valgrind watches what runs."""
    library = install(runner)
    has_valgrind = shutil.which("valgrind") is not None
    compiler = ["cc", "-std=c11", "-Wall", "-Wextra", "-Werror", "-g", *([] if has_valgrind else ["-fsanitize=address,undefined"])]
    wrapped = ["-Wl,--wrap=malloc,--wrap=realloc,--wrap=calloc", "-lpthread"]
    for name, options in (("client", []), ("tests", wrapped)):
        subprocess.run([*compiler, os.path.join(HERE, name + ".c"), *library, *options, "-o", os.path.join(BUILD, name)], check=True)
    watched = ["valgrind", "--quiet", "--error-exitcode=6", "--leak-check=full"] if has_valgrind else []
    runner.clients.append(("C", [*watched, os.path.join(BUILD, "client")]))
    if shutil.which("rustc"):
        subprocess.run(["rustc", "--edition", "2021", "-O", os.path.join(HERE, "client.rs"), "-L", os.path.dirname(ARCHIVE),
                        "-l", "static=pclmin", "-o", os.path.join(BUILD, "rust_client")], check=True)
        runner.clients.append(("Rust", [os.path.join(BUILD, "rust_client")]))
    else:
        print("there is no rustc: no Rust program calls the library")


def write(name, content):
    """A file beside the clients."""
    with open(os.path.join(BUILD, name), "wb") as file:
        file.write(content)


def main():
    program = os.path.abspath(sys.argv[1] if len(sys.argv) > 1 else os.path.join(TOP, "build/pclmin"))
    if not os.path.exists(program):
        sys.exit(f"there is no {program}: run make build first")
    shutil.rmtree(BUILD, ignore_errors=True)
    os.makedirs(BUILD)
    for name, content in JOBS.items():
        write(name, content)
    for name in ("dot.pcl", "picture.pcl"):
        shutil.copy(os.path.join(TOP, "examples", name), BUILD)
    runner = Runner(program)
    compile_clients(runner)
    for job in ("dot.pcl", *JOBS):
        for resolution in (300, 600, 0):
            compare_jobs(runner, resolution, job)
    compare_made(runner, ["preview", "300", "1", "1"], ["pbm", "--page", "1"], "picture.pcl", 300)
    write("simplex.pcl", SIMPLEX)
    write("moved.pcl", MOVED)
    compare_made(runner, ["preview", "300", "0", "0"], ["pbm", "--drivers"], "moved.pcl", 300)
    compare_made(runner, ["grey", "300", "0", "0", "8"], ["pgm", "--drivers", "--scale", "8"], "moved.pcl", 300)
    for scale in ("1", "3", "15", "31"):
        compare_made(runner, ["grey", "300", "0", "0", scale], ["pgm", "--drivers", "--scale", scale], "picture.pcl", 300)
    compare_made(runner, ["min", "300", "0"], ["min", "--quiet"], "picture.pcl", 300)
    compare_made(runner, ["shrink", "0"], ["shrink"], "picture.pcl", 0)
    check_points(runner)
    for certificate_format in (1, 2):
        for resolution, job in ((300, "dot.pcl"), (300, "two.pcl"), (600, "fine.pcl"), (300, "empty.pcl")):
            compare_certificates(runner, resolution, certificate_format, job)
    for first, second in (("dot.pcl", "dot.pcl"), ("dot.pcl", "two.pcl"), ("two.pcl", "copies.pcl"), ("dot.pcl", "fine.pcl"),
                          ("dot.pcl", "copies.pcl"), ("duplex.pcl", "simplex.pcl"), ("text.pcl", "dot.pcl"), ("dot.pcl", "range.pcl"),
                          ("empty.pcl", "empty.pcl"), ("empty.pcl", "dot.pcl")):
        for resolution in (300, 0):
            compare_verdict(runner, ["same"], ["same"], [first, second], resolution)
            compare_verdict(runner, ["same_asked"], ["same", "--asked"], [first, second], resolution)
    check_fine(runner)
    check_arguments(runner)
    check_version(runner)
    check_python(runner)
    tests = subprocess.run([*runner.clients[0][1][:-1], os.path.join(BUILD, "tests")], capture_output=True, cwd=BUILD)
    print(tests.stdout.decode(), end="")
    runner.tell(tests.returncode == 0, f"the tests in C: {tests.returncode} {tests.stderr.decode()}")
    callers = ", ".join(name for name, _ in runner.clients) + ", Python"
    print(f"{runner.held} comparisons hold ({callers}), {runner.failed} don't")
    sys.exit(1 if runner.failed else 0)


if __name__ == "__main__":
    main()
