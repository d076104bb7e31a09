#!/usr/bin/env python3
"""What the process of pclmin does where its surroundings fail: for each case of cases.txt the whole of standard error and
the status are compared, and what is left in files. Prints the cases that don't hold and how many do; status 1 if one doesn't.

    tests/process/run.py [PROGRAM]        PROGRAM is build/pclmin where none is given

A line of cases.txt is a command of the shell, `=>`, the status, `|`, and what standard error has to be, without its line feed.
The command runs in a folder of its own, which has the files of FILES; `pclmin` is the program. Empty lines and lines that begin
with `#` say nothing. Standard input is empty and standard output is a file, where the command doesn't say otherwise. Where root
runs it, files that can't be read or written are opened by nobody's rights.

Help and usage faults are compared whole: they are the cases of crates/command_cases/data/commands.txt that have lines of the word
`shows`, each a line that is written, by standard output where the status is 0, else by standard error, while the other gets nothing.

The limits of memory, what is long, and the terminal have tests of their own below the tables.
"""
import os
import pty
import shutil
import struct
import subprocess
import sys
import tempfile
import threading
import time

HERE = os.path.dirname(os.path.abspath(__file__))
TEXTS = os.path.join(HERE, "../../crates/command_cases/data/commands.txt")
DOT = b"\x1b&l0E\x1b*p0x0Y\x1b*t300R\x1b*r0A\x1b*b1W\x80"
WRITTEN = b"\x1bE\x1b&l1x2a0E\x1b*p0x0Y\x1b*t300R\x1b*r2400s0A\x1b*b1W\x80\x1b*rC\x0c\x1bE"
FILES = {"dot.pcl": DOT, "dot.out": WRITTEN, "bad.pcl": b"\x1b"}
NOBODY = 65534
# The steps of `ulimit -v`, in KB, and after how many of them that suffice a run is taken to have plenty.
STEP, ENOUGH = 16, 50
PLENTY = 4_000_000
OUT_OF_MEMORY = "pclmin: out of memory"
OTHER_OWNER = "pclmin: cannot write {}: the file is another user's, and would become this one's\n"
FOLDER_KEPT = "pclmin: cannot write grows/old.pcl: the file's folder takes no new file, which would be put in its place\n"
# As many bytes a job may have.
LENGTH_LIMIT = 2_147_483_647
# A blank Letter page as `min` writes it, its image at 600 dots per inch, and the bytes of its certificate: four for the length of its
# text, two for its rows, and eight numbers of four bytes for each row and the end.
BLANK = b"\x1b&l1x2a0E\x1b*p0x0Y\x1b*t300R\x1b*r2400s0A\x1b*rC\x0c"
BLANK_IMAGE = b"P4\n4800 6600\n" + bytes(600 * 6600)
BLANK_CERTIFICATE = 4 + 2 + 8 * 4 * 3301
# Its greymap at 600 dots per inch, a byte each dot, and of how many such pages the greymaps are written one by one.
BLANK_GREYMAP = b"P5\n4800 6600\n255\n" + b"\xff" * (4800 * 6600)
GREYMAPS = 16
# What is long: words, a job, what is written of it, and how many bytes are held at once. A page that says neither copies nor size
# isn't shrunk to one that does.
LONG = [
    (["pbm", "--dpi", "600"], b"\x0c" * 4, BLANK_IMAGE * 4, 4 * len(BLANK_IMAGE)),
    (["min"], bytes(17_000_000) + DOT, WRITTEN, 17_000_000),
    (["shrink"], bytes(17_000_000) + DOT + b"\x1bE", WRITTEN.replace(b"1x2a", b""), 17_000_000),
    (["min", "--cert", "long.cert"], b"\x0c" * 256, b"\x1bE" + BLANK * 256 + b"\x1bE", 256 * BLANK_CERTIFICATE),
]


def cases():
    """The cases of the table: number of the line, command, status and what is said."""
    with open(os.path.join(HERE, "cases.txt")) as table:
        for number, line in enumerate(table, 1):
            line = line.rstrip("\n")
            if line and not line.startswith("#"):
                command, wanted = line.rsplit(" => ", 1)
                status, _, said = wanted.partition(" |")
                yield number, command.strip(), int(status), said.strip()


def texts():
    """The texts of the gate's table, but for what is reported of a job: number of the line, command, status and what is written, without
    the last line feed."""
    with open(TEXTS) as table:
        for number, line in enumerate(table, 1):
            word, _, rest = line.strip().partition(" ")
            if word == "case":
                command, text = "", []
            elif word == "run":
                command = rest
            elif word == "shows":
                text.append(rest)
            elif word == "status" and text and not (rest == "0" and command.endswith(".pcl")):
                yield number, command, int(rest), "\n".join(text)


def fill(folder, program):
    """Makes the files that each case finds."""
    os.chmod(folder, 0o755)
    for name, content in FILES.items():
        with open(os.path.join(folder, name), "wb") as file:
            file.write(content)
    for name, mode in (("unread.pcl", 0o200), ("unwritten.cert", 0o444)):
        path = os.path.join(folder, name)
        with open(path, "wb") as file:
            file.write(DOT)
        os.chmod(path, mode)
    os.mkdir(os.path.join(folder, "folder"))
    os.chmod(os.path.join(folder, "folder"), 0o755)
    os.symlink(program, os.path.join(folder, "pclmin"))
    if os.geteuid() == 0:
        for name in [folder] + [os.path.join(folder, name) for name in FILES]:
            os.chown(name, NOBODY, NOBODY)


def without_rights():
    """Gives root's rights away."""
    if os.geteuid() == 0:
        os.setgid(NOBODY)
        os.setuid(NOBODY)


def run_in_folder(program, command, out):
    """What a command did in a folder of its own; its standard output goes to out. None where it doesn't end."""
    with tempfile.TemporaryDirectory() as folder:
        fill(folder, program)
        try:
            return subprocess.run(
                ["timeout", "20", "bash", "-c", 'PATH="$PWD:$PATH"; ' + command], cwd=folder, stdin=subprocess.DEVNULL,
                stdout=out, stderr=subprocess.PIPE, preexec_fn=without_rights, timeout=60, check=False)
        except subprocess.TimeoutExpired:
            return None


def run_case(program, command):
    """The status of a command, and what it says on standard error."""
    done = run_in_folder(program, command, subprocess.DEVNULL)
    return (done.returncode, done.stderr.decode().strip()) if done else ("no end", "")


def check_table(program):
    """The faults of the table, and how many cases it has."""
    wrong, count = [], 0
    for number, command, status, said in cases():
        count += 1
        came = run_case(program, command)
        if came != (status, said):
            wrong.append(f"cases.txt, line {number}: {command}\n  wanted {status} | {said}\n  came   {came[0]} | {came[1]}")
    return wrong, count


def check_texts(program):
    """The faults of the texts, and how many there are."""
    wrong, count = [], 0
    for number, command, status, text in texts():
        count += 1
        done = run_in_folder(program, command, subprocess.PIPE)
        came = (done.returncode, done.stdout.decode(), done.stderr.decode()) if done else ("no end", "", "")
        wanted = (status, text + "\n", "") if status == 0 else (status, "", text + "\n")
        if came != wanted:
            wrong.append(f"commands.txt, line {number}: {command}\n  wanted {wanted}\n  came   {came}")
    return wrong, count


def run_within(program, words, job, limit):
    """The status of a run within this many KB of address space, and what it writes; none where no process begins."""
    done = subprocess.run(
        ["sh", "-c", 'ulimit -v "$0"; exec "$@"', str(limit), program] + words, input=job, capture_output=True, timeout=60, check=False)
    if done.returncode < 0 or done.returncode in (126, 127):
        return None
    return done.returncode, done.stderr.decode().strip(), done.stdout


def check_memory(program):
    """From the least memory that begins a process, and up to plenty, a right command line is done or ends as out of memory."""
    wrong = []
    runs = (["min"], DOT), (["pbm", "--page", "1"], DOT), (["--help"], b""), (["--version"], b"")
    for words, job in runs:
        plenty = run_within(program, words, job, PLENTY)
        begins, done, enough, faults = None, None, 0, []
        for limit in range(STEP, PLENTY, STEP):
            came = run_within(program, words, job, limit)
            if came is None and begins is None:
                continue
            begins = begins or limit
            enough = enough + 1 if came == plenty else 0
            done = done or (limit if enough else None)
            if came is None or (came != plenty and came != (3, OUT_OF_MEMORY, b"")):
                faults.append(f"{' '.join(words)} within {limit} KB: {'a signal' if came is None else came[:2]}")
            if enough == ENOUGH:
                break
        print(f"{' '.join(words)}: begins within {begins} KB, is first done within {done} KB")
        if faults:
            wrong.append("\n".join(faults))
    return wrong, len(runs)


def check_owners(program):
    """A file that is replaced keeps its owner and its rights, where root does it; where somebody else would, it stays as it is."""
    if os.geteuid() != 0:
        return [], 0
    wrong = []
    with tempfile.TemporaryDirectory() as folder:
        fill(folder, program)
        path = os.path.join(folder, "theirs.pcl")
        for owner, mode, rights, status, said in ((NOBODY, 0o4755, None, 0, b""), (0, 0o666, without_rights, 3, OTHER_OWNER.format(path).encode())):
            with open(path, "wb") as file:
                file.write(DOT)
            os.chown(path, owner, owner)
            os.chmod(path, mode)
            done = subprocess.run([program, "min", "-o", path, path], capture_output=True, preexec_fn=rights, timeout=60, check=False)
            there = os.stat(path)
            with open(path, "rb") as file:
                is_right = file.read() == (WRITTEN if status == 0 else DOT)
            came = (done.returncode, done.stderr, there.st_uid, there.st_gid, there.st_mode & 0o7777)
            if came != (status, said, owner, owner, mode) or not is_right:
                wrong.append(f"-o of a file of user {owner} with mode {mode:o}: {came}")
    return wrong, 2


def access_list(*entries):
    """An access list as Linux keeps it: of each entry whose it is, the rights, and the number of the user."""
    return struct.pack("<I", 2) + b"".join(struct.pack("<HHI", *entry) for entry in entries)


def check_access_lists(program):
    """A folder's default access list opens no new file beyond the user's mask, and a file that is written into keeps its own and its
    attributes."""
    wrong, nobody = [], 0xFFFFFFFF
    everyone = access_list((1, 7, nobody), (2, 7, NOBODY), (4, 7, nobody), (16, 7, nobody), (32, 7, nobody))
    one_user = access_list((1, 6, nobody), (2, 6, NOBODY), (4, 0, nobody), (16, 6, nobody), (32, 0, nobody))
    with tempfile.TemporaryDirectory() as folder:
        path = os.path.join(folder, "dot.pcl")
        with open(path, "wb") as file:
            file.write(DOT)
        try:
            os.setxattr(folder, "system.posix_acl_default", everyone)
            os.setxattr(path, "system.posix_acl_access", one_user)
            os.setxattr(path, "user.note", b"mine")
        except OSError:
            return [], 0
        run = lambda *words: subprocess.run([program, "min", *words, path], capture_output=True, umask=0o027, timeout=60, check=False)
        new = os.path.join(folder, "new.pcl")
        done = run("-o", new)
        came = (done.returncode, done.stderr, os.stat(new).st_mode & 0o777)
        if came != (0, b"", 0o640):
            wrong.append(f"a new file in a folder with a default access list: {came}")
        done = run("--keep-inode", "-o", path)
        came = (done.returncode, done.stderr, os.getxattr(path, "system.posix_acl_access"), os.getxattr(path, "user.note"))
        if came != (0, b"", one_user, b"mine"):
            wrong.append(f"--keep-inode of a file with an access list: {came}")
    return wrong, 2


def check_append_only(program):
    """A folder that takes new files and lets none go takes a new one, and what is there stays, unless it is written into."""
    if os.geteuid() != 0 or not shutil.which("chattr"):
        return [], 0
    wrong, kept = [], FOLDER_KEPT.encode()
    with tempfile.TemporaryDirectory() as folder:
        fill(folder, program)
        grows = os.path.join(folder, "grows")
        os.mkdir(grows)
        with open(os.path.join(grows, "old.pcl"), "wb") as file:
            file.write(b"kept")
        for name in (grows, os.path.join(grows, "old.pcl")):
            os.chown(name, NOBODY, NOBODY)
        if subprocess.run(["chattr", "+a", grows], capture_output=True, check=False).returncode != 0:
            return [], 0
        try:
            for words, name, status, said, content in (([], "new.pcl", 0, b"", WRITTEN), ([], "old.pcl", 3, kept, b"kept"),
                                                       (["--keep-inode"], "old.pcl", 0, b"", WRITTEN)):
                done = subprocess.run([program, "min", *words, "-o", "grows/" + name, "dot.pcl"], cwd=folder, capture_output=True,
                                      preexec_fn=without_rights, timeout=60, check=False)
                with open(os.path.join(grows, name), "rb") as file:
                    came = (done.returncode, done.stderr, file.read())
                if came != (status, said, content):
                    wrong.append(f"min {words} -o {name} in a folder that lets no file go: {came}")
        finally:
            subprocess.run(["chattr", "-a", grows], check=True)
    return wrong, 3


def check_lengths(program):
    """As many bytes as a job may have, and one more, of a file that takes no room: a minute."""
    wrong = []
    with tempfile.TemporaryDirectory() as folder:
        path = os.path.join(folder, "sparse.pcl")
        for length, wanted in ((LENGTH_LIMIT, (0, b"\x1bE\x1bE", b"")), (LENGTH_LIMIT + 1, (3, b"", b"pclmin: input too long\n"))):
            with open(path, "wb") as file:
                file.truncate(length)
            done = subprocess.run([program, "min", path], capture_output=True, timeout=600, check=False)
            if (done.returncode, done.stdout, done.stderr) != wanted:
                wrong.append(f"a job of {length} bytes: {done}")
    return wrong, 2


def run_long(folder, program, words, job, limit):
    """What a run within this many KB does that replaces two files: status, what is said, and the files after it."""
    for name, content in (("long.pcl", job), ("long.out", b"kept"), ("long.cert", b"kept")):
        with open(os.path.join(folder, name), "wb") as file:
            file.write(content)
    done = subprocess.run(
        ["sh", "-c", 'ulimit -v "$0"; exec "$@"', str(limit), program] + words + ["-o", "long.out", "long.pcl"], cwd=folder,
        stdin=subprocess.DEVNULL, capture_output=True, timeout=60, check=False)
    files = {}
    for name in os.listdir(folder):
        with open(os.path.join(folder, name), "rb") as file:
            files[name] = file.read()
    return done.returncode, done.stderr.decode().strip(), done.stdout, files


def proves(folder, program, certificate):
    """Whether a certificate of 256 blank pages is as long as it has to be, and proves what was written."""
    done = subprocess.run([program, "check", "long.pcl", "long.out", "long.cert"], cwd=folder, capture_output=True, timeout=60, check=False)
    return len(certificate) == 12 + 256 * BLANK_CERTIFICATE and done.stdout == b"proved\n"


def check_sizes(program):
    """What is long is done with plenty of memory. Within less than what is held at once, memory runs out and files stay as they were."""
    wrong, count = [], 0
    for words, job, written, held in LONG:
        for limit in (PLENTY, held // 1024, held * 3 // 4 // 1024, held // 2 // 1024):
            with tempfile.TemporaryDirectory() as folder:
                count += 1
                status, said, out, files = run_long(folder, program, words, job, limit)
                certificate = files["long.cert"]
                if limit != PLENTY:
                    as_it_was = {"long.pcl": job, "long.out": b"kept", "long.cert": b"kept"}
                    is_right = (status, said, out, files) == (3, OUT_OF_MEMORY, b"", as_it_was)
                else:
                    is_right = (status, said, out, files["long.out"], len(files)) == (0, "", b"", written, 3)
                    is_right &= proves(folder, program, certificate) if "--cert" in words else certificate == b"kept"
                if not is_right:
                    sizes = {name: len(content) for name, content in files.items()}
                    wrong.append(f"{' '.join(words)} of {len(job)} bytes within {limit} KB: {status}, {said}, files {sizes}")
    return wrong, count


def check_greymaps(program):
    """Greymaps of many pages, half a gigabyte, are written within three times what one has. Within half of that, memory runs out."""
    wrong = []
    for limit, greymaps, status, said in ((3 * len(BLANK_GREYMAP), GREYMAPS, 0, b""),
                                          (len(BLANK_GREYMAP) // 2, 0, 3, OUT_OF_MEMORY.encode() + b"\n")):
        bound = ["timeout", "120", "sh", "-c", 'ulimit -v "$0"; exec "$@"', str(limit // 1024)]
        words = [*bound, program, "pgm", "--scale", "1", "--dpi", "600"]
        with subprocess.Popen(words, stdin=subprocess.PIPE, stdout=subprocess.PIPE, stderr=subprocess.PIPE) as process:
            process.stdin.write(b"\x0c" * GREYMAPS)
            process.stdin.close()
            is_right = all(process.stdout.read(len(BLANK_GREYMAP)) == BLANK_GREYMAP for _ in range(greymaps))
            is_right &= process.stdout.read() == b""
            came = process.stderr.read()
        if not is_right or (process.returncode, came) != (status, said):
            wrong.append(f"pgm --scale 1 within {limit // 1024} KB: {process.returncode}, {came}, the images are {is_right}")
    return wrong, 2


def run_on_terminal(program, words, job):
    """What a run writes to a terminal that is its standard error, and how many seconds it took."""
    leader, follower = pty.openpty()
    said = bytearray()
    # what is shown may be more than a terminal holds
    reader = threading.Thread(target=read_terminal, args=(leader, said))
    begun = time.monotonic()
    process = subprocess.Popen([program] + words, stdin=subprocess.PIPE, stdout=subprocess.DEVNULL, stderr=follower)
    os.close(follower)
    reader.start()
    process.communicate(job)
    taken = time.monotonic() - begun
    reader.join()
    os.close(leader)
    return said.decode(), taken


def read_terminal(leader, said):
    """Appends what a terminal shows until nobody writes to it any more."""
    while True:
        try:
            part = os.read(leader, 4096)
        except OSError:
            return
        if not part:
            return
        said += part


def check_terminal(program):
    """A terminal shows how many pages are done, how far each pass of `shrink` has come, or how many jobs of a batch are done, from the
    first second on and not before, and the line is cleared at the end."""
    wrong = []
    said, taken = run_on_terminal(program, ["min"], DOT)
    if taken < 1 and said:
        wrong.append(f"a run of {taken:.1f} seconds says {said!r}")
    page = b"\x1b*p0x0Y\x1b*t300R\x1b*r0A" + b"".join(
        b"\x1b*b300W" + bytes((row * 37 + column * 11 + row * column) % 251 for column in range(300)) for row in range(1600)) + b"\x0c"
    long = b"\x1b&l0E" + page * 200
    said, taken = run_on_terminal(program, ["min"], long)
    if taken < 1.5:
        wrong.append(f"the long run took {taken:.1f} seconds only")
    elif not said.startswith("\rpclmin: pages done: ") or "pages done: 1\r" in said or not said.endswith("\r\x1b[K"):
        wrong.append(f"a run of {taken:.1f} seconds says {said[:80]!r} .. {said[-40:]!r}")
    said, _ = run_on_terminal(program, ["min", "--quiet"], long)
    if said:
        wrong.append(f"a quiet run says {said[:80]!r}")
    said, taken = run_on_terminal(program, ["shrink"], long)
    shown = [line.rsplit(": ", 1) for line in said.removesuffix("\r\x1b[K").split("\r\x1b[Kpclmin: ")[1:]]
    counts = [int(done) for name, done in shown if name == "pages read"]
    if taken < 1.5 or not counts or counts[0] == 1 or counts != sorted(counts) or counts[-1] != 200 or not said.endswith("\r\x1b[K"):
        wrong.append(f"shrink says in {taken:.1f} seconds {said[:80]!r} .. {said[-40:]!r}")
    said, _ = run_on_terminal(program, ["shrink", "-q"], long)
    if said:
        wrong.append(f"a quiet shrink says {said[:80]!r}")
    with tempfile.TemporaryDirectory() as folder:
        names = [os.path.join(folder, name) for name in ("one.pcl", "two.pcl")]
        for name in names:
            with open(name, "wb") as out:
                out.write(long)
        said, _ = run_on_terminal(program, ["batch", "--min", "-o", os.path.join(folder, "small"), *names], b"")
        quiet, _ = run_on_terminal(program, ["batch", "-q", "--min", "-o", os.path.join(folder, "quiet"), *names], b"")
    if said != "\rpclmin: jobs done: 1 of 2\rpclmin: jobs done: 2 of 2\r\x1b[K" or quiet:
        wrong.append(f"a batch says {said!r}, and a quiet one {quiet!r}")
    return wrong, 7


def check_hints(program):
    """A terminal gets a second line where a job is refused, which says what helps, unless the run is quiet."""
    wrong = []
    instead = "pclmin explain says what to set instead"
    raster = b"\x1b*t600R\x1b*r1A"
    cases = [(["min"], b"\x1b", "Truncated at 0 -", instead), (["min"], raster, "UnsupportedValue at 0 *tR", "try --dpi auto"),
             (["pages", "--dpi=auto"], b"\x1b*t5R", "UnsupportedValue at 0 *tR", instead),
             (["min", "-o", os.path.join(tempfile.gettempdir(), "auto")], raster, "UnsupportedValue at 0 *tR", "try --dpi auto"),
             (["min", "-q"], b"\x1b", "Truncated at 0 -", None), (["shrink", "--quiet"], b"%PDF-1.4", "NoFont at 0 text", None),
             (["shrink"], b"%PDF-1.4", "NoFont at 0 text", "the job is PDF, not PCL 5: choose a PCL 5 driver, or send it through "
              "ghostscript with -sDEVICE=ljet2p"),
             (["min"], b"\x1f\x8b\x08", "UnsupportedCommand at 2 BS", "the job is packed by gzip: unpack it first")]
    for words, job, refusal, hint in cases:
        said, _ = run_on_terminal(program, words, job)
        wanted = f"pclmin: refused: {refusal}\r\n" + (f"pclmin: {hint}\r\n" if hint else "")
        if said != wanted:
            wrong.append(f"{' '.join(words)} of {job!r}: {said!r}, and not {wanted!r}")
    return wrong, len(cases)


def on_terminals(program, words, typed):
    """What a run says where its standard input and output are a terminal, and nothing is typed but this; and its status."""
    leader, follower = pty.openpty()
    process = subprocess.Popen([program] + words, stdin=follower, stdout=follower, stderr=subprocess.PIPE)
    os.close(follower)
    os.write(leader, typed)
    _, said = process.communicate(timeout=60)
    os.close(leader)
    return said.decode(), process.returncode


def check_spared_terminal(program):
    """No job and no image is written to a terminal, and one that is read from gets a hint, unless the run is quiet."""
    end, wrong = b"\x04", []
    spared = "pclmin: nothing is written to a terminal: send standard output to a file, or give -o FILE\n"
    names = "pclmin: names of jobs are read from this terminal, one a line: end them with control D, or give files\n"
    hint = "pclmin: the job is read from this terminal: end it with control D, or give a file\n"
    wanted = [(["min"], spared, 2), (["shrink"], spared, 2), (["pbm"], spared, 2), (["pgm", "--scale", "2"], spared, 2),
              (["pages"], hint + "pclmin: no page\n", 0), (["explain"], hint + "pclmin: no page\n", 0),
              (["min", "-o", "/dev/null"], hint, 0), (["min", "-q", "-o", "/dev/null"], "", 0), (["--version"], "", 0),
              (["batch", "-o", os.path.join(tempfile.gettempdir(), "no-jobs")], names, 0),
              (["batch", "-q", "-o", os.path.join(tempfile.gettempdir(), "no-jobs")], "", 0)]
    for words, said, status in wanted:
        came = on_terminals(program, words, end)
        if came != (said, status):
            wrong.append(f"{' '.join(words)} on a terminal: {came}, and not {(said, status)}")
    return wrong, len(wanted)


def main():
    program = os.path.abspath(sys.argv[1] if len(sys.argv) > 1 else os.path.join(HERE, "../../build/pclmin"))
    if not os.access(program, os.X_OK):
        sys.exit(f"{program}: not there; `make build` makes it")
    with tempfile.TemporaryDirectory() as folder:
        os.chmod(folder, 0o755)
        copy = shutil.copy(program, os.path.join(folder, "program"))
        os.chmod(copy, 0o755)
        wrong, count = [], 0
        for check in (check_table, check_texts, check_owners, check_access_lists, check_append_only, check_lengths, check_sizes,
                      check_greymaps, check_memory, check_terminal, check_hints, check_spared_terminal):
            try:
                faults, cases_of_it = check(copy)
            except subprocess.TimeoutExpired as late:
                faults, cases_of_it = [f"{check.__name__}: {late}"], 1
            wrong += faults
            count += cases_of_it
    for fault in wrong:
        print(fault)
    print(f"{count - len(wrong)} of {count} hold")
    sys.exit(1 if wrong else 0)


if __name__ == "__main__":
    main()
