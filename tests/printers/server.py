#!/usr/bin/env python3
"""Prints through a CUPS server of its own, with and without the backend, and compares what the printer gets.

    tests/printers/server.py PROGRAM          as root; PROGRAM is a built pclmin

cupsd runs on loopback, out of a temporary folder: its own settings, spool and queues, and the program and the backend as
`make install install-cups` puts them there. Where a printer would be, a listener keeps what comes. Each driver has two queues,
one with the backend and one without. Each document goes through both, once plain and once two-sided in two copies. What came of
the driver RAW without the backend is then sent once more, to a raw queue with the backend.

A job holds where the printer gets what `shrink --dpi auto` writes of the job without the backend, no longer than it was, and the same
by `pclmin same --asked` at each resolution at which that is accepted; where none is, where it gets it byte for byte. A raw
job also has to be in the server's log of pages, with as many pages as `pclmin pages` finds. Each printer answers while a job
comes in, so that its own words would be found in what it got. One raw job goes to a device that is asked by SNMP too.

A long job of a driver is cancelled in three places: while a slow printer takes it, with the backend and without, and while it
still comes to the backend. The first two have to end the same, after a part of the job; the third prints nothing.

Prints of each job the queue, the document, the kind, the bytes without the backend and with it, and how they compare; then the
sums by driver, what the cancelled jobs came to, and how many jobs hold; status 1 if anything doesn't.

Needs Debian's packages cups, cups-ppdc, cups-filters, ghostscript, foomatic-db-compressed-ppds, printer-driver-gutenprint,
printer-driver-hpcups and printer-driver-hpijs.
"""
import os
import re
import socket
import subprocess
import sys
import tempfile
import threading
import time

TOP = os.path.dirname(os.path.dirname(os.path.dirname(os.path.abspath(__file__))))
# How long all jobs may take, in seconds.
PATIENCE = 900
# What a printer says of itself while a job comes in, and how often: there is room for that in the back channel, which nobody reads.
ANSWER = b"@PJL USTATUS DEVICE\r\nCODE=10001\r\nDISPLAY=\"PROCESSING JOB\"\r\nONLINE=TRUE\r\n\f"
ANSWERS = 100
# How many bytes of a job have come when it is cancelled.
START = 100000
HPCUPS = "drv:///hpcups.drv/hp-laserjet_4050_series-pcl3.ppd"
FOOMATIC = "foomatic-db-compressed-ppds:0/ppd/foomatic-ppd/"
# A queue's name, its driver as the server names it (None: RASTERTOHP), options of each of its jobs, and whether all of them
# have to be accepted.
DRIVERS = [
    ("rastertohp-300", None, ["Resolution=300dpi"], True),
    ("rastertohp-600", None, ["Resolution=600dpi"], True),
    ("gutenprint", "gutenprint.5.3://hp-lj_4_plus/expert", [], True),
    ("hpijs", "drv:///hpijs.drv/hp-laserjet_4050_series-hpijs-pcl3.ppd", [], True),
    ("hpcups-300", HPCUPS, ["OutputMode=Draft"], True),
    ("hpcups-600", HPCUPS, [], True),
    ("ljet2p", FOOMATIC + "HP-LaserJet_2P-ljet2p.ppd", [], True),
    ("ljet4", FOOMATIC + "Generic-PCL_5e_Printer-ljet4.ppd", [], True),
    ("ljet4d", FOOMATIC + "Generic-PCL_5e_Printer-ljet4d.ppd", [], True),
]
# The driver whose jobs go through a raw queue too, and that makes the jobs that are cancelled.
RAW = "ljet2p"
# A driver of CUPS's rastertohp, as ppdc takes it.
RASTERTOHP = """
#include <font.defs>
#include <media.defs>
#include <raster.defs>
#include <hp.h>
DriverType hp
Manufacturer "HP"
ModelName "LaserJet"
Version "1"
ModelNumber $HP_LASERJET
PCFileName "laserjet.ppd"
Font *
ColorDevice No
HWMargins 18 12 18 12
*MediaSize A4
MediaSize Letter
*ColorModel Gray/Grayscale w chunky 0
*Resolution k 1 0 0 0 "300dpi/300 DPI"
Resolution k 1 0 0 0 "600dpi/600 DPI"
Duplex normal
"""
KINDS = [("plain", []), ("two-sided, 2 copies", ["-n", "2", "-o", "sides=two-sided-long-edge"])]

# ---- the documents, in PostScript

PROLOGUE = """%!PS
<< /PageSize [595 842] >> setpagedevice
/words { 36 string cvs dup show pop ( prints its line of the letter and goes on to the next) show } def
/text { /Times-Roman findfont 11 scalefont setfont 0 1 3 -1 roll 1 sub { 60 780 2 index 14 mul sub moveto 17 mul words } for } def
/form { 0 1 19 { 30 mul 120 add dup 60 exch moveto 475 0 rlineto 62 exch 9 add moveto
  /Helvetica findfont 9 scalefont setfont (Amount, date, name) show } for
  60 165 535 { dup 120 moveto 690 lineto } for 0.8 setlinewidth stroke } def
/picture { gsave 60 220 translate 240 240 scale 64 64 8 [64 0 0 64 0 0]
  { 64 string 0 1 63 { 2 copy dup row mul 4 idiv 255 and put pop } for /row row 1 add def } /row 0 def image grestore } def
"""
DOCUMENTS = [
    ("text", "50 text showpage"),
    ("form", "form showpage"),
    ("picture", "picture showpage"),
    ("mixed", "20 text picture 300 300 200 1 rectfill showpage"),
    ("pages", "50 text showpage form showpage 10 text picture showpage"),
]
# Ten pages that don't get smaller, of 10 MB: more than is on its way between a driver and a printer.
NOISE = """/random 4096 string def 0 1 4095 { random exch rand 255 and put } for
10 { gsave 595 842 scale 2480 3508 1 [2480 0 0 -3508 0 3508] { random rand 3700 mod 310 getinterval } image grestore showpage } repeat"""


def make_documents(folder):
    """Writes the documents as PDF, and gives the names of the files by document."""
    files = {}
    for name, drawing in [*DOCUMENTS, ("noise", NOISE)]:
        source, files[name] = f"{folder}/{name}.ps", f"{folder}/{name}.pdf"
        with open(source, "w") as out:
            out.write(PROLOGUE + drawing + "\n")
        run("ps2pdf", source, files[name])
    return files


# ---- the printer and the server

class Printer:
    """Listens on a port of loopback, answers while a job comes in, and keeps what each connection sends, in their order."""

    def __init__(self, options="/?snmp=false"):
        self.jobs = []
        self.listener = socket.create_server(("127.0.0.1", 0), backlog=64)
        self.uri = f"socket://127.0.0.1:{self.listener.getsockname()[1]}{options}"
        threading.Thread(target=self.listen, daemon=True).start()

    def listen(self):
        while True:
            connection = self.listener.accept()[0]
            with connection:
                self.jobs.append(self.take(connection))

    def take(self, connection):
        """What comes until its end. The first answer is there before the job is."""
        job, answers = bytearray(), 0
        try:
            while True:
                if answers < ANSWERS:
                    connection.sendall(ANSWER)
                    answers += 1
                came = connection.recv(65536)
                if not came:
                    break
                job += came
                self.look(job)
        except ConnectionError:
            pass
        return bytes(job)

    def look(self, job):
        """Called with all that has come of a job."""


class SlowPrinter(Printer):
    """Takes the start of a job, and the rest once it may."""

    def __init__(self):
        super().__init__()
        self.started, self.may = threading.Event(), threading.Event()

    def look(self, job):
        if len(job) >= START:
            self.started.set()
            self.may.wait(PATIENCE)


def run(*command):
    """Runs a command; where it fails, says what it said and ends."""
    done = subprocess.run(command, stdin=subprocess.DEVNULL, stdout=subprocess.PIPE, stderr=subprocess.STDOUT, text=True)
    if done.returncode != 0:
        sys.exit(f"{' '.join(command)}: status {done.returncode}\n{done.stdout}")
    return done.stdout


def write_settings(folder, port):
    """Lays out the server's folder, with the installed program and backend."""
    for name in ["bin/backend", "spool/tmp", "cache", "state", "log"]:
        os.makedirs(f"{folder}/{name}")
    for name in ["filter", "daemon", "driver"]:
        os.symlink(f"/usr/lib/cups/{name}", f"{folder}/bin/{name}")
    run("install", "-m", "755", "/usr/lib/cups/backend/socket", f"{folder}/bin/backend/socket")
    run("chmod", "1777", f"{folder}/spool/tmp")
    run("chown", "-R", "root:lp", f"{folder}/spool", f"{folder}/cache", f"{folder}/state", f"{folder}/log")
    run("chmod", "g+rwx", f"{folder}/cache", f"{folder}/spool")
    with open(f"{folder}/cups-files.conf", "w") as out:
        out.write(f"ServerRoot {folder}\nServerBin {folder}/bin\nDataDir /usr/share/cups\nRequestRoot {folder}/spool\n"
                  f"TempDir {folder}/spool/tmp\nCacheDir {folder}/cache\nStateDir {folder}/state\nUser lp\nGroup lp\n"
                  f"SystemGroup root\nAccessLog {folder}/log/access\nErrorLog {folder}/log/error\nPageLog {folder}/log/page\n"
                  f"SetEnv PCLMIN_SECONDS {PATIENCE}\n")
    with open(f"{folder}/cupsd.conf", "w") as out:
        out.write(f"Listen 127.0.0.1:{port}\nLogLevel debug\nMaxLogSize 0\nBrowsing No\nWebInterface No\nDefaultAuthType None\n"
                  "MaxJobs 0\nPageLogFormat %p %j %P %C\n"
                  "<Location />\nAllow 127.0.0.1\n</Location>\n<Location /admin>\nAllow 127.0.0.1\n</Location>\n"
                  "<Policy default>\n<Limit All>\nOrder deny,allow\n</Limit>\n</Policy>\n")
    with open(f"{folder}/laserjet.drv", "w") as out:
        out.write(RASTERTOHP)
    run("ppdc", "-d", folder, f"{folder}/laserjet.drv")


def start_server(folder, port):
    server = subprocess.Popen(["cupsd", "-f", "-c", f"{folder}/cupsd.conf", "-s", f"{folder}/cups-files.conf"])
    for _ in range(100):
        if subprocess.run(["lpstat", "-h", f"127.0.0.1:{port}", "-r"], stdout=subprocess.PIPE).stdout.strip().endswith(b"is running"):
            return server
        time.sleep(0.1)
    server.terminate()
    sys.exit("cupsd doesn't answer")


def free_port():
    with socket.create_server(("127.0.0.1", 0)) as taken:
        return taken.getsockname()[1]


# ---- printing and comparing

def describe(folder, name, driver):
    """The PPD of a driver, as the server itself asks for it, and the name of its file. Where a driver gives none, says what it said."""
    if driver is None:
        return f"{folder}/laserjet.ppd"
    settings = dict(PATH="/usr/bin:/bin", CUPS_SERVERBIN="/usr/lib/cups", CUPS_DATADIR="/usr/share/cups", CUPS_CACHEDIR=f"{folder}/cache")
    words = ["/usr/lib/cups/daemon/cups-driverd", "cat", driver]
    done = subprocess.run(words, env=settings, stdin=subprocess.DEVNULL, capture_output=True)
    if not done.stdout.startswith(b"*PPD-Adobe"):
        sys.exit(f"{driver}: no PPD, status {done.returncode}\n{done.stderr.decode()}")
    with open(f"{folder}/{name}.ppd", "wb") as out:
        out.write(done.stdout)
    return out.name


def add_queue(at, name, ppd, device):
    run("lpadmin", "-h", at, "-p", name, "-E", "-v", device, "-P", ppd, "-o", "printer-error-policy=abort-job")


def print_all(at, queue, options, files):
    """Sends each document of each kind, in one order for every queue."""
    chosen = [word for option in options for word in ["-o", option]]
    for name, _ in DOCUMENTS:
        for _, asked in KINDS:
            run("lp", "-h", at, "-d", queue, "-t", name, "-o", "PageSize=A4", *chosen, *asked, files[name])


def print_one(at, queue, file, *options):
    """Sends a file, and gives the number of the job."""
    return re.search(r"-(\d+) ", run("lp", "-h", at, "-d", queue, *options, file)).group(1)


def print_raw(at, queue, folder, jobs):
    """Sends jobs of a driver as they are, in their order."""
    for job in jobs:
        with open(f"{folder}/raw.pcl", "wb") as out:
            out.write(job)
        run("lp", "-h", at, "-d", queue, f"{folder}/raw.pcl")


def wait_for(printers, wanted):
    """Waits until as many jobs as wanted have come to each printer, or patience ends."""
    end = time.monotonic() + PATIENCE
    while time.monotonic() < end and any(len(one.jobs) < wanted for one in printers):
        time.sleep(0.5)


def wait_for_log(folder, job, said):
    """Waits until the server's log says it of the job, and gives what the parentheses of the pattern hold."""
    end = time.monotonic() + PATIENCE
    while time.monotonic() < end:
        with open(f"{folder}/log/error") as log:
            found = re.search(rf"\[Job {job}\] {said}", log.read())
        if found:
            return found.groups()
        time.sleep(0.1)
    sys.exit(f"the server's log never says of job {job}: {said}")


def shrink(program, folder, job):
    """What `shrink` writes of a job."""
    with open(f"{folder}/whole.pcl", "wb") as out:
        out.write(job)
    run(program, "shrink", "--dpi", "auto", "-o", f"{folder}/smaller.pcl", f"{folder}/whole.pcl")
    with open(f"{folder}/smaller.pcl", "rb") as smaller:
        return smaller.read()


def judge(program, folder, without, came):
    """What became of a job: the resolution and `same`, or `unchanged`, or what is wrong; and whether it holds."""
    plain, sent, smaller = f"{folder}/without.pcl", f"{folder}/came.pcl", f"{folder}/smaller.pcl"
    for name, content in [(plain, without), (sent, came)]:
        with open(name, "wb") as out:
            out.write(content)
    shrinking = [program, "shrink", "-o", smaller, plain]
    accepting = [resolution for resolution in ("300", "600")
                 if subprocess.run([*shrinking, "--dpi", resolution], stderr=subprocess.DEVNULL).returncode == 0]
    if not accepting:
        return ("refused, unchanged", True) if came == without else ("refused, and changed", False)
    if came != shrink(program, folder, without) or len(came) > len(without):
        return "not what shrink writes", False
    for resolution in accepting:
        said = subprocess.run([program, "same", "--asked", "--dpi", resolution, plain, sent], stdout=subprocess.PIPE, text=True)
        if said.returncode != 0:
            return f"{said.stdout.strip()} at {resolution}", False
    return f"same at {' and '.join(accepting)}", True


def pages_of(program, folder, job):
    """How many pages a job prints, with their copies."""
    with open(f"{folder}/raw.pcl", "wb") as out:
        out.write(job)
    rows = [line.split("\t") for line in run(program, "pages", "--dpi", "auto", f"{folder}/raw.pcl").splitlines()[1:]]
    return sum(int(row[3]) for row in rows if row[2] != "total")


def compare_logged(program, folder, queue, jobs):
    """Says whether the server has logged as many pages of each job of a raw queue."""
    with open(f"{folder}/log/page") as log:
        logged = {int(line[1]): int(line[3]) for line in map(str.split, log) if line[0] == queue}
    came = [pages for _, pages in sorted(logged.items())]
    holds = came == [pages_of(program, folder, job) for job in jobs]
    print(f"{queue}\t{sum(came)} pages of {len(came)} jobs logged{'' if holds else ': DOES NOT HOLD'}")
    return holds


def compare_asked(program, at, folder, job):
    """Says whether a raw job comes to a device that is also asked by SNMP as `shrink` writes it."""
    printer = Printer("")
    run("lpadmin", "-h", at, "-p", "asked", "-E", "-v", "pclmin:/auto/" + printer.uri)
    print_raw(at, "asked", folder, [job])
    wait_for([printer], 1)
    holds = printer.jobs == [shrink(program, folder, job)]
    print(f"by SNMP\t{sum(map(len, printer.jobs))} bytes came{'' if holds else ': DOES NOT HOLD'}")
    return holds


def compare_cancelled(program, at, folder, ppd, file):
    """Cancels a long job of a driver in its three places, and says whether each ends as it has to."""
    whole, plain, small, early = Printer(), SlowPrinter(), SlowPrinter(), Printer()
    jobs = {}
    for name, device in [("whole", whole.uri), ("plain", plain.uri), ("small", "pclmin:/auto/" + small.uri),
                         ("early", "pclmin:/auto/" + early.uri)]:
        add_queue(at, name, ppd, device)
        jobs[name] = print_one(at, name, file, "-o", "PageSize=A4")
    wait_for_log(folder, jobs["early"], r"Started backend ")
    run("cancel", "-h", at, "early-" + jobs["early"])
    for printer in [plain, small]:
        printer.started.wait(PATIENCE)
    for name in ["plain", "small"]:
        run("cancel", "-h", at, f"{name}-{jobs[name]}")
    # by then, nothing is on its way any more
    time.sleep(1)
    for printer in [plain, small]:
        printer.may.set()
    ends = {name: wait_for_log(folder, jobs[name], r"PID \d+ \(.*/backend/\w+\) (.*)")[0] for name in jobs}
    wait_for([whole, plain, small], 1)
    smaller, came, without = shrink(program, folder, whole.jobs[0]), small.jobs[0], plain.jobs[0]
    holds = (START < len(came) < len(smaller) // 2 and smaller.startswith(came) and len(without) < len(whole.jobs[0])
             and ends["small"] == ends["plain"] and early.jobs == [])
    print(f"cancelled\t{len(without)} bytes of {len(whole.jobs[0])} came without the backend, which {ends['plain']}\n"
          f"cancelled\t{len(came)} bytes of {len(smaller)} came with it, which {ends['small']}\n"
          f"cancelled\t{sum(map(len, early.jobs))} bytes came of a job that was on its way to it, which {ends['early']}"
          f"{'' if holds else ': DOES NOT HOLD'}")
    return holds


def compare_left(folder):
    """Says whether the backend has left no folder."""
    left = [name for name in os.listdir(f"{folder}/spool/tmp") if name.startswith("pclmin.")]
    print(f"left\t{len(left)} temporary folders{': DOES NOT HOLD' if left else ''}")
    return not left


def compare(program, folder, queues):
    """Prints the tables, and gives how many jobs hold and how many there are."""
    held, sums = 0, []
    for name, without, came, accepted in queues:
        before = after = shrunk = 0
        kinds = [(document, kind) for document, _ in DOCUMENTS for kind, _ in KINDS]
        for (document, kind), one, other in zip(kinds, without.jobs, came.jobs):
            said, holds = judge(program, folder, one, other)
            holds = holds and (said.startswith("same") or not accepted)
            print(f"{name}\t{document}\t{kind}\t{len(one)}\t{len(other)}\t{said}{'' if holds else ': DOES NOT HOLD'}", flush=True)
            held, shrunk = held + holds, shrunk + (holds and said.startswith("same"))
            before, after = before + len(one), after + len(other)
        if len(without.jobs) != len(kinds) or len(came.jobs) != len(kinds):
            print(f"{name}\t{len(without.jobs)} and {len(came.jobs)} of {len(kinds)} jobs came: DOES NOT HOLD")
        sums.append(f"{name}\t{len(kinds)} jobs\t{shrunk} smaller\t{before}\t{after}")
    print("\n".join(["", *sums]))
    return held, len(queues) * len(DOCUMENTS) * len(KINDS)


def main(program):
    with tempfile.TemporaryDirectory() as folder:
        os.chmod(folder, 0o755)
        port = free_port()
        at = f"127.0.0.1:{port}"
        write_settings(folder, port)
        run("make", "-s", "-C", TOP, "install", "install-cups", f"PROGRAM={program}", f"PREFIX={folder}/usr",
            f"CUPSDIR={folder}/bin")
        ppds = {name: describe(folder, name, driver) for name, driver, _, _ in DRIVERS}
        files = make_documents(folder)
        printers = {name: (Printer(), Printer()) for name, _, _, _ in DRIVERS}
        raw, wanted = Printer(), len(DOCUMENTS) * len(KINDS)
        server = start_server(folder, port)
        try:
            for name, _, options, _ in DRIVERS:
                without, came = printers[name]
                add_queue(at, name, ppds[name], without.uri)
                add_queue(at, name + "-small", ppds[name], "pclmin:/auto/" + came.uri)
                print_all(at, name, options, files)
                print_all(at, name + "-small", options, files)
            wait_for([one for pair in printers.values() for one in pair], wanted)
            run("lpadmin", "-h", at, "-p", "raw", "-E", "-v", "pclmin:/auto/" + raw.uri)
            print_raw(at, "raw", folder, printers[RAW][0].jobs)
            wait_for([raw], wanted)
            others = [compare_asked(program, at, folder, printers[RAW][0].jobs[0]),
                      compare_cancelled(program, at, folder, ppds[RAW], files["noise"])]
        finally:
            server.terminate()
            server.wait()
        queues = [(name, *printers[name], accepted) for name, _, _, accepted in DRIVERS]
        held, jobs = compare(program, folder, [*queues, ("raw", printers[RAW][0], raw, True)])
        others += [compare_logged(program, folder, "raw", printers[RAW][0].jobs), compare_left(folder)]
    print(f"{held} of {jobs} hold")
    return 0 if held == jobs and all(others) else 1


if __name__ == "__main__":
    if len(sys.argv) != 2 or os.geteuid() != 0:
        sys.exit("usage: tests/printers/server.py PROGRAM, as root")
    sys.exit(main(os.path.realpath(sys.argv[1])))
