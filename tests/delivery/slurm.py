#!/usr/bin/env python3
"""Runs `pclmin batch` on a cluster with slurm, as docs/BATCH.md says, and looks at what it reports and leaves.

    tests/delivery/slurm.py PCLMIN

The cluster is a controller and two nodes on this machine, in a network and a space of processes of their own (unshare), which
has loopback alone, and ends with all that runs in it. Some 60 jobs are made in a temporary folder: copies of the samples, and
among them some that are refused, cut short, empty or can't be read. The block of docs/BATCH.md that uses slurm is run over them
as it stands there; with a task that is killed, and again after that; and with a task that is requeued. Each time each job has
to have one line of the joined report with its status and digests, and a file in the folder that is whole. Where a task is
killed, the names without a line have to be those that it hadn't done. The lines that bound the time of each job are run over a
few jobs and one of nested macros, with a shorter time, and so is the block with the first of them in its script. All this is
done side by side, each in a folder of its own, since `sbatch --wait` asks how its tasks are after 2, 10 and 42 seconds alone.
Prints what held; status 1 if something doesn't hold, or if slurm isn't up or not done in time.

Needs root, and Debian's packages slurm-wlm, munge, iproute2, jq and parallel.
"""
import os
import pathlib
import re
import shutil
import subprocess
import sys
import tempfile
import time
from concurrent.futures import ThreadPoolExecutor

sys.dont_write_bytecode = True
from batch import ROOT, digest, failed, holds, read_report  # noqa: E402

# In seconds: how long all may take, and slurm's start, and the bound on a job's time in place of the document's minute.
ALL, START, BOUND = 115, 25, 3
# A kind of job, how many there are, and the status of a batch for it.
KINDS = [("dot", 22, 0), ("picture", 20, 0), ("empty", 4, 0), ("slow", 1, 0), ("cut", 4, 1), ("words", 8, 1), ("missing", 2, 3)]
TOOLS = ["slurmctld", "slurmd", "sbatch", "munged", "ip", "jq", "parallel", "unshare"]
CONFIGURATION = """ClusterName=loopback
SlurmctldHost=localhost(127.0.0.1)
SlurmUser=root
SlurmdUser=root
AuthType=auth/munge
AuthInfo=socket={at}/munge.socket,cred_expire=8
StateSaveLocation={at}/state
SlurmdSpoolDir={at}/%n
SlurmctldPidFile={at}/slurmctld.pid
SlurmdPidFile={at}/%n.pid
ProctrackType=proctrack/linuxproc
TaskPlugin=task/none
JobAcctGatherType=jobacct_gather/none
AccountingStorageType=accounting_storage/none
MpiDefault=none
MailProg=/bin/true
SelectType=select/cons_tres
SelectTypeParameters=CR_CPU
SlurmdParameters=config_overrides
SchedulerParameters=batch_sched_delay=0,sched_interval=1,sched_min_interval=0
NodeName=one NodeHostname=localhost NodeAddr=127.0.0.1 Port=6821 CPUs=2
NodeName=two NodeHostname=localhost NodeAddr=127.0.0.1 Port=6822 CPUs=2
PartitionName=all Nodes=one,two Default=YES State=UP
"""


# ---- the jobs

def nested(count):
    """A job of three macros, one inside another, each of which runs what is in it so often."""
    bodies = [b"\x1b*c2400a3000b0P", b"\x1b&f1y3X", b"\x1b&f2y3X"]
    macros = b"".join(b"\x1b&f%dy0X%s\x1b&f1X" % (number, count * body) for number, body in enumerate(bodies, 1))
    return b"\x1bE" + macros + b"\x1b&f3y3X\x1bE"


def job(kind, number):
    """A job of a kind, other bytes for each number; None where it can't be read."""
    if kind == "missing":
        return None
    plain = {"empty": b"", "words": b"Dear printer, this is page 1.\r\n", "slow": nested(150)}
    sample = lambda name: (ROOT / "examples" / f"{name}.pcl").read_bytes()
    content = sample("picture")[:-200] if kind == "cut" else plain[kind] if kind in plain else sample(kind)
    return number * b"\x1bE" + content


def make_jobs(home, keeps):
    """Makes the jobs in two folders, and gives the status that each is to have. Where a batch keeps the folders, both have the
    same names."""
    wanted = {}
    for kind, count, status in KINDS:
        for number in range(count):
            name = f"jobs/{'ab'[number % 2]}/{kind} {number // 2 if keeps else number}.pcl"
            (home / name).parent.mkdir(parents=True, exist_ok=True)
            content = job(kind, number)
            if content is None:
                (home / name).symlink_to("nowhere")
            else:
                (home / name).write_bytes(content)
            wanted[name] = status
    return wanted


# ---- the cluster

def start_cluster(at, environment):
    """Starts munge, a controller and two nodes, and says whether they are up; they end with the space of processes."""
    latest = time.monotonic() + START
    for name in ["state", "one", "two"]:
        (at / name).mkdir(parents=True)
    (at / "slurm.conf").write_text(CONFIGURATION.format(at=at))
    (at / "key").write_bytes(os.urandom(64))
    (at / "key").chmod(0o600)
    # names of hosts are only looked up where there is an address other than 127.0.0.1
    for words in ["link set lo up", "addr add 127.0.0.2/8 dev lo"]:
        subprocess.run(["ip", *words.split()], check=True)
    files = [f"--{it}-file={at}/{it}" for it in ["key", "pid", "log", "seed"]]
    with open(at / "said", "wb") as said:
        for words in [["munged", "--foreground", "--force", f"--socket={at}/munge.socket", *files], ["slurmctld", "-D"],
                      ["slurmd", "-D", "-N", "one"], ["slurmd", "-D", "-N", "two"]]:
            subprocess.Popen(words, env=environment, stdin=subprocess.DEVNULL, stdout=said, stderr=said)
            while not (at / "munge.socket").exists() and time.monotonic() < latest:
                time.sleep(0.1)
    while time.monotonic() < latest:
        nodes = subprocess.run(["sinfo", "-h", "-N", "-o", "%T"], env=environment, capture_output=True, text=True)
        if nodes.stdout.split() == ["idle", "idle"]:
            return True
        time.sleep(0.5)
    return False


def why(at):
    """The last error that ended a daemon, or else the last error at all."""
    said = (at / "said").read_text(errors="replace").splitlines()
    errors = [it for it in said if "error" in it.lower()]
    return ([it for it in said if "fatal" in it] or errors or ["no daemon says why"])[-1]


# ---- batches

def documented(keeps):
    """The block of docs/BATCH.md that uses slurm, and the lines that bound the time of each job."""
    text = (ROOT / "docs" / "BATCH.md").read_text()
    text = text if keeps else text.replace(" --keep-folders", "")
    block, = [it for it in re.findall(r"^```sh\n(.*?)^```$", text, re.M | re.S) if "#SBATCH" in it]
    return block, re.findall(r"^(?:xargs|parallel) .*time.*$", text, re.M)


class Trial:
    """A folder with jobs, the status that each is to have, and what the documented block leaves there."""

    def __init__(self, home, program, environment):
        self.home, self.environment = home, environment
        self.keeps = "--keep-folders" in subprocess.run([program, "batch", "--help"], capture_output=True, text=True).stdout
        self.wanted = make_jobs(home, self.keeps)
        self.block, self.bounds = documented(self.keeps)
        self.count = int(re.search(r"--array=0-(\d+)", self.block)[1]) + 1
        self.empty()

    def start(self, block):
        return subprocess.Popen(["bash", "-c", block], cwd=self.home, env=self.environment, stdout=subprocess.PIPE,
                                stderr=subprocess.STDOUT, text=True)

    def run(self, block):
        """Runs a block, and gives what it says."""
        return self.start(block).communicate()[0]

    def empty(self):
        shutil.rmtree(self.home / "smaller", ignore_errors=True)
        (self.home / "smaller").mkdir()

    def lines(self, name):
        return (self.home / name).read_text().splitlines()

    def written(self, name):
        """The file that is written of a job."""
        return self.home / "smaller" / (name if self.keeps else pathlib.Path(name).name)

    def look(self, what, outcomes, wanted=None):
        """Looks at the joined report and the folder: each job has one row, and what is in the folder is what the row says."""
        wanted = wanted or self.wanted
        rows = read_report(self.home / "report.json", True)
        holds(f"{what}: a line for each of {len(wanted)} jobs", sorted(it[0] for it in rows) == sorted(wanted))
        holds(f"{what}: each has its status", all(status == wanted.get(name) for name, _, status, *_ in rows))
        holds(f"{what}: outcomes are {', '.join(outcomes)}", {it[1] for it in rows if it[2] == 0} == set(outcomes))
        holds(f"{what}: digests of what came and what is in the folder", all(
            digest(self.home / it[0]) == it[6] and digest(self.written(it[0])) == it[7] for it in rows))
        done = sum(not status for status in wanted.values())
        files = [it for it in (self.home / "smaller").rglob("*") if it.is_file()]
        there = [it for it in files if not re.search(r"\.(pclmin-)?part\d+$", it.name)]
        sums = subprocess.run(["find", "smaller", "-name", "*.sha256", "-execdir", "sha256sum", "-c", "--quiet", "{}", "+"],
                              cwd=self.home, capture_output=True)
        holds(f"{what}: {done} files with sums that are right, and no other", sums.returncode == 0 and len(there) == 2 * done)
        return rows

    def midway(self, process):
        """Waits until the task with the job that takes long is at it. Gives the names of the task, how many of them are done
        before, and what slurm calls it."""
        names = sorted(self.wanted)
        slow = next(name for name in names if "slow" in name)
        task = (names.index(slow) + 1) % self.count
        share = [name for number, name in enumerate(names, 1) if number % self.count == task]
        while process.poll() is None:
            for report in self.home.glob(f"reports/*-{task}.json"):
                if report.read_bytes().count(b"\n") >= share.index(slow):
                    return share, share.index(slow), report.stem.replace("-", "_")
            time.sleep(0.05)
        return share, share.index(slow), "none"


# ---- what has to hold; each gives the digest of what is written of each job

def whole(trial):
    """A batch as it stands in the document."""
    trial.run(trial.block)
    rows = trial.look("whole", ["written"])
    said = re.findall(r"pclmin: (\d+) of \d+ jobs failed", "".join(it.read_text() for it in trial.home.glob("reports/*.log")))
    bad = sum(status != 0 for status in trial.wanted.values())
    holds("whole: each task says how many failed", sum(int(it) for it in said) == bad)
    holds("whole: sbatch ends with the highest status", trial.lines("status") == [str(max(trial.wanted.values()))])
    job = next(trial.home.glob("reports/*.json")).stem.split("-")[0]
    tasks = trial.run(f"scontrol -o show job {job}")
    holds(f"whole: {trial.count} tasks, on both nodes", tasks.count("JobState=") == trial.count
          and all(f" NodeList={it} " in tasks for it in ["one", "two"]))
    holds("whole: no name is missing", trial.lines("missing") == [])
    return {it[0]: it[7] for it in rows}


def killed(trial):
    """A batch with a task that is killed, and the same again."""
    process = trial.start(trial.block)
    share, before, task = trial.midway(process)
    trial.run(f"scancel --signal=KILL {task}")
    process.communicate()
    left = share[before:]
    holds(f"killed: the {len(left)} names without a line are those that the task hadn't done", trial.lines("missing") == left)
    there = {name: digest(trial.written(name)) for name in trial.wanted if trial.written(name).exists()}
    done = {it[0] for it in read_report(trial.home / "report.json", True) if it[1] == "written"}
    trial.run(trial.block)
    rows = trial.look("again", ["written", "kept"])
    holds(f"again: the {len(done)} that were done are kept", {it[0] for it in rows if it[1] == "kept"} == done)
    holds("again: no name is missing", trial.lines("missing") == [])
    digests = {it[0]: it[7] for it in rows}
    holds("killed: what lay in the folder was whole", len(there) >= len(done) and there.items() <= digests.items())
    return digests


def requeued(trial):
    """A batch with a task that is requeued."""
    process = trial.start(trial.block)
    share, before, task = trial.midway(process)
    trial.run(f"scontrol requeue {task}")
    process.communicate()
    rows = trial.look("requeued", ["written", "kept"])
    done = [name for name in share[:before] if trial.wanted[name] == 0]
    holds(f"requeued: the {len(done)} that the task had done are kept", sorted(it[0] for it in rows if it[1] == "kept") == done)
    holds("requeued: no name is missing", trial.lines("missing") == [])
    return {it[0]: it[7] for it in rows}


def bounded(trial):
    """Batches with a bound on the time of each job, one of which takes too long."""
    missing = trial.block.splitlines()[-1]
    slow = next(name for name in trial.wanted if "slow" in name)
    (trial.home / slow).write_bytes(nested(300))
    within = {name: status for name, status in trial.wanted.items() if name != slow}
    some = {name: status for name, status in within.items() if re.search(r"[01]\.pcl$", name)}
    shorter = [line.replace("60", str(BOUND)) for line in trial.bounds]
    words = re.match("xargs.*(?=pclmin)", shorter[0])[0]
    on_slurm = re.sub("(?<=    )pclmin", lambda it: words + it[0], trial.block)
    (trial.home / "names").write_text("".join(name + "\n" for name in sorted([*some, slow])))
    runs = [(line.split()[0], f"{line}\necho $? > status\n{missing}", some) for line in shorter]
    bad = sum(status != 0 for status in some.values())
    for what, block, wanted in [*runs, ("xargs on slurm", on_slurm, within)]:
        trial.empty()
        trial.run(block)
        rows = trial.look(f"bounded by {what}", ["written"], wanted)
        status = bad + 1 if what == "parallel" else 123
        holds(f"bounded by {what}: the status is {status}", trial.lines("status") == [str(status)])
        holds(f"bounded by {what}: the name without a line is the one that takes long", trial.lines("missing") == [slow])
    return {it[0]: it[7] for it in rows}


# ---- the two sides

def inside(program, home):
    """All of it, in a network and a space of processes of its own."""
    home = pathlib.Path(home)
    (home / "bin").mkdir()
    (home / "bin" / "pclmin").symlink_to(program)
    (home / "bin" / "sbatch").write_text(f'#!/bin/sh\n{shutil.which("sbatch")} "$@"\necho $? > status\n')
    (home / "bin" / "sbatch").chmod(0o755)
    environment = {name: value for name, value in os.environ.items() if not name.startswith(("SLURM", "SBATCH"))}
    environment |= {"PATH": f"{home}/bin:{os.environ['PATH']}", "SLURM_CONF": f"{home}/slurm/slurm.conf", "LC_ALL": "C",
                    "PARALLEL_HOME": f"{home}/bin"}
    begun = time.monotonic()
    is_up = start_cluster(home / "slurm", environment)
    holds("slurm is up with two nodes", is_up)
    if not is_up:
        print(why(home / "slurm"))
        return 1
    trials = [whole, killed, requeued, bounded]
    with ThreadPoolExecutor(len(trials)) as pool:
        first, *others = pool.map(lambda it: it(Trial(home / it.__name__, program, environment)), trials)
    holds("what is written is the same each time", all(it.items() <= first.items() for it in others))
    print(f"all hold, in {time.monotonic() - begun:.0f} seconds" if not failed else f"{len(failed)} don't hold")
    return 1 if failed else 0


def main(program):
    os.environ["PATH"] += ":/usr/sbin:/sbin"
    absent = [it for it in TOOLS if not shutil.which(it)]
    holds("it has all that it needs" + (f", but for {', '.join(absent)}" if absent else ""), not absent)
    if absent:
        return 1
    with tempfile.TemporaryDirectory() as home:
        words = ["unshare", "--net", "--pid", "--fork", "--kill-child", "--mount-proc", sys.executable, __file__, "--inside"]
        try:
            return subprocess.run([*words, os.path.realpath(program), home], timeout=ALL).returncode
        except subprocess.TimeoutExpired:
            holds(f"it ends within {ALL} seconds", False)
            return 1


if __name__ == "__main__":
    if len(sys.argv) == 4 and sys.argv[1] == "--inside":
        sys.exit(inside(*sys.argv[2:]))
    if len(sys.argv) != 2:
        sys.exit("usage: tests/delivery/slurm.py PCLMIN")
    sys.exit(main(sys.argv[1]))
