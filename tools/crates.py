"""The crates of crates.txt: what each is made of, how the kit proves and builds it, and what is kept of that.

What is proved is kept outside of this clone, in the folder CACHE, since the gate reads every folder of a clone and takes none of its own
making: in `pclmin/` and the clone's name and place below XDG_CACHE_HOME (~/.cache), or in PCLMIN_CACHE. Programs and static libraries are
left in build/.
"""

import functools
import hashlib
import os
import pathlib
import shutil
import subprocess
import sys

ROOT = pathlib.Path(__file__).resolve().parent.parent
BUILD = ROOT / "build"
if subprocess.run([ROOT / "tools" / "kit.sh"], check=False).returncode:
    sys.exit(1)
KIT = pathlib.Path(subprocess.run(["rt", "doc"], stdout=subprocess.PIPE, text=True, check=True).stdout.strip()).parent
RATTLE = KIT / "bin" / "rattle"
READING = 10  # seconds that a check reads before it proves anything


def cache():
    """Where what is proved of this clone is kept."""
    if given := os.environ.get("PCLMIN_CACHE"):
        return pathlib.Path(given).resolve()
    home = os.environ.get("XDG_CACHE_HOME") or pathlib.Path.home() / ".cache"
    place = hashlib.sha256(bytes(ROOT)).hexdigest()[:12]
    return pathlib.Path(home) / "pclmin" / f"{ROOT.name}-{place}"


CACHE = cache()


def files_in(folder):
    """All files below a folder, in one order."""
    return sorted(it for it in folder.rglob("*") if it.is_file())


def sum_of(place):
    """A sum of a file, or of all files below a folder and their names."""
    total = hashlib.sha256()
    for file in files_in(place) if place.is_dir() else [place]:
        total.update(f"{file.relative_to(place.parent)}\n{file.stat().st_size}\n".encode() + file.read_bytes())
    return total.hexdigest()


class Crate:
    """A line of crates.txt: a name, whether it is a static library, and which libraries it names, of the repository and of the kit; or
    the tests of that crate, which are a program of their own."""

    def __init__(self, line, crates, of_tests=False):
        head, _, uses = line.partition(":")
        self.line, self.of_tests = line, of_tests
        self.crate, *self.kind = head.split()
        self.name = f"{self.crate}_tests" if of_tests else self.crate
        self.uses = [crates[it] for it in uses.split() if it in crates]
        self.of_kit = ["std", *(it for it in uses.split() if it not in crates)]
        self.folder = ROOT / "crates" / self.crate
        self.has_main = (self.folder / "src" / "main.rt").is_file()
        self.is_program = self.has_main or of_tests

    @functools.cached_property
    def below(self):
        """The crates that it stands on, lowest first."""
        found = dict.fromkeys(it for use in self.uses for it in [*use.below, use])
        return list(found)

    @functools.cached_property
    def sources(self):
        """The texts of its code."""
        return [it.read_text() for it in files_in(self.folder / "src")]

    @property
    def has_tests(self):
        return any("#[test]" in it for it in self.sources)

    @functools.cached_property
    def work(self):
        """About how many seconds its proofs take: one a function, one for each contract, and one for each `?`, a way out where all is
        dropped that is alive there. Lines of proof say little."""
        return READING + sum(text.count(word) for text in self.sources for word in ("fn ", "ensures", "?"))

    @functools.cached_property
    def stamp(self):
        """A sum of all that it is made of: its files, those of the crates below, the kit, and the words that the kit is given."""
        words = " ".join(map(str, self.command(1))).replace(str(KIT), "KIT").replace(str(CACHE), "CACHE").replace(str(ROOT), "ROOT")
        total = hashlib.sha256(f"{self.line}\n{words}\n".encode() + (KIT / "WHAT").read_bytes())
        for part in ("src", "specs", "proofs"):
            if (self.folder / part).is_dir():
                total.update(sum_of(self.folder / part).encode())
        for it in self.uses:
            total.update(it.stamp.encode())
        return total.hexdigest()

    @property
    def made(self):
        """What its build leaves: the tests of a crate are kept with the libraries."""
        if self.is_program:
            return (CACHE if self.of_tests else BUILD) / self.name
        return BUILD / f"lib{self.name}.a" if self.kind else CACHE / f"{self.name}.rlib"

    @property
    def stamp_file(self):
        return CACHE / f"{self.name}.stamp"

    @property
    def object_file(self):
        return CACHE / f"{self.name}.o"

    @property
    def log(self):
        return CACHE / f"{self.name}.log"

    @functools.cached_property
    def result(self):
        """A sum of what was made, or None where nothing was."""
        return sum_of(self.made) if self.made.exists() else None

    def kept_stamp(self):
        """What the stamp file has where it is kept: of what it was made, over what, and what was made."""
        over = hashlib.sha256(" ".join(str(it.result) for it in self.uses).encode()).hexdigest()
        return f"made of {self.stamp}\nover {over}\nis {self.result}\n"

    def is_kept(self):
        """Whether what was made is there, as it was made, of what stands here and over what is kept of the crates below."""
        return self.result is not None and self.stamp_file.is_file() and self.stamp_file.read_text() == self.kept_stamp()

    def look_again(self):
        """Forgets what was seen of what was made: another run may make it anew."""
        vars(self).pop("result", None)

    def keep(self):
        """Notes what was made."""
        self.look_again()
        self.stamp_file.write_text(self.kept_stamp())

    def forget(self):
        """Makes room for what will be made. A program stays until another takes its place."""
        self.look_again()
        self.stamp_file.unlink(missing_ok=True)
        if self.made.is_dir():
            shutil.rmtree(self.made)
        self.made.parent.mkdir(parents=True, exist_ok=True)

    def words(self, jobs):
        """What the kit has to know to prove it."""
        words = ["--crate-name", self.crate, "src/main.rt" if self.has_main else "src/lib.rt"]
        words += [word for it in self.of_kit for word in ("--extern", f"{it}={KIT}/rlibs/{it}.rlib")]
        words += [word for it in self.uses for word in ("--extern", f"{it.name}={it.made}")]
        words += ["-L", f"dependency={KIT}/rlibs", "-L", f"dependency={CACHE}"]
        words += ["--antt-project", KIT / "rattle/logic/antt-project.json", "--logic-built", KIT / "logic_built"]
        words += ["--links", f"{self.crate}=", "--jobs", str(jobs)]
        if self.of_tests:
            return [*words, "--test"]
        return [*words, "--crate-type", *self.kind] if self.kind else words

    def check(self, flags):
        """How the kit proves it over what earlier checks kept, and builds nothing."""
        return [RATTLE, "check", *self.words(1), "--incremental", CACHE / f"{self.name}.kept", "--progress", *flags]

    def command(self, jobs):
        """How the kit proves it from nothing and builds it."""
        words = [RATTLE, "build", *self.words(jobs)]
        if self.is_program:
            return [*words, "--toolchain", KIT / "toolchain", "-o", self.object_file]
        if self.kind:
            return [*words, "--toolchain", KIT / "toolchain", "-o", self.made]
        return [*words, "--statements", "-o", self.made]

    def link(self, log):
        """Makes the program of its object file; whether that was done."""
        self.made.unlink(missing_ok=True)
        words = [KIT / "bin" / "rattle-link", "--target", "x86_64-unknown-linux-gnu", "--toolchain", KIT / "toolchain"]
        words += ["-o", self.made, self.object_file, KIT / "c/libos_c.a", KIT / "c/liblibc_c.a"]
        return subprocess.run(words, stdout=log, stderr=subprocess.STDOUT, check=False).returncode == 0


def crates():
    """The crates of crates.txt by their names, each after those that it stands on."""
    lines = [it for it in (ROOT / "crates.txt").read_text().splitlines() if it and not it.startswith("#")]
    lines = {it.partition(":")[0].split()[0]: it for it in lines}
    found = {}

    def add(name):
        for it in lines[name].partition(":")[2].split():
            if it in lines and it not in found:
                add(it)
        found[name] = Crate(lines[name], found)

    for name in lines:
        if name not in found:
            add(name)
    return found


def tests(all_crates):
    """The tests of crates, of those that have any."""
    return [Crate(it.line, all_crates, of_tests=True) for it in all_crates.values() if it.has_tests]
