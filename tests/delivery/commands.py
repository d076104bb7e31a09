#!/usr/bin/env python3
"""Does README's commands in order, as its first block prints them, in a clone of what stands here that has a few small crates in place
of all; then what a user or a contributor does next. Prints a line for each thing that has to hold, and ends with status 1 where one doesn't.

    tests/delivery/commands.py

It takes two or three minutes. What is kept goes to a folder of its own. Needs `rt`, Python 3, make and git.
"""

import hashlib
import os
import pathlib
import re
import shutil
import subprocess
import sys
import tempfile

ROOT = pathlib.Path(__file__).resolve().parent.parent.parent
CRATES = {
    "crates.txt": "small:\npclmin: small\n",
    "crates/small/src/lib.rt": """//! A small library.
#![tactic(auto)]

ghost use Rattle.std.specs.Prelude.{◌≡◌};
ghost use Rattle.small.specs.Small.{small_of};

/// What a small number is.
pub fn small(number: usize) -> usize
    ensures { result ≡ small_of number }
{
    number
}

#[cfg(test)]
mod tests {
    use super::*;
    use std::test::Fail;

    #[test]
    fn seven_is_seven(rt: HostRuntime) -> Result<(), Fail> {
        assert_eq!(rt; small(7), 7);
        Ok(())
    }
}
""",
    "tests/edits/small/small.one_more.edit": "file: src/lib.rt\nold:     number\nnew:     number.wrapping_add(1)\n",
    "crates/small/specs/Lib.antt": "pub mod Small\n",
    "crates/small/specs/Small.antt": """use Rattle.std.specs.Prelude.{ℕ}

-- what a small number is
abbrev pub small_of : ℕ → ℕ
small_of number = number
""",
    "crates/pclmin/stdout": "7\n",
    "crates/pclmin/src/main.rt": """//! A small program.
#![tactic(auto)]

use small::small;
use std::io;

fn main(rt: HostRuntime) -> io::Result<()> {
    println!(rt; "{}", small(7))
}
""",
}
NO_EDIT = "file: src/lib.rt\nold: /// What a small number is.\nnew: /// What any number is.\n"
faults = []


def says(holds, what, text=""):
    """Prints whether something holds, and where it doesn't the end of what a command printed."""
    print(f"{'ok' if holds else 'FAULT'}: {what}", flush=True)
    if not holds:
        faults.append(what)
        print("\n".join(f"    {line}" for line in text.splitlines()[-20:]), flush=True)


def write(folder, files):
    for name, text in files.items():
        file = folder / name
        file.parent.mkdir(parents=True, exist_ok=True)
        file.write_text(text)


def clone(folder):
    """A clone of what stands here, with small crates."""
    listed = subprocess.run(["git", "ls-files", "-co", "--exclude-standard", "-z"], cwd=ROOT, stdout=subprocess.PIPE, text=True, check=True)
    for name in filter(None, listed.stdout.split("\0")):
        if not name.startswith(("crates", "tests/edits/pcl_", "tests/edits/glyph_", "tests/edits/tried")) and (ROOT / name).is_file():
            (folder / name).parent.mkdir(parents=True, exist_ok=True)
            shutil.copy2(ROOT / name, folder / name)
    write(folder, CRATES)
    subprocess.run(["git", "init", "-q"], cwd=folder, check=True)
    return folder


class Clone:
    """A clone, and a folder where what is proved of it is kept."""

    def __init__(self, room, name):
        self.folder, self.home = clone(room / name), room / f"{name}-cache"
        self.environment = {**os.environ, "XDG_CACHE_HOME": str(self.home), "TMPDIR": str(room)}
        self.environment.pop("PCLMIN_CACHE", None)

    def run(self, *words, **more):
        """The status of a command and what it prints."""
        run = subprocess.run(words, cwd=self.folder, env={**self.environment, **more}, stdin=subprocess.DEVNULL, stdout=subprocess.PIPE,
                             stderr=subprocess.STDOUT, text=True, errors="replace", check=False)
        return run.returncode, run.stdout

    def kept(self, name):
        """What is kept under a name."""
        return next(self.home.glob(f"pclmin/*/{name}"))

    def program(self):
        """A sum of the program, None where there is none."""
        file = self.folder / "build" / "pclmin"
        return hashlib.sha256(file.read_bytes()).hexdigest() if file.is_file() else None


def proved(text):
    """What was proved and built, by what a command printed."""
    return set(re.findall(r"^(\w+) is proved and built", text, re.M))


def passes(result):
    """Whether a test command passed, as its last line says."""
    status, text = result
    return status == 0 and bool(re.search(r"^[1-9]\d* passed, 0 failed$", text, re.M))


def try_commands(room):
    """README's commands, and those that come next."""
    here = Clone(room, "clone")
    block = re.search(r"^## Quick start\n.*?^```sh\n(.*?)^```", (ROOT / "README.md").read_text(), re.M | re.S)[1].splitlines()
    says(block == ["make build", "make test"], f"README's first block is two commands: {'; '.join(block)}")
    status, text = here.run(*block[0].split())
    says(status == 0 and proved(text) == {"small", "pclmin"}, "the first proves what the program stands on", text)
    says((here.folder / "build/sample.pbm").is_file() and here.program(), "it leaves the program and a preview")
    program = here.program()
    result = here.run(*block[1].split())
    says(passes(result), "the second passes", result[1])
    says(proved(result[1]) == {"small_tests"}, "it proves only what the first hadn't", result[1])
    says(here.program() == program, "the program is still there")
    status, text = here.run("make", "install", f"DESTDIR={room}/root")
    installed = room / "root/usr/local/bin/pclmin"
    says(status == 0 and not proved(text) and hashlib.sha256(installed.read_bytes()).hexdigest() == program,
         "make install puts it in place", text)
    result = here.run("make", "test")
    says(passes(result) and not proved(result[1]), "a second make test proves nothing and passes", result[1])
    return here


def try_what_is_kept(here):
    """What is kept is taken where it is as it was made, of what stands in the clone, by this kit."""
    program = here.program()
    file = next(it for it in here.kept("small.rlib").rglob("*") if it.is_file())
    file.write_bytes(file.read_bytes() + b" ")
    result = here.run("make", "test")
    says(passes(result) and "small" in proved(result[1]), "a kept file that was changed is made again", result[1])
    with open(here.folder / "build/pclmin", "ab") as file:
        file.write(b" ")
    result = here.run("make", "test")
    says(passes(result) and proved(result[1]) == {"pclmin"} and here.program() == program, "so is a program that was changed", result[1])
    source = here.folder / "crates/small/src/lib.rt"
    source.write_text(source.read_text().replace("A small library", "A Small library"))
    result = here.run("make", "test")
    says(passes(result) and {"small", "small_tests", "pclmin"} <= proved(result[1]), "a byte of a source is seen", result[1])
    source.write_text(source.read_text().replace("    number\n", "    7\n"))
    result = here.run("make", "test")
    says(result[0] != 0 and "small isn't built" in result[1] and "0 failed" not in result[1], "a crate that isn't proved fails", result[1])
    source.write_text(source.read_text().replace("    7\n", "    number\n"))
    (here.folder / "crates/pclmin/stdout").write_text("8\n")
    result = here.run("make", "test")
    says(result[0] != 0 and "pclmin FAILED" in result[1], "a table that isn't met fails", result[1])
    (here.folder / "crates/pclmin/stdout").write_text("7\n")


def try_another_kit(here, room):
    """A kit that is another by its own word proves everything again."""
    kit = pathlib.Path(subprocess.run(["rt", "doc"], stdout=subprocess.PIPE, text=True, check=True).stdout.strip()).parent
    other = room / "other-kit"
    other.mkdir()
    for it in kit.iterdir():
        (other / it.name).symlink_to(it)
    (other / "WHAT").unlink()
    (other / "WHAT").write_bytes((kit / "WHAT").read_bytes() + b"another\n")
    write(room, {"path/rt": f'#!/bin/sh\n[ "$1" = doc ] && echo "{other}/START-HERE.md" && exit\nexec "{kit}/bin/rt" "$@"\n'})
    (room / "path/rt").chmod(0o755)
    result = here.run("make", "test", PATH=f"{room}/path:{os.environ['PATH']}")
    says(passes(result) and {"small", "pclmin", "small_tests"} == proved(result[1]), "another kit proves everything again", result[1])


def try_without_kit(here, room):
    """Without the kit make says what it is."""
    (room / "bare").mkdir()
    for name in ("sh", "make", "grep", "sed", "tr", "dirname", "env", "python3"):
        (room / "bare" / name).symlink_to(shutil.which(name))
    for goal in ("build", "test", "demo"):
        status, text = here.run("make", goal, PATH=str(room / "bare"))
        lines = [it for it in text.splitlines() if not it.startswith("make: ")]
        says(status != 0 and len(lines) == 2 and "x86-64" in text, f"without rt, make {goal} says in two lines what it is", text)


def try_gate(here, room):
    """The whole gate where nothing is kept, beside what a build left: it leaves the program."""
    here.run("make", "test")
    program = here.program()
    result = here.run("make", "test", PCLMIN_CACHE=str(room / "empty"))
    says(passes(result) and "rt: ok" in result[1] and not proved(result[1]), "where nothing is kept make test is the kit's gate", result[1])
    says(here.program() == program, "it leaves the program")
    result = here.run("make", "test")
    says(passes(result) and not proved(result[1]), "after it make test proves nothing and passes", result[1])


def try_edits(here):
    """A crate's line stands where its edits were refused as it is."""
    tried, check = here.folder / "tests/edits/tried", ("tests/edits/try.py", "--check")
    status, text = here.run(*check)
    says(status == 1 and "make test-edits small" in text, "a crate whose edits weren't tried is told, with the line to type", text)
    status, text = here.run("make", "test-edits", "small")
    says(status == 0 and here.run(*check)[0] == 0, "make test-edits small notes that they are refused", text)
    line = tried.read_text()
    tried.write_text(re.sub(r"^(small \S+) \S+", r"\1 " + "0" * 24, line, flags=re.M))
    says(here.run(*check)[0] == 1, "a line written by hand is seen")
    tried.write_text(line)
    write(here.folder, {"tests/edits/small/small.nothing.edit": NO_EDIT})
    says(here.run(*check)[0] == 1, "an edit that wasn't tried is seen")
    status, text = here.run("make", "test-edits", "small")
    says(status != 0 and "NOT REFUSED" in text and "\nsmall " not in tried.read_text(),
         "an edit that proves fails, and takes the line", text)
    (here.folder / "tests/edits/small/small.nothing.edit").unlink()
    tried.write_text(line)
    says(here.run(*check)[0] == 0, "without it the line holds")
    (here.folder / "tests/edits/small/small.one_more.edit").unlink()
    says(here.run(*check)[0] == 1, "an edit taken away without its line is seen")
    write(here.folder, {"tests/edits/pclmin/main.eight.edit": "file: src/main.rt\nold: small(7)\nnew: small(8)\n"})
    says("make test-edits pclmin" in here.run(*check)[1], "so is a crate with its first edit")


def main():
    with tempfile.TemporaryDirectory(prefix="pclmin-commands-") as folder:
        room = pathlib.Path(folder)
        room.chmod(0o755)  # tests run as nobody where this is root
        here = try_commands(room)
        try_what_is_kept(here)
        try_another_kit(here, room)
        try_without_kit(here, room)
        try_gate(here, room)
        try_edits(here)
        status, text = here.run("make", "clean")
        says(status == 0 and not list(here.home.glob("pclmin/*")) and not here.program(), "make clean removes what is kept and built", text)
    print(f"{len(faults)} faults")
    return 1 if faults else 0


if __name__ == "__main__":
    sys.exit(main())
