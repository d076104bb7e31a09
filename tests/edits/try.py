#!/usr/bin/env python3
"""Tries the wrong edits: each is made in a copy of its crate, and the prover has to refuse that.

    tests/edits/try.py [CRATE..]        all crates that have edits where none is given
    tests/edits/try.py --waiting        those whose edits weren't tried on what stands here
    tests/edits/try.py --check          tells that each crate's edits were tried as it is, and tries none

Edits stand in tests/edits/CRATE, and those few that the gate tries in crates/CRATE/must-fail. Where all edits of a crate are refused its
line is written into tests/edits/tried: the kit, a sum of its code, definitions, proofs and edits, and one of the definitions and contracts
of all crates below it. Where one isn't, or the crate isn't proved without edits, its line goes, and the status is 1.

`--check` ends with status 1 where a crate isn't as its line says, where an edit no longer fits its file, or where a line has no edits. Of
crates whose own line holds, and of which something below, or the kit, has changed since, it says how many wait.

The crates below are built first (tools/build.py). LANES bounds how many processors are taken.
"""

import concurrent.futures
import fcntl
import hashlib
import importlib.machinery
import importlib.util
import pathlib
import re
import shutil
import sys
import tempfile
import threading

HERE = pathlib.Path(__file__).resolve().parent
sys.dont_write_bytecode = True
sys.path.insert(0, str(HERE.parent.parent / "tools"))
import build
from crates import KIT, crates, files_in

TRIED = HERE / "tried"
HEAD = """# Written by tests/edits/try.py, not by hand: of each crate the kit, a sum of its code, definitions, proofs and edits, and one of the
# definitions and contracts of all crates below it, as they were when the prover refused all its edits.
"""
SECONDS_OF_EDIT = 20  # about what a check of an edit takes
KEYWORD = re.compile(r"(?:pub(?:\(\w+\))? )?(?:const |unsafe |extern \"C\" )*fn \w")


class Kit:
    """What the kit's command does, as its own `rt must-fail` calls it."""

    def __init__(self):
        loader = importlib.machinery.SourceFileLoader("rt", str(KIT / "bin" / "rt"))
        self.rt = importlib.util.module_from_spec(importlib.util.spec_from_loader("rt", loader))
        loader.exec_module(self.rt)
        self.rt.rtlib.guarded()  # sets a signal's handler, which only the main thread may


def kit_name():
    """The kit's version and its logic, as one word."""
    return "/".join((KIT / "KIT-ID").read_text().split()[::2])


class Tried:
    """A crate as the kit's command takes it."""

    def __init__(self, crate):
        self.crate, self.name, self.folder = crate, crate.name, str(crate.folder)

    def words(self, flags, keeps):
        return [*map(str, self.crate.words(1)), *flags]


def edits_of(crate):
    """The edits of a crate, by their names."""
    return sorted([*(HERE / crate.name).glob("*.edit"), *(crate.folder / "must-fail").glob("*.edit")], key=lambda it: it.name)


def code(text):
    """The lines of a file that aren't comments alone."""
    return [it for it in text.splitlines() if it.strip() and not it.lstrip().startswith(("//", "--"))]


def contracts(text):
    """The lines of a file of code without the bodies of its functions: what they promise, and the types."""
    kept, end = [], None
    for line in code(text):
        indent = line[: len(line) - len(line.lstrip())]
        if end is not None:
            end = None if line == end else end
            continue
        kept.append(line)
        begins = KEYWORD.match(line.lstrip()) or line == f"{indent}{{" or line.startswith(f"{indent})")
        if begins and line.endswith("{") and not line.lstrip().startswith(("impl", "trait")):
            end = f"{indent}}}"
    return kept


def sum_of(texts):
    """A short sum of texts, each with its name."""
    total = hashlib.sha256()
    for name, lines in texts:
        total.update("\n".join([str(name), *lines, ""]).encode())
    return total.hexdigest()[:24]


def own_sum(crate):
    """A sum of what a crate is made of, and of its edits."""
    parts = [it for part in ("src", "specs", "proofs") for it in files_in(crate.folder / part)]
    texts = [(it.relative_to(crate.folder), code(it.read_text())) for it in parts]
    return sum_of([("crates.txt", [crate.line]), *texts, *((it.name, it.read_text().splitlines()) for it in edits_of(crate))])


def below_sum(crate):
    """A sum of what the crates below promise."""
    texts = []
    for it in sorted(crate.below, key=lambda it: it.name):
        texts += [(f"{it.name}/{file.name}", contracts(file.read_text())) for file in files_in(it.folder / "src")]
        specs = [file for file in files_in(it.folder / "specs") if "inner" not in file.relative_to(it.folder).parts]
        texts += [(f"{it.name}/{file.name}", code(file.read_text())) for file in specs]
    return sum_of(texts)


def lines():
    """The lines of the file of what was tried, by their crates."""
    if not TRIED.is_file():
        return {}
    return {line.split()[0]: line for line in TRIED.read_text().splitlines() if line and not line.startswith("#")}


def line_of(crate):
    """What the line of a crate has where its edits are tried on what stands here."""
    return f"{crate.name} {kit_name()} {own_sum(crate)} {below_sum(crate)}"


def write_line(name, line):
    """Puts a crate's line, or none, where it was. Of two runs one waits for the other."""
    with open(__file__, "rb") as held:
        fcntl.flock(held, fcntl.LOCK_EX)
        kept = {**lines(), name: line}
        TRIED.write_text(HEAD + "".join(f"{kept[it]}\n" for it in sorted(kept) if kept[it]))


def try_group(kit, crate, edits, kept):
    """Tries edits in turn, each over what the checks before it proved; those that aren't refused so, and all where the crate isn't proved
    over that, once more from nothing, as the kit's command does."""
    found = [kit.rt.must_fail(crate, str(it), [], str(kept)) for it in edits]
    is_sound = not kit.rt.checked(crate, {}, [], str(kept)).returncode
    return [it if is_sound and it[0] else kit.rt.must_fail(crate, str(edit), []) for edit, it in zip(edits, found)]


def try_crate(kit, crate, groups):
    """Whether a crate is proved and all its edits are refused, and what to say of each."""
    taken, edits = Tried(crate), edits_of(crate)
    with tempfile.TemporaryDirectory(prefix="pclmin-edits-") as folder:
        rooms = [pathlib.Path(folder) / str(at) for at in range(min(groups, len(edits)))]
        rooms[0].mkdir()
        proved = kit.rt.checked(taken, {}, [], str(rooms[0]))
        if proved.returncode:
            return False, [f"{crate.name} isn't proved without its edits: {proved.stdout[-900:]}"]
        for it in rooms[1:]:
            shutil.copytree(rooms[0], it)
        with concurrent.futures.ThreadPoolExecutor(len(rooms)) as pool:
            tried = pool.map(lambda at: try_group(kit, taken, edits[at :: len(rooms)], rooms[at]), range(len(rooms)))
            found = [it for group in tried for it in group]
    return all(refused for refused, _ in found), [text for _, text in found]


def try_all(named):
    """Tries the edits of crates; the status is 1 where one isn't refused."""
    below = dict.fromkeys(it for crate in named for it in crate.below)
    if build.build([*below]):
        return 1
    kit, writing, failed = Kit(), threading.Lock(), []
    lanes = build.processors()
    named = sorted(named, key=lambda it: -it.work - SECONDS_OF_EDIT * len(edits_of(it)))

    def work(crate):
        before = line_of(crate)
        is_well, texts = try_crate(kit, crate, max(1, lanes // len(named)))
        with writing:
            print("\n".join(texts), flush=True)
            is_same = before == line_of(crate)
            write_line(crate.name, before if is_well and is_same else None)
            said = "all refused" if is_well and is_same else "all refused, and changed meanwhile" if is_well else "NOT ALL REFUSED"
            print(f"{crate.name}: {len(texts)} edits, {said}", flush=True)
            failed.extend([] if is_well and is_same else [crate.name])

    with concurrent.futures.ThreadPoolExecutor(lanes) as pool:
        list(pool.map(work, named))
    if failed:
        print(f"FAILED: {' '.join(sorted(failed))}")
    return 1 if failed else 0


def misfits(kit, crate):
    """The edits of a crate that no longer fit it, and why: a text that they replace has to stand in its file once."""
    for edit in edits_of(crate):
        why = kit.rt.read_edit(str(edit), str(crate.folder))[1]
        if why:
            yield f"{crate.name}/{edit.name} can't be tried: {why}"


def states(known):
    """The crates with edits that changed since these were tried, and those that wait for what is below."""
    found, changed, waiting = lines(), [], []
    for crate in [it for it in known.values() if edits_of(it)]:
        line = found.get(crate.name, "").split()
        if len(line) != 4 or line[2] != own_sum(crate):
            changed.append(crate)
        elif line != line_of(crate).split():
            waiting.append(crate)
    return changed, waiting


def check(known):
    """Tells what wasn't tried; the status is 1 where a crate's own line doesn't hold."""
    kit, (changed, waiting) = Kit(), states(known)
    faults = [f"{it.name} has changed since its edits were tried, or they never were: make test-edits {it.name}" for it in changed]
    faults += [f"tests/edits/tried has a line of {it}, which has no edits" for it in sorted(lines().keys())
               if it not in known or not edits_of(known[it])]
    faults += [fault for it in known.values() for fault in misfits(kit, it)]
    for it in faults:
        print(it, file=sys.stderr)
    count = sum(len(edits_of(it)) for it in known.values())
    print(f"{count} edits; {len(waiting)} crates wait, of which something below changed since theirs were tried"
          + "".join(f" {it.name}" for it in waiting))
    return 1 if faults else 0


def main(words):
    known = crates()
    if words == ["--check"]:
        return check(known)
    if words == ["--waiting"]:
        named = [it for group in states(known) for it in group]
    else:
        for name in words:
            if name not in known or not edits_of(known[name]):
                sys.exit(f"try.py: {name} is no crate with edits")
        named = [it for it in known.values() if edits_of(it) and (it.name in words or not words)]
    return try_all(named) if named else 0


if __name__ == "__main__":
    sys.exit(main(sys.argv[1:]))
