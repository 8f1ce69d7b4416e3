"""What wrong_bodies.py --all last tried of each crate, and which edits are tried where nothing has changed since."""

import datetime
import functools
import hashlib
import os
import subprocess

import kit

FOLDER = "scripts/gate/wrong-bodies"
RECORD = f"{FOLDER}/record"
HEAD = "# Only scripts/gate/wrong_bodies.py --all writes this: crate, sum, date, toolchain.\n"
# One edit of so many is tried where nothing has changed.
SHARE = 8


def lines_of(path):
    """Returns the lines of a file, if it is there, without its comments."""
    if not os.path.isfile(path):
        return []
    with open(path, encoding="utf-8") as it:
        return [line for line in it.read().splitlines() if line and not line.startswith("#")]


def listed():
    """Returns the names of the edits that every run tries."""
    return lines_of(f"{FOLDER}/always")


def commit():
    """Returns the commit that is checked out, or None."""
    ran = subprocess.run(["git", "rev-parse", "--verify", "-q", "HEAD"], capture_output=True, text=True)
    return ran.stdout.strip() or None if ran.returncode == 0 else None


def edits_of(crate):
    """Returns the names of a crate's edits."""
    folder = f"{crate.folder}/wrong"
    return sorted(it for it in os.listdir(folder) if it[0] != ".") if os.path.isdir(folder) else []


def add_files(total, folder, files):
    """Adds files to a sum, with their paths in a folder."""
    for file in files:
        with open(file, "rb") as it:
            total.update(repr((os.path.relpath(file, folder), it.read())).encode())


class Record:
    """The lines of the record. A sum is over all that a crate's edits are judged by, and over the line's own date and toolchain, so that
    neither can be changed alone."""

    def __init__(self, files_of):
        self.files_of, self.toolchain, self.lines = files_of, kit.identity(), lines_of(RECORD)
        self.sources = functools.lru_cache(maxsize=None)(self.sources)

    def sources(self, crate):
        """Returns a sum of a crate's line in crates.txt, sources, definitions and proofs."""
        total = hashlib.sha256(repr(crate.said).encode())
        add_files(total, crate.folder, self.files_of(crate.folder))
        return total.hexdigest()

    def sum_of(self, crate, date, toolchain):
        total = hashlib.sha256(repr((date, toolchain, [(it.name, self.sources(it)) for it in [*crate.below(), crate]])).encode())
        add_files(total, crate.folder, [f"{crate.folder}/wrong/{it}" for it in edits_of(crate)])
        return total.hexdigest()[:32]

    def line(self, crate):
        """Returns the line of a crate whose edits are all tried today."""
        today = datetime.date.today().isoformat()
        return f"{crate.name} {self.sum_of(crate, today, self.toolchain)} {today} {self.toolchain}"

    def why_whole(self, crate):
        """Says why all edits of a crate must be tried, if they must."""
        found = [it.split(" ", 3) for it in self.lines if it.split(" ")[0] == crate.name]
        if not found:
            return "it is not in the record"
        if len(found) > 1 or len(found[0]) != 4:
            return "the record has no single line of four words for it"
        _, total, date, toolchain = found[0]
        if toolchain != self.toolchain:
            return "the record is of another toolchain"
        return None if total == self.sum_of(crate, date, toolchain) else "it or a library below is not what the record is of"

    def choose(self, crate):
        """Returns which edits of a crate are tried, and why these: all, or those that the commit chooses and those that are listed."""
        names, head = edits_of(crate), commit()
        why = self.why_whole(crate) or (None if head else "no commit is there to choose by")
        if why:
            return names, f"all, since {why}"
        order = sorted(names, key=lambda it: hashlib.sha256(f"{head} {crate.name}/{it}".encode()).digest())
        some = {*order[: -(-len(names) // SHARE)]} | {f"{it}.edit" for it in listed()}
        return [it for it in names if it in some], f"as recorded, so one in {SHARE} by commit {head[:8]}, and those listed"

    def keep(self, crate, line, crates):
        """Writes the line of a crate that --all tried, or drops it where there is none, and drops those of crates that are no more."""
        names = {it.name for it in crates} - {crate.name}
        self.lines = [it for it in self.lines if it.split(" ")[0] in names] + ([line] if line else [])
        os.makedirs(FOLDER, exist_ok=True)
        with open(RECORD, "w", encoding="utf-8") as it:
            it.write(HEAD + "".join(f"{line}\n" for line in sorted(self.lines)))
