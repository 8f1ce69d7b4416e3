"""Tries the wrong bodies of crates, crates/CRATE/wrong/*.edit, all of a crate's in one check: each must be refused for the goals that it
names.

usage: python3 -B scripts/gate/wrong_bodies.py [--jobs N] [--proved DIR] [CRATE[/NAME].. | --all [CRATE..]]

An edit has a line `refuses: FUNCTION GOAL..`: the function whose body it changes, as a check names it without the crate, and what the
prover must not prove of it then. `file:` names a file of the crate. Each `old:` is a text that stands there once, and the `new:` behind
it what takes its place, each on one line. A proof rests on what is called by its contract alone, so a wrong body is refused in its own
function, whatever the others are. All are written into one copy of the crate.
A second edit of one function changes a copy of it under another name, with the answers and invariants of its own, where it stands at the top
of its file and in no cycle of calls; else it waits for another check. So does one of a function that calls another changed one, where the
prover leaves goals untried. A check reads the functions that are changed and those that they call, and no other.

These are failures: an edit without that line, one that cannot be applied, one of a function that is not there, a function that is refused
for other goals than its edit names (for none: the body is right; for `no-goal`: the prover does not cover it), a function that is refused
and not changed, a copy that does not compile, a library below that is not in its out/ or is older than its sources.

With no CRATE all that have wrong/ are tried, as many side by side as processors and memory allow. With --proved, which is for a running
`rt ci`, they are tried one behind the other, each once DIR has a file of the name of each library below; once DIR has `ended`, as without.
Each check has N jobs, or one. The last line is 'N passed, M failed', over the edits that were tried.

scripts/gate/wrong-bodies/record has a line for each crate of which --all refused every edit: a sum, the date and the toolchain. Nothing else
writes it. The sum is over these two, over the crate's sources, definitions, proofs and edits, and over those of the libraries below, but
for their edits. A crate with this sum is tried in part: one edit in eight, at least one, which the commit that is checked out chooses by
its id, and each that scripts/gate/wrong-bodies/always names, where a name that no crate has is a failure. Any other crate is tried whole, and
so is one that is named. What is said of a crate tells how many edits it has, and why these were tried.
"""

import argparse
import collections
import glob
import os
import re
import shutil
import signal
import subprocess
import sys
import tempfile
import threading
import time
from concurrent.futures import ThreadPoolExecutor

import kit
import wrong_record

rt = kit.load()
rtlib = rt.rtlib

# An edit: its file, the function that it changes, the goals that must be refused, its text, and what is wrong with it, if anything.
Edit = collections.namedtuple("Edit", "path function goals text why")


def read(path, folder):
    """Returns an edit of the crate in this folder."""
    with open(path, encoding="utf-8") as it:
        text = it.read()
    named = re.findall(r"(?m)^refuses: (.*)$", text)
    function, *goals = named[0].split() if len(named) == 1 else [""]
    why = None if goals else "it has no line 'refuses: FUNCTION GOAL..', or several"
    return Edit(path, function, frozenset(goals), text, why or rt.edited(text, folder)[1])


def write(edit, room):
    """Writes an edit into the copy of its crate, and returns whether it can still be applied there."""
    texts, why = rt.edited(edit.text, room)
    for file, text in (texts or {}).items():
        with open(f"{room}/{file}", "w", encoding="utf-8") as it:
            it.write(text)
    return not why


def write_copy(edit, room, folder, number):
    """Writes an edit into a copy of its function, with the answers and the invariants of that, and returns the copy's name, or None where the
    function does not stand alone."""
    path, _, name = edit.function.rpartition("::")
    files = {*re.findall(r"(?m)^file: (.*?)\s*$", edit.text)}
    if len(files) > 1:
        return None
    (file,) = files
    changed = rt.edited(edit.text, folder)[0][file]
    found = re.findall(rf"(?ms)^(?:#\[[^\n]*\]\n)*(?:pub(?:\(crate\))? )?fn {name}\b.*?^\}}\n", changed)
    if len(found) != 1 or "#[cycle(" in found[0] or found[0] in rtlib.text_of(f"{folder}/{file}"):
        return None
    copy = f"{name}_{number}"
    with open(f"{room}/{file}", "a", encoding="utf-8") as it:
        it.write("\n" + re.sub(rf"\bfn {name}\b", f"fn {copy}", found[0], count=1))
    modules = path.split("::") if path else []
    proofs = "/".join(["proofs", *modules])
    if os.path.isdir(f"{folder}/{proofs}/{name}"):
        copy_proofs(f"{folder}/{proofs}/{name}", f"{room}/{proofs}/{copy}", ".".join(["", "proofs", *modules, ""]), name, copy)
    return "::".join([*modules, copy])


def copy_proofs(old, new, module, name, copy):
    """Copies the answers and the invariants of a function for a copy of it, whose goals they then are."""
    shutil.copytree(old, new)
    for it in glob.glob(f"{new}/*.antt"):
        text = rtlib.text_of(it)
        with open(it, "w", encoding="utf-8") as to:
            to.write(re.sub(rf"(?<={re.escape(module)}){re.escape(name)}\b", copy, text))


def refusals(said, crate, room):
    """Returns, by function, what a check did not prove of it: the goals of the line that it has, and the answers that stand in its files. It is
    `no-goal` where these name none, as for a body that the borrow checker does not cover."""
    found = collections.defaultdict(set)
    for function, rest in re.findall(rf"(?m)^fn {crate}::(\S+): (?:no proof|not proved|could not tell)\b(.*)", said):
        open_goals = re.search(r"`search` did not prove ((?:`[^`]+`(?:, )?)+)", rest)
        found[function] |= {*re.findall(r"`([^`]+)`", open_goals[1] if open_goals else "")}
        errors = rf"(?m)^(?:\./)?(proofs/{re.escape(function.replace('::', '/'))}/\w+\.antt):\d+:\d+: error: (?:`([^`]+)`:|.* not checked: (.*))"
        for file, one, more in re.findall(errors, said):
            answers = {*re.findall(r"(?m)^pub (\S+)", rtlib.text_of(f"{room}/{file}") or "")}
            found[function] |= answers & {one, *more.split(", ")}
        if not found[function] and "which is not proved" not in rest and "which are not proved" not in rest:
            found[function].add("no-goal")
    return {it: goals for it, goals in found.items() if goals}


def why_no_library(library):
    """Says why no check can read a library below, if none can. `rt ci` leaves no stamp, and `rt check` one of the sources."""
    stamp = rtlib.text_of(f"{os.path.dirname(library.rlib)}/stamp")
    if not os.path.isfile(f"{library.rlib}/format"):
        return f"{library.name} is not in its out/: run rt ci, or rt check in its folder"
    is_old = stamp != library.stamp() if stamp else any(os.path.getmtime(it) > os.path.getmtime(library.rlib) for it in rtlib.files_of(library.folder))
    return f"{library.name} in its out/ is older than its sources: run rt ci, or rt check in its folder" if is_old else None


class Turns:
    """Lets checks run side by side as processors and memory allow, and one behind the other beside a running `rt ci`."""

    def __init__(self, proved):
        self.proved, self.running, self.changed = proved, [], threading.Condition()

    def is_beside(self):
        return self.proved is not None and not os.path.exists(f"{self.proved}/ended")

    def wait_for(self, crate):
        """Returns once the libraries below are proved, or no more will be."""
        while self.is_beside() and not all(os.path.exists(f"{self.proved}/{it.name}") for it in crate.below()):
            time.sleep(1)

    def may_start(self, need):
        fits = sum(self.running) + need <= 0.85 * rt.free()
        if self.is_beside():
            return fits and not self.running
        return not self.running or fits and len(self.running) < rt.processors()

    def run(self, crate, call):
        self.wait_for(crate)
        need = rt.need(crate)
        with self.changed:
            while not self.may_start(need):
                self.changed.wait(1)
            self.running.append(need)
        try:
            return call()
        finally:
            with self.changed:
                self.running.remove(need)
                self.changed.notify_all()


class Trial:
    """Wrong bodies of a crate, and why these: what is told of them, and how many passed and failed."""

    def __init__(self, crate, names, why, jobs):
        self.crate, self.names, self.why, self.jobs, self.lines, self.passed, self.failed = crate, names, why, jobs, [], 0, 0
        self.checks, self.seconds, self.memory = 0, 0.0, 0.0

    def tell(self, what, why, passed=False):
        self.lines.append(f"{self.crate.name}/{what}: {why}")
        self.passed, self.failed = self.passed + passed, self.failed + (not passed)

    def fail(self, edits, why):
        for it in edits:
            self.tell(os.path.basename(it.path), why)

    def check(self, room, functions):
        """Checks these functions of a copy of the crate, and returns the status and what was said."""
        only = [word for it in functions for word in ("--only", f"{self.crate.name}::{it}")]
        words = [*rtlib.guarded(), rtlib.RATTLE, "check", *self.crate.words(["--jobs", self.jobs, *only], keeps=False)]
        for _ in range(2):
            with tempfile.TemporaryFile("w+", errors="replace") as said:
                ran = subprocess.Popen(words, cwd=room, stdin=subprocess.DEVNULL, stdout=said, stderr=subprocess.STDOUT)
                _, status, usage = os.wait4(ran.pid, 0)
                ran.returncode = os.waitstatus_to_exitcode(status)
                said.seek(0)
                text = said.read()
            self.checks, self.seconds = self.checks + 1, self.seconds + usage.ru_utime + usage.ru_stime
            self.memory = max(self.memory, usage.ru_maxrss / 1e6)
            # most likely for memory: once more
            if ran.returncode != -signal.SIGKILL:
                break
        return ran.returncode, text

    def round(self, edits):
        """Tries as many edits as one check can, and returns those that are left."""
        folder, now, later = self.crate.folder, {}, []
        with tempfile.TemporaryDirectory(prefix="wrong-bodies-") as room:
            for part in rtlib.PARTS:
                if os.path.isdir(f"{folder}/{part}"):
                    shutil.copytree(f"{folder}/{part}", f"{room}/{part}")
            for it in edits:
                function = it.function if it.function not in now and write(it, room) else write_copy(it, room, folder, len(now) + 1)
                if function:
                    now[function] = it
                else:
                    later.append(it)
            status, said = self.check(room, now)
            refused = refusals(said, self.crate.name, room)
        lacking = re.search(rf"has no function `{self.crate.name}::([^`]+)`", said)
        if lacking and lacking[1] in now:
            self.fail([now.pop(lacking[1])], f"the crate has no function {lacking[1]}")
            return [*now.values(), *later]
        if status not in (0, 1) or not re.search(r"(?m)^only=\d+ proved=\d+\n\Z", said):
            errors = [it for it in said.split("\n") if "error" in it] or said.split("\n")
            self.fail(now.values(), f"the check says nothing of the bodies, status {status}: {errors[0][:300]}")
            return later
        # The goals of one that calls another changed one are tried apart from it.
        notes = " ".join(re.findall(r"(?m)^note: `search` has not tried the goals of (.*)", said))
        waiting = {*now} & {*re.findall(rf"`{self.crate.name}::([^`]+)`", notes)}
        if waiting != {*now}:
            later = [now.pop(it) for it in sorted(waiting)] + later
        told = {it: goals for it, goals in refused.items() if it in now or it not in waiting}
        for function in sorted({*told} - {*now}):
            self.tell(function, f"it is not changed, and refused: {' '.join(sorted(told[function]))}")
        for function, it in now.items():
            goals = told.get(function, set())
            why = f"refused, as it must be: {it.function}: {' '.join(sorted(it.goals))}"
            if goals != it.goals:
                why = f"NOT AS IT MUST BE: still proved: {' '.join(sorted(it.goals - goals)) or 'none'}; refused too: {' '.join(sorted(goals - it.goals)) or 'none'}"
            self.tell(os.path.basename(it.path), why, goals == it.goals)
        return later

    def run(self):
        names = sorted({*self.names} & {*wrong_record.edits_of(self.crate)})
        edits = [read(f"{self.crate.folder}/wrong/{it}", self.crate.folder) for it in names]
        lacking = next(filter(None, map(why_no_library, self.crate.below())), None)
        if len(edits) < (len(self.names) or 1):
            self.tell("wrong", "no such edit stands there")
        for it in edits:
            if it.why:
                self.fail([it], it.why)
        left = [it for it in edits if not it.why]
        if lacking:
            self.fail(left, lacking)
            left = []
        while left:
            left = self.round(left)

    def told(self):
        """Returns what is printed of the trial."""
        tried = f"{self.passed} refused, {self.failed} failed, of {len(wrong_record.edits_of(self.crate))} edits ({self.why})"
        spent = f"checks: {self.checks}, CPU seconds: {self.seconds:.0f}, GB: {self.memory:.1f}"
        return "\n".join([*self.lines, f"{self.crate.name}: {tried}; {spent}"])


def words():
    """Returns what is asked for, and by crate the names of the edits that are."""
    usage = "python3 -B scripts/gate/wrong_bodies.py [--jobs N] [--proved DIR] [CRATE[/NAME].. | --all [CRATE..]]"
    parser, names = argparse.ArgumentParser(usage=usage), {}
    parser.add_argument("--jobs", default="1")
    parser.add_argument("--proved")
    parser.add_argument("--all", action="store_true")
    parser.add_argument("edits", nargs="*")
    asked = parser.parse_args()
    for it in asked.edits:
        crate, _, name = it.partition("/")
        names.setdefault(crate, set()).update([f"{name}.edit"] if name else [])
    if asked.all and any(names.values()):
        parser.error("--all tries whole crates")
    return asked, names


def trial_of(crate, asked, names, record):
    """Returns the trial of those edits of a crate that are asked for, or that the record leaves to be tried."""
    if asked.all or names:
        named = names.get(crate.name) or wrong_record.edits_of(crate)
        return Trial(crate, named, "all" if asked.all else "as named", asked.jobs)
    return Trial(crate, *record.choose(crate), asked.jobs)


def not_there(names, crates, every):
    """Says which crates are not there that are named, or else which listed edits no crate has."""
    if names:
        return [f"{it}: no such crate" for it in sorted({*names} - {it.name for it in crates})]
    edits = {edit for it in every for edit in wrong_record.edits_of(it)}
    return [f"{it}: no crate has this edit, which is listed" for it in wrong_record.listed() if f"{it}.edit" not in edits]


def main():
    asked, names = words()
    rtlib.guarded()
    every = [it for it in rtlib.crates_below(os.getcwd()) if os.path.isdir(f"{it.folder}/wrong") or it.name in names]
    crates = [it for it in every if not names or it.name in names]
    record, turns = wrong_record.Record(rtlib.files_of), Turns(asked.proved)
    trials = [trial_of(it, asked, names, record) for it in crates]
    lines = {it.name: record.line(it) for it in crates if asked.all}
    with ThreadPoolExecutor(len(trials) or 1) as pool:
        for it, ran in [(it, pool.submit(turns.run, it.crate, it.run)) for it in trials]:
            ran.result()
            print(it.told(), flush=True)
            if asked.all:
                record.keep(it.crate, None if it.failed or not it.passed else lines[it.crate.name], every)
    lost = not_there(names, crates, every)
    for it in lost:
        print(it)
    print(f"CPU seconds in all: {sum(it.seconds for it in trials):.0f}")
    passed, failed = sum(it.passed for it in trials), sum(it.failed for it in trials) + len(lost)
    print(f"{passed} passed, {failed} failed")
    return 1 if failed or not passed else 0


if __name__ == "__main__":
    os.chdir(f"{os.path.dirname(os.path.realpath(__file__))}/../..")
    sys.exit(main())
