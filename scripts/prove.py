"""Proves crates by the toolchain's own merge gate, `rt ci`, in the order and with the processors of ours.

usage: python3 -B scripts/prove.py [--anew] [--costs FILE] [--proved FOLDER] [CRATE..]

Without CRATE these are all that have proofs: each of crates.txt but the tests and the calls for refused memory that have no folder
proofs/, which run unproved (scripts/quick.sh). `rt ci` proves each from nothing, builds each program by two compilers and runs it, and
looks at layout, imports, stray files, ignored tests, handles, and contracts that no call can meet. The looks that need no proof are at the
crates that are not proved, too. What a run proved is kept beside the toolchain by the checksums of all that it read, so a second run
proves the crates that changed and those above them. With --anew nothing that was kept is taken.

By itself `rt ci` gives a proof two processors of four, and one of two. Here the proof with the longest chain of others behind it gets all
of them, and beside it run others with half of them each and a lower priority. What each crate took goes to the file of --costs, a line
`NAME SECONDS GB` for each command: CPU seconds, and the most memory. The folder of --proved gets a file of the name of each crate once it
is proved, and `ended` at the end. Libraries, programs, and the library for C are left in the out/ of each crate. The last line is
'N passed, M failed', over the crates.

This rests on names inside `rt` that no page of the toolchain promises: `ci_over`, `in_lanes` with its tasks, `Crate.ci` and `has_tests`.
Where one is gone, Python's error names it, and nothing is proved.
"""

import argparse
import os
import re
import shutil
import sys
import tempfile
import threading

from gate import kit

rt = kit.load()
rtlib = rt.rtlib

# Runs the command behind the first word, ends as it ends, and adds what it took to the file that the first word names.
COUNT = """
import os, re, signal, sys
pid = os.spawnvp(os.P_NOWAIT, sys.argv[2], sys.argv[2:])
_, status, took = os.wait4(pid, 0)
crate = re.search("--crate-name (\\\\w+)", " ".join(sys.argv))
if crate:
    with open(sys.argv[1], "a") as it:
        it.write(f"{crate[1]} {took.ru_utime + took.ru_stime:.1f} {took.ru_maxrss / 1e6:.1f}\\n")
if os.WIFSIGNALED(status):
    signal.signal(os.WTERMSIG(status), signal.SIG_DFL)
    os.kill(os.getpid(), os.WTERMSIG(status))
os._exit(os.waitstatus_to_exitcode(status))
"""
MOST_JOBS = 8
LOWER = 10


def is_proved(crate):
    """Returns whether the gate proves a crate: all but tests and calls for refused memory without proofs of their own."""
    return not re.search(r"_(tests|refused_memory)$", crate.name) or os.path.isdir(f"{crate.folder}/proofs")


def in_order(tasks):
    """Runs the tasks of `rt ci` and returns what each gave. A task is what it waits for, its lines, the memory that it may take, and a call
    that gets what was given and its jobs."""
    own, lanes, memory, behind = os.getpriority(os.PRIO_PROCESS, 0), rt.processors(), 0.85 * rt.free(), {it: 0 for it in tasks}
    for key in reversed([*tasks]):
        behind[key] += tasks[key][1]
        for it in tasks[key][0]:
            behind[it] = max(behind[it], behind[key])
    left, running, given, changed = sorted(tasks, key=lambda it: -behind[it]), {}, {}, threading.Condition()

    def run(key, jobs, is_first):
        # a thread's own priority, which the commands that it starts take over
        os.setpriority(os.PRIO_PROCESS, threading.get_native_id(), own if is_first else own + LOWER)
        value = False
        try:
            value = tasks[key][3](given, jobs)
        finally:
            with changed:
                given[key] = value
                del running[key]
                changed.notify_all()

    def next_one():
        """Returns a task that can begin, with its jobs and whether it goes before others, or nothing."""
        for key in [it for it in left if all(below in given for below in tasks[it][0])]:
            needs = tasks[key][2] / 2
            is_first = not any(first for _, first in running.values())
            beside = sum(not first for _, first in running.values())
            fits = not running or sum(it for it, _ in running.values()) + needs <= memory
            if fits and (is_first or beside < max(lanes // 2, 1)):
                return key, min(lanes, MOST_JOBS) if is_first else max(lanes // 2, 1), is_first
        return None

    with changed:
        while left or running:
            found = next_one()
            if found:
                key, _, is_first = found
                left.remove(key)
                running[key] = tasks[key][2] / 2, is_first
                threading.Thread(target=run, args=found).start()
            else:
                changed.wait()
    return given


def ci(crate, flags, tests, made=rt.Crate.ci):
    """Proves a crate as `rt ci` does, which keeps no object of a static library: here what was proved is compiled, as of a program."""
    if tests or not crate.is_static:
        return made(crate, flags, tests)
    words = crate.words(flags, keeps=False)
    with tempfile.TemporaryDirectory(prefix=f"rt-proved-{os.getpid()}-") as room:
        status = crate.prove(["check", *words, "-o", f"{room}/checked"])
        for flag in ("--logic-built", "--jobs"):
            at = words.index(flag)
            words = [*words[:at], *words[at + 2 :]]
        words += ["--crate-checked", f"{room}/checked", "--toolchain", f"{rtlib.KIT}/toolchain", "--backend", "llvm"]
        return status or crate.call(rtlib.RATTLE, "build", *words, "-o", f"out/lib{crate.name}.a")


def is_refused(crate, every):
    """Returns whether `rt ci` would refuse a crate before any proof, and says why."""
    try:
        rtlib.stop_on_links(crate.folder)
        rtlib.stop_on_unread(crate.folder, every)
        rtlib.stop_on_text(crate, "verdict")
        rt.stop_on_words(crate)
    except SystemExit:
        return True
    code = rtlib.code_of(crate.folder)
    beyond = [it for name, it in rt.REACHES.items() if name not in rt.Crate.allowed]
    looks = {"renames std": [rt.RENAMES], "has an ignored test": [rt.IGNORED], "reaches beyond HANDLES": beyond}
    found = [what for what, words in looks.items() if any(re.search(it, code) for it in words)]
    for what in found:
        print(f"prove: {crate.name} {what}")
    return bool(found) or rtlib.fmt(crate.folder, "--check", sys.stdout) != 0


class Said:
    """What `rt ci` prints: handed on but for a line for each function that is proved, with its last line taken out."""

    def __init__(self, proved):
        self.proved, self.passed, self.failed = proved, 0, 1

    def mark(self, name):
        if self.proved:
            with open(f"{self.proved}/{name}", "w", encoding="utf-8"):
                pass

    def print(self, text="", **how):
        counted = re.fullmatch(r"(\d+) passed, (\d+) failed\b.*", text)
        proved = re.fullmatch(r"rt: (\w+) (?:proved|is kept:.*)", text)
        if counted:
            self.passed, self.failed = map(int, counted.groups())
        elif "This is not the gate" not in text:
            print(re.sub(r"(?m)^\w+ \S+: proved\n", "", text), **{**how, "flush": True})
        if proved:
            self.mark(proved[1])


def main():
    asked = argparse.ArgumentParser(usage="python3 -B scripts/prove.py [--anew] [--costs FILE] [--proved FOLDER] [CRATE..]")
    asked.add_argument("--anew", action="store_true")
    asked.add_argument("--costs", default=os.devnull)
    asked.add_argument("--proved")
    asked.add_argument("crates", nargs="*")
    asked = asked.parse_args()
    said, guarded, python = Said(asked.proved and os.path.realpath(asked.proved)), rtlib.guarded, os.path.realpath("/proc/self/exe")
    costs = os.path.realpath(asked.costs)
    rtlib.guarded = lambda: [*guarded(), python, "-ISc", COUNT, costs]
    # tests run unproved, those of a crate with proofs of its own too
    rt.Crate.has_tests = lambda crate: False
    rt.in_lanes, rt.Crate.ci, rt.print = in_order, ci, said.print
    root = os.path.dirname(os.path.dirname(os.path.realpath(__file__)))
    os.chdir(root)
    with tempfile.TemporaryDirectory(prefix=f"rt-aside-{os.getpid()}-") as aside:
        rt.Crate.allowed = rt.handles_of(root)
        every = rt.crates_of(root)
        unproved = [] if asked.crates else [it for it in every if not is_proved(it)]
        faults = [it.name for it in unproved if is_refused(it, every)]
        try:
            rt.ci_over(aside, asked.anew, asked.crates or [it.name for it in every if is_proved(it)])
        finally:
            # what it built stays, and what earlier checks kept comes back
            for it in os.listdir(aside):
                shutil.rmtree(f"{aside}/{it}/rlib", ignore_errors=True)
            rt.put_back(root, aside)
            said.mark("ended")
    for it in faults:
        print(f"prove: {it} is refused before any proof, for what stands above")
    failed = said.failed + len(faults)
    print(f"{said.passed + len(unproved) - len(faults)} passed, {failed} failed")
    return 1 if failed or not said.passed else 0


if __name__ == "__main__":
    sys.exit(main())
