"""Measures the time and the peak memory of a command of `cbor-edn` against an earlier program, both in one run.

usage: python3 -B scripts/measure/bench.py [--runs N] [--scale N] [--beside] [--command WORDS] OLD [NEW]

WORDS are the command and its flags, as 'diag2diag --remove-comments', and diag2cbor where none are given. The input of
cbor2diag is what NEW encodes of the texts that the other commands read. OLD and NEW are paths of the program's binary, or commits. Without
NEW it is the working tree's program. A commit's program is built by the commit's own ./cbor-edn, in a folder outside the repository
(`rt ci` refuses a second tree in it), and is kept as out/bench/COMMIT/cbor-edn.

Both programs run on one processor, in turn, 11 times each (--runs) on each input of 1 MB and of 4 MB (--scale; with
1 there is no second size). Seconds are of user and system time, in the quickest run. Memory is the peak resident
set, the largest of the runs. A program whose time is linear takes the same seconds per MB at both sizes.

With --beside it also times what Debian's packages have for the same, each on 1 MB and 3 times: jq, Python's json.tool and serde_json
(beside/, built by cargo over librust-serde-json-dev) on the kinds that are JSON, beside diag2diag, and node-cbor on bytes, beside
cbor2diag. What is not installed has no column, and is told.

Status 0: measured, whatever came out. Status 1: the programs wrote different bytes, or one failed; such inputs have
no row. Status 2: other words on the command line.
"""

import argparse
import ctypes
import os
import re
import shutil
import signal
import subprocess
import sys
import tempfile

from inputs import FLAT, array, sequence

ROOT = os.path.realpath(f"{os.path.dirname(os.path.realpath(__file__))}/../..")
MB = 1_000_000
SIDES = ("old", "new")
SUBREAPER = 36  # prctl's word: orphans below this process become its children
# a directory of Debian's that stands for the registry of cargo
REGISTRY = "/usr/share/cargo/registry"


def count(word):
    """A number of the command line."""
    if not re.fullmatch("[1-9][0-9]{0,3}", word):
        raise argparse.ArgumentTypeError("a number from 1 to 9999 is wanted")
    return int(word)


def command_words(words):
    """A command of the program with its flags."""
    if not re.match("(diag2cbor|cbor2diag|diag2diag)( |$)", words):
        raise argparse.ArgumentTypeError("a command of the program is wanted")
    return words.split()


def parsed():
    """Returns what the command line asks for."""
    parser = argparse.ArgumentParser(usage=__doc__.split("\n")[2].removeprefix("usage: "))
    parser.add_argument("--runs", type=count, default=11)
    parser.add_argument("--scale", type=count, default=4)
    parser.add_argument("--beside", action="store_true")
    parser.add_argument("--command", type=command_words, default=["diag2cbor"])
    parser.add_argument("old")
    parser.add_argument("new", nargs="?")
    asked = parser.parse_args()
    asked.binaries = [binary_of(it, parser.error) for it in (asked.old, asked.new) if it]
    return asked


def binary_of(word, refuse):
    """Returns where the binary of a program or of a commit stands or is to stand, and the commit, if it is one."""
    if os.path.isfile(word) and os.access(word, os.X_OK):
        return word, None
    found = subprocess.run(["git", "-C", ROOT, "rev-parse", "--verify", "--quiet", f"{word}^{{commit}}"], capture_output=True, text=True, check=False)
    if found.returncode:
        refuse(f"{word} is neither a binary nor a commit")
    commit = found.stdout.strip()
    return f"{ROOT}/out/bench/{commit}/cbor-edn", commit


def build(commit, binary):
    """Has a commit's own launcher build its program, in a tree of its own."""
    print(f"bench: the program of {commit} is missing", file=sys.stderr)
    os.makedirs(os.path.dirname(binary), exist_ok=True)
    tree = f"{work}/tree"
    subprocess.run(["git", "-C", ROOT, "worktree", "add", "--quiet", "--detach", tree, commit], check=True)
    try:
        # a launcher with no --build builds at any call
        with open(f"{tree}/cbor-edn", encoding="utf-8") as launcher:
            call = "--build" if "--build" in launcher.read() else "diag2cbor"
        status = subprocess.run([f"{tree}/cbor-edn", call], stdin=subprocess.DEVNULL, check=False).returncode
        if status:
            log = f"{os.path.dirname(binary)}/cbor-edn.log"
            shutil.copy(f"{tree}/out/cbor-edn.log", log)
            print(f"bench: a copy of that file is {log}", file=sys.stderr)
            sys.exit(status)
        shutil.copy(f"{tree}/out/cbor-edn", f"{binary}.new")
        os.replace(f"{binary}.new", binary)
    finally:
        subprocess.run(["git", "-C", ROOT, "worktree", "remove", "--force", tree], check=False)


def find_programs(asked):
    """Puts copies of both programs into `work`, so that a build in the meantime changes nothing."""
    binaries = [*asked.binaries]
    for binary, commit in binaries:
        if commit and not os.access(binary, os.X_OK):
            build(commit, binary)
    if asked.new is None:
        subprocess.run([f"{ROOT}/cbor-edn", "--build"], check=True)
        binaries.append((f"{ROOT}/out/cbor-edn", None))
    for side, name, (binary, _) in zip(SIDES, (asked.old, asked.new or "the working tree"), binaries):
        shutil.copy(binary, f"{work}/{side}")
        print(f"{side}: {name}")
    print(f"command: {' '.join(asked.command)}")


def build_serde_json():
    """Has cargo build the program over serde_json of Debian's package."""
    shutil.copytree(f"{ROOT}/scripts/measure/beside", f"{work}/beside")
    words = ["cargo", "build", "--quiet", "--release", "--offline", "--manifest-path", f"{work}/beside/Cargo.toml"]
    words += ["--config", 'source.crates-io.replace-with="packages"', "--config", f"source.packages.directory='{REGISTRY}'"]
    if shutil.which("cargo") and subprocess.run(words, check=False).returncode == 0:
        shutil.copy(f"{work}/beside/target/release/serde_json", f"{work}/serde_json")
    else:
        print("bench: serde_json is left out: cargo or Debian's package librust-serde-json-dev is missing", file=sys.stderr)


asked = parsed()
COMMAND = asked.command
work = tempfile.mkdtemp()
# Programs of Debian's packages that do the same as a command, and the kinds that they read: all, or those that are JSON.
BESIDE = {
    "diag2diag": {"jq": ["/usr/bin/jq", "."], "json.tool": ["/usr/bin/python3", "-m", "json.tool"], "serde_json": [f"{work}/serde_json"]},
    "cbor2diag": {"node-cbor": ["/usr/bin/env", "NODE_PATH=/usr/share/nodejs", "/usr/bin/cbor2diag", "-"]},
}
JSON = ("integers", "texts", "one text", "maps of texts")


# as many arrays in one another as are read: laid out on lines of their own they are written as about 1 MB
DEEP = 512
KINDS = {
    **FLAT,
    "maps of texts": array('{"name": "a", "value": "words of a text"}', '{"key": "1234"}'),
    "maps, 512 deep": sequence("{1: " * DEEP + "2" + "}" * DEEP),
    "arrays, 512 deep": sequence("[" * DEEP + "]" * DEEP),
    "embedded, 512 deep": sequence("<<" * DEEP + ">>" * DEEP),
}


def run(side, source, sink, words=COMMAND):
    """Runs a side's program once by the words of a command. Answers as `run_words`."""
    return run_words([f"{work}/{side}", *words], source, sink)


def run_words(words, source, sink):
    """Runs a program once. Answers whether it succeeded, its seconds of processor time and its peak of memory in bytes."""
    # A peak begins with what the process had before its exec. Started from here it would have had Python's memory:
    # so setsid starts it, which is small, ends at once and leaves it to this process.
    files = [
        (os.POSIX_SPAWN_OPEN, 0, source, os.O_RDONLY, 0),
        (os.POSIX_SPAWN_OPEN, 1, sink, os.O_WRONLY | os.O_CREAT | os.O_TRUNC, 0o600),
        (os.POSIX_SPAWN_OPEN, 2, f"{work}/said", os.O_WRONLY | os.O_CREAT | os.O_TRUNC, 0o600),
    ]
    command = ["setsid", "--fork", *words]
    starter = os.posix_spawnp("setsid", command, os.environ, file_actions=files)
    ended = {}
    try:
        while len(ended) < 2:
            process, status, usage = os.wait4(-1, 0)
            ended[process] = status, usage.ru_utime + usage.ru_stime, usage.ru_maxrss * 1024
    except KeyboardInterrupt:
        with open(f"/proc/self/task/{os.getpid()}/children") as children:
            for process in children.read().split():
                os.kill(int(process), signal.SIGKILL)
        raise
    del ended[starter]
    ((status, seconds, peak),) = ended.values()
    return status == 0, seconds, peak


def encode(source):
    """Puts the encoding of a text in its place."""
    if not run("new", source, f"{source}.cbor", ["diag2cbor"])[0]:
        sys.exit(f"bench: new fails: {said()}")
    os.replace(f"{source}.cbor", source)


def said():
    with open(f"{work}/said", errors="replace") as lines:
        return lines.readline().strip() or "no word"


def content(path):
    with open(path, "rb") as file:
        return file.read()


def written(side, source):
    """What a program writes, and if it fails its word."""
    sink = f"{work}/output"
    if not run(side, source, sink)[0]:
        return None, f"{side} fails: {said()}"
    return content(sink), f"{side} writes {os.path.getsize(sink)} bytes"


def difference(source):
    """The first difference of what the programs write, or none."""
    (old, of_old), (new, of_new) = (written(side, source) for side in SIDES)
    if old is None or new is None:
        return "; ".join(word for output, word in ((old, of_old), (new, of_new)) if output is None)
    if old == new:
        return None
    place = next((at for at, (one, other) in enumerate(zip(old, new)) if one != other), min(len(old), len(new)))
    return f"different bytes, first at {place}; {of_old}, {of_new}"


def measure(source):
    """By side: the seconds of the quickest run and the largest peak."""
    seconds, peaks = ({side: [] for side in SIDES} for _ in range(2))
    for turn in range(asked.runs):
        for side in SIDES if turn % 2 == 0 else reversed(SIDES):
            succeeded, took, peak = run(side, source, os.devnull)
            if not succeeded:
                sys.exit(f"bench: {side} failed in a later run: {said()}")
            seconds[side].append(took)
            peaks[side].append(peak)
    return {side: (min(seconds[side]), max(peaks[side])) for side in SIDES}


def ratio(old, new):
    return f"{old / new:.2f}" if new else "-"


def measure_beside(inputs):
    """Prints the seconds that the programs of other packages take, beside those of the new one."""
    others = BESIDE.get(COMMAND[0], {})
    others = {name: words for name, words in others.items() if all(os.path.exists(word) for word in words if word.startswith("/"))}
    if not others:
        print(f"beside {COMMAND[0]}: no other program is installed")
        return
    print(f"\n{'seconds, 1 MB':18}{'new':>10}" + "".join(f"{name:>12}" for name in others))
    for kind in JSON if COMMAND[0] == "diag2diag" else KINDS:
        source, row = inputs[kind][0], f"{kind:18}"
        for at, program in enumerate([[f"{work}/new", *COMMAND], *others.values()]):
            turns = [run_words(program, source, os.devnull) for _ in range(3)]
            row += f"{min(took for _, took, _ in turns):{12 if at else 10}.4f}" if all(turn[0] for turn in turns) else f"{'fails':>{12 if at else 10}}"
        print(row, flush=True)


def main():
    find_programs(asked)
    if asked.beside:
        build_serde_json()
    if ctypes.CDLL(None).prctl(SUBREAPER, 1, 0, 0, 0) != 0:
        sys.exit("bench: prctl refuses")
    processor = max(os.sched_getaffinity(0))
    os.sched_setaffinity(0, {processor})
    sizes = [MB] if asked.scale == 1 else [MB, asked.scale * MB]
    indents = COMMAND[0] != "diag2cbor" and "--preserve-space" not in COMMAND
    inputs = {"no input": [f"{work}/empty"]}
    open(f"{work}/empty", "wb").close()
    for at, (kind, text) in enumerate(KINDS.items()):
        inputs[kind] = []
        for size in sizes:
            inputs[kind].append(f"{work}/input-{at}-{size}")
            with open(inputs[kind][-1], "wb") as file:
                file.write(text(size // DEEP if indents and "deep" in kind else size))
            if COMMAND[0] == "cbor2diag":
                encode(inputs[kind][-1])

    wrong = set()
    for kind, sources in inputs.items():
        for source in sources:
            found = difference(source)
            if found:
                wrong.add(kind)
                print(f"bench: {kind}, {os.path.getsize(source)} bytes: {found}", file=sys.stderr)

    print(f"processor {processor}, {asked.runs} runs each", flush=True)
    empty = {} if "no input" in wrong else measure(f"{work}/empty")
    for side, (seconds, peak) in empty.items():
        print(f"no input, {side}: {seconds:.4f} seconds, peak memory {peak} bytes")
    print()
    titles = [f"{side} {size // MB} MB" for side in SIDES for size in sizes]
    per_mb = 10 * len(titles)
    print(f"{'':18}{'seconds, 1 MB':^26}{'peak memory, bytes':^24}{'seconds per MB':^{per_mb}}".rstrip())
    print(f"{'':18}{'':26}{'per byte, 1 MB':^24}".rstrip())
    heads = "".join(f"{word:>9}" for word in ("old", "new")) + f"{'old/new':>8}"
    heads += "".join(f"{word:>8}" for word in ("old", "new", "old/new"))
    print(f"{'input':18}{heads}" + "".join(f"{word:>10}" for word in titles))
    for kind in KINDS:
        if kind in wrong:
            continue
        found = [(os.path.getsize(source), measure(source)) for source in inputs[kind]]
        size, ((old, old_peak), (new, new_peak)) = found[0][0], found[0][1].values()
        row = f"{kind:18}{old:9.4f}{new:9.4f}{ratio(old, new):>8}"
        row += f"{old_peak / size:8.2f}{new_peak / size:8.2f}{ratio(old_peak, new_peak):>8}"
        row += "".join(f"{sides[side][0] / size * MB:10.4f}" for side in SIDES for size, sides in found)
        print(row, flush=True)
    if asked.beside:
        measure_beside(inputs)
    if wrong:
        sys.exit(f"bench: not measured, as the programs differ or fail: {', '.join(sorted(wrong))}")


try:
    main()
except KeyboardInterrupt:
    sys.exit(130)
finally:
    shutil.rmtree(work)
