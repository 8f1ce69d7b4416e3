"""Runs the program on inputs that ask for too much: depths, announced counts, much input, and less memory than there is need of.

usage: python3 -B scripts/gate/limits.py [--short] [PROGRAM [MEGABYTES]]

Without PROGRAM it is the working tree's. MEGABYTES is the size of each flat input whose memory is measured, 64 without it: that takes
2.5 CPU minutes, and up to 7 GB of memory, since three kinds are measured side by side. The bounds are those of docs/PERFORMANCE.md.

With --short, for quick tests and for programs of unproved sources, it has each row with less of it: flat inputs of half a MB, those
whose seconds are measured and the flat ones beside them a tenth as long, openings and what floods a tenth as often, and smaller ones
where memory is refused. A bound in seconds or in times of a flat input is three times as high. So what costs more only from some MB
on, and what is up to three times slower, is not seen. The last line is 'N passed, M failed'.
"""

import ctypes
import os
import resource
import subprocess
import sys
import tempfile
from concurrent.futures import ThreadPoolExecutor

from common import ROOT, find_program

os.chdir(ROOT)
sys.path.append("scripts/measure")
from inputs import FLAT

SHORT = "--short" in sys.argv[1:2]
WORDS = sys.argv[1 + SHORT :]
PROGRAM = find_program(*WORDS[:1])
SIZE = int(float(WORDS[1] if len(WORDS) > 1 else 0.5 if SHORT else 64) * 1_000_000)
KB = 1024
LIMIT = 512
# By how much a short run has less, and how much more time its bounds leave: a program of unproved sources looks at much as it runs.
LESS, MORE = (10, 3) if SHORT else (1, 1)
COUNT = 100_000 // LESS
# A refusal takes some 5 milliseconds.
MOST_SECONDS = 0.2 * MORE
# How many ones a flat input has beside which others are timed: each is a byte of CBOR.
ONES = 1_000_000 // LESS

TOO_DEEP = "cbor-edn: Error parsing input data: EDN nested too deeply in line 1 column {} (byte {})\n"
INVALID = "cbor-edn: Error parsing input data: Invalid EDN in line 1 column {} (byte {})\n"
BYTES_TOO_DEEP = "cbor-edn: Error decoding input data: Nested too deeply\n"
BYTES = "cbor-edn: Error decoding input data: {}\n"
NO_ITEM, NO_BYTES = "Expected item, out of data", "Announced bytes unavailable"
NO_MEMORY = "cbor-edn: Out of memory\n"

passed = failed = 0


def count(name, problem):
    """Counts a row, which passes where nothing is wrong with it."""
    global passed, failed
    if problem:
        failed += 1
        print(f"{sys.argv[0]}: {name}: {problem}", flush=True)
    else:
        passed += 1


class Ended:
    def __init__(self, status, output, said, seconds):
        self.status, self.output, self.said, self.seconds = status, output, said, seconds


def run(words, data, space=None):
    """Runs the program once, where `space` is given with so many bytes of addresses."""
    limit = (lambda: resource.setrlimit(resource.RLIMIT_AS, (space, space))) if space else None
    before = resource.getrusage(resource.RUSAGE_CHILDREN)
    ended = subprocess.run([PROGRAM, *words], input=data, capture_output=True, check=False, preexec_fn=limit)
    after = resource.getrusage(resource.RUSAGE_CHILDREN)
    seconds = after.ru_utime + after.ru_stime - before.ru_utime - before.ru_stime
    return Ended(ended.returncode, ended.stdout, ended.stderr.decode(errors="replace"), seconds)


def refusal(ended, line):
    """What is wrong with a run that must have been refused with a line."""
    if (ended.status, ended.output, ended.said) != (1, b"", line):
        return f"status {ended.status}, {len(ended.output)} bytes written, said {ended.said[:200]!r} and not {line!r}"
    if ended.seconds > MOST_SECONDS:
        return f"it takes {ended.seconds:.3f} seconds"
    return None


# What opens, again and again, and the place in a turn of what nests: the byte that is one level too deep is told. Their source is the
# grammar: arrays, maps, tags, `simple(` and embedded sequences nest, strings of indefinite length do not.
OPENINGS = [
    ("[", [0]),
    ("{", [0]),
    ("{1:", [0]),
    ("[1,", [0]),
    ("[_ ", [0]),
    ("<<", [0]),
    ("1(", [1]),
    ("simple(", [6]),
    ("'a'+<<", [4]),
    ("(_ <<", [3]),
    ("(_ 'a','b'+<<", [11]),
    ("[{<<1(simple(", [0, 1, 2, 5, 12]),
]
# What opens nothing, or can't stand there again: the byte that is told, from the end where it is negative. Their source is the grammar, in
# the table of texts of docs/SUPPORTED.md: the byte is the first that no text goes on with.
FLOODS = [
    ("(_ ", 3),
    ("]", 0),
    (">>", 0),
    (")", 0),
    ("(", 1),
    (",", 0),
    ("+", 1),
    ("_", 0),
    ("\\", 0),
    (".. ", 2),
    ("'a'+", -1),
    ("'a ", 4),
    ("1 1,,", 4),
    ("#", -1),
    ("[1]:", 3),
]
# The encodings that nest, by the heads of RFC 8949, section 3: arrays and maps of both kinds of length, at the key or at the value, and tags.
OPEN_BYTES = ["81", "9f", "a1", "a101", "bf", "bf01", "c1", "d864", "8201", "9b0000000000000002", "bb00000000000000ff", "819fa1bf01c1"]
# Encodings that go on with nothing, by RFC 8949, section 3 (3.2 on indefinite lengths, 3.3 on simple values) and docs/SUPPORTED.md (numbers).
FLAT_BYTES = [
    ("5f", "Indefinite length strings can only contain definite lengths"),
    ("7f", "Indefinite length strings can only contain definite lengths"),
    ("5f61", "Indefinite length strings can only contain matching items"),
    ("ff", "Break code only expected at end of indefinite length items"),
    ("1f", "Integer/Tag with indefinite length encoding is not well-formed"),
    ("f818", "Invalid simple value"),
    ("1c", "Reserved header byte"),
    ("f93c00", "Float value out of scope"),
    ("61ff", "Text string must be valid UTF-8"),
]


def check_depths():
    for unit, places in OPENINGS:
        turn, place = divmod(LIMIT, len(places))
        at = turn * len(unit) + places[place]
        for command in ("diag2cbor", "diag2diag"):
            ended = run([command], unit.encode() * COUNT)
            count(f"{command} of {unit!r} again and again", refusal(ended, TOO_DEEP.format(at + 1, at)))
    for unit in OPEN_BYTES:
        ended = run(["cbor2diag"], bytes.fromhex(unit) * COUNT)
        count(f"cbor2diag of {unit} again and again", refusal(ended, BYTES_TOO_DEEP))


def check_floods():
    for unit, at in FLOODS:
        ended = run(["diag2diag"], unit.encode() * COUNT)
        at = at if at >= 0 else len(unit) * COUNT
        count(f"diag2diag of {unit!r} again and again", refusal(ended, INVALID.format(at + 1, at)))
    for unit, words in FLAT_BYTES:
        ended = run(["cbor2diag"], bytes.fromhex(unit) * COUNT)
        count(f"cbor2diag of {unit} again and again", refusal(ended, BYTES.format(words)))


# Counts that memory for them would exceed what there is: RFC 8949, section 3 has the heads.
ANNOUNCED = [
    ("5b7fffffffffffffff", NO_BYTES),
    ("5bffffffffffffffff00", NO_BYTES),
    ("7b7fffffffffffffff", NO_BYTES),
    ("7bffffffffffffffff00", NO_BYTES),
    ("5a7fffffff", NO_BYTES),
    ("5affffffff00", NO_BYTES),
    ("7affffffff", NO_BYTES),
    ("590fffff", NO_BYTES),
    ("5f5bffffffffffffffff00", NO_BYTES),
    ("7f7bffffffffffffffff00", NO_BYTES),
    ("9b7fffffffffffffff", NO_ITEM),
    ("9bffffffffffffffff00", NO_ITEM),
    ("9affffffff", NO_ITEM),
    ("9affffffff00", NO_ITEM),
    ("99ffff00", NO_ITEM),
    ("bbffffffffffffffff", NO_ITEM),
    ("bb7fffffffffffffff0000", NO_ITEM),
    ("baffffffff", NO_ITEM),
    ("baffffffff0000", NO_ITEM),
    ("b9ffff0000", NO_ITEM),
    ("9b8000000000000000", NO_ITEM),
    ("9b0800000000000000", NO_ITEM),
    ("bb0400000000000000", NO_ITEM),
    ("c29b7fffffffffffffff", NO_ITEM),
    ("819bffffffffffffffff" * 100, NO_ITEM),
]


def least_space(words):
    """The addresses, in bytes, that a run of no input takes."""
    least, enough = 0, 64 * KB
    while enough - least > 16:
        middle = (least + enough) // 2
        if run(words, b"", middle * KB).status == 0:
            enough = middle
        else:
            least = middle
    return enough * KB


def check_counts():
    for command, form in (("cbor2diag", []), ("cbor2diag", ["-i", "hex"])):
        space = least_space([command, *form]) + 512 * KB
        # so little that a list of 65535 entries is too much where they are there
        ended = run([command], b"\x99\xff\xff" + b"\x01" * 65535, space)
        count("a list that is too large for the memory", refusal(ended, NO_MEMORY))
        for digits, words in ANNOUNCED:
            data = digits.encode() if form else bytes.fromhex(digits)
            count(f"{command} {' '.join(form)} of {digits[:20]}", refusal(run([command, *form], data, space), BYTES.format(words)))


# Each kind of flat input as the table of memory of docs/PERFORMANCE.md begins its name, in its order.
NAMES = {
    "integers": "integers",
    "ones": "`1 1 1`",
    "maps": "small maps",
    "words": "words",
    "texts": "short texts",
    "one text": "one text",
    "byte strings": "short byte strings",
    "one byte string": "one",
    "concatenations": "`'a' + 'b'`",
    "one concatenation": "one concatenation",
    "streams": "`(_ 'a', 'b')`",
    "one stream": "one",
    "tags": "tags",
    "tags alone": "not in an array",
    "COSE": "COSE",
    "CWT": "in CWT",
    "embedded": "embedded sequences",
    "comments": "comments",
    "one space": "one space",
}
# How much more an input may take. A vector that has doubled may be half empty, so another size of input may take a half more memory.
ROOM = 1.1 if SIZE == 64_000_000 else 1.6
# What the program itself takes.
PROGRAM_SIZE = 4_000_000


def stated():
    """What docs/PERFORMANCE.md says that a byte of input takes of memory: for each kind three numbers, or None for a dash."""
    rows = []
    with open("docs/PERFORMANCE.md", encoding="utf-8") as file:
        for line in file:
            cells = [cell.strip() for cell in line.strip().strip("|").split("|")]
            if cells[0] == "input":
                # the table of memory is the last one
                rows = []
            elif line.startswith("|") and not cells[0].startswith("---"):
                rows.append([cell.split("; ") for cell in cells])
    found = []
    for names, *numbers in rows:
        for at, name in enumerate(names):
            found.append((name, [None if number == ["–"] else float(number[at]) for number in numbers]))
    if len(found) != len(NAMES) or not all(name.startswith(begin) for (name, _), begin in zip(found, NAMES.values())):
        sys.exit(f"{sys.argv[0]}: docs/PERFORMANCE.md has other rows: {[name for name, _ in found]}")
    return dict(zip(NAMES, (numbers for _, numbers in found)))


# So that this process may wait for what a shell began that has ended: prctl(PR_SET_CHILD_SUBREAPER, 1).
ctypes.CDLL(None).prctl(36, 1, 0, 0, 0)


def measure(words, source, sink):
    """Runs the program from file to file. Answers its status and its peak of memory in bytes.

    A peak begins with what the process had that starts the program, so that is a small shell, which another one begins. It goes on when
    that one has ended, so it is waited for here."""
    begins = 'from=$1 to=$2; shift 2; exec 3<&0; { read -r line <&3; exec "$@" < "$from" > "$to" 3<&-; } & echo $!'
    command = ["sh", "-c", begins, "sh", source, sink, PROGRAM, *words]
    with subprocess.Popen(command, stdin=subprocess.PIPE, stdout=subprocess.PIPE) as shell:
        begun = int(shell.stdout.readline())
        shell.wait()
        shell.stdin.write(b"\n")
    _, status, usage = os.wait4(begun, 0)
    return os.waitstatus_to_exitcode(status), usage.ru_maxrss * KB


COMMANDS = ["diag2cbor", "diag2diag", "cbor2diag"]
# Kinds that are measured side by side, as far as there are processors. The three that take most take 6.7 GB together, of 64 MB each.
SIDE_BY_SIDE = 3


def measure_kind(kind, numbers):
    """Runs each command on a kind, where a number is stated. Answers its input's size, the number, the status and the peak, or None."""
    found = []
    with tempfile.TemporaryDirectory() as work:
        text_file, bytes_file = f"{work}/text", f"{work}/bytes"
        with open(text_file, "wb") as file:
            subprocess.run([sys.executable, "-B", "scripts/measure/inputs.py", kind, str(SIZE)], stdout=file, check=True)
        for command, number in zip(COMMANDS, numbers):
            if number is None:
                found.append(None)
                continue
            source = bytes_file if command == "cbor2diag" else text_file
            status, peak = measure([command], source, bytes_file if command == "diag2cbor" else os.devnull)
            found.append((os.path.getsize(source), number, status, peak))
    return found


def check_memory():
    """Holds each peak of memory against the number that is stated."""
    numbers = stated()
    print(f"{'peak memory':18}" + "".join(f"{command + ', MB':>16}{'per byte':>10}" for command in COMMANDS))
    with ThreadPoolExecutor(min(SIDE_BY_SIDE, os.cpu_count() or 1)) as pool:
        for kind, found in zip(FLAT, pool.map(measure_kind, FLAT, (numbers[kind] for kind in FLAT))):
            row = f"{kind:18}"
            for command, one in zip(COMMANDS, found):
                if one is None:
                    continue
                size, number, status, peak = one
                row += f"{peak / 1e6:16.0f}{peak / size:10.1f}"
                most = size * number * ROOM + PROGRAM_SIZE
                count(f"{command} of {kind}, {size} bytes", f"status {status}, {peak} bytes of memory" if status != 0 or peak > most else None)
            print(row, flush=True)


# Kinds and flags whose memory is refused at one size after the other.
STARVED = [
    (["diag2cbor"], "maps"),
    (["diag2cbor", "-o", "hex"], "byte strings"),
    (["diag2cbor", "--annotate-tags", "--apply-999"], "texts"),
    (["diag2diag"], "comments"),
    (["diag2diag", "--annotate-tags", "--aol-to-item", "--annotate", "ccs", "--remove-comments"], "tags"),
    (["diag2diag", "--preserve-space"], "embedded"),
    (["cbor2diag"], "integers"),
    (["cbor2diag"], "tags"),
    (["cbor2diag", "--annotate", "ccs"], "maps"),
    (["cbor2diag", "-i", "hex"], "streams"),
]
STARVED_SIZE, STEP = (40_000, 16 * KB) if SHORT else (100_000, 32 * KB)


def check_starved():
    """From the addresses that a run of no input takes upward: a run that has too few tells it and writes nothing."""
    for words, kind in STARVED:
        data = FLAT[kind](STARVED_SIZE)
        if words[0] == "cbor2diag":
            data = run(["diag2cbor", *(["-o", "hex"] if "hex" in words else [])], data).output
        whole = run(words, data)
        space, refused, problem = least_space(words), 0, None
        while True:
            ended = run(words, data, space)
            if (ended.status, ended.output, ended.said) == (whole.status, whole.output, whole.said) and whole.status == 0:
                break
            if (ended.status, ended.output, ended.said) != (1, b"", NO_MEMORY):
                problem = f"in {space} bytes of addresses: status {ended.status}, {len(ended.output)} bytes written, said {ended.said[:200]!r}"
                break
            refused += 1
            space += STEP
        if problem is None and refused < 5:
            problem = f"memory was refused {refused} times only"
        count(f"{' '.join(words)} of {kind}, with too little memory", problem)


def check_endless():
    """Input without an end is read until memory is refused."""
    for command in ("diag2cbor", "diag2diag", "cbor2diag"):
        count(f"{command} of an endless input", refusal(run([command, "/dev/zero"], b"", 64_000 * KB), NO_MEMORY))


# The slowest inputs of 64 KB that are known: a list in so many tags, for each of which a literal that would stand for it is looked for. In
# tags of addresses that takes the size times the depth, since the literal must mean what the whole tag does. In others a visit looks at
# each item once, and the indentation of the output is what takes time. No known input of 64 KB takes more than 2 seconds on the machine of
# docs/PERFORMANCE.md. Machines differ, so here they are held to a number of times what a flat MB takes on the same one.
SLOWEST = [
    ("addresses in tags 52", 250, "52([h'00000000',", "])", 15),
    ("addresses in tags 54", 250, "54([h'00000000000000000000000000000000',", "])", 15),
    ("tags 1", 510, "1(", ")", 5),
    ("embedded sequences in tags 52", 250, "52(<<", ">>)", 5),
]


def quickest(words, data, enough):
    """The quickest of at most six runs, as soon as one takes few enough seconds: what else runs on the machine takes some of the others'."""
    runs = []
    while len(runs) < 6:
        runs.append(run(words, data))
        if runs[-1].seconds <= enough:
            break
    return min(runs, key=lambda ended: ended.seconds)


def check_slowest():
    # by a flag for which a tree is made, as it is for each input below
    flat = min(run(["cbor2diag", "--aol-to-item"], b"\x01" * ONES).seconds for _ in range(3))
    for name, depth, opening, closing, times_flat in SLOWEST:
        most = times_flat * MORE
        # 64 KB as a text, and as an encoding
        lengths = (30_000 // LESS, 60_000 // LESS)
        text, encoded = ((opening * depth + "[" + ",".join(["1"] * ones) + "]" + closing * depth).encode() for ones in lengths)
        encoded = run(["diag2cbor"], encoded)
        keeps_spaces = ["diag2diag", "--annotate-tags", "--preserve-space"]
        for words, data in ((["diag2cbor", "--annotate-tags"], text), (keeps_spaces, text), (["cbor2diag"], encoded.output)):
            ended = quickest(words, data, flat * most)
            times = ended.seconds / flat
            seconds = f"it takes {ended.seconds:.1f} seconds, {times:.1f} times a flat input" if times > most else None
            count(f"{' '.join(words)} of {name}, {depth} deep", seconds if ended.status == 0 else f"status {ended.status}, said {ended.said[:200]!r}")


# Byte strings in byte strings: each level is decoded once more, for 8 levels where no flag says more.
DEEPEST_SHOWN = [
    ("byte strings", 8, "<<[", "]>>"),
    ("byte strings", 255, "<<[", "]>>"),
    ("tags of addresses in byte strings", 8, "<<52([", "])>>"),
    ("tags of addresses in byte strings", 255, "<<52([", "])>>"),
    ("messages in messages", 8, "<<18([h'', {}, ", ", h''])>>"),
    ("messages in messages", 128, "<<18([h'', {}, ", ", h''])>>"),
]
MOST_TIMES_SHOWN = 10 * MORE


def check_shown():
    flat = min(run(["cbor2diag", "--aol-to-item"], b"\x01" * ONES).seconds for _ in range(3))
    for name, depth, opening, closing in DEEPEST_SHOWN:
        text = opening * depth + ",".join(["1"] * ONES) + closing * depth
        encoded = run(["diag2cbor"], text.encode()).output
        ended = quickest(["show"], encoded, flat * MOST_TIMES_SHOWN)
        times = ended.seconds / flat
        seconds = f"it takes {ended.seconds:.1f} seconds, {times:.1f} times a flat input" if times > MOST_TIMES_SHOWN else None
        count(f"show of {name}, {depth} deep", seconds if ended.status == 0 else f"status {ended.status}, said {ended.said[:200]!r}")


# An item without an encoding behind much else that has one, deep in other items: what stands in front is encoded once, whatever the depth.
DEEP_FAULTS = [
    ("arrays", "[", "]"),
    ("values of maps", "{1:", "}"),
    ("tags", "1([", "])"),
    ("embedded sequences", "<<", ">>"),
]
DEPTH_OF_FAULT, EMPTY_IN_FRONT, MOST_TIMES_FAULT = 255, 300_000 // LESS, 10 * MORE


def check_places():
    for name, opening, closing in DEEP_FAULTS:
        text = f"{opening * DEPTH_OF_FAULT}[{'[],' * EMPTY_IN_FRONT}%s]{closing * DEPTH_OF_FAULT}"
        encoded = min(run(["diag2cbor"], (text % "1").encode()).seconds for _ in range(3))
        ended = quickest(["check"], (text % "1.5").encode(), encoded * MOST_TIMES_FAULT)
        column = len(opening) * DEPTH_OF_FAULT + 3 * EMPTY_IN_FRONT + 2
        problem = None
        if ended.status != 1 or not ended.said.startswith(f"<stdin>:1:{column}: Number has no encoding\n"):
            problem = f"status {ended.status}, said {ended.said[:200]!r}"
        elif ended.seconds > encoded * MOST_TIMES_FAULT:
            problem = f"it takes {ended.seconds:.2f} seconds, {ended.seconds / encoded:.1f} times diag2cbor of one with an encoding"
        count(f"check of {name}, {DEPTH_OF_FAULT} deep", problem)


# Lists in brackets, again and again, each too long for its line: bytes of those that stand round it are read again for each, as far as
# these may fit. Twenty brackets indent by a whole line. By the heads of RFC 8949, section 3: what opens, what closes, and the list inside.
READ_AGAIN = [
    ("arrays", "81", ""),
    ("arrays with an item before", "8201", ""),
    ("open arrays", "9f", "ff"),
    ("open arrays with an item before", "9f01", "ff"),
    ("values of maps", "a101", ""),
    ("values of open maps", "bf01", "ff"),
    ("keys of maps", "a1", "01"),
    ("maps with a pair before", "a2010101", ""),
    ("tags", "c6", ""),
    ("arrays in tags", "c681", ""),
]
LONG_LISTS = [
    ("721 ones", "9902d1" + "01" * 721),
    ("721 ones, open", "9f" + "01" * 721 + "ff"),
    ("81 ones", "9851" + "01" * 81),
    ("360 pairs", "b90168" + "0101" * 360),
    ("361 strings in one", "5f" + "4101" * 361 + "ff"),
]
DEPTH_READ_AGAIN, MOST_TIMES_READ_AGAIN = 20, 10 * MORE


def check_read_again():
    flat = min(run(["cbor2diag"], b"\x01" * ONES).seconds for _ in range(3))
    for name, opening, closing in READ_AGAIN:
        for inside, encoded in LONG_LISTS:
            unit = bytes.fromhex(opening * DEPTH_READ_AGAIN + encoded + closing * DEPTH_READ_AGAIN)
            ended = quickest(["cbor2diag"], unit * (ONES // len(unit)), flat * MOST_TIMES_READ_AGAIN)
            times = ended.seconds / flat
            seconds = f"it takes {ended.seconds:.1f} seconds, {times:.1f} times a flat input" if times > MOST_TIMES_READ_AGAIN else None
            count(f"cbor2diag of {inside} in {name}", seconds if ended.status == 0 else f"status {ended.status}, said {ended.said[:200]!r}")


# What indents most: small items, or lists of one item, in as many lists as the limit has room for. A line has at most so many columns of
# indentation a level, with one level more for chunks. A byte makes at most so many lines: of what it opens and of what it closes.
COLUMNS_OF_A_LEVEL, LINES_OF_A_BYTE = 4, 2
INDENTED = [("01", 0), ("80", 1), ("818101", 2), ("81818180", 4), ("a10101", 1), ("5f40ff", 0), ("c681c600", 3), ("d280", 2)]


def check_indentation():
    for limit in (8, 64):
        for unit, levels in INDENTED:
            for opening in ("81", "a101"):
                encoded = bytes.fromhex(opening) * (limit - 1 - levels) + b"\x99\x03\xe8" + bytes.fromhex(unit) * 1000
                columns = COLUMNS_OF_A_LEVEL * (limit + 1)
                most = columns * LINES_OF_A_BYTE * len(encoded)
                for command in ("cbor2diag", "show"):
                    ended = run([command, "--max-nesting", str(limit)], encoded)
                    indented = max(len(line) - len(line.lstrip(b" ")) for line in ended.output.split(b"\n"))
                    problem = None
                    if ended.status != 0:
                        problem = f"status {ended.status}, said {ended.said[:200]!r}"
                    elif len(ended.output) > most or indented > columns:
                        problem = f"{len(ended.output)} bytes of at most {most}, indented by {indented} of at most {columns}"
                    count(f"{command} of {unit} in {opening}, {limit} levels", problem)


check_memory()
check_depths()
check_floods()
check_counts()
check_starved()
check_endless()
check_slowest()
check_shown()
check_places()
check_read_again()
check_indentation()
print(f"{passed} passed, {failed} failed")
raise SystemExit(failed != 0)
