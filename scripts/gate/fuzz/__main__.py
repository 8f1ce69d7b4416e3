"""Sends random inputs through the three commands by random flags: texts by the grammar, encodings with heads of every width,
hexadecimal digits, each whole and damaged, and some of 64 KB, nested to the limit, or with arrays of more elements than a line has columns.

usage: python3 -B scripts/gate/fuzz SEED COUNT [PROGRAM]

Without PROGRAM it is the working tree's. COUNT is how many inputs, at least, are made; the same SEED makes the same. Each answer is
judged by readers and writers of this folder that share nothing with the program: an EDN reader and encoder (edn.py), a CBOR reader
(cbor.py), the items and comments that flags make (conversions.py, annotations.py), embedded CBOR and names of COSE that are shown
(embedded.py, cose.py: some 60 byte strings a round hold CBOR, whole or damaged) and the spaces of a layout (layout.py). So it is
known which inputs are taken, what diag2cbor and cbor2diag write, which items diag2diag writes and, where it converts none, its whole
text; and of what is refused the whole line, but for the place in a text, which is only looked at to be one; of bytes also the place.
Beside that, what is taken comes back: by `diag2diag --preserve-space --no-bignum-from-tags` as the same text, by cbor2diag and
diag2cbor as the same bytes; what is laid out stays when that is done again, where the flags allow it. For each 58 inputs another 200
items are formatted twice. No run may take more than 2 seconds of processor time, or more memory than 64 MB and 4 bytes for each byte
that it writes.

It takes Python 3.9 and nothing beside, and all processors that it may have. What fails is printed as small as it could be made, with the
command that repeats it. The last line is 'N passed, M failed'.
"""

import multiprocessing
import os
import random
import re
import sys

import cbor
import edn
import generate
import laws
import runs

sys.path.append(os.path.dirname(os.path.dirname(os.path.realpath(__file__))))
from common import find_program

CHECKS_OF_A_SHRINK = 1500
# Of each process: what fails beyond that is told as it is.
MOST_SHRINKS = 3
# Of a round: inputs of each kind.
VALUES, OTHERS, DAMAGED, ENCODINGS, DAMAGED_ENCODINGS, DIGITS = 12, 6, 10, 12, 8, 2
# byte strings of a round that hold CBOR, whole and damaged, in one input
NESTINGS = 60
ROUND = VALUES + OTHERS + DAMAGED + ENCODINGS + 2 * DAMAGED_ENCODINGS + DIGITS
# Beside them: items of the text that is formatted twice.
FORMATTED = 200
LARGE = 1 << 16
LARGE_EVERY = 50
DEEP_EVERY = 25
DIAG2DIAG = ["--annotate-tags", "--apply-999", "--aol-to-item", "--no-bignum-from-tags", "--annotate=ccs", "--remove-comments", "--preserve-space"]
SHOW = ["--no-bignum-from-tags", "--annotate=ccs", "--no-names"]
LEVELS = [["--no-embedded"], ["--levels=0"], ["--levels=1"], ["--levels=2"], ["--levels=255"], [], [], [], [], []]
CBOR2DIAG = ["--no-annotate-tags", "--aol-to-item", "--no-bignum-from-tags", "--annotate=ccs"]
FORMATS = [[], [], ["-o", "hex"], ["-ohex"], ["--output-format=hex"], ["-o", "binary"], ["--output-format", "auto"]]
OPENINGS = [("[", "]"), ("{1:", "}"), ("{", ":1}"), ("1(", ")"), ("<<", ">>"), ("[_ ", "]"), ("(_ <<", ">>)"), ("simple(", ")"), ("'a'+<<", ">>")]
OPEN_BYTES = [(b"\x81", b""), (b"\xa1\x01", b""), (b"\xa1", b"\x01"), (b"\x9f", b"\xff"), (b"\xbf\x01", b"\xff"), (b"\xd8\x64", b"")]


shrinks = 0


class Inputs:
    """The inputs of a round, each with a law, a limit, flags and how many cases it stands for."""

    def __init__(self, rng, number):
        self.rng = rng
        self.number = number
        self.cases = []

    def add(self, law, data, flags=(), cases=0, limit=None):
        if limit is None:
            limit = self.rng.randrange(9) if self.rng.randrange(10) == 0 else laws.LIMIT
        self.cases.append((law, data, limit, list(flags), cases))

    def some(self, flags):
        """Each flag with the same chance, which is another one each time."""
        chance = self.rng.random()
        return [flag for flag in flags if self.rng.random() < chance]

    def add_text(self, data, cases):
        self.add(laws.keep, data, cases=cases)
        self.add(laws.encode, data, self.rng.choice(FORMATS) + self.some(["--apply-999"]))
        layouts = ["--no-bignum-from-tags", *self.some(["--remove-comments", "--preserve-space"])]
        self.add(laws.lay_out, data, self.some(DIAG2DIAG) if self.rng.randrange(2) else layouts)

        self.add(laws.lay_out_file, data, self.some(["--remove-comments"]))

    def add_annotated(self, data):
        self.add(laws.annotate, data, self.rng.choice(FORMATS) + self.some(["--apply-999"]))

    def text(self, means, count):
        """A text of so many items, which the reader of these scripts must read as what was generated."""
        texts = generate.Texts(self.rng, means)
        text, items = texts.joined(lambda: texts.item(self.rng.randrange(4)), count)
        if edn.read(text) != items:
            raise runs.Problem(f"these scripts read {text!r} as {edn.read(text)}, and not {items}")
        return text.encode()

    def add_texts(self):
        data = self.text(True, VALUES)
        self.add_text(data, VALUES)
        self.add_annotated(data)
        others = [self.text(False, 1) for _ in range(OTHERS)]
        self.add_text(b" ".join(others), OTHERS)
        for other in others:
            self.add(laws.encode, other, self.some(["--apply-999"]))
            self.add(laws.check, other, self.some(["--apply-999"]))
            self.add_annotated(other)
        for _ in range(DAMAGED):
            source = self.rng.choice(others) if self.rng.randrange(2) else self.text(False, self.rng.randrange(1, 4))
            self.add(self.rng.choice([laws.keep, laws.encode, laws.lay_out, laws.annotate, laws.lay_out_file, laws.check]), generate.damaged(self.rng, source), cases=1)

    def add_formatted(self):
        self.add(laws.rest, self.text(False, FORMATTED), self.some(["--remove-comments"]), limit=laws.LIMIT)

    def add_bytes(self):
        encodings = generate.Bytes(self.rng)
        data = encodings.items(3, ENCODINGS)
        if cbor.read(data, laws.LIMIT)[0] is None:
            raise runs.Problem(f"these scripts refuse {data.hex()}")
        self.add(laws.decode, data, self.some(CBOR2DIAG), ENCODINGS)
        self.add_shown(data, 0)
        self.add_shown(b"".join(encodings.embedded(self.rng.randrange(1, 4)) for _ in range(NESTINGS)), 0)
        long = encodings.long_array()
        self.add(laws.decode, long, self.rng.choice([[], self.some(CBOR2DIAG)]))
        self.add(laws.decode, generate.damaged(self.rng, long))
        if self.rng.randrange(4) == 0:
            self.add(laws.decode_digits, generate.digits(self.rng, data), self.some(CBOR2DIAG))
        for _ in range(DAMAGED_ENCODINGS):
            source = encodings.items(self.rng.randrange(4), self.rng.randrange(1, 4))
            self.add(laws.decode, generate.damaged(self.rng, source), self.some(CBOR2DIAG), 1)
            self.add_shown(generate.damaged(self.rng, source), 1)
        for _ in range(DIGITS):
            source = generate.digits(self.rng, encodings.items(2, 1))
            self.add(laws.decode_digits, generate.damaged(self.rng, source), self.some(CBOR2DIAG), 1)

    def add_shown(self, data, cases):
        self.add(laws.show, data, self.rng.choice(LEVELS) + self.some(SHOW), cases)

    def add_large(self):
        for means in (True, False):
            unit = self.text(means, 5) + b" "
            self.add_text(unit * (LARGE // len(unit)), 1)
        unit = generate.Bytes(self.rng).items(3, 5)
        self.add(laws.decode, unit * (LARGE // len(unit)), self.some(CBOR2DIAG), 1)
        self.add(laws.decode, generate.damaged(self.rng, unit * (LARGE // len(unit))), [], 1)

    def add_deep(self):
        depth = self.rng.choice([510, 511, 512, 513, 700, 5000])
        pairs = [self.rng.choice(OPENINGS) for _ in range(depth)]
        text = "".join(opening for opening, _ in pairs) + "1" + "".join(closing for _, closing in reversed(pairs))
        self.add_text(text.encode(), 1)
        self.add(laws.keep, generate.damaged(self.rng, text.encode()), cases=1, limit=laws.LIMIT)
        pairs = [self.rng.choice(OPEN_BYTES) for _ in range(depth)]
        data = b"".join(opening for opening, _ in pairs) + b"\x01" + b"".join(closing for _, closing in reversed(pairs))
        self.add(laws.decode, data, self.some(CBOR2DIAG), 1)
        self.add(laws.decode, generate.damaged(self.rng, data), self.some(CBOR2DIAG), 1, limit=laws.LIMIT)
        data = b"\x01"
        for _ in range(self.rng.choice([3, 100, 254, 255, 256, 300])):
            opening, closing = self.rng.choice(OPEN_BYTES)
            data = opening + data + closing
            data = cbor.head(2, len(data)) + data
        self.add_shown(data, 1)

    def all(self):
        self.add_texts()
        self.add_formatted()
        self.add_bytes()
        if self.number % LARGE_EVERY == 0:
            self.add_large()
        if self.number % DEEP_EVERY == 0:
            self.add_deep()
        return self.cases


def problem_of(law, data, limit, flags):
    try:
        law(data, limit, flags)
    except runs.Problem as problem:
        return str(problem)
    except RecursionError:
        return "these scripts are too shallow"
    return None


def shrunk(law, data, limit, flags):
    """The bytes without chunks that the problem does not need."""
    global shrinks
    shrinks += 1
    if shrinks > MOST_SHRINKS:
        return data
    left, size = CHECKS_OF_A_SHRINK, len(data)
    while size > 0 and left > 0:
        at = 0
        while at < len(data) and left > 0:
            left -= 1
            shorter = data[:at] + data[at + size :]
            if problem_of(law, shorter, limit, flags):
                data = shorter
            else:
                at += size
        size //= 2
    return data


def told(seed, number, law, data, limit, flags):
    """What is printed of a case that failed."""
    command = {"show": "show", "lay_out_file": "fmt", "rest": "fmt", "check": "check", "decode": "cbor2diag", "decode_digits": "cbor2diag -i hex", "encode": "diag2cbor", "annotate": "diag2cbor --annotate-tags"}
    words = [command.get(law.__name__, "diag2diag"), *(laws.EXACT if law is laws.keep else []), *flags, *laws.limited(limit)]
    return (
        f"fuzz: seed {seed}, round {number}: {' '.join(law.__doc__.split())}\n"
        f"  printf {runs.shown(data)} | {runs.program} {' '.join(words)}\n"
        f"  {problem_of(law, data, limit, flags)}"
    )


def play(job):
    """A round: how many cases passed, what is said of those that failed, and how often the program ran."""
    seed, number = job
    before, passed, failures = runs.count, 0, []
    try:
        cases = Inputs(random.Random((seed << 64) + number), number).all()
    except runs.Problem as problem:
        return 0, [f"fuzz: seed {seed}, round {number}: {problem}"], 0
    for law, data, limit, flags, count in cases:
        if problem_of(law, data, limit, flags) is None:
            passed += count
            continue
        failures.append(told(seed, number, law, shrunk(law, data, limit, flags), limit, flags))
    return passed, failures, runs.count - before


def main():
    words = sys.argv[1:]
    if len(words) not in (2, 3) or not all(re.fullmatch("[0-9]{1,18}", it) for it in words[:2]):
        sys.exit("usage: python3 -B scripts/gate/fuzz SEED COUNT [PROGRAM]")
    seed, count, runs.program = int(words[0]), int(words[1]), find_program(*words[2:])
    sys.setrecursionlimit(1_000_000)
    rounds = -(-count // ROUND)
    passed = failed = ran = 0
    with multiprocessing.get_context("fork").Pool(len(os.sched_getaffinity(0))) as pool:
        for good, failures, times in pool.imap_unordered(play, ((seed, number) for number in range(rounds)), 4):
            passed, failed, ran = passed + good, failed + len(failures), ran + times
            for failure in failures:
                print(failure, flush=True)
    print(f"fuzz: seed {seed}, {rounds} rounds, {ran} runs of the program")
    print(f"{passed} passed, {failed} failed")
    return failed != 0


if __name__ == "__main__":
    sys.exit(main())
