"""Sends the bytes of another implementation's values, times, addresses and bignums among them, through cbor2diag by several
flags and through diag2cbor, and compares what comes back. Then a third one writes the same bytes as diagnostic text, which
diag2cbor must read as those bytes.

usage: /usr/bin/python3 -B scripts/gate/outside.py [PROGRAM]

Without PROGRAM it is the working tree's. The values are of Debian's python3-cbor2: where it is not installed nothing is
compared. The text is of its node-cbor, where that is installed. What is missing is told; in CI, which may install both, that is
a fault. Floating-point numbers are left out, since the program reads and writes only those that are not finite. The last line is
'N passed, M failed'.
"""

import importlib.util
import os
import subprocess
import sys

from common import ROOT, find_program

if importlib.util.find_spec("cbor2") is None:
    print(f"{sys.argv[0]}: python3-cbor2 is not installed, so nothing is compared")
    # CI may install it, so there nothing compared is a fault
    missing = bool(os.environ.get("CI"))
    print(f"0 passed, {missing:d} failed")
    sys.exit(missing)

from values import COUNT, LITERAL_TAGS, encodings

os.chdir(ROOT)
PROGRAM = find_program(*sys.argv[1:])
# The command of node-cbor, which finds its modules only where it is told to look.
NODE_CBOR = "/usr/bin/cbor2diag"
NODE_PATH = "/usr/share/nodejs"
BATCH = 50


def run(words, data):
    return subprocess.run([PROGRAM, *words], input=data, capture_output=True, check=False)


def back_by(*flags):
    """The way through cbor2diag with these flags, and through diag2cbor."""

    def back(data):
        shown = run(["cbor2diag", *flags], data)
        if shown.returncode != 0:
            return shown.stderr
        return run(["diag2cbor"], shown.stdout).stdout

    return back


def by_node(data):
    environment = {**os.environ, "NODE_PATH": NODE_PATH}
    shown = subprocess.run([NODE_CBOR, "-"], input=data, env=environment, capture_output=True, check=False)
    if shown.returncode != 0:
        return shown.stderr
    return run(["diag2cbor"], shown.stdout).stdout


def compare(name, way, encodings):
    """Sends encodings some way, many at a time, and one by one where what comes back differs. Returns how many passed."""
    passed = 0
    for first in range(0, len(encodings), BATCH):
        batch = encodings[first : first + BATCH]
        if way(b"".join(batch)) == b"".join(batch):
            passed += len(batch)
            continue
        for data in batch:
            answer = way(data)
            if answer == data:
                passed += 1
            else:
                print(f"{sys.argv[0]}: {name}: {data.hex()} came back as {answer.hex()}")
    return passed


ways = [("python3-cbor2", back_by(), encodings())]
for flags in [[], ["--annotate", "ccs"], ["--aol-to-item"], ["--no-annotate-tags", "--no-bignum-from-tags"]]:
    ways.append((f"literals, {' '.join(flags)}", back_by(*flags), encodings(LITERAL_TAGS)))
if os.path.exists(NODE_CBOR):
    # It reads no tag past 31 bits, and fails at null and undefined in a tag.
    ways.append(("node-cbor", by_node, encodings([6, 24, 100, 1000, 2**31 - 1], [True, False])))
    missing = 0
else:
    print(f"{sys.argv[0]}: node-cbor is not installed, so no text of another implementation is read")
    missing = bool(os.environ.get("CI"))
passed = sum(compare(*way) for way in ways)
failed = len(ways) * COUNT - passed + missing
print(f"{passed} passed, {failed} failed")
raise SystemExit(failed != 0)
