"""Proves and runs a caller whose line in crates.txt names cbor_edn alone: the first program of CALLING.md.

usage: python3 -B scripts/gate/door.py

Beside it stands a file that imports from cbor_edn each word that a contract of a public call uses, whichever crate defines it (surface.py
--words). The crates below are those of this tree, proved, as a gate leaves them in out/. The program is built by two compilers, and must
write the bytes that stand here. The last line is 'N passed, M failed', over the words and the program.
"""

import os
import re
import subprocess
import sys
import tempfile

import kit
from common import ROOT

NAME = "mine"
# what the program of CALLING.md writes: {"interval": 300} by RFC 8949, section 3
WRITES = bytes.fromhex("a168696e74657276616c19012c")


def program():
    """Returns the first program of CALLING.md."""
    with open(f"{ROOT}/CALLING.md", encoding="utf-8") as it:
        found = re.findall(r"(?ms)^```rust\n(.*?)^```$", it.read())
    return next(it for it in found if "fn main(" in it)


def handed_on():
    """Returns the modules that cbor_edn hands on, each with the name that it has there."""
    with open(f"{ROOT}/crates/cbor_edn/specs/Lib.antt", encoding="utf-8") as it:
        lib = it.read()
    own = {f"cbor_edn.specs.{it}": it for it in [*re.findall(r"(?m)^pub mod (\w+)$", lib), "declared"]}
    others = re.findall(r"(?m)^pub use Rattle\.(\S+\.(\w+))(?: as (\w+))?$", lib)
    return {**own, **{module: name or last for module, last, name in others}}


def imports():
    """Returns lines that import all words of contracts from cbor_edn, and what is not handed on."""
    words = subprocess.run([sys.executable, "-B", f"{ROOT}/scripts/gate/surface.py", "--words"], check=True, capture_output=True, text=True)
    by, lines, lost = handed_on(), [], []
    for number, (module, word) in enumerate(it.split() for it in words.stdout.splitlines()):
        inside = next((it for it in by if f"{module}.".startswith(f"{it}.")), None)
        if inside is None:
            lost.append(f"{module}.{word}")
        else:
            lines.append(f"pub use Rattle.cbor_edn.specs.{by[inside]}{module.removeprefix(inside)}.{{{word} as word{number}}}\n")
    return lines, lost


def write(tree, lines):
    """Writes the caller's crate into a tree of links to the crates of this one."""
    folder = f"{tree}/crates/{NAME}"
    os.makedirs(f"{folder}/src")
    os.makedirs(f"{folder}/specs")
    with open(f"{ROOT}/crates.txt", encoding="utf-8") as old, open(f"{tree}/crates.txt", "w", encoding="utf-8") as new:
        new.write(f"{old.read()}{NAME}: cbor_edn\n")
    for crate in os.listdir(f"{ROOT}/crates"):
        os.mkdir(f"{tree}/crates/{crate}")
        for it in os.listdir(f"{ROOT}/crates/{crate}"):
            os.symlink(f"{ROOT}/crates/{crate}/{it}", f"{tree}/crates/{crate}/{it}")
    texts = {"src/main.rt": program(), "specs/Lib.antt": "pub mod Words\n", "specs/Words.antt": "".join(lines)}
    for file, text in texts.items():
        with open(f"{folder}/{file}", "w", encoding="utf-8") as it:
            it.write(text)
    with open(f"{folder}/stdout", "wb") as it:
        it.write(WRITES)
    os.mkdir(f"{folder}/out")


def built(rt, crate):
    """Returns the endings of the programs that stand in a crate's out/, one for each compiler."""
    return [it for it in rt.BACKENDS.values() if os.path.isfile(f"{crate.folder}/out/{crate.name}{it}")]


def main():
    rt = kit.load()
    # its first call sets a signal's handler, which only the main thread may
    rt.rtlib.guarded()
    rt.Crate.allowed, rt.Crate.cuts_libraries, rt.rtlib.Crate = (), True, rt.Crate
    lines, lost = imports()
    for it in lost:
        print(f"{sys.argv[0]}: {it} stands in a contract, and crates/cbor_edn/specs/Lib.antt doesn't hand it on")
    with tempfile.TemporaryDirectory(prefix="door-") as tree:
        write(tree, lines)
        crate = next(it for it in rt.rtlib.crates_below(tree) if it.name == NAME)
        crate.out = sys.stdout
        is_well = crate.ci(["--jobs", "1"], False) == 0 and all(rt.run(crate, False, it) for it in built(rt, crate))
    if not is_well:
        print(f"{sys.argv[0]}: a caller that imports from cbor_edn alone is refused, or writes something else")
    failed = len(lost) + (not is_well)
    print(f"{len(lines) + is_well} passed, {failed} failed")
    return 1 if failed else 0


if __name__ == "__main__":
    sys.exit(main())
