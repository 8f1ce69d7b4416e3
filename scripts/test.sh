#!/usr/bin/env bash
# All tests and proofs. What needs no proof ends first: the looks at the sources, the tests of each crate and each allocation refused in
# turn, by programs that are made of the sources (scripts/quick.sh says more). Behind it goes the proof of each crate that has proofs
# (scripts/prove.py), and beside that the wrong bodies. Then the scripts that try a program, over the one that was proved, calls from
# other languages, and packages. The last line is 'N passed, M failed'. Where nothing failed, the program that was proved is left to
# ./cbor-edn.
#
# usage: scripts/test.sh [--all]
#
# With --all it takes no proof of an earlier run, tries all wrong bodies, and writes the record of those (scripts/gate/wrong_bodies.py).
set -euo pipefail

cd "$(dirname "$(readlink -f "$0")")/.."
command -v rt > /dev/null || { echo "test: the Rattle toolchain (the command rt) must be on the PATH" >&2; exit 1; }
exec python3 -B scripts/gate/parts.py gate "$@"
