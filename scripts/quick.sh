#!/usr/bin/env bash
# All tests without the proofs, for a fresh clone and after each change: some minutes on four processors.
#
# The tests of each crate, each allocation of the calls for refused memory refused in turn, the scripts that try the program, random
# inputs, and calls from C, Rust and Python, all over native programs that are made of the sources without their proofs
# (scripts/unproved.py), and the looks at the sources. It shows that the sources do what the tests ask, with each index, sum and premise
# that the toolchain can test looked at as they run. It shows nothing of proofs, definitions or wrong bodies: scripts/test.sh does. Some
# of its runs are shorter than there, as the scripts' heads say. What is not installed is left out, and told. The last line is 'N passed,
# M failed'.
set -euo pipefail

cd "$(dirname "$(readlink -f "$0")")/.."
command -v rt > /dev/null || { echo "quick: the Rattle toolchain (the command rt) must be on the PATH" >&2; exit 1; }
exec python3 -B scripts/gate/parts.py quick
