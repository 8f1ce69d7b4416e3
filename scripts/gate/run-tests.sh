#!/usr/bin/env bash
# Runs all tests of a crate by a native program that is made of them without their proofs (scripts/unproved.py).
#
# usage: scripts/gate/run-tests.sh CRATE [PROGRAM]
#
# PROGRAM is where the program of tests is left, if it is given. The last line is 'N passed, M failed', over the tests.
set -euo pipefail

cd "$(dirname "$(readlink -f "$0")")/../.."
crate=${1:?usage: scripts/gate/run-tests.sh CRATE [PROGRAM]}
work=$(mktemp -d)
trap 'rm -rf "$work"' EXIT
program=${2:-$work/tests}
kit=$(dirname "$(dirname "$(readlink -f "$(command -v rt)")")")

python3 -B scripts/unproved.py "$crate" "$program" --test
"$kit/bin/rattle-test" --seconds 120 "$program" > "$work/said" 2>&1 || true
grep -vE '^test [a-z0-9_:]+ \.\.\. ok$' "$work/said" || true
passed=$(grep -cE '^test [a-z0-9_:]+ \.\.\. ok$' "$work/said" || true)
listed=$("$program" --list | grep -c ': test$' || true)
# a test that did not pass, or that was not run
failed=$((listed - passed))
[ "$passed" != 0 ] || failed=$((failed + 1))
echo "$passed passed, $failed failed"
[ "$failed" = 0 ]
