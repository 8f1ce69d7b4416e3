#!/usr/bin/env bash
# Runs the command of each folder of examples/ on its input, and compares what it writes with its output. What is shown from digits must come
# back as these digits.
#
# usage: scripts/gate/examples.sh [PROGRAM]
#
# Without PROGRAM it is the working tree's. The last line is 'N passed, M failed'.
set -euo pipefail

cd "$(dirname "$(readlink -f "$0")")/../.."
# shellcheck source=scripts/gate/common.sh
. scripts/gate/common.sh
find_program "${1-}"

writes_its_output() {
  local words
  read -ra words < "$1/command" && "$program" "${words[@]}" < "$1/input" | diff "$1/output" - > /dev/null
}

comes_back() {
  [ "$("$program" diag2cbor -o hex < "$1/output" | tr -d '\n')" = "$(tr -d '\n' < "$1/input")" ]
}

for example in examples/*/; do
  count "$example differs" writes_its_output "$example"
  if grep -q '^show ' "$example/command"; then
    count "$example does not come back" comes_back "$example"
  fi
done
# an empty folder is no success
[ "$passed" != 0 ] || failed=$((failed + 1))
end
