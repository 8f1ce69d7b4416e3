#!/usr/bin/env bash
# Runs the program under a stack of 1 MB on texts and bytes that nest as deep as its limit, and one level deeper, and tests of the
# library.
#
# usage: scripts/gate/stack.sh [--unproved] [PROGRAM [TESTS..]]
#
# Without PROGRAM it is the working tree's. TESTS are programs of tests, as of trees that are copied and compared: all tests of each must
# pass. These are of unproved sources, whose frames are larger, and get 2 MB, as PROGRAM does with --unproved. Each input is of one kind
# of nesting. Of a text at the limit, diag2cbor must write the bytes that stand here, with all flags that visit too, diag2diag --preserve-
# space the text itself, and the other ways of diag2diag what they write under the largest stack there is. Of the bytes cbor2diag must
# write what it writes there, by its flags too, and diag2cbor must read that back. What nests one level deeper must be refused. The last
# line is 'N passed, M failed'.
set -euo pipefail

cd "$(dirname "$(readlink -f "$0")")/../.."
SMALL=1024
UNPROVED=2048
[ "${1-}" != --unproved ] || { SMALL=$UNPROVED; shift; }
# shellcheck source=scripts/gate/common.sh
. scripts/gate/common.sh
begin_trial "${1-}"
shift || true
LARGE=hard
LIMIT=512

# Runs the program under a stack of so many KB, or `hard` for as many as there may be.
under() {
  local size=$1
  shift
  (ulimit -S -s "$size" && exec "$program" "$@")
}

# Adds a run of the words on a file, and counts it by a test of its status, its output and what it said.
add_run() {
  local name=$1 input=$2 is_right=$3
  shift 3
  status=0
  under "$SMALL" "$@" < "$input" > "$work/output" 2> "$work/said" || status=$?
  count "$name: $*" "$is_right"
}

details() {
  echo ": status $status $(tail -n 20 "$work/said")"
}

is_wanted() {
  [ "$status" = 0 ] && cmp -s "$work/output" "$wanted"
}

is_refused() {
  [ "$status" = 1 ] && [ ! -s "$work/output" ] && [ "$(cat "$work/said")" = "cbor-edn: $fault" ]
}

# The output must be that of another file.
expect() {
  local name=$1 input=$2 wanted=$3
  shift 3
  add_run "$name" "$input" is_wanted "$@"
}

# What nests too deeply must be refused in these words.
expect_refusal() {
  local name=$1 input=$2 fault=$3
  shift 3
  add_run "$name, a level too deep" "$input" is_refused "$@"
}

# What is told of an opening again and again: the place of the first mark that is too deep, which is `<<` where a string stands round it.
too_deep() {
  local before=${1%%[\[\{(]*} at
  [[ $1 != *'<<'* ]] || before=${1%%'<<'*}
  at=$((LIMIT * ${#1} + ${#before}))
  echo "Error parsing input data: EDN nested too deeply in line 1 column $((at + 1)) (byte $at)"
}

# Writes so many openings, what stands inside, and so many closings. Each is a format of printf.
nested() {
  local depth=$1 turns
  turns=$(seq "$depth")
  # shellcheck disable=SC2059,SC2086
  { printf "$2%.0s" $turns; printf "$3"; [ -z "$4" ] || printf "$4%.0s" $turns; }
}

# The ways of a text: the bytes are in a file, or the text has none.
check_text() {
  local name=$1 bytes=$2 open=$3 inside=$4 close=$5 words fault
  fault=$(too_deep "$open")
  nested "$LIMIT" "$open" "$inside" "$close" > "$work/text"
  nested $((LIMIT + 1)) "$open" "$inside" "$close" > "$work/deeper"
  expect "$name" "$work/text" "$work/text" diag2diag --preserve-space
  for words in '' --remove-comments '--annotate-tags --apply-999 --aol-to-item --annotate ccs'; do
    # shellcheck disable=SC2086
    under "$LARGE" diag2diag $words < "$work/text" > "$work/wanted"
    # shellcheck disable=SC2086
    expect "$name" "$work/text" "$work/wanted" diag2diag $words
  done
  expect_refusal "$name" "$work/deeper" "$fault" diag2diag
  if [ -n "$bytes" ]; then
    expect "$name" "$work/text" "$bytes" diag2cbor
    expect "$name" "$work/text" "$bytes" diag2cbor --annotate-tags --apply-999
    expect_refusal "$name" "$work/deeper" "$fault" diag2cbor
  fi
}

# The ways of bytes.
check_bytes() {
  local name=$1 bytes=$2 words
  for words in '' '--aol-to-item --annotate ccs'; do
    # shellcheck disable=SC2086
    under "$LARGE" cbor2diag $words < "$bytes" > "$work/wanted"
    # shellcheck disable=SC2086
    expect "$name" "$bytes" "$work/wanted" cbor2diag $words
    expect "$name" "$work/wanted" "$bytes" diag2cbor
  done
}

# A kind of nesting: openings, inside and closings as text, and as bytes.
check() {
  local name=$1
  nested "$LIMIT" "$5" "$6" "$7" > "$work/bytes"
  nested $((LIMIT + 1)) "$5" "$6" "$7" > "$work/deeper-bytes"
  check_text "$name" "$work/bytes" "$2" "$3" "$4"
  check_bytes "$name" "$work/bytes"
  expect_refusal "$name" "$work/deeper-bytes" 'Error decoding input data: Nested too deeply' cbor2diag
}

check arrays '[' 1 ']' '\x81' '\x01' ''
check 'arrays between items' '[2, ' 1 ', 3]' '\x83\x02' '\x01' '\x03'
check 'open arrays' '[_ ' 1 ']' '\x9f' '\x01' '\xff'
check 'values of maps' '{2: ' 1 '}' '\xa1\x02' '\x01' ''
check 'keys of maps' '{' 1 ': 2}' '\xa1' '\x01' '\x02'
check 'values of open maps' '{_ 2: ' 1 '}' '\xbf\x02' '\x01' '\xff'
check 'keys of open maps' '{_ ' 1 ': 2}' '\xbf' '\x01' '\x02\xff'
check tags '6(' 1 ')' '\xc6' '\x01' ''
# Where tags are annotated the innermost of the first two is written as a literal, and each of the others gets a comment.
check 'tags of times' '1(' 1 ')' '\xc1' '\x01' ''
check 'tags of addresses' '52(' "h'c0000201'" ')' '\xd8\x34' '\x44\xc0\x00\x02\x01' ''
check 'tags of languages' '38(' 1 ')' '\xd8\x26' '\x01' ''
# The innermost becomes a number.
nested "$LIMIT" '\xc2' '\x49\x01\x00\x00\x00\x00\x00\x00\x00\x00' '' > "$work/bytes"
check_bytes 'tags of bignums' "$work/bytes"

# What `simple(..)` may nest has no bytes.
check_text simple '' 'simple(' 1 ')'

# The lengths of embedded bytes grow from the inside out: a large stack says what the bytes are.
check_embedded() {
  local name=$1
  nested "$LIMIT" "$2" "$3" "$4" | under "$LARGE" diag2cbor > "$work/bytes"
  check_text "$name" "$work/bytes" "$2" "$3" "$4"
  check_bytes "$name" "$work/bytes"
}

check_embedded 'embedded sequences' '<<' 1 '>>'
check_embedded 'embedded sequences of more items' '<<2, ' 1 ', 3>>'
check_embedded 'pieces of strings' "'a' + <<" 1 ">> + 'b'"
check_embedded 'chunks of streams' '(_ <<' 1 '>>)'
check_embedded 'pieces of chunks of streams' "(_ 'a', 'b' + <<" 1 ">>, 'c')"

# Byte strings in byte strings, as many levels as `show` shows. Each level is one of what nests, so the text nests twice as deep.
check_shown() {
  local name=$1 levels=${5-255}
  nested "$levels" "$2" "$3" "$4" | under "$LARGE" diag2cbor > "$work/bytes"
  under "$LARGE" show --levels "$levels" < "$work/bytes" > "$work/wanted"
  count "$name: all levels" test "$(grep -o '<<' "$work/wanted" | wc -l)" = "$levels"
  expect "$name" "$work/bytes" "$work/wanted" show --levels "$levels"
  expect "$name" "$work/wanted" "$work/bytes" diag2cbor
}

check_shown 'byte strings in arrays' '<<[' 1 ']>>'
check_shown 'byte strings in maps' '<<{1: ' 2 '}>>'
check_shown 'byte strings in tags of addresses' '<<52(' "h'c0000201'" ')>>'
check_shown 'messages in messages' "<<18([h'', {}, " 1 ", h''])>>" 128

# Runs a program of tests.
test_under() {
  status=0
  (ulimit -S -s "$1" && exec "$(dirname "$(readlink -f "$(command -v rt)")")/rattle-test" --seconds 60 "$2") > "$work/said" 2>&1 || status=$?
  [ "$status" = 0 ]
}

for tests in "$@"; do
  count "$tests" test_under "$UNPROVED" "$tests"
done

end
