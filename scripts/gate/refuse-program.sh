#!/usr/bin/env bash
# Refuses each allocation of the program itself in turn, from its start: of each command by some flags, of each help, and of the version.
#
# usage: scripts/gate/refuse-program.sh [PROGRAM]
#
# Without PROGRAM it is the working tree's. A small library stands in front of malloc (scripts/gate/refusing.c): in each run it refuses
# another allocation, from the first to the last. Such a run must have status 1, say `cbor-edn: Out of memory` in one line, with the name of
# standard input where a command for files reads it, or of the file that is replaced, and write
# nothing. Some refusals are no want of memory (docs/DECISIONS.md, "Items made from values"): such a run must end as it does where none
# is refused. The table crates/cbor_edn_tool/hints has the calls, each behind the number of such runs. OUT stands there for a file that is
# not there before; what it has counts as output.
#
# The last line is 'N passed, M failed', over the runs.
set -euo pipefail

cd "$(dirname "$(readlink -f "$0")")/../.."
# shellcheck source=scripts/gate/common.sh
. scripts/gate/common.sh
begin_trial "${1-}"

cc -O2 -fPIC -shared -o "$work/refusing.so" scripts/gate/refusing.c || {
  echo "$0: a C compiler (cc) must be on the PATH"
  echo "0 passed, 1 failed"
  exit 1
}

# An input of each kind that has what the flags change: literals, tags, a bignum, claims, comments, a long line.
text="{4: 1700000000, /c/ 'key': [ip'192.0.2.1', dt'1970-01-01T00:00:23Z', 52(h'c0000201'), 1(0), 2(h'010000000000000000'), b64'AQID']}"
bytes='a1 04 1a 65 53 f1 00 82 d8 34 44 c0 00 02 01 c2 49 01 00 00 00 00 00 00 00 00'
printf '%s' "$text" > "$work/text"
printf '%s' "$bytes" > "$work/digits"
printf '%b' "\\x${bytes// /\\x}" > "$work/bytes"

# Runs the words with one allocation refused, or with none by 0.
refuse() {
  local allocation=$1
  shift
  status=0
  rm -f "$work/out"
  REFUSED=$allocation LD_PRELOAD=$work/refusing.so ALLOCATIONS=$work/allocations "$program" "${@/#OUT/$work/out}" \
    < "$input" > "$work/output" 2> "$work/said" || status=$?
  for file in "$work"/out*; do
    case $file in
      */output | */out\*) ;;
      *) { cat "$file" && echo 'is a file'; } >> "$work/output" ;;
    esac
  done
}

# The input that the words of a call take.
input_of() {
  case $1 in
    *'cbor2diag '*hex* | *'show '*hex*) input=$work/digits ;;
    *cbor2diag* | *show*) input=$work/bytes ;;
    *) input=$work/text ;;
  esac
}

is_out_of_memory() {
  [ "$status" = 1 ] && [ ! -s "$work/output" ] && grep -qxE "cbor-edn: ((<stdin>|$work/out): )?Out of memory" "$work/said" && [ "$(wc -l < "$work/said")" = 1 ]
}

is_as_before() {
  [ "$status" = 0 ] && cmp -s "$work/wanted" "$work/output" && [ ! -s "$work/said" ]
}

details() {
  echo ": status $status, it wrote and said:"
  head -c 300 "$work/output"
  head -c 300 "$work/said"
}

# Refuses each allocation of a call in turn.
check_call() {
  local hints=$1 allocations k all_the_same=0
  shift
  input_of "$*"
  refuse 0 "$@"
  cp "$work/output" "$work/wanted"
  read -r allocations _ < "$work/allocations"
  count "$*, with nothing refused" test "$status" = 0 -a -s "$work/wanted" -a "$allocations" -gt 0
  for ((k = 1; k <= allocations; k++)); do
    refuse "$k" "$@"
    if is_as_before; then
      all_the_same=$((all_the_same + 1))
    else
      count "$*, allocation $k of $allocations" is_out_of_memory
    fi
  done
  count "$*: $all_the_same of $allocations refusals are no want of memory, and $hints by the table" test "$all_the_same" = "$hints"
}

while read -r hints words; do
  # shellcheck disable=SC2086
  check_call "$hints" $words
done < crates/cbor_edn_tool/hints
echo "$0: each allocation of $(wc -l < crates/cbor_edn_tool/hints) calls refused in turn"
end
