#!/usr/bin/env bash
# Refuses each allocation of a program of calls in turn, then all of those that take none, and looks at what the calls answer then.
#
# usage: scripts/gate/refuse-memory.sh CRATE [PROGRAM]
#
# The program makes calls and prints a line for each, its name with `: done`, `: refused` (it answered want of memory, and left
# what it must) or `: wrong`. Without its path it is made of the sources, unproved (scripts/unproved.py). A small library stands in front of malloc
# (scripts/gate/refusing.c): in each run it refuses another allocation, from the first to the last.
#
# Where an allocation is refused, exactly one line must say so, and no line may say `wrong`. Where none is, each line must say
# `done`. A collection that reserves by the hint of an iterator asks again for room for one item where that is refused, so that
# all is done then too: the crate's file `hints` has the number of such runs, none where there is no file.
#
# Calls that take no memory print a line `: ready` first. In one run each request from such a line to the next is refused: they are done
# all the same, and make none. One call among them takes memory, and must say `refused`: so they were refused. The last line is 'N passed,
# M failed', over the runs, and over these calls.
set -euo pipefail

cd "$(dirname "$(readlink -f "$0")")/../.."
crate=${1:?usage: scripts/gate/refuse-memory.sh CRATE [PROGRAM]}
calls=$(grep -c ': done$' "crates/$crate/stdout")
control='a call that takes memory'
hints=0
[ ! -e "crates/$crate/hints" ] || read -r hints < "crates/$crate/hints"

work=$(mktemp -d)
trap 'rm -rf "$work"' EXIT

give_up() {
  echo "$0: $crate: $1"
  echo "0 passed, 1 failed"
  exit 1
}

program=${2-}
if [ -z "$program" ]; then
  program=$work/program
  python3 -B scripts/unproved.py "$crate" "$program" || give_up "it is not made"
fi
program=$(readlink -f "$program")
cc -O2 -fPIC -shared -o "$work/refusing.so" scripts/gate/refusing.c || give_up "a C compiler (cc) must be on the PATH"

# Runs the program with one allocation refused, or with none by 0. What it says goes to a file of that number.
mkdir "$work/runs"
refuse() {
  REFUSED=$1 LD_PRELOAD=$work/refusing.so ALLOCATIONS=$work/allocations "$program" > "$work/runs/$1"
}

refuse 0 || give_up "a call fails where no memory is refused"
diff "crates/$crate/stdout" "$work/runs/0" || give_up "a call is not done where no memory is refused"
read -r allocations _ < "$work/allocations"

grep -qx "$control: ready" "crates/$crate/stdout" || give_up "no line says '$control: ready'"
free=$(($(grep -c ': ready$' "crates/$crate/stdout") - 1))
[ "$free" -gt 0 ] || give_up "no call that takes no memory is made"
refuse ready || give_up "a call fails where each request is refused"
mv "$work/runs/ready" "$work/ready"
sed "s/^$control: done\$/$control: refused/" "crates/$crate/stdout" | diff - "$work/ready" \
  || give_up "a call that takes no memory is not done where each request is refused, or none was refused"
read -r _ refused < "$work/allocations"
[ "$refused" = 1 ] || give_up "calls that take no memory asked for some: $refused requests were refused, and not one"

for ((k = 1; k <= allocations; k++)); do
  refuse "$k" || echo "the program ended with status $?: wrong" >> "$work/runs/$k"
done

(cd "$work/runs" && awk -v free="$free" -v calls="$calls" -v allocations="$allocations" -v hints="$hints" '
  /: ready$/ { next }
  /: done$/ { done[FILENAME]++; next }
  /: refused$/ { refused[FILENAME]++; next }
  { wrong[FILENAME]++ }
  END {
    # the run without a refusal, and the calls that were made with all refused
    passed = 1 + free
    if (allocations == 0) { failed++; print "no allocation was refused" }
    for (k = 1; k <= allocations; k++) {
      if (wrong[k] == 0 && refused[k] == 1 && done[k] + 1 == calls) passed++
      else if (done[k] == calls && wrong[k] + refused[k] == 0) { again++; told = told " " k }
      else { failed++; print "run " k ": " done[k] + 0 " done, " refused[k] + 0 " refused, " wrong[k] + 0 " wrong, of " calls " calls" }
    }
    if (again + 0 == hints) passed += again
    else { failed++; print again + 0 " allocations were refused and all calls done, and not " hints ":" told }
    print passed + 0 " passed, " failed + 0 " failed"
  }
' * > "$work/verdict")
sed -n 's/^run \([0-9]*\):.*/\1/p' "$work/verdict" | head -n 3 | while read -r run; do
  echo "== allocation $run"
  grep -v ': done$' "$work/runs/$run" || true
done
echo "$0: $crate: each allocation refused in turn, then all of them in $free lines of calls that take none"
cat "$work/verdict"
tail -n 1 "$work/verdict" | grep -q ' 0 failed$'
