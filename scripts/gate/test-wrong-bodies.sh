#!/usr/bin/env bash
# Runs scripts/gate/wrong_bodies.py over a small tree of its own: edits that it must pass, and everything that it must tell as a failure.
# Some 200 CPU seconds on a busy machine. The last line is 'N passed, M failed'.
set -euo pipefail

cd "$(dirname "$(readlink -f "$0")")"
# shellcheck source=scripts/gate/common.sh
. ./common.sh
tree=$(mktemp -d)
trap 'rm -rf "$tree"' EXIT
mkdir -p "$tree/scripts/gate" "$tree"/crates/{low,high}/{src,wrong} "$tree/crates/low/proofs/counted"
cp wrong_bodies.py wrong_record.py kit.py "$tree/scripts/gate"
printf 'low:\nhigh: low\n' > "$tree/crates.txt"
echo '#![tactic(auto)]' > "$tree/crates/high/src/lib.rt"
cat > "$tree/crates/low/src/lib.rt" << 'EOF'
#![tactic(auto)]

ghost use Rattle.std.specs.Prelude.{◌≡◌, ◌+◌};

pub fn first(a: u8, b: u8) -> u8
    ensures { result ≡ a }
{
    (a, b).0
}

pub fn sum(a: u8, b: u8) -> u16
    ensures { result ≡ a + b }
{
    u16::from(a) + u16::from(b)
}

pub fn third(a: u8) -> u8
    ensures { result ≡ a }
{
    a
}

pub fn fourth() -> u8
    ensures { result ≡ 5 }
{
    pair(5)
}

fn pair(a: u8) -> u8
    ensures { result ≡ a }
{
    (a, 0).0
}

pub fn counted(n: u8) -> u8
    ensures { result ≡ n }
{
    let mut i = 0;
    'turns: while i < n {
        i += 1;
    }
    i
}
EOF
cat > "$tree/crates/low/proofs/counted/Invariants.antt" << 'EOF'
use Rattle.std.proofs.Common.{◌≤◌, ◌-◌}
use Rattle.low.proofs.counted.Given as goal

abbrev pub invariant-turns : goal.invariant-turns
invariant-turns l = record { bound : l.i ≤ l.n; }

abbrev pub decreases-turns : goal.decreases-turns
decreases-turns l = l.n - l.i
EOF

# Gives a crate the only edits that it has: for each a name, the line `refuses:`, an old text and a new one.
edits() {
  local crate=$1
  shift
  rm -f "$tree/crates/$crate/wrong/"*
  while [ $# != 0 ]; do
    printf '%s\nfile: src/lib.rt\nold: %s\nnew: %s\n' "$2" "$3" "$4" > "$tree/crates/$crate/wrong/$1.edit"
    shift 4
  done
}

try() {
  status=0
  python3 -Bu "$tree/scripts/gate/wrong_bodies.py" "$@" > "$tree/said" 2>&1 || status=$?
}

# Whether the last try ended with this status and this last line.
ended() {
  [ "$status" = "$1" ] && [ "$(tail -n 1 "$tree/said")" = "$2" ]
}

says() {
  grep -qF -- "$1" "$tree/said"
}

details() {
  echo " (status $status):"
  sed 's/^/  /' "$tree/said"
}

# Wrong bodies as they must be, the first two of one function.
second=(second 'refuses: first returns' '(a, b).0' '(a, b).1')
cut=(cut 'refuses: sum returns' 'u16::from(b)' 'u16::from(b / 2)')
edits low "${second[@]}" zero 'refuses: first returns' '(a, b).0' 'a ^ b' "${cut[@]}"
try low
count 'wrong bodies are refused, two of one function' ended 0 '3 passed, 0 failed'
count 'they are tried in one check' says 'checks: 1,'

# The copies have the invariants of the function.
edits low short 'refuses: counted returns' 'while i < n' 'while i < n / 2' \
  long 'refuses: counted turns-preserved overflow_add-i' 'i += 1' 'i += 2' "${cut[@]}"
try low
count 'wrong bodies of a function with invariants are refused' ended 0 '3 passed, 0 failed'
count 'in one check too' says 'checks: 1,'

# Of these, one is as it must be.
edits low "${cut[@]}" \
  right 'refuses: first returns' '(a, b).0' '(b, a).1' \
  uncovered 'refuses: first returns' '(a, b).0' '{ let _pair = (&a, &b); b }' \
  other_goal 'refuses: third returns-clause-two' '    a' '    9' \
  in_another 'refuses: fourth returns' 'pair(5)' 'pair(6)' \
  gone 'refuses: fourth returns' 'pair(7)' 'pair(8)' \
  unnamed '' 'pair(5)' 'pair(9)' \
  of_none 'refuses: fifth returns' 'u16::from(a)' 'u16::from(a / 2)'
printf '%s\n' 'old: (a, 0).0' 'new: (a, 0).1' >> "$tree/crates/low/wrong/in_another.edit"
try low
count 'each fault is one' ended 1 '2 passed, 7 failed'
count 'a wrong body among others' says 'cut.edit: refused, as it must be: sum: returns'
count 'a right body' says 'right.edit: NOT AS IT MUST BE: still proved: returns; refused too: none'
count 'a body that is refused for another goal' says 'other_goal.edit: NOT AS IT MUST BE: still proved: returns-clause-two; refused too: returns'
count 'a body that the prover does not cover' says 'uncovered.edit: NOT AS IT MUST BE: still proved: returns; refused too: no-goal'
count 'a function that no edit names' says 'low/pair: it is not changed, and refused: returns'
count 'an edit that cannot be applied' says "gone.edit: an 'old:' text is in src/lib.rt 0 times"
count 'an edit that says nothing of a refusal' says "unnamed.edit: it has no line 'refuses: FUNCTION GOAL..'"
count 'an edit of a function that is not there' says 'of_none.edit: the crate has no function fifth'

edits low "${cut[@]}" broken 'refuses: first returns' '(a, b).0' '(a, c).0'
try low
count 'a body that does not compile' ended 1 '0 passed, 2 failed'
count 'what it says then' says 'broken.edit: the check says nothing of the bodies'

edits high empty 'refuses: none returns' 'auto' 'auto, auto'
try high
count 'a library that is not there' ended 1 '0 passed, 1 failed'
count 'its name' says 'empty.edit: low is not in its out/'
mkdir -p "$tree/crates/low/out/rlib/low.rlib"
touch "$tree/crates/low/out/rlib/low.rlib/format"
touch -d '1 hour ago' "$tree/crates/low/out/rlib/low.rlib"
try high
count 'a library that is older than its sources' says 'empty.edit: low in its out/ is older than its sources'
mkdir "$tree/proved"
(sleep 3 && touch "$tree/proved/low") &
try --proved "$tree/proved" high
count 'a library is waited for' [ -e "$tree/proved/low" ]

try low/cut
count 'one edit by its name' ended 0 '1 passed, 0 failed'
try low/shortened
count 'an edit that is not there' ended 1 '0 passed, 1 failed'
edits low
try low
count 'a crate without edits' ended 1 '0 passed, 1 failed'
try none
count 'a crate that is not there' ended 1 '0 passed, 1 failed'

# What is tried where nothing has changed.
record=$tree/scripts/gate/wrong-bodies/record
right=(right 'refuses: third returns' '    a' '    (a, 9).0')
git init -q "$tree"

# Makes the next commit: they differ in their number alone.
next=0
commit() {
  next=$((next + 1))
  GIT_AUTHOR_DATE=2026-01-01T00:00:00Z GIT_COMMITTER_DATE=2026-01-01T00:00:00Z git -C "$tree" -c user.name=a -c user.email=a@b \
    -c commit.gpgsign=false commit -q --allow-empty -m "$next"
}

# Writes the line of a crate that --all would, had it refused all edits.
forge() {
  (cd "$tree" && PYTHONPATH=scripts/gate python3 -Bc '
import os, sys, kit, wrong_record
lib = kit.load().rtlib
crates = lib.crates_below(os.getcwd())
(crate,) = [it for it in crates if it.name == sys.argv[1]]
record = wrong_record.Record(lib.files_of)
record.keep(crate, record.line(crate), crates)' "$1")
}

# Without edits of its own, a crate is not tried.
rm -r "$tree/crates/high/wrong"
edits low "${second[@]}" "${cut[@]}"
try low
count 'a crate that is named is tried whole' says '2 refused, 0 failed, of 2 edits (as named)'
count 'this writes no record' [ ! -e "$record" ]
try --all
count 'all are tried' ended 0 '2 passed, 0 failed'
count 'this writes the record' grep -q "^low [0-9a-f]* $(date +%F) rattle" "$record"
count 'the processor time of all is told' grep -q '^CPU seconds in all: [0-9]' "$tree/said"
written=$(cat "$record")
commit
try
count 'a crate as recorded is tried in part' ended 0 '1 passed, 0 failed'
count 'what it says then' says '1 refused, 0 failed, of 2 edits (as recorded, so one in 8 by commit '
count 'this leaves the record' [ "$(cat "$record")" = "$written" ]

# A body that is right, of which the record says that it was refused: the commits choose now this one, now the other.
edits low "${cut[@]}" "${right[@]}"
try --all
count 'a right body among all' ended 1 '1 passed, 1 failed'
count 'the record has no such crate' [ "$(grep -c '^low' "$record")" = 0 ]
forge low
found='' passed_over=''
while [ "$next" -lt 20 ] && [ "$found$passed_over" != yesyes ]; do
  commit
  try
  ! ended 1 '0 passed, 1 failed' || ! says 'right.edit: NOT AS IT MUST BE' || found=yes
  ! ended 0 '1 passed, 0 failed' || passed_over=yes
done
count 'a right body that the commit chooses' [ "$found" = yes ]
count 'one that it passes over' [ "$passed_over" = yes ]
printf '%s\n' '# a comment' cut right > "$tree/scripts/gate/wrong-bodies/always"
try
count 'one that is listed' ended 1 '1 passed, 1 failed'
count 'its name' says 'right.edit: NOT AS IT MUST BE'

# The library of these is not proved, so they fail, and no check takes time: what is told is how many are tried, and why.
rm -r "$tree/crates/low/wrong" "$tree/crates/low/out"
mkdir "$tree/crates/high/wrong"
edits high "${cut[@]}" "${second[@]}" "${right[@]}"
tried() {
  try
  says "high: 0 refused, $1 failed, of 3 edits ($2"
}
count 'a crate that is not in the record is tried whole' tried 3 'all, since it is not in the record)'
forge high
written=$(cat "$record")
printf '%s\n' cut right second > "$tree/scripts/gate/wrong-bodies/always"
count 'a crate as recorded, with all listed' tried 3 'as recorded, so one in 8 by commit '
printf 'gone\n' > "$tree/scripts/gate/wrong-bodies/always"
count 'a crate as recorded, with none' tried 1 'as recorded, so one in 8 by commit '
count 'a listed edit that no crate has' says 'gone: no crate has this edit, which is listed'
count 'it counts' ended 1 '0 passed, 2 failed'

# A record that lies, and sources that change.
other='all, since it or a library below is not what the record is of)'
lie() {
  sed -i "$2" "$record"
  count "$1" tried 3 "$3"
  printf '%s\n' "$written" > "$record"
}
lie 'a record of another date' 's/ 20[0-9-]* / 2020-01-01 /' "$other"
lie 'of another toolchain' 's/ rattle/ rattles/' 'all, since the record is of another toolchain)'
lie 'of another sum' 's/ [0-9a-f]* / 0123456789abcdef0123456789abcdef /' "$other"
lie 'of another crate' 's/^high /low /' 'all, since it is not in the record)'
lie 'with two lines of a crate' 'p' 'all, since the record has no single line of four words for it)'
change() {
  cp "$tree/crates/$3" "$tree/kept"
  sed -i "$2" "$tree/crates/$3"
  count "$1" tried 3 "$other"
  mv "$tree/kept" "$tree/crates/$3"
}
change 'another source' 's/auto/auto, auto/' high/src/lib.rt
change 'another source of a library below' 's/(a, 0)/(a, 1)/' low/src/lib.rt
change 'another proof of one' 's/l.i ≤/l.i ≡/' low/proofs/counted/Invariants.antt
change 'another edit' 's/, 9/, 8/' high/wrong/right.edit
mv "$tree/.git" "$tree/git"
count 'no commit' tried 3 'all, since no commit is there to choose by)'
end
