#!/usr/bin/env bash
# Calls ./cbor-edn in a copy of the tree: before anything is made, with an unproved program, and with one that is built, also an old one.
#
# usage: scripts/gate/launcher.sh PROGRAM [UNPROVED]
#
# PROGRAM is the program that was proved, UNPROVED one that scripts/unproved.py made of the same sources; without it the first
# call makes one, in one to two minutes. In all other calls commands of this script stand in place of rt and python3: they
# make and build by copies of these. The last line is 'N passed, M failed'.
set -euo pipefail

cd "$(dirname "$(readlink -f "$0")")/../.."
program=$(readlink -f "$1")
unproved=${2+$(readlink -f "$2")}
# shellcheck source=scripts/gate/common.sh
. scripts/gate/common.sh
work=$(mktemp -d)
trap 'rm -rf "$work"' EXIT
tree="$work/the tree"
reply=$work/reply
mkdir "$tree" "$reply" "$work/stand-in" "$work/no-rt" "$work/elsewhere" "$work/temporary"
tar -c --exclude=out --exclude=.git . | tar -x -C "$tree"
unset CBOR_EDN_UNPROVED

# They answer by the files in `reply`, and list there what they were asked for.
for name in rt python3; do
  cat > "$work/stand-in/$name" << EOF
#!/usr/bin/env bash
reply='$reply'
program='$program'
unproved='$work/unproved'
EOF
done
cat >> "$work/stand-in/rt" << 'EOF'
[ "$1" != version ] || { cat "$reply/kit" && exit; }
echo "$* $(basename "$PWD")" >> "$reply/built"
echo 'so far: 7 of 9 functions checked; the verdict comes last'
sleep 0.5
[ "$(cat "$reply/status")" = 0 ] || { echo 'not proved'; exit 1; }
[ "$1" = lib ] || { mkdir -p out && cp "$program" out/cbor_edn_tool; }
EOF
cat >> "$work/stand-in/python3" << 'EOF'
[ "$1 ${2##*/} $3" = '-B unproved.py cbor_edn_tool' ] || exit 1
echo made >> "$reply/made"
mkdir "$TMPDIR/for a while"
if [ -e "$reply/meanwhile" ]; then
  echo '// an edit' >> "$(cat "$reply/meanwhile")"
  rm "$reply/meanwhile"
fi
[ ! -e "$reply/pause" ] || sleep "$(cat "$reply/pause")"
[ "$(cat "$reply/status")" = 0 ] || { seq 100; echo 'error: refused'; exit 1; }
cp "$unproved" "$4"
EOF
chmod +x "$work"/stand-in/*
for tool in bash readlink dirname find nproc sha256sum sort xargs cut cat; do
  ln -s "$(command -v "$tool")" "$work/no-rt/"
done

# Becomes the launcher, from another folder, with a PATH.
launch() {
  cd "$work/elsewhere"
  TMPDIR=$work/temporary PATH=$1 exec "$tree/cbor-edn" "${@:2}"
}

# Runs the launcher with a PATH, on standard input.
call_by() {
  local path=$1
  shift
  status=0
  (launch "$path" "$@") > "$work/output" 2> "$work/said" || status=$?
}

call() {
  call_by "$work/stand-in:$PATH" "$@"
}

# Sets the status of the commands that stand in place of others.
answer() {
  echo "$1" > "$reply/status"
}

# Forgets what was made and asked for.
afresh() {
  rm -rf "$tree/out" "$reply/made" "$reply/built"
}

details() {
  echo ": status $status; output: $(head -c 100 "$work/output" | tr '\0' ' '); it said:"
  head -c 1000 "$work/said"
}

# The status, the output and what is said of a run of the program.
ended() {
  [ "$status" = "$1" ] && printf '%b' "$2" | cmp -s - "$work/output" && [ "$(cat "$work/said")" = "$3" ]
}

# The same of an unproved run, which begins with one line.
ended_unproved() {
  [[ $(head -n 1 "$work/said") =~ $unproved_line ]] || return
  sed -i 1d "$work/said"
  ended "$@"
}

# The same where the program was made first.
ended_first() {
  [ "$(head -n 1 "$work/said")" = "$making$once" ] || return
  [[ $(sed -n 2p "$work/said") =~ ^cbor-edn:\ made\ in\ [0-9]+\ s$ ]] || return
  sed -i 1,2d "$work/said"
  ended_unproved "$@"
}

# An ending of the launcher's own says this.
is_unanswered() {
  [ "$status" = 3 ] && [ ! -s "$work/output" ] && grep -q -- "$1" "$work/said"
}

# So many programs were made, and one stands.
were_made() {
  [ "$(wc -l < "$reply/made")" = "$1" ] && [ "$(find "$tree/out" -name 'unproved-*' | wc -l)" = 1 ]
}

# Nothing is left of files for a while.
nothing_left() {
  [ -z "$(ls "$work/temporary")" ]
}

# One of three calls takes less than a second.
is_quick() {
  local before
  for _ in 1 2 3; do
    before=${EPOCHREALTIME/./}
    call_by "$@" < /dev/null
    [ $((${EPOCHREALTIME/./} - before)) -ge 1000000 ] || return 0
  done
  return 1
}

unproved_line='^cbor-edn: this program is unproved: .*/cbor-edn --build proves and builds it, in about [0-9]+ minutes'
making='cbor-edn: making the program from its sources, without proofs: this takes 1 to 2 minutes'
once=', once'
fault='cbor-edn: Error parsing input data: Invalid EDN in line 1 column 5 (byte 4)'
printf '[1, ' > "$work/elsewhere/in edn"

# The sources themselves.
if [ -n "$unproved" ]; then
  cp "$unproved" "$work/unproved"
else
  call_by "$PATH" diag2cbor 'in edn' out.cbor < /dev/null
  count 'a program that is made of the sources' ended_first 1 '' "$fault"
  count 'its second call' is_quick "$PATH" diag2cbor
  cp "$tree"/out/unproved-* "$work/unproved"
  afresh
fi

# Before anything is made.
answer 1
echo 'a toolchain' > "$reply/kit"
for command in '' diag2cbor cbor2diag diag2diag show fmt check; do
  for words in "$command --help" "$command -h" "help $command"; do
    # shellcheck disable=SC2086
    call $words < <(sleep 100)
    count "$words, at once" ended 0 "$(cat "$tree/scripts/help/${command:-program}.txt")\n" ''
  done
done
call --version < <(sleep 100)
count 'the version, at once' ended 0 'cbor-edn 0.1.0\n' ''
call < <(sleep 100)
count 'no command, at once' ended 2 '' "$( (exec -a cbor-edn "$program") 2>&1 || true)"
count 'none of these makes anything' test ! -e "$tree/out"
call_by "$work/no-rt" diag2cbor < /dev/null
count 'no toolchain for a run' is_unanswered 'rt must be on the PATH'
call_by "$work/no-rt" --build < /dev/null
count 'no toolchain for a build' is_unanswered 'rt must be on the PATH'
call diag2cbor < /dev/null
count 'a program that cannot be made' is_unanswered '^error: refused$'
count 'the last lines alone' test "$(grep -c '^[0-9]*$' "$work/said")" = 19
count 'it leaves nothing' nothing_left

# It is made once.
answer 0
afresh
call diag2cbor < <(printf '[1, 0x1f, []]')
count 'the first call' ended_first 0 '\x83\x01\x18\x1f\x80' ''
count 'it leaves no other file' nothing_left
call diag2cbor 'in edn' out.cbor < /dev/null
count 'a fault in a file' ended_unproved 1 '' "$fault"
count 'the output of a fault' cmp -s "$work/elsewhere/out.cbor" /dev/null
call diag2cbor - - a < /dev/null
said="error: unexpected argument 'a' found

Usage: cbor-edn diag2cbor [OPTIONS] [INPUT] [OUTPUT]

For more information, try '--help'."
count 'a fault of the words' ended_unproved 2 '' "$said"
call diag2cbor -o hex <(printf 1) < /dev/null
count 'a pipe by name' ended_unproved 0 '01\n' ''
printf '[1,2]' > "$work/elsewhere/a.edn"
call fmt a.edn < /dev/null
count 'fmt of a file' ended_unproved 0 '' 'cbor-edn: a.edn: Laid out'
count 'the file' test "$(cat "$work/elsewhere/a.edn")" = '[1, 2]'
call diag2cbor < <(printf 1 && head -c 70M /dev/zero | tr '\0' ' ')
count 'a large input' ended_unproved 0 '\x01' ''
call --help < /dev/null
count 'its own help' ended_unproved 0 "$(cat "$tree/scripts/help/program.txt")\n" ''
count 'a call takes no second' is_quick "$work/stand-in:$PATH" diag2cbor
export CBOR_EDN_UNPROVED=quiet
call diag2cbor < <(printf 1)
count 'the line turned off' ended 0 '\x01' ''
unset CBOR_EDN_UNPROVED
call_by "$work/no-rt" diag2cbor < <(printf 1)
count 'no toolchain is needed any more' ended_unproved 0 '\x01' ''
touch "$tree/crates/cbor_edn_parts/src/lib.rt"
echo >> "$tree/crates/cbor_edn_core_tree_tests/src/lib.rt"
for file in "$tree"/crates/cbor_edn_parts/specs/*; do
  [ ! -f "$file" ] || echo >> "$file"
done
: > "$tree/crates/cbor_edn_parts/src/.lib.rt.swp"
call diag2cbor < <(printf 1)
count 'what it is not made of' ended_unproved 0 '\x01' ''
count 'one was made' were_made 1

# It is made anew: the file keeps its size and time.
source=$tree/crates/cbor_edn_model/src/lib.rt
cp -p "$source" "$work/source"
sed '1s/./!/' "$work/source" > "$source"
touch -r "$work/source" "$source"
call diag2cbor < <(printf 1)
count 'an edit' ended_first 0 '\x01' ''
count 'the older program goes' were_made 2
echo 'another toolchain' > "$reply/kit"
call diag2cbor < <(printf 1)
count 'another toolchain' ended_first 0 '\x01' ''
sed -i 's/^cbor_edn_tool:.*/& hex/' "$tree/crates.txt"
call diag2cbor < <(printf 1)
count 'another line of crates.txt' ended_first 0 '\x01' ''
echo "$source" > "$reply/meanwhile"
cp -p "$work/source" "$source"
call diag2cbor < <(printf 1)
count 'an edit while it is made' grep -q 'a source has changed meanwhile' "$work/said"
count 'it was made twice' were_made 6

# Calls at one time.
afresh
echo 2 > "$reply/pause"
calls=()
for name in 1 2 3; do
  launch "$work/stand-in:$PATH" diag2cbor <<< "$name" > "$work/$name" 2> "$work/$name.said" &
  calls+=("$!")
done
wait "${calls[@]}"
count 'three calls make one' were_made 1
count 'two wait' test "$(cat "$work"/?.said | grep -c 'waiting for another call')" = 2
count 'all answer' test "$(cat "$work"/[123] | tr '\1\2\3' 123)" = 123

# A call that is stopped.
afresh
echo 20 > "$reply/pause"
launch "$work/stand-in:$PATH" diag2cbor < /dev/null > "$work/output" 2> "$work/said" &
sleep 2
kill $!
status=0
wait $! || status=$?
count 'it ends' test "$status" = 143
count 'nothing stays' nothing_left
rm "$reply/pause"

# Nothing can be kept.
afresh
: > "$tree/out"
call diag2cbor < <(printf 1)
count 'no place to keep it' grep -q 'cannot be written, so the program is made for this call alone' "$work/said"
sed -i 1d "$work/said"
once=
count 'it is made all the same' ended_first 0 '\x01' ''
once=', once'
count 'and goes' nothing_left
rm "$tree/out"

# On a terminal.
afresh
echo 2 > "$reply/pause"
cat > "$work/terminal.py" << 'EOF'
import pty, sys
pty.spawn(sys.argv[1:])
EOF
python3 "$work/terminal.py" env PATH="$work/stand-in:$PATH" "$tree/cbor-edn" diag2cbor "$work/elsewhere/a.edn" "$work/output" \
  < /dev/null > "$work/said"
count 'a terminal counts seconds' grep -q $'\r\e\\[Kcbor-edn: 1 s' "$work/said"
rm "$reply/pause"

# A build.
afresh
answer 1
call --build < /dev/null
count 'a build that fails' is_unanswered 'the build failed at cbor_edn_parts'
answer 0
afresh
call --build < /dev/null
count 'a build' test "$status" = 0
count 'its progress' grep -q "crate 1 of $(wc -l < "$reply/built"), cbor_edn_parts.* 0 min" "$work/said"
built=$(cut -d' ' -f1,4- "$reply/built" | tr '\n' ',')
count 'its crates' test "${built%%,*} .. ${built##*,lib }" = 'lib cbor_edn_parts .. cbor_edn_findings,run -- diag2cbor cbor_edn_tool,'
count 'each of them once' test -z "$(sort "$reply/built" | uniq -d)"

# The program that is built.
call_by "$work/no-rt" diag2cbor < <(printf '[1, 0x1f, []]')
count 'the program' ended 0 '\x83\x01\x18\x1f\x80' ''
call diag2cbor 'in edn' < /dev/null
count 'a fault of the program' ended 1 '' "$fault"
call --build < /dev/null
count 'nothing to build' grep -q 'is built from these sources' "$work/said"
touch "$tree/crates/cbor_edn_core_tree_tests/src/lib.rt" "$tree/README.md"
call --version < /dev/null
count 'what the program is not made of' ended 0 'cbor-edn 0.1.0\n' ''
count 'no unproved program is made beside it' test ! -e "$reply/made"

unproved_line='^cbor-edn: this program is unproved, since the proved one is older than crates/cbor_edn_parts/src/lib.rt: .*--build proves'
touch "$tree/crates/cbor_edn_parts/src/lib.rt"
call diag2cbor < <(printf 1)
count 'an old program' ended_first 0 '\x01' ''

end
