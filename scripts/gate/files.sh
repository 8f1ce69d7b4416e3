#!/usr/bin/env bash
# Runs the commands for files on files: statuses, what is told and what is left, also where permissions, links, a full disk, a file that
# is too large, closed streams or a signal are in the way; and conversions to files, whose input may be one file with the output.
#
# usage: scripts/gate/files.sh [PROGRAM]
#
# Without PROGRAM it is the working tree's. Permissions and owners are tried by root alone, which takes setpriv. The last line is
# 'N passed, M failed'.
set -euo pipefail

cd "$(dirname "$(readlink -f "$0")")/../.."
# shellcheck source=scripts/gate/common.sh
. scripts/gate/common.sh
begin_trial "${1-}"
# calls that fail are looked at
set +e
mounted=
clean() {
  [ -z "$mounted" ] || umount "$mounted"
  chmod -R u+w "$work"
  rm -rf "$work"
}
trap clean EXIT
# a user that is not root, for permissions
as_user() {
  "$@"
}
if [ "$(id -u)" = 0 ] && command -v setpriv > /dev/null; then
  as_user() {
    setpriv --reuid 65534 --regid 65534 --clear-groups "$@"
  }
  chmod 755 "$work"
  cp "$program" "$work/program"
  program=$work/program
fi

details() {
  printf ': wanted %q, got %q\n' "$wanted" "$got"
}

is() {
  wanted=$2 got=$3
  count "$1" test "$wanted" = "$got"
}

# Sets out, err and status, with line ends.
run() {
  out=$("$@" 2> "$work/said"; printf x$?)
  status=${out##*x}
  out=${out%x*}
  err=$(cat "$work/said"; printf x)
  err=${err%x}
}

# Begins with an empty folder.
fresh() {
  cd "$work"
  rm -rf t
  mkdir t
  cd t
}

none_left() {
  is "$1: no draft is left" '' "$(find . -name '*cbor-edn-*')"
}

# ---- two files, one at fault
fresh; printf '[1,2]' > a.edn; printf '[1,\n 2' > b.edn; printf '[3, 4]\n' > c.edn
run "$program" fmt a.edn b.edn c.edn
is "one at fault: status" 1 "$status"
is "one at fault: told" $'cbor-edn: a.edn: Laid out\nb.edn:2:3: Invalid EDN\n 2\n  ^\n' "$err"
is "one at fault: output" "" "$out"
is "the other is laid out" $'[1, 2]' "$(cat a.edn)"
is "that at fault is as it was" $'[1,\n 2' "$(cat b.edn)"
none_left "one at fault"
run "$program" fmt a.edn c.edn; is "nothing to do: status" 0 "$status"; is "nothing to do: told" "" "$err"
inode=$(stat -c %i c.edn); run "$program" fmt c.edn; is "laid out already: not written" "$inode" "$(stat -c %i c.edn)"

# ---- --check
fresh; printf '[1,2]' > a.edn; printf '[3, 4]\n' > c.edn; sum=$(cksum a.edn c.edn)
run "$program" fmt --check a.edn c.edn
is "--check: status" 1 "$status"; is "--check: lists" $'a.edn\n' "$out"; is "--check: tells nothing" "" "$err"; is "--check: changes nothing" "$sum" "$(cksum a.edn c.edn)"
run "$program" fmt --check c.edn; is "--check, all well" "0" "$status$out$err"
printf '[' > b.edn; run "$program" fmt --check b.edn a.edn; is "--check with a fault" 1 "$status"; is "--check with a fault: lists" $'a.edn\n' "$out"; is "--check with a fault: tells" $'b.edn:1:2: Invalid EDN\n[\n ^\n' "$err"

# ---- permissions and owner
fresh; printf '[1,2]' > a.edn; chmod 640 a.edn; run "$program" fmt a.edn; is "mode kept" "640 0" "$(stat -c %a a.edn) $status"
is "a line feed at the end" "$(printf '[1, 2]\n' | cksum)" "$(cksum < a.edn)"
printf '[1,2]' > a.edn; chmod 4755 a.edn; run "$program" fmt a.edn; is "all mode bits kept" "4755" "$(stat -c %a a.edn)"
(umask 077; printf '[1,2]' > p.edn; chmod 644 p.edn; "$program" fmt p.edn 2> /dev/null; is "mode kept past a umask" 644 "$(stat -c %a p.edn)")
if [ "$(id -u)" = 0 ]; then
  printf '[1,2]' > o.edn; chown 65534:65534 o.edn; run "$program" fmt o.edn; is "owner kept" "65534:65534 0" "$(stat -c %u:%g o.edn) $status"
  mkdir open; chmod 777 open; printf '[1,2]' > open/r.edn; chmod 666 open/r.edn; run as_user "$program" fmt open/r.edn
  is "owner that cannot be kept: fault" 1 "$status"; is "owner that cannot be kept: as it was" "[1,2]" "$(cat open/r.edn)"; none_left "owner"
fi

# ---- read-only folder, read-only file
fresh; mkdir d; printf '[1,2]' > d/a.edn; chmod 666 d/a.edn; chmod 555 d
run as_user "$program" fmt d/a.edn; is "read-only folder: status" 1 "$status"; is "read-only folder: told" $'cbor-edn: d/a.edn: Permission denied (os error 13)\n' "$err"; is "read-only folder: as it was" "[1,2]" "$(cat d/a.edn)"
chmod 755 d
fresh; mkdir d; chmod 777 d; printf '[1,2]' > d/a.edn; chmod 444 d/a.edn
run as_user "$program" fmt d/a.edn; is "read-only file: status" 1 "$status"; is "read-only file: as it was" "[1,2]" "$(cat d/a.edn)"; none_left "read-only file"

# ---- links
fresh; mkdir d; printf '[1,2]' > d/a.edn; ln -s d/a.edn l.edn; run "$program" fmt l.edn
is "symbolic link stays" "d/a.edn" "$(readlink l.edn)"; is "its file is laid out" "[1, 2]" "$(cat d/a.edn)"; is "named as asked" $'cbor-edn: l.edn: Laid out\n' "$err"
fresh; mkdir d; printf '[1,2]' > a.edn; ln -s ../a.edn d/m.edn; ln -s d/m.edn l.edn; ln -s "$PWD/l.edn" k.edn; run "$program" fmt k.edn
is "links to links stay" "$PWD/l.edn d/m.edn ../a.edn" "$(readlink k.edn) $(readlink l.edn) $(readlink d/m.edn)"; is "the file behind them is laid out" "[1, 2]" "$(cat a.edn)"
fresh; printf '[1,2]' > w.edn; chmod 222 w.edn; ln -s w.edn l.edn; run as_user "$program" fmt w.edn l.edn
is "cannot be read: named as asked" $'cbor-edn: w.edn: Permission denied (os error 13)\ncbor-edn: l.edn: Permission denied (os error 13)\n' "$err"
fresh; ln -s b.edn a.edn; ln -s a.edn b.edn; run "$program" fmt a.edn; is "links in a ring" $'1cbor-edn: a.edn: Too many levels of symbolic links (os error 40)\n' "$status$err"
fresh; ln -s nowhere l.edn; run "$program" fmt l.edn; is "link to nothing" 1 "$status"; is "link to nothing: told" $'cbor-edn: l.edn: No such file or directory (os error 2)\n' "$err"

# ---- the same file twice, what is no file
fresh; printf '[1,2]' > a.edn; run "$program" fmt a.edn ./a.edn; is "twice: status" 0 "$status"; is "twice: told once" $'cbor-edn: a.edn: Laid out\n' "$err"
mkdir d; run "$program" fmt d; is "folder" $'1cbor-edn: d: Is a directory\n' "$status$err"
run "$program" fmt /dev/null; is "device" $'1cbor-edn: /dev/null: Not a regular file\n' "$status$err"
: > e.edn; run "$program" fmt e.edn; is "empty file" "0" "$status$err"
n=$'x\033[1m\n.edn'; printf '[1,2]' > "$n"; run "$program" fmt "$n"; is "control characters of a name" $'cbor-edn: x<U+001B>[1m<U+000A>.edn: Laid out\n' "$err"
printf '[1,2]' > -x.edn; run "$program" fmt -- -x.edn; is "a name with a dash" 0 "$status"

# ---- names that are not UTF-8, long names
fresh; mkdir $'d\xff'; cd $'d\xff' || exit; printf '[1,2]' > a.edn; printf '[3,4]' > b.edn; ln -s b.edn l.edn; printf '[5,6]' > $'n\xff.edn'; ln -s $'n\xff.edn' n.edn
run "$program" fmt a.edn l.edn; is "folder that is not UTF-8" $'0cbor-edn: a.edn: Laid out\ncbor-edn: l.edn: Laid out\n' "$status$err"; is "folder that is not UTF-8: laid out" "[1, 2] [3, 4] b.edn" "$(cat a.edn) $(cat b.edn) $(readlink l.edn)"
run "$program" fmt n.edn; is "link to a name that is not UTF-8" $'1cbor-edn: n.edn: A link to a name that is not UTF-8\n' "$status$err"; is "link to a name that is not UTF-8: as it was" "[5,6]" "$(cat n.edn)"
fresh; for size in 120 121 251; do n=$(printf "%${size}s" '' | tr ' ' x).edn; printf '[1,2]' > "$n"; run "$program" fmt "$n"; is "a name of $size characters" "0[1, 2]" "$status$(cat "$n")"; done; none_left "long names"
n=$(printf '%251s' '' | tr ' ' x).edn; printf '[1,2]' > "$n"; : > long-name.cbor-edn-0; run "$program" fmt "$n"; is "a long name: another's draft" "0[1, 2]" "$status$(cat "$n")"; is "a long name: another's draft stays" "long-name.cbor-edn-0" "$(find . -name '*cbor-edn-*' -printf '%P')"

# ---- files that are none to lay out
fresh; printf '[1,2]' > a.cbor; printf '[1,\0]' > n.edn; printf '"\xff"' > u.edn; printf '[1,2]' > b.edn; sum=$(cksum a.cbor n.edn u.edn)
run "$program" fmt a.cbor n.edn u.edn b.edn; is "no EDN: told" $'cbor-edn: a.cbor: Named as CBOR, not as EDN: --force lays it out\ncbor-edn: n.edn: No text: it holds a NUL byte\ncbor-edn: u.edn: No text: it is not UTF-8\ncbor-edn: b.edn: Laid out\n' "$err"
is "no EDN: status" 1 "$status"; is "no EDN: as it was" "$sum" "$(cksum a.cbor n.edn u.edn)"; is "no EDN: the other is laid out" "[1, 2]" "$(cat b.edn)"
run "$program" fmt --check a.cbor; is "no EDN: --check" $'1cbor-edn: a.cbor: Named as CBOR, not as EDN: --force lays it out\n' "$status$out$err"
run "$program" fmt --force a.cbor n.edn u.edn; is "--force" $'1cbor-edn: a.cbor: Laid out\nn.edn:1:4: Invalid EDN\n[1,<U+0000>]\n   ^\nu.edn:1:2: Not UTF-8\n"\n ^\n' "$status$err"; is "--force: laid out" "[1, 2]" "$(cat a.cbor)"

# ---- one file as input and output of a conversion
SAME='1cbor-edn: Input and output are the same file
'
fresh; mkdir d; printf '81f5' > a; ln -s a l; ln a h; ln -s ../a d/m; sum=$(cksum a)
for words in 'diag2cbor' 'cbor2diag -i hex' 'diag2diag'; do
  for names in 'a a' 'a ./a' './a a' 'a l' 'l a' 'l l' 'a h' 'h a' 'a d/m' 'd/../a a' "a $PWD/a"; do
    # shellcheck disable=SC2086
    run "$program" $words $names; is "one file twice: $words $names" "$SAME" "$status$out$err"
  done
  # shellcheck disable=SC2086
  run "$program" $words - l < a; is "one file twice: $words, standard input" "$SAME" "$status$out$err"
  # shellcheck disable=SC2086
  run "$program" $words /dev/stdin l < a; is "one file twice: $words, /dev/stdin" "$SAME" "$status$out$err"
done
is "one file twice: as it was" "$sum" "$(cksum a)"
run "$program" diag2diag /dev/null /dev/null; is "a device twice" 0 "$status$out$err"
run "$program" cbor2diag -i hex a b; is "two files" "0[true]" "$status$(cat b)"
run "$program" cbor2diag -i hex - b < a; is "standard input and a file" "0[true]" "$status$(cat b)"
"$program" diag2diag b >> b; is "standard output behind the input" $'0[true]\n[true]' "$?$(cat b)"

# ---- -O, which replaces a file
# The status, what is told, and the digits of a file.
got() {
  printf '%s|%s|%s' "$status" "$err" "$(od -An -tx1 "$1" 2> /dev/null | tr -d ' \n')"
}

fresh; mkdir d; printf '[1,2]' > a.edn; printf '[1,\n 1.5' > bad.edn
BAD=$'cbor-edn: Error parsing input data: Invalid EDN in line 2 column 5 (byte 8)\n'
(umask 027; "$program" diag2cbor a.edn -O a.cbor; is "-O: a new file" "0 820102 640" "$? $(od -An -tx1 a.cbor | tr -d ' ') $(stat -c %a a.cbor)")
chmod 604 a.cbor; inode=$(stat -c %i a.cbor); run "$program" diag2cbor --output a.cbor <<< '3'; is "-O: a file that is there" "0||03" "$(got a.cbor)"; is "-O: mode kept" 604 "$(stat -c %a a.cbor)"; is "-O: another file" no "$([ "$inode" = "$(stat -c %i a.cbor)" ] || echo no)"
run "$program" diag2cbor bad.edn -O a.cbor; is "-O: fault" "1|$BAD|03" "$(got a.cbor)"
run "$program" diag2cbor bad.edn -O new; is "-O: fault, no file" "1|$BAD|" "$(got new)"; is "-O: fault, none is made" "" "$(find . -name new)"
run "$program" diag2cbor nofile -O a.cbor; is "-O: no input" $'1|cbor-edn: Error opening input\n|03' "$(got a.cbor)"
run "$program" diag2cbor d -O a.cbor; is "-O: an input that cannot be read" $'1|cbor-edn: Error reading input\n|03' "$(got a.cbor)"
run "$program" diag2cbor bad.edn a.cbor; is "without -O: fault" "1|$BAD|" "$(got a.cbor)"
run "$program" diag2diag a.edn -O a.edn; is "-O: its own input" "0[1, 2]" "$status$err$(cat a.edn)"
run "$program" diag2diag - -O ./a.edn --preserve-space < a.edn; is "-O: standard input" "0[1, 2]" "$status$err$(cat a.edn)"
run "$program" diag2diag a.edn -O -; is "-O: standard output" $'0[1, 2]\n' "$status$err$out"
run "$program" cbor2diag -O b.edn -i hex <<< '63 e282ac'; is "-O: another command" '0"€"' "$status$err$(cat b.edn)"
ln -s d/m l; run "$program" diag2cbor a.edn -O l; is "-O: a link to nothing" "0||820102" "$(got d/m)"; run "$program" diag2cbor -O l <<< 4; is "-O: a link" "0||04" "$(got d/m)"; is "-O: a link stays" d/m "$(readlink l)"
n=$(printf '%255s' '' | tr ' ' x); run "$program" diag2cbor -O "$n" <<< 5; is "-O: a long name" "0||05" "$(got "$n")"
run "$program" diag2cbor a.edn -O d; is "-O: a folder" $'1cbor-edn: d: Is a directory\n' "$status$err"
run "$program" diag2cbor a.edn -O /dev/full; is "-O: a device" $'1cbor-edn: /dev/full: Not a regular file\n' "$status$err"
run "$program" diag2cbor a.edn -O none/x; is "-O: no folder" $'1cbor-edn: none/x: No such file or directory (os error 2)\n' "$status$err"
: > .e; (trap '' XFSZ; ulimit -f 8; seq 1 9000 | "$program" diag2cbor -O d/m) 2> .e; status=$? err=$(cat .e); is "-O: a file too large" "1|cbor-edn: d/m: File too large (os error 27)|04" "$(got d/m)"
printf '6' | "$program" diag2cbor -O d/m >&- 2>&-; status=$? err=; is "-O: closed streams" "0||06" "$(got d/m)"
printf '[' | "$program" diag2cbor -O d/m >&- 2>&-; status=$? err=; is "-O: closed streams, fault" "1||06" "$(got d/m)"
none_left "-O"
chmod 444 d/m; chmod 777 d; run as_user "$program" diag2cbor -O d/m <<< 7; is "-O: read-only file" $'1|cbor-edn: d/m: Permission denied (os error 13)\n|06' "$(got d/m)"
chmod 644 d/m; chmod 555 d; run as_user "$program" diag2cbor -O d/n <<< 7; is "-O: read-only folder" $'1|cbor-edn: d/n: Permission denied (os error 13)\n|' "$(got d/n)"; chmod 755 d
run "$program" diag2cbor a.edn b.edn -O c; is "-O and a second name" 2 "$status"; is "-O and a second name: none is made" "" "$(find . -name c)"
: > m.cbor-edn-0; printf '8' > m; run "$program" diag2cbor -O m m; is "-O: another's draft" "0||08" "$(got m)"; is "-O: another's draft stays" "./m.cbor-edn-0" "$(find . -name '*cbor-edn-*')"

# ---- drafts of earlier runs, a folder full of them
fresh; printf '[1,2]' > a.edn; : > a.edn.cbor-edn-0; run "$program" fmt a.edn; is "a draft of another run: status" 0 "$status"; is "a draft of another run stays" "a.edn.cbor-edn-0" "$(find . -name '*cbor-edn-*' -printf '%P')"
fresh; printf '[1,2]' > a.edn; for i in $(seq 0 999); do : > a.edn.cbor-edn-$i; done; run "$program" fmt a.edn; is "all drafts taken" $'1cbor-edn: a.edn: No name for a draft is free\n' "$status$err"; is "all drafts taken: as it was" "[1,2]" "$(cat a.edn)"

# ---- full disk
if [ "$(id -u)" = 0 ]; then
  fresh; mkdir m
  if mount -t tmpfs -o size=64k tmpfs m 2> /dev/null; then
    mounted=$work/t/m
    { printf '['; for i in $(seq 1 5000); do printf '%d,' $i; done; printf '0]'; } > m/a.edn; sum=$(cksum < m/a.edn)
    run "$program" fmt m/a.edn; is "full disk: status" 1 "$status"; is "full disk: told" $'cbor-edn: m/a.edn: No space left on device (os error 28)\n' "$err"
    is "full disk: as it was" "$sum" "$(cksum < m/a.edn)"; is "full disk: no draft" "" "$(find m -name '*cbor-edn-*')"
    umount m; mounted=
  else echo "no mount: a full disk is not tried"; fi
fi
# a limit on the size of files stands for it too
fresh; { printf '['; for i in $(seq 1 5000); do printf '%d,' $i; done; printf '0]'; } > a.edn; sum=$(cksum < a.edn)
(trap '' XFSZ; ulimit -f 8; "$program" fmt a.edn) 2> .e; is "file too large: status" 1 "$?"; is "file too large: told" "cbor-edn: a.edn: File too large (os error 27)" "$(cat .e)"; is "file too large: as it was" "$sum" "$(cksum < a.edn)"; none_left "file too large"

# ---- killed between
fresh; { printf '['; for i in $(seq 1 60000); do printf '%d,' $i; done; printf '0]'; } > old.edn; "$program" diag2diag old.edn new.edn; o=$(cksum < old.edn); w=$(cksum < new.edn); seen_old=0 seen_new=0 torn=0
for i in $(seq 1 60); do
  cp old.edn a.edn
  { timeout -s KILL "$(awk -v i="$i" 'BEGIN { printf "%.4f", 0.001 + i * 0.001 }')" "$program" fmt a.edn 2> /dev/null; } 2> /dev/null
  case $(cksum < a.edn) in "$o") seen_old=$((seen_old + 1)) ;; "$w") seen_new=$((seen_new + 1)) ;; *) torn=$((torn + 1)) ;; esac
done
is "killed at 60 moments: torn" 0 "$torn"

# ---- standard input and streams
run "$program" fmt <<< '[1,2]'; is "standard input" $'0[1, 2]\n' "$status$out"
run "$program" fmt - <<< '[1'; is "standard input at fault" $'1<stdin>:2:1: Invalid EDN\n\n^\n' "$status$err"
run "$program" fmt --check <<< '[1,2]'; is "standard input --check" $'1<stdin>\n' "$status$out"
run "$program" fmt <<< '[1,2]' > /dev/full; : ; "$program" fmt <<< '[1,2]' > /dev/full 2> .e; is "output full" "1cbor-edn: <stdout>: No space left on device (os error 28)" "$?$(cat .e)"
fresh; printf '[1,2]' > a.edn; "$program" fmt a.edn <&- >&- 2>&-; is "closed streams: laid out" "0[1, 2]" "$?$(cat a.edn)"

# ---- check
fresh; printf '[1, 2]\n' > a.edn; printf '{1: dt'"'"'1970-01-01T00:00:23Z'"'"',\n 2: [3, <<4, 1.5>>]}\n' > b.edn; printf '"\t" "\033"' > c.edn
printf '\x82\x01\xfb\x3f\xf8\0\0\0\0\0\0' > d.cbor; printf '\x82\x01' > e.cbor; printf '\x63ab' > f.cbor; printf '\x01\x82\x01\x62\xff\xfe' > g.cbor; printf '\x81\x1c' > h.bin
run "$program" check a.edn b.edn c.edn d.cbor e.cbor f.cbor g.cbor nofile
is "check: status" 1 "$status"; is "check: output" "" "$out"
is "check: told" $'b.edn:2:14: Number has no encoding\n 2: [3, <<4, 1.5>>]}\n             ^\nc.edn:1:2: Invalid EDN\n" " "<U+001B>"\n ^\nd.cbor: Float value out of scope (byte 2)\ne.cbor: Expected item, out of data (byte 2)\nf.cbor: Announced bytes unavailable (byte 0)\ng.cbor: Text string must be valid UTF-8 (byte 3)\ncbor-edn: nofile: No such file or directory (os error 2)\n' "$err"
run "$program" check --cbor h.bin; is "check --cbor" $'1h.bin: Reserved header byte (byte 1)\n' "$status$err"
run "$program" check a.edn; is "check: all well" "0" "$status$out$err"
printf "foo'bar'" > l.edn; run "$program" check l.edn; is "check: literal" $'1l.edn:1:1: Unsupported application oriented literal or ellipsis\nfoo\'bar\'\n^\n' "$status$err"; run "$program" check --apply-999 l.edn; is "check --apply-999" 0 "$status"
printf 'a\xff' > u.edn; run "$program" check u.edn; is "check: not UTF-8" $'1u.edn:1:2: Not UTF-8\na\n ^\n' "$status$err"

# ---- show
fresh; mkdir d; printf '\x43\xa1\x01\x26' > a.cbor; printf '\x01' > d/b.cbor; printf '\x82' > c.cbor; cat a.cbor d/b.cbor > both; sum=$(cksum a.cbor d/b.cbor)
run "$program" show a.cbor; is "show: one" $'0<<{1: -7}>>\n' "$status$out$err"
run "$program" show a.cbor d/b.cbor; is "show: two" $'0/ a.cbor /\n<<{1: -7}>>\n# d/b.cbor\n1\n' "$status$out$err"; is "show: none is an output" "$sum" "$(cksum a.cbor d/b.cbor)"
is "show: two come back" "" "$("$program" show a.cbor d/b.cbor | "$program" diag2cbor | cmp - both 2>&1)"
run "$program" show c.cbor a.cbor - nofile <<< 4; is "show: faults, status" 1 "$status"; is "show: faults, output" $'/ a.cbor /\n<<{1: -7}>>\n/ <stdin> /\n-21,\n10\n' "$out"
is "show: faults, told" $'c.cbor: Expected item, out of data (byte 1)\ncbor-edn: nofile: No such file or directory (os error 2)\n' "$err"
run "$program" show -i hex --no-embedded <<< '43 a1 01 26'; is "show: digits" $'0h\'a10126\'\n' "$status$out$err"
run "$program" show -i hex <<< 'd1 80'; is "show: names" $'017([])\n/ COSE_Mac0 /\n' "$status$out$err"
run "$program" show -i hex --no-names <<< 'd1 80'; is "show: no names" $'017([])\n' "$status$out$err"
run "$program" show -i hex <<< '4'; is "show: no digits" $'1<stdin>: Error decoding hexadecimal input\n' "$status$out$err"

fresh; printf '\x01' > a.cbor; "$program" show a.cbor nofile a.cbor > /dev/full 2> .e; is "show: output full" "1cbor-edn: <stdout>: No space left on device (os error 28)" "$?$(cat .e)"
printf '[1,2]' > a.edn; printf '[3,4]' > b.edn; "$program" fmt --check a.edn b.edn > /dev/full 2> .e; is "fmt --check: output full" "1cbor-edn: <stdout>: No space left on device (os error 28)" "$?$(cat .e)"

# ---- words
run "$program" fmt --nothing; is "words at fault" 2 "$status"
run "$program" fmt --help; is "help" 0 "$status"

end
