#!/usr/bin/env bash
# Runs the program on files and streams that fail: none there, folders, a full device, one that fills later, pipes that
# nobody reads, closed streams.
#
# usage: scripts/gate/devices.sh [PROGRAM]
#
# Without PROGRAM it is the working tree's. Each row is run by each command without flags and with all of its flags. A fault must have
# status 1 and its line, whole, and nothing of it on standard output; what has status 0 must have written all of its output. The last
# line is 'N passed, M failed'.
set -euo pipefail

cd "$(dirname "$(readlink -f "$0")")/../.."
# shellcheck source=scripts/gate/common.sh
. scripts/gate/common.sh
begin_trial "${1-}"

cd "$work"
words=()
# times what is repeated is more than a pipe holds
LARGE=30000

# The program by the words of the command at hand, and by those of the row.
run() {
  "$program" "${words[@]}" "$@"
}

details() {
  echo " (${words[*]}): status $status, output $(head -c 100 output | od -An -c | tr -s ' \n' ' '), it said: $(head -c 300 said)"
}

# A row: its status, what is on standard output and what is on standard error, and what bash runs for it.
row() {
  local wanted_status=$1 output=$2 said=$3 name=$4
  rm -rf out
  status=0
  (eval "$name") > output 2> said < /dev/null || status=$?
  count "$name" ended "$wanted_status" "$output" "$said"
}

ended() {
  [ "$status" = "$1" ] && printf '%b' "$2" | cmp -s - output && { [ -z "$3" ] || printf '%s\n' "$3"; } | cmp -s - said
}

# What the row before left in a file, or that it left no file.
left() {
  count "the file $1" holds "$1" "$2"
}

holds() {
  printf '%b' "$2" | cmp -s - "$1"
}

# What the row before left in a file is a beginning of another file, and not all of it.
begins() {
  count "the file $1" is_beginning "$1" "$2"
}

is_beginning() {
  local size
  size=$(stat -c %s "$1")
  [ "$size" -gt 0 ] && [ "$size" -lt "$(stat -c %s "$2")" ] && head -c "$size" "$2" | cmp -s - "$1"
}

left_none() {
  count "no file $1" test ! -e "$1"
}

# Runs a command with standard output, or another descriptor, at a pipe whose reader has gone.
unread() {
  local descriptor=$1
  shift
  rm -f pipe
  mkfifo pipe
  (exec < pipe) &
  exec 3> pipe
  wait $!
  case $descriptor in
    1) "$@" >&3 ;;
    2) "$@" 2>&3 ;;
  esac
}

OPENING_INPUT='cbor-edn: Error opening input'
OPENING_OUTPUT='cbor-edn: Error opening output'
READING='cbor-edn: Error reading input'
WRITING='cbor-edn: Error writing output'

# Rows for a command: the bytes of an input, its output, an input that is at fault, its line, and more than a pipe holds.
check() {
  local input=$1 output=$2 fault=$3 line=$4 large=$5
  shift 5
  words=("$@")
  # shellcheck disable=SC2059
  {
    printf "$input" > in
    printf "$fault" > bad
    printf "$large%.0s" $(seq "$LARGE") > large
  }

  row 0 "$output" '' 'run in'
  row 0 "$output" '' 'run < in'
  row 0 "$output" '' 'run - - < in'
  row 0 "$output" '' 'run /dev/stdin /dev/stdout < in'
  row 0 "$output" '' '{ head -c 1 in; sleep 0.05; tail -c +2 in; } | run'
  row 0 '' '' 'cp large out; run in out'
  left out "$output"
  row 1 '' "$line" 'run bad'
  row 1 '' "$line" 'cp large out; run bad out'
  left out ''
  row 0 '' '' 'run /dev/null'

  # inputs
  row 1 '' "$OPENING_INPUT" 'run none out'
  left_none out
  row 1 '' "$OPENING_INPUT" 'run "" out'
  row 1 '' "$OPENING_INPUT" 'run none/in out'
  row 1 '' "$OPENING_INPUT" 'run in/in out'
  row 1 '' "$READING" 'run . out'
  left out ''
  row 1 '' "$READING" 'run < .'
  row 1 '' "$READING" 'run /proc/self/mem out'
  row 1 '' "$READING" 'run <&-'

  # outputs
  row 1 '' "$OPENING_OUTPUT" 'run in .'
  row 1 '' "$OPENING_OUTPUT" 'run in ""'
  row 1 '' "$OPENING_OUTPUT" 'run in none/out'
  row 1 '' "$OPENING_OUTPUT" 'run in in/out'
  row 1 '' "$OPENING_OUTPUT" 'run in /proc/none'
  row 1 '' "$OPENING_OUTPUT" 'run bad none/out'
  row 1 '' "$WRITING" 'run in /dev/full'
  row 1 '' "$WRITING" 'run in > /dev/full'
  row 1 '' "$WRITING" 'run large > /dev/full'
  row 0 '' '' 'run /dev/null /dev/full'
  row 1 '' "$line" 'run bad /dev/full'
  row 1 '' "$WRITING" 'run in >&-'
  row 1 '' "$WRITING" 'run < in >&-'
  row 1 '' "$line" 'run bad >&-'

  # a disk that fills later: a file may have 8 KB
  run large > whole
  row 1 '' "$WRITING" 'trap "" XFSZ; ulimit -f 8; run large out'
  begins out whole
  row 1 '' "$WRITING" 'trap "" XFSZ; ulimit -f 8; run large > out'
  begins out whole

  # pipes: a signal would end the program in silence, by default, so it takes none
  row 1 '' "$WRITING" 'unread 1 run in'
  row 1 '' "$WRITING" 'unread 1 run large'
  row 1 '' "$WRITING" 'trap "" PIPE; unread 1 run large'
  row 1 '' "$WRITING" 'run large | head -c 1 > /dev/null'
  row 0 '' '' 'unread 1 run /dev/null'
  row 1 '' "$line" 'unread 1 run bad'

  # files where streams are closed, whose descriptors they get
  row 0 '' '' 'run in out <&-'
  left out "$output"
  row 0 '' '' 'run in out >&-'
  left out "$output"
  row 0 '' '' 'run - out < in >&-'
  left out "$output"
  row 0 '' '' 'run in out 2>&-'
  left out "$output"
  row 0 '' '' 'run in out <&- >&- 2>&-'
  left out "$output"

  # standard error that takes no line changes no status
  row 1 '' '' 'run bad 2> /dev/full'
  row 1 '' '' 'run bad 2>&-'
  row 1 '' '' 'run none 2>&-'
  row 1 '' '' 'run bad out 2>&-'
  left out ''
  left bad "$fault"
  row 1 '' '' 'run - out < bad 2>&-'
  left out ''
  row 1 '' '' 'run bad out <&- 2>&-'
  left out ''
  row 1 '' '' 'run bad out >&- 2>&-'
  left out ''
  row 1 '' '' 'unread 2 run bad'
  row 0 "$output" '' 'run in 2>&-'
  row 0 "$output" '' 'run in 2> /dev/full'
  row 0 "$output" '' 'unread 2 run in'
}

PARSING='cbor-edn: Error parsing input data: Invalid EDN in line 1 column 3 (byte 2)'
DECODING='cbor-edn: Error decoding input data: Expected item, out of data'
DIGITS='cbor-edn: Error decoding hexadecimal input'
check '[1]\n' '\x81\x01' '[1' "$PARSING" '1234567 ' diag2cbor
check '[1]\n' '8101\n' '[1' "$PARSING" '1234567 ' diag2cbor -o hex --annotate-tags --apply-999 --max-nesting 9
check '\x81\x01' '[1]\n' '\x81' "$DECODING" '\x1a\x01\x02\x03\x04' cbor2diag
check '81 01' '[1]\n' '8' "$DIGITS" '1a01020304' \
  cbor2diag -i hex --no-annotate-tags --aol-to-item --no-bignum-from-tags --annotate ccs --max-nesting 9
check '[1]\n' '[1]\n' '[1' "$PARSING" '1234567 ' diag2diag
check '[1]\n' '[1]' '[1' "$PARSING" '1234567 ' \
  diag2diag --annotate-tags --apply-999 --aol-to-item --no-bignum-from-tags --annotate ccs --preserve-space --remove-comments --max-nesting 9

# Help and the version go to standard output, too.
words=()
for ask in '--help' '--version' 'diag2cbor --help' 'cbor2diag --help' 'diag2diag --help'; do
  status=0
  # shellcheck disable=SC2086
  unread 1 run $ask > output 2> said || status=$?
  count "$ask to a pipe that nobody reads" ended 1 '' "$WRITING"
  status=0
  : > output
  # shellcheck disable=SC2086
  run $ask > /dev/full 2> said || status=$?
  count "$ask to a full device" ended 1 '' "$WRITING"
done

# Words that are no command line have their own status, whatever became of the line.
row 2 '' '' 'run --none 2> /dev/full'
row 2 '' 'cbor-edn: Error reading the command line: it is not UTF-8' "run diag2diag \$'\\xff'"

end
