#!/usr/bin/env bash
# Compares the help of the program and of each command with the texts in scripts/help/, and tries the examples in them.
#
# usage: scripts/gate/help.sh [PROGRAM]
#
# Without PROGRAM it is the working tree's. Each help must fit on a screen of 24 lines of 80 columns. What is no command line must have
# status 2, nothing on standard output and a reason on standard error. The last line is 'N passed, M failed'.
set -euo pipefail

cd "$(dirname "$(readlink -f "$0")")/../.."
# shellcheck source=scripts/gate/common.sh
. scripts/gate/common.sh
begin_trial "${1-}"
LINES_OF_SCREEN=24
COLUMNS_OF_SCREEN=80

# The program by the name that users call it by, which its help shows.
cbor-edn() {
  (exec -a cbor-edn "$program" "$@")
}

# Runs the program, with what it says in files.
call() {
  status=0
  cbor-edn "$@" < /dev/null > "$work/output" 2> "$work/said" || status=$?
}

# The words must show a text, and nothing else.
shows() {
  local text=$1
  shift
  call "$@"
  [ "$status" = 0 ] && diff "$text" "$work/output" && [ ! -s "$work/said" ]
}

fits() {
  [ "$(wc -l < "$1")" -le "$LINES_OF_SCREEN" ] && ! grep -qE ".{$((COLUMNS_OF_SCREEN + 1))}" "$1"
}

# Tries the example of a help that a line gives, with what it writes behind '#' or on the next line.
answers() {
  local line=$1 wanted=$2
  [ "$(eval "${line%%  #*}")" = "$wanted" ]
}

check_examples() {
  local text=$1 line next found=
  while IFS= read -r line; do
    case $line in
      '  echo '*' # '*) next=${line##* # } ;;
      '  echo '*) IFS= read -r next && next=${next#'  # '} ;;
      *) continue ;;
    esac
    found=yes
    count "$text: $line" answers "$line" "$next"
  done < "$text"
  count "$text has an example" test -n "$found"
}

refuses() {
  call "$@"
  [ "$status" = 2 ] && [ ! -s "$work/output" ] && [[ $(head -n 1 "$work/said") == 'error: '* ]]
}

# The fault is told in these words, as `clap` has them.
refuses_with() {
  refuses "${@:2}" && [ "$(head -n 1 "$work/said")" = "$1" ]
}

commands='diag2cbor cbor2diag diag2diag show fmt check'
for command in '' $commands; do
  text=scripts/help/${command:-program}.txt
  for words in "$command --help" "$command -h" "help $command"; do
    # shellcheck disable=SC2086
    count "$words" shows "$text" $words
  done
  count "$text is too large" fits "$text"
  check_examples "$text"
done
echo 'cbor-edn 0.1.0' > "$work/version"
count '--version' shows "$work/version" --version
count '-V' shows "$work/version" -V

# Command lines that are at fault: flags of other commands, values that are none, words that are too many.
while IFS= read -r line; do
  read -ra words <<< "$line"
  count "'$line' is refused" refuses ${words[@]+"${words[@]}"}
done << 'END'

diag2edn
help diag2edn
help show fmt
--max-nesting 5
diag2cbor --version
diag2cbor - - -
diag2cbor - - -O out
diag2cbor -O
diag2cbor -O out --output out
show -O out
fmt --output out
diag2cbor --hex
diag2cbor -o
diag2cbor -o json
diag2cbor -i hex
diag2cbor -o hex -o hex
diag2cbor --no-annotate-tags
diag2cbor --aol-to-item
diag2cbor --no-bignum-from-tags
diag2cbor --annotate ccs
diag2cbor --preserve-space
diag2cbor --remove-comments
diag2cbor --apply-999=yes
cbor2diag -o hex
cbor2diag --annotate-tags
cbor2diag --apply-999
cbor2diag --annotate
cbor2diag --annotate cwt
cbor2diag --preserve-space
diag2diag -i hex
diag2diag -o hex
diag2diag --no-annotate-tags
diag2diag --annotate
diag2diag --max-nesting
diag2diag --max-nesting 513
diag2diag --max-nesting -1
diag2diag --max-nesting +5
diag2diag --max-nesting=+0
diag2diag --max-nesting 99999999999999999999
diag2diag --max-nesting 1e2
show -o hex
show -i json
show --check
show --levels
show --levels 256
show --levels +3
show --annotate cwt
show --max-nesting 513
fmt --annotate-tags
fmt --preserve-space
fmt --check=yes
fmt --force=yes
check --force
check --annotate ccs
check --remove-comments
check --max-nesting +5
END

# The fault has the usage of its command.
has_usage() {
  [ "$(grep '^Usage: ' "$work/said")" = "$(grep '^Usage: ' "scripts/help/$1.txt")" ]
}

# A number with a plus sign is told with its own flag.
for words in 'diag2cbor --max-nesting' 'show --max-nesting' 'show --levels' 'fmt --max-nesting'; do
  fault="error: invalid value '+5' for '${words#* } <N>': invalid digit found in string"
  # shellcheck disable=SC2086
  count "'$words' names its flag" refuses_with "$fault" $words +5
  count "'$words' has the usage of its command" has_usage "${words%% *}"
done
count 'two outputs are told' refuses_with "error: the argument '--output <FILE>' cannot be used with '[OUTPUT]'" cbor2diag a b -O c
count 'two outputs have the usage of their command' has_usage cbor2diag

# No command: all are listed, those that `help` lists too.
refuses
count 'no command lists all' grep -qxF "  [subcommands: ${commands// /, }, help]" "$work/said"
count 'help lists all' test "$commands help" = "$(sed -n '/^Commands:/,/^$/s/^  \([a-z0-9]*\) .*/\1/p' scripts/help/program.txt | xargs)"

end
