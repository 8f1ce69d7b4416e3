# shellcheck shell=bash
# Sourced by the scripts of this folder, at the repository's root: rows are counted, and the program is found that is tried.
# shellcheck disable=SC2034

passed=0
failed=0

# Counts a row: it passes where the command succeeds. Else the script's name and the row's are printed, and the row's details.
count() {
  local name=$1
  shift
  if "$@"; then
    passed=$((passed + 1))
  else
    failed=$((failed + 1))
    echo "$0: $name$(details)"
  fi
}

# What a script has to say of a row that fails. It may put a function of its own in this place.
details() {
  :
}

# Prints the last line. The status is 0 where no row failed.
end() {
  echo "$passed passed, $failed failed"
  [ "$failed" = 0 ]
}

# Puts a program's path into `program`. It is the word that is handed on, or without one the working tree's program, which is built where it
# is missing or old.
find_program() {
  program=${1-}
  if [ -z "$program" ]; then
    ./cbor-edn --build
    program=out/cbor-edn
  fi
  program=$(readlink -f "$program")
}

# Finds the program, and makes `work`, a folder that goes when the script ends.
begin_trial() {
  find_program "${1-}"
  work=$(mktemp -d)
  trap 'rm -rf "$work"' EXIT
}
