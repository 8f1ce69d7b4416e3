#!/usr/bin/env bash
# Calls the library from C, Rust and Python, as somebody who writes none of Rattle would.
#
# usage: scripts/gate/bindings.sh [--after-ci | --unproved | FOLDER]
#
# FOLDER has what scripts/build/c.sh makes. Without it that script makes it, with --after-ci over what the gate has just proved
# here, with --unproved of unproved sources, which is for quick tests alone: its frames are larger, so there the deepest nesting is
# tried under a stack of 2 MB and not of 1 MB, and nothing else is less.
#
# Each binding has its tests, and the commands of its README must print the bytes of `[1, 0x1f, []]`. The header is compiled by each
# compiler there is, as C99 and as C++. Encodings of python3-cbor2 go to text and come back, and each allocation of the library is
# refused in turn, in each language. The tests of Rust refuse its binding's own allocations too, and those of Python give no room for an
# output. What is not installed is left out, and told; in CI, which may install it, that is a fault (but for clang and valgrind). The
# last line is 'N passed, M failed'.
set -euo pipefail

cd "$(dirname "$(readlink -f "$0")")/../.."
passed=0
failed=0
work=$(mktemp -d)
trap 'rm -rf "$work"' EXIT

say() {
  echo "$0: $1"
}

end() {
  echo "$passed passed, $failed failed"
  [ "$failed" = 0 ]
  exit
}

# Counts one test by the status of a command, and shows what it said where it failed.
check() {
  local name=$1
  shift
  if "$@" > "$work/said" 2>&1; then
    passed=$((passed + 1))
  else
    failed=$((failed + 1))
    say "$name: $*"
    tail -n 20 "$work/said"
  fi
}

# Adds what a command counts in its last line, which says 'N passed, M failed'. Where it fails in silence or tests nothing, that is a
# failure too.
add() {
  local name=$1 status=0 good=0 bad=0
  shift
  "$@" > "$work/said" 2>&1 || status=$?
  if [[ $(tail -n 1 "$work/said") =~ ^([0-9]+)\ passed,\ ([0-9]+)\ failed$ ]]; then
    good=${BASH_REMATCH[1]}
    bad=${BASH_REMATCH[2]}
  fi
  passed=$((passed + good))
  failed=$((failed + bad))
  [ "$status" != 0 ] || [ "$bad" != 0 ] || [ "$good" = 0 ] || return 0
  [ "$bad" != 0 ] || failed=$((failed + 1))
  say "$name: $*"
  tail -n 20 "$work/said"
}

# Whether a command is there. What CI may install is a fault where it is missing there.
has() {
  command -v "$1" > /dev/null && return
  say "$1 is not installed, so $2 is left out"
  [ -z "${CI-}" ] || [ -n "${3-}" ] || failed=$((failed + 1))
  return 1
}

# Runs the commands of a README but those that build the library, at the root of a copy with the library in out/c.
run_readme() {
  sed -n '/^```sh$/,/^```$/p' "$1" | sed '/^```/d; /build\/c\.sh/d' > "$work/commands"
  [ -s "$work/commands" ] && [ "$(cd "$copy" && bash -euo pipefail "$work/commands" | tail -n 1)" = 8301181f80 ]
}

how=()
folder=${1-}
case $folder in
  '') folder=out/c ;;
  --after-ci) how=("$folder") folder=out/c ;;
  --unproved)
    how=("$folder") folder=out/c-unproved
    export CBOR_EDN_STACK=2097152
    ;;
esac
if [ "$folder" != "${1-}" ] && ! scripts/build/c.sh "${how[@]}" "$folder" > "$work/said" 2>&1; then
  say 'the library is not built'
  tail -n 20 "$work/said"
  failed=1
  end
fi
folder=$(readlink -f "$folder")

# ---- what all take

copy=$work/copy
mkdir -p "$copy/out"
cp -r bindings "$copy"
cp -r "$folder" "$copy/out/c"

# A library of which an allocation can be refused.
refusing=$work/refusing
mkdir "$refusing"
make_refusing() {
  (cd "$work" && ar x "$folder/libcbor_edn.a" cbor_edn.o) || return
  objcopy --redefine-sym cbor_edn_convert=library_convert --redefine-sym malloc=refusing_malloc \
    --redefine-sym realloc=refusing_realloc --redefine-sym free=refusing_free "$work/cbor_edn.o" || return
  cc -O2 -fPIC -c -o "$work/refusing.o" bindings/c/tests/refusing.c || return
  ar rcs "$refusing/libcbor_edn.a" "$work/cbor_edn.o" "$work/refusing.o" || return
  cc -shared -o "$refusing/libcbor_edn.so" "$work/cbor_edn.o" "$work/refusing.o"
}
check 'the library that refuses' make_refusing

values=
if /usr/bin/python3 -c 'import cbor2' 2> /dev/null; then
  /usr/bin/python3 scripts/gate/values.py > "$work/values"
  values=$work/values
else
  say 'python3-cbor2 is not installed, so nothing is compared with another implementation'
  [ -z "${CI-}" ] || failed=$((failed + 1))
fi

# ---- C

compiles_as() {
  echo '#include "cbor_edn.h"' | "$1" -x "$2" "-std=$3" -pedantic -Wall -Wextra -Werror -I "$folder" -fsyntax-only -
}

# A test program, by a compiler and against one of the two libraries.
build_test() {
  local compiler=$1 test=$2 library=$3
  "$compiler" -std=c11 -D_GNU_SOURCE -O2 -Wall -Wextra -pedantic -Werror -pthread -o "$work/$test" "bindings/c/tests/$test.c" \
    "$library" -Wl,-rpath,"$(dirname "$library")"
}

check 'one symbol' test "$(nm -D --defined-only --extern-only "$folder/libcbor_edn.so" | awk '{ print $3 }')" = cbor_edn_convert
check 'one symbol' test "$(nm --defined-only --extern-only "$folder/libcbor_edn.a" | awk 'NF == 3 { print $3 }')" = cbor_edn_convert
has gcc 'C' || true
has clang 'a second compiler' optional || true
for compiler in gcc clang; do
  command -v "$compiler" > /dev/null || continue
  check 'the header as C99' compiles_as "$compiler" c c99
  for library in "$folder/libcbor_edn.a" "$folder/libcbor_edn.so"; do
    for test in calls threads; do
      check "$test by $compiler" build_test "$compiler" "$test" "$library"
      add "$test by $compiler" "$work/$test"
    done
  done
done
has g++ 'C++' || true
for compiler in g++ clang++; do
  ! command -v "$compiler" > /dev/null || check 'the header as C++' compiles_as "$compiler" c++ c++11
done
if command -v gcc > /dev/null; then
  check refused build_test gcc refused "$refusing/libcbor_edn.a"
  add 'each allocation refused in C' "$work/refused"
  if [ -n "$values" ]; then
    check outside build_test gcc outside "$folder/libcbor_edn.a"
    add 'encodings from outside in C' "$work/outside" < "$values"
  fi
  check 'the README of C' run_readme bindings/c/README.md
  if has valgrind 'a look at each access of memory' optional; then
    check calls build_test gcc calls "$folder/libcbor_edn.a"
    check 'calls under valgrind' valgrind --quiet --error-exitcode=9 --leak-check=full "$work/calls"
  fi
  if has pkg-config 'its file' optional; then
    check 'the file of pkg-config' env PKG_CONFIG_PATH="$folder" sh -c \
      "cc -o '$work/example' bindings/c/example.c \$(pkg-config --cflags --libs cbor_edn) && LD_LIBRARY_PATH='$folder' '$work/example'"
  fi
fi

# ---- Rust

# Adds the counts of each program of tests.
cargo_test() {
  local status=0
  (cd "$copy/bindings/rust" && cargo test --offline "$@") > "$work/tests" 2>&1 || status=$?
  cat "$work/tests"
  awk '/^test result:/ { passed += $4; failed += $6 } END { print passed + 0 " passed, " failed + 0 " failed" }' "$work/tests"
  return "$status"
}

if has cargo 'Rust'; then
  CBOR_EDN_VALUES=$values CBOR_EDN_LIB=$folder add 'Rust' cargo_test -- ${values:+--include-ignored}
  CBOR_EDN_LIB=$refusing add 'each allocation refused in Rust' cargo_test --features refusing --test refused
  check 'the README of Rust' run_readme bindings/rust/README.md
fi

# ---- Python

# Counts the tests of a file.
python_test() {
  local status=0
  PYTHONDONTWRITEBYTECODE=1 PYTHONPATH=bindings/python python3 "$@" > "$work/tests" 2>&1 || status=$?
  cat "$work/tests"
  awk -v failed=$((status != 0)) '/^Ran [0-9]+ test/ { ran = $2 } match($0, /skipped=[0-9]+/) { ran -= substr($0, RSTART + 8, RLENGTH - 8) }
    END { print (ran > failed ? ran - failed : 0) " passed, " failed " failed" }' "$work/tests"
  return "$status"
}

if has python3 'Python'; then
  CBOR_EDN_VALUES=$values CBOR_EDN_LIBRARY=$folder/libcbor_edn.so add 'Python' python_test bindings/python/test_cbor_edn.py
  CBOR_EDN_LIBRARY=$refusing/libcbor_edn.so add 'each allocation refused in Python' python_test bindings/python/test_refused.py
  check 'the README of Python' run_readme bindings/python/README.md
fi

end
