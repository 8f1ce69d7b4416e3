#!/usr/bin/env bash
# Unpacks the packages that scripts/build/packages.sh makes into folders of their own, and tries each.
#
# usage: scripts/gate/packages.sh [--after-ci | FOLDER]
#
# FOLDER has the packages. Without it they are made, of changes that are in no commit too; with --after-ci of the program that `rt ci`
# has just proved here. They are made once more, and must have the same bytes. The flags of each `--help`, with their words, must stand
# in the manual page, and each shell must offer them. The commands of the READMEs of bindings/ and of docs/RECIPES.md run over what was
# unpacked. In CI they are then installed and purged (scripts/gate/install.sh), elsewhere nothing is. What can't be tried, since
# something is not there, is left out, and told; in CI, which may install it, that is a fault. The last line is 'N passed, M failed'.
set -euo pipefail

cd "$(dirname "$(readlink -f "$0")")/../.."
# shellcheck source=scripts/gate/common.sh
. scripts/gate/common.sh
python=${PYTHON:-/usr/bin/python3}
work=$(mktemp -d)
trap 'rm -rf "$work"' EXIT

# Counts a command that is silent where all is well.
check() {
  : > "$work/said"
  count "$@"
}

details() {
  echo ", which said:"
  tail -n 20 "$work/said"
}

quiet() {
  "$@" > "$work/said" 2>&1
}

# Adds what a command counts in its last line, which says 'N passed, M failed'.
add() {
  local good=0 bad=1
  quiet "$@" || true
  [[ $(tail -n 1 "$work/said") =~ ^([0-9]+)\ passed,\ ([0-9]+)\ failed$ ]] && good=${BASH_REMATCH[1]} bad=${BASH_REMATCH[2]}
  passed=$((passed + good))
  failed=$((failed + bad))
  [ "$bad" = 0 ] || echo "$0: $*$(details)"
}

# Whether a command is there. What CI may install is a fault where it is missing there.
has() {
  command -v "$1" > /dev/null && return
  echo "$0: $1 is not installed, so this is left out: $2"
  [ -z "${CI-}" ] || failed=$((failed + 1))
  return 1
}

# The last line that a command writes must be the bytes of `[1, 0x1f, []]`.
writes_bytes() {
  "$@" > "$work/said" 2>&1 && [ "$(tail -n 1 "$work/said")" = 8301181f80 ]
}

make=(scripts/build/packages.sh)
folder=${1-}
[ "$folder" != --after-ci ] || { make+=(--after-ci); folder=; }
make_all=("${make[@]}")
if [ -z "$folder" ]; then
  make_all+=(--uncommitted)
  folder=$work/packages
  "${make_all[@]}" "$folder"
fi
folder=$(readlink -f "$folder")
again() {
  (umask 077 && TZ=Asia/Tokyo LC_ALL=C.UTF-8 quiet "${make_all[@]}" "$work/again") && diff "$folder/SHA256SUMS" "$work/again/SHA256SUMS" >> "$work/said"
}
# What is in no commit is told in BUILT-FROM, or refused. Without an index all files are changes.
names_commit() {
  local commit changed made_of='no commit'
  if commit=$(git -c safe.directory='*' rev-parse --quiet --verify HEAD 2> /dev/null); then
    changed=$(git -c safe.directory='*' status --porcelain)
    made_of="commit $commit${changed:+, with changes that are in no commit}"
  fi
  head -n 1 "$folder/BUILT-FROM" > "$work/said"
  grep -qx "cbor-edn [0-9.]*, of $made_of" "$work/said"
}
refuses_changes() {
  ! GIT_INDEX_FILE=$work/none quiet "${make[@]}" "$work/refused" && grep -q 'is in no commit' "$work/said"
}
sums() {
  (cd "$folder" && quiet sha256sum --check --strict SHA256SUMS)
}
check 'the sums' sums
check 'made once more' again
check 'the commit' names_commit
check 'changes that are in no commit' refuses_changes

# ---- Debian's packages

root=$work/root
for package in cbor-edn libcbor-edn0 libcbor-edn-dev python3-cbor-edn; do
  check "$package" quiet dpkg-deb -x "$folder/$package"_*.deb "$root"
done
lib=$root/usr/lib/$(dpkg-architecture -a amd64 -q DEB_HOST_MULTIARCH)
doc=$root/usr/share/doc
export PATH=$root/usr/bin:$PATH
program=$root/usr/bin/cbor-edn
if has lintian "rules of Debian's packages"; then
  check lintian quiet lintian --allow-root --fail-on error "$folder"/*.deb
  cat "$work/said"
fi
! has apt-get 'what packages need' || check 'what they need' quiet apt-get install --simulate --quiet "$folder"/*.deb

# The flags of a command's help: short, long, value, words.
flags_of() {
  cbor-edn ${1:+"$1"} --help | sed -nE 's/^ +((-.), )?(--[a-z0-9-]+)( <([A-Z]+)>)? +(.*)/\2|\3|\5|\6/p'
}

# The same as words that a shell offers.
offers() {
  flags_of "$1" | sed 's/|/\n/; s/|.*//' | grep . | sort
}
commands=('' diag2cbor cbor2diag diag2diag show fmt check)

page=$root/usr/share/man/man1/cbor-edn.1.gz
silent() {
  quiet "$@" && [ ! -s "$work/said" ]
}
if has man 'the manual page'; then
  check 'the manual page' silent sh -c "man --warnings -l -Tutf8 -Z '$page' 2>&1 > '$work/page'"
  LC_ALL=C MANWIDTH=1000 man -l "$page" 2> "$work/said" | col -b | tr -s ' \t' ' ' > "$work/page"
  text=$(tr -s '\n' ' ' < "$work/page" | tr -s ' ')
  for command in "${commands[@]}"; do
    line=$(grep "^ cbor-edn $command.*\[\(INPUT\|FILE\)" "$work/page" || true)
    while IFS='|' read -r short long value words; do
      check "$command $long in the manual page" grep -qF -- "${short:+$short, }$long${value:+ $value} $words" <<< "$text"
      [ -z "$command" ] || [ "$long" = --help ] \
        || check "$command $long in its synopsis" grep -qF -- "[${short:-$long}${value:+ $value}]" <<< "$line"
      line=${line/"[${short:-$long}${value:+ $value}]"/}
    done < <(flags_of "$command")
    [ -z "$command" ] || check "more flags of $command in its synopsis" test "${line/\[-/}" = "$line"
  done
fi
# An example is a line behind `$`, and the next line what it writes.
while IFS= read -r line; do
  case $line in
    '.Dl $ '*) command=${line#'.Dl $ '} ;;
    '.Dl '*) check "$command in the manual page" test "$(bash -c "$command" 2> "$work/said")" = "${line#.Dl }" ;;
  esac
done < <(zcat "$page")
! has mandoc 'its rules' || check 'rules of manual pages' silent mandoc -T lint "$page"

# ---- completion

# What bash offers for the last of some words.
offered_by_bash() {
  # shellcheck disable=SC2016
  bash --norc -c 'source "$1"; shift; COMP_WORDS=("$@"); COMP_CWORD=$(($# - 1)); _cbor_edn; printf "%s\n" "${COMPREPLY[@]}"' - \
    "$root/usr/share/bash-completion/completions/cbor-edn" "$@"
}

offered_by_fish() {
  # shellcheck disable=SC2016
  HOME=$work fish --no-config -c 'source $argv[1]; complete -C "$argv[2..]"' "$root/usr/share/fish/vendor_completions.d/cbor-edn.fish" "$@" | cut -f1
}

# A shell in a terminal lists what it offers, between controls of the terminal.
offered_by_zsh() {
  cat > "$work/terminal" << 'TERMINAL'
zmodload zsh/zpty
zpty shell zsh -f -i
zpty -w shell "PS1=; fpath=($1 \$fpath); autoload -Uz compinit; compinit -u -D; setopt no_beep; LISTMAX=1000; stty columns 200 rows 60; bindkey '^I' list-choices; print REA''DY"
while zpty -r shell said; do [[ $said != *READY* ]] || break; done
zpty -w -n shell "$2"$'\t'
integer rounds=0 still=0 listed=0
while (( rounds++ < 200 && still < 5 )); do
  sleep 0.1
  while zpty -r -t shell said; do
    print -r -- $said
    still=0
    [[ $said != *' -- '* ]] || listed=1
  done
  (( still += listed ))
done
TERMINAL
  timeout 30 zsh -f "$work/terminal" "$root/usr/share/zsh/vendor-completions" "$*" \
    | sed 's/\x1b\[[0-9;?]*[A-Za-z]//g; s/ -- .*//' | grep -oE '(^|[[:space:]])(--?[A-Za-z0-9][a-z0-9-]*|[a-z0-9]+)' | tr -d ' \t\r'
}

# What a shell offers behind a command is what the help shows.
offers_flags() {
  diff <("offered_by_$1" cbor-edn ${2:+"$2"} - | grep '^-' | sort -u) <(offers "$2") > "$work/said"
}

offers_words() {
  diff <("offered_by_$1" "${@:3}" | sort -u) <(printf '%s\n' "$2" | tr ' ' '\n' | sort) > "$work/said"
}

for shell in bash fish zsh; do
  has "$shell" "its completion" || continue
  for command in "${commands[@]:1}"; do
    check "flags of $command in $shell" offers_flags "$shell" "$command"
  done
  [ "$shell" = zsh ] && continue
  check "values in $shell" offers_words "$shell" 'auto binary hex' cbor-edn cbor2diag -i ''
  check "kinds in $shell" offers_words "$shell" ccs cbor-edn diag2diag --annotate ''
  check "commands in $shell" offers_words "$shell" 'diag2cbor diag2diag' cbor-edn d
  check "commands for files in $shell" offers_words "$shell" show cbor-edn sh
done

# ---- the program, its page of recipes, editors

for script in help examples recipes; do
  add "scripts/gate/$script.sh" "$program"
done
check 'the page of recipes' cmp docs/RECIPES.md "$doc/cbor-edn/RECIPES.md"
in_vim() {
  SAID=$work/vim timeout 100 vim -es -Nu NONE --cmd "set runtimepath^=$root/usr/share/vim/vimfiles" -S editors/test.vim > /dev/null 2>&1 || true
  cat "$work/vim"
}
! has vim 'its files' || add in_vim

# ---- C

export PKG_CONFIG_LIBDIR=$lib/pkgconfig PKG_CONFIG_SYSROOT_DIR=$root
unset CBOR_EDN_LIBRARY CBOR_EDN_LIB
build_c() {
  local words
  read -ra words <<< "$(pkg-config --cflags --libs cbor_edn)"
  quiet cc -Wall -Wextra -Werror -o "$work/example" "$doc/libcbor-edn-dev/examples/example.c" "${words[@]}" \
    && readelf -d "$work/example" | grep -q 'NEEDED.*\[libcbor_edn\.so\.0\]'
}
version=$("$program" --version | cut -d' ' -f2)
if has pkg-config 'its file' && has cc C; then
  check 'C with pkg-config' build_c
  check 'the shared library' writes_bytes env "LD_LIBRARY_PATH=$lib" "$work/example"
  check 'the version' test "$(pkg-config --modversion cbor_edn)" = "$version"
fi

# The commands of a README but those that build the library, where out/c has what the packages have.
copy=$work/copy
mkdir -p "$copy/out/c"
cp -r bindings "$copy"
cp -P "$lib"/libcbor_edn* "$root/usr/include/cbor_edn.h" "$copy/out/c"
run_readme() {
  sed -n '/^```sh$/,/^```$/p' "$1" | sed '/^```/d; /build\/c\.sh/d' > "$work/commands"
  (cd "$copy" && bash -euo pipefail "$work/commands")
}
for language in c rust python; do
  check "the README of $language" writes_bytes run_readme "$PWD/bindings/$language/README.md"
done

# ---- Python

module=$root/usr/lib/python3/dist-packages
example=$doc/python3-cbor-edn/examples/example.py
export PYTHONDONTWRITEBYTECODE=1
check 'the module' writes_bytes env "LD_LIBRARY_PATH=$lib" "PYTHONPATH=$module" "$python" "$example"
examples='import cbor_edn, doctest; assert doctest.testmod(cbor_edn) == (0, 6)'
check 'its examples' quiet env "LD_LIBRARY_PATH=$lib" "PYTHONPATH=$module" "$python" -c "$examples"
lacks_library() {
  ! CBOR_EDN_LIBRARY=/nowhere/libcbor_edn.so PYTHONPATH=$module quiet "$python" "$example" \
    && grep -q '^ImportError: /nowhere.*libcbor-edn0.*scripts/build\/c\.sh.*CBOR_EDN_LIBRARY' "$work/said"
}
check 'a library that is missing' lacks_library
install_wheel() {
  quiet "$python" -m venv "$work/venv" && quiet "$work/venv/bin/pip" install --no-index --no-deps --disable-pip-version-check "$folder"/*.whl
}
check 'the wheel' install_wheel
check 'the module of the wheel' writes_bytes "$work/venv/bin/python" "$example"
check 'its examples' quiet "$work/venv/bin/python" -c "$examples"
check 'the version of the wheel' grep -qx "Version: $version" <("$work/venv/bin/pip" show cbor-edn 2> /dev/null)

# ---- Cargo

# A program over the package, in a folder that stands for the registry.
run_cargo() {
  local user=$work/user crate
  mkdir -p "$user/vendor" "$user/src" "$user/.cargo"
  tar -xzf "$folder"/*.crate -C "$user/vendor"
  crate=$(echo "$user"/vendor/*)
  echo "{\"files\":{},\"package\":\"$(sha256sum < "$folder/$(basename "$crate").crate" | cut -d' ' -f1)\"}" > "$crate/.cargo-checksum.json"
  cp "$crate/examples/convert.rs" "$user/src/main.rs"
  printf '[source.crates-io]\nreplace-with = "vendored"\n[source.vendored]\ndirectory = "vendor"\n' > "$user/.cargo/config.toml"
  printf '[package]\nname = "user"\nversion = "0.1.0"\nedition = "2021"\n[dependencies]\ncbor-edn-verified = "%s"\n' "$version" > "$user/Cargo.toml"
  (cd "$user" && cargo run --quiet --offline)
}
# One line says why, and no panic stands round it.
cargo_lacks_library() {
  ! CBOR_EDN_LIB=/nowhere quiet cargo build --offline --manifest-path "$copy/bindings/rust/Cargo.toml" --target-dir "$work/lacks" \
    && grep -q '^ *cbor-edn-verified: /nowhere/libcbor_edn\.a is missing' "$work/said" && ! grep -q panicked "$work/said"
}
if has cargo 'the package of Cargo'; then
  check 'the package of Cargo' writes_bytes run_cargo
  check 'a library that Cargo misses' cargo_lacks_library
fi

# ---- what each of them was made of

built_from() {
  local stated
  stated=$(head -n 2 "$folder/BUILT-FROM")
  for place in "$doc"/{cbor-edn,libcbor-edn0} "$work"/venv/lib/python3*/site-packages/cbor_edn "$work/user/vendor"/*; do
    [ "$(cat "$place/BUILT-FROM")" = "$stated" ] || { echo "$place" > "$work/said"; return 1; }
  done
}
check 'BUILT-FROM in each' built_from

# ---- installed by apt

if [ -n "${CI-}" ]; then
  add scripts/gate/install.sh "$folder"
else
  echo "$0: packages are installed in CI alone, so this is left out: scripts/gate/install.sh"
fi

end
