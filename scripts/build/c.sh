#!/usr/bin/env bash
# Makes the library for callers that are not Rattle, in a folder: libcbor_edn.a, libcbor_edn.so, cbor_edn.h and cbor_edn.pc. The
# shared library is the file of its soname, with a link for the linker.
#
# usage: scripts/build/c.sh [--after-ci | --unproved] [FOLDER]
#
# FOLDER is out/c if it is not given. The crates are proved first, as far as they are not proved already: from nothing that takes
# about as long as `./cbor-edn --build`.
#
# With --after-ci, as the gate calls it, the archive that the gate left in the crate is taken. Where none is there that is newer than
# all its sources, the library is proved and compiled over the crates that `rt ci` has just proved in this tree, which it leaves
# without the marks that `rt lib` goes by.
#
# With --unproved nothing is proved, and scripts/unproved.py makes the archive: that is for quick tests alone. FOLDER is out/c-unproved
# if it is not given. It names no logic that it was proved in, so scripts/build/packages.sh takes none of it.
#
# Both libraries have one symbol, cbor_edn_convert. They take a C compiler with its binutils (CC; else cc).
set -euo pipefail

cd "$(dirname "$(readlink -f "$0")")/../.."
cc=${CC:-cc}
name=cbor_edn_c
# Its number goes up where a program that was linked with an older library can't call the new one.
soname=libcbor_edn.so.0
how=
folder=out/c
case ${1-} in
  --after-ci) how=$1 && shift ;;
  --unproved) how=$1 folder=out/c-unproved && shift ;;
esac
folder=${1:-$folder}
archive=crates/$name/out/lib$name.a

stop() {
  echo "build/c.sh: $1" >&2
  exit 1
}

for tool in rt "$cc" ld ar objcopy; do
  command -v "$tool" > /dev/null || stop "$tool is not on the PATH"
done
kit=$(dirname "$(dirname "$(readlink -f "$(command -v rt)")")")

# The libraries that a crate of the repository uses, directly or not, each once.
libraries_of() {
  local line
  line=$(sed -n "s/^$1\( [a-z]*\)\?: *//p" crates.txt)
  for library in $line; do
    echo "$library"
    libraries_of "$library"
  done | sort -u
}

# The words by which `rt ci` checks a static library, and those that have it compiled.
build_after_ci() {
  local library words=(--extern "std=$kit/rlibs/std.rlib" -L "dependency=$kit/rlibs")
  for library in $(sed -n "s/^$name staticlib: *//p" crates.txt); do
    words+=(--extern "$library=$PWD/crates/$library/out/rlib/$library.rlib")
  done
  for library in $(libraries_of "$name"); do
    [ ! -d "crates/$library" ] || words+=(-L "dependency=$PWD/crates/$library/out/rlib")
  done
  words+=(--antt-project "$kit/rattle/logic/antt-project.json" --logic-built "$kit/logic_built" --links "$name=")
  mkdir -p "crates/$name/out"
  (cd "crates/$name" && "$kit/bin/rattle" build --crate-name "$name" src/lib.rt "${words[@]}" --crate-type staticlib \
    --toolchain "$kit/toolchain" --backend llvm -o "out/lib$name.a")
}

# Whether the archive is there, and newer than each source of the library and of the crates that it uses.
is_current() {
  local crate sources=(crates.txt)
  for crate in "$name" $(libraries_of "$name"); do
    [ ! -d "crates/$crate" ] || sources+=("crates/$crate")
  done
  [ -f "$archive" ] && [ -z "$(find "${sources[@]}" -newer "$archive" \( -name '*.rt' -o -name '*.antt' -o -name crates.txt \) \
    -not -path '*/out/*' -print -quit)" ]
}

work=$(mktemp -d)
trap 'rm -rf "$work"' EXIT
case $how in
  --after-ci) is_current || build_after_ci ;;
  --unproved)
    archive=$work/lib$name.a
    python3 -B scripts/unproved.py "$name" "$archive"
    ;;
  *) (cd "crates/$name" && rt lib) ;;
esac
mkdir -p "$folder"

# One object of the library and of the toolchain's calls of malloc, realloc and free, in which other names are its own.
ld -r -o "$work/cbor_edn.o" --whole-archive "$archive" "$kit/c/liblibc_c.a"
objcopy --keep-global-symbol=cbor_edn_convert "$work/cbor_edn.o"
rm -f "$folder"/libcbor_edn.{a,so*}
ar rcsD "$folder/libcbor_edn.a" "$work/cbor_edn.o"
"$cc" -shared -s -o "$folder/$soname" "$work/cbor_edn.o" -Wl,-soname,"$soname" \
  -Wl,--version-script=bindings/c/cbor_edn.map -Wl,-z,defs -Wl,-z,relro -Wl,-z,now
ln -s "$soname" "$folder/libcbor_edn.so"
cp bindings/c/cbor_edn.h "$folder"
cat > "$folder/cbor_edn.pc" << PC
prefix=\${pcfiledir}
includedir=\${prefix}
libdir=\${prefix}

Name: cbor_edn
Description: The Extended Diagnostic Notation (EDN) of CBOR, into CBOR and back
Version: $(sed -n 's/^version = "\(.*\)"$/\1/p' bindings/rust/Cargo.toml)
Cflags: -I\${includedir}
Libs: -L\${libdir} -lcbor_edn
PC
echo "build/c.sh: $folder has libcbor_edn.a, libcbor_edn.so, cbor_edn.h and cbor_edn.pc"
