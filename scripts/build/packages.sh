#!/usr/bin/env bash
# Makes packages of what was proved and built here, for machines without the Rattle toolchain: four .deb, a wheel for Python, a package
# for Cargo, SHA256SUMS, and BUILT-FROM with the commit and the toolchain.
#
# usage: scripts/build/packages.sh [--after-ci] [--uncommitted] [FOLDER]
#
# FOLDER is out/packages if it is not given; packages that stand there go. The program is out/cbor-edn (`./cbor-edn --build`, or a
# gate that has passed), with --after-ci the one that `rt ci` has just proved and left in its crate. The library is out/c
# (scripts/build/c.sh). Changes that are in no commit are refused, since BUILT-FROM names the commit that all was made of; with
# --uncommitted it says that there are some, or that there is no commit. The same inputs give the same bytes: times are those of the
# commit. It takes Debian's dpkg-dev, binutils, cargo, and a Python (PYTHON; else /usr/bin/python3) with python3-build, python3-wheel
# and python3-setuptools.
set -euo pipefail

cd "$(dirname "$(readlink -f "$0")")/../.."
program=out/cbor-edn
uncommitted=
while :; do
  case ${1-} in
    --after-ci) program=crates/cbor_edn_tool/out/cbor_edn_tool ;;
    --uncommitted) uncommitted=yes ;;
    *) break ;;
  esac
  shift
done
folder=${1:-out/packages}
library=out/c
soname=libcbor_edn.so.0
python=${PYTHON:-/usr/bin/python3}
export LC_ALL=C TZ=UTC
umask 022

stop() {
  echo "build/packages.sh: $1" >&2
  exit 1
}

# ---- what it takes

for tool in dpkg-deb:dpkg dpkg-gencontrol:dpkg-dev objdump:binutils xz:xz-utils git:git cargo:cargo "$python:python3"; do
  command -v "${tool%:*}" > /dev/null || stop "${tool%:*} is missing: it is in Debian's package ${tool#*:}"
done
"$python" -c 'import build, setuptools, wheel' 2> /dev/null \
  || stop "$python has not all of build, setuptools and wheel: they are in Debian's packages python3-build, python3-setuptools, python3-wheel (PYTHON names another one)"
# Stops where a file is older than a source of the program or the library, which the crates of tests are not. The launcher and the gate give
# the program the time at which its build began.
is_new() {
  local newer
  newer=$(find crates.txt crates -newer "$1" \( -name '*.rt' -o -name '*.antt' -o -name crates.txt \) -not -path '*/out/*' \
    -not -path '*_tests/*' -not -path '*_memory/*' -not -path '*_wrong_bodies/*' -not -path '*_examples/*' -not -path '*_expect/*' \
    -print -quit)
  [ -z "$newer" ] || stop "$1 is older than $newer: $2 makes it anew"
}

[ -x "$program" ] || stop "$program is missing: ./cbor-edn --build proves and builds it"
is_new "$program" './cbor-edn --build'
for file in libcbor_edn.a "$soname" cbor_edn.h cbor_edn.pc; do
  [ -f "$library/$file" ] || stop "$library/$file is missing: scripts/build/c.sh makes it"
  is_new "$library/$file" scripts/build/c.sh
done
objdump -p "$library/$soname" | grep -q "SONAME *$soname\$" || stop "$library/$soname has another soname: scripts/build/c.sh makes it anew"
cmp -s "$library/cbor_edn.h" bindings/c/cbor_edn.h || stop "$library/cbor_edn.h is not bindings/c/cbor_edn.h: scripts/build/c.sh makes it anew"
# The compiler names the logic that code is proved in; code that `rt try` made has none.
logic_of() {
  readelf -p .comment "$1" | sed -n 's/.*rattle logic=\([0-9a-f]*\).*/\1/p'
}
logic=$(logic_of "$program")
[ -n "$logic" ] || stop "$program was not proved: it names no logic (readelf -p .comment)"
[ "$(logic_of "$library/$soname")" = "$logic" ] || stop "$library/$soname is not of the logic that the program was proved in, $logic"
version=$("$program" --version | cut -d' ' -f2)
grep -qx "version = \"$version\"" bindings/rust/Cargo.toml || stop "bindings/rust/Cargo.toml has not the program's version, $version"
# The checkout may be another user's.
ask_git() {
  git -c safe.directory='*' "$@"
}
if commit=$(ask_git rev-parse --quiet --verify HEAD 2> /dev/null); then
  changed=$(ask_git status --porcelain)
  SOURCE_DATE_EPOCH=$(ask_git log -1 --format=%ct)
  made_of="commit $commit${changed:+, with changes that are in no commit}"
else
  changed='all of it: this is no repository of git'
  SOURCE_DATE_EPOCH=$(date -d 2026-01-01 +%s)
  made_of='no commit'
fi
[ -z "$changed" ] || [ -n "$uncommitted" ] || stop "this is in no commit, so no commit could be named (--uncommitted packs it all the same):
$changed"
export SOURCE_DATE_EPOCH

# ---- what all take

work=$(mktemp -d)
trap 'rm -rf "$work"' EXIT
made=$work/made
mkdir "$made"
cp -r packaging/debian "$work"
# each paragraph of the licence as a text of the Debian format
{ cat packaging/debian/copyright; echo 'License: Expat'; sed 's/^$/./; s/^/ /' LICENSE; } > "$work/copyright"
{
  echo "cbor-edn $version, of $made_of"
  echo "Proved in Rattle's logic $logic, as the code itself says (readelf -p .comment)"
} > "$work/BUILT-FROM"
cat > "$work/debian/changelog" << CHANGES
cbor-edn ($version) unstable; urgency=medium

  * First version.

 -- $(sed -n 's/^Maintainer: //p' packaging/debian/control)  $(date -R -d "@$SOURCE_DATE_EPOCH")
CHANGES

# Runs a command in silence, and shows what it said where it fails.
quiet() {
  "$@" > "$work/said" 2>&1 || { cat "$work/said" >&2; stop "this failed: $*"; }
}

put() {
  install -D -m "$1" "${@:2}"
}

# ---- Debian

triplet=$(dpkg-architecture -a amd64 -q DEB_HOST_MULTIARCH)
lib=usr/lib/$triplet

# Makes the package of a name from what stands in its folder, and the documents that are named.
deb() {
  local name=$1 root=$work/$1 doc=$work/$1/usr/share/doc/$1 file
  for file in "${@:2}"; do
    put 644 "$file" "$doc/$(basename "$file")"
  done
  put 644 "$work/copyright" "$doc/copyright"
  gzip -9n < "$work/debian/changelog" > "$doc/changelog.gz"
  mkdir -p "$root/DEBIAN"
  for file in postinst prerm; do
    [ ! -f "packaging/debian/$name.$file" ] || put 755 "packaging/debian/$name.$file" "$root/DEBIAN/$file"
  done
  touch "$work/substvars"
  (cd "$work" && quiet dpkg-gencontrol "-p$name" "-P$root" "-T$work/substvars" "-f$work/files")
  (cd "$root" && find usr -type f -print0 | sort -z | xargs -0 md5sum > DEBIAN/md5sums)
  find "$root" -exec touch -hd "@$SOURCE_DATE_EPOCH" {} +
  quiet dpkg-deb --root-owner-group -Zxz --build "$root" "$made"
}

# What a program or a library needs, into the variables of the next package.
needs() {
  (cd "$work" && quiet dpkg-shlibdeps "-T$work/substvars" -e"$1")
}

root=$work/cbor-edn
put 755 -s "$program" "$root/usr/bin/cbor-edn"
mkdir -p "$root/usr/share/man/man1"
gzip -9n < packaging/cbor-edn.1 > "$root/usr/share/man/man1/cbor-edn.1.gz"
put 644 packaging/completions/cbor-edn.bash "$root/usr/share/bash-completion/completions/cbor-edn"
put 644 packaging/completions/_cbor-edn "$root/usr/share/zsh/vendor-completions/_cbor-edn"
put 644 packaging/completions/cbor-edn.fish "$root/usr/share/fish/vendor_completions.d/cbor-edn.fish"
mkdir -p "$root/usr/share/vim/vimfiles" "$root/usr/share/doc/cbor-edn"
cp -r editors/vim/* "$root/usr/share/vim/vimfiles"
cp -r examples "$root/usr/share/doc/cbor-edn"
needs "$root/usr/bin/cbor-edn"
deb cbor-edn docs/{RECIPES,SUPPORTED}.md "$work/BUILT-FROM"

root=$work/libcbor-edn0
put 644 "$library/$soname" "$root/$lib/$soname"
mkdir "$root/DEBIAN"
echo 'activate-noawait ldconfig' > "$root/DEBIAN/triggers"
echo "${soname%.so.*} ${soname##*.} libcbor-edn0 (>= $version)" > "$root/DEBIAN/shlibs"
(cd "$work" && quiet dpkg-gensymbols -c4 -plibcbor-edn0 "-P$root" -Idebian/libcbor-edn0.symbols -O"$root/DEBIAN/symbols")
needs "$root/$lib/$soname"
deb libcbor-edn0 "$work/BUILT-FROM"

root=$work/libcbor-edn-dev
put 644 "$library/libcbor_edn.a" "$root/$lib/libcbor_edn.a"
ln -s "$soname" "$root/$lib/libcbor_edn.so"
put 644 "$library/cbor_edn.h" "$root/usr/include/cbor_edn.h"
mkdir "$root/$lib/pkgconfig"
sed "s|^prefix=.*|prefix=/usr|; s|^includedir=.*|&/include|; s|^libdir=.*|&/lib/$triplet|" "$library/cbor_edn.pc" > "$root/$lib/pkgconfig/cbor_edn.pc"
put 644 bindings/c/example.c "$root/usr/share/doc/libcbor-edn-dev/examples/example.c"
deb libcbor-edn-dev bindings/c/README.md

root=$work/python3-cbor-edn
put 644 bindings/python/cbor_edn.py "$root/usr/lib/python3/dist-packages/cbor_edn.py"
put 644 bindings/python/example.py "$root/usr/share/doc/python3-cbor-edn/examples/example.py"
deb python3-cbor-edn bindings/python/README.md

# ---- Python. The tag says which C library is new enough: https://peps.python.org/pep-0600/

glibc=$({ echo 2.17; objdump -T "$library/$soname" | sed -n 's/.*GLIBC_\(2\.[0-9]*\).*/\1/p'; } | sort -V | tail -n 1)
tree=$work/wheel
put 644 bindings/python/cbor_edn.py "$tree/cbor_edn/__init__.py"
put 644 "$library/$soname" "$tree/cbor_edn/libcbor_edn.so"
put 644 packaging/python/{pyproject.toml,setup.py} bindings/python/README.md -t "$tree"
put 644 "$work/copyright" "$tree/LICENSE"
put 644 "$work/BUILT-FROM" "$tree/cbor_edn/BUILT-FROM"
export CBOR_EDN_VERSION=$version CBOR_EDN_PLATFORM=manylinux_${glibc/./_}_x86_64
(cd "$tree" && quiet "$python" -m build --wheel --no-isolation --outdir "$made")

# ---- Cargo

tree=$work/crate
mkdir "$tree"
cp -r bindings/rust/{Cargo.toml,build.rs,README.md,src,tests,examples} "$tree"
put 644 "$library/libcbor_edn.a" "$tree/lib/libcbor_edn.a"
put 644 "$work/copyright" "$tree/LICENSE"
put 644 "$work/BUILT-FROM" "$tree/BUILT-FROM"
(cd "$tree" && quiet cargo package --offline --no-verify --allow-dirty --target-dir "$work/cargo")
mv "$work/cargo/package"/*.crate "$made"

# ---- what they are

{
  echo "Packed where 'rt version' says: $(rt version 2> /dev/null || echo nothing)"
  echo
  (cd "$made" && wc -c -- * | sed '$d')
} >> "$work/BUILT-FROM"
mv "$work/BUILT-FROM" "$made"
(cd "$made" && sha256sum -- * > "$work/SHA256SUMS")
mkdir -p "$folder"
rm -f "$folder"/{*.deb,*.whl,*.crate,BUILT-FROM,SHA256SUMS}
mv "$made"/* "$work/SHA256SUMS" "$folder"
echo "build/packages.sh: $folder has the packages of cbor-edn $version, SHA256SUMS and BUILT-FROM"
