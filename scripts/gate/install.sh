#!/usr/bin/env bash
# Installs packages on this machine by apt, runs the examples of pages without the Rattle toolchain, and purges the packages.
#
# usage: scripts/gate/install.sh FOLDER
#
# FOLDER has what scripts/build/packages.sh makes. The commands are those of packaging/README.md, which install and try all of it, and those of
# README.md that pipe a text into the program, with what it writes behind `#` or, in a block of kind `console`, below. The examples see
# HOME and the folders /usr/bin and /bin, and where Cargo stands elsewhere that folder too. It takes root and apt-get, and writes nothing
# over what is installed: nothing is begun where a file of a package is there. The last line is 'N passed, M failed'.
set -euo pipefail

cd "$(dirname "$(readlink -f "$0")")/../.."
# shellcheck source=scripts/gate/common.sh
. scripts/gate/common.sh
folder=$(readlink -f "$1")
packages=(cbor-edn libcbor-edn0 libcbor-edn-dev python3-cbor-edn)
page=$PWD/packaging/README.md
work=$(mktemp -d)
mkdir "$work/home"
cp -r "$folder" "$work/packages"
begun=

details() {
  echo ', which said:'
  tail -n 20 "$work/said"
}

stop() {
  echo "$0: $1"
  failed=$((failed + 1))
  end
  exit 1
}

# What apt is told beside its words. A machine may leave pages and examples out of packages.
cat > "$work/apt.conf" << 'CONF'
APT::Get::Assume-Yes "true";
APT::Install-Recommends "false";
DPkg::Lock::Timeout "120";
DPkg::Options { "--path-include=/usr/share/doc/*"; "--path-include=/usr/share/man/*"; };
CONF
as_root() {
  env -i PATH=/usr/sbin:/usr/bin:/sbin:/bin HOME="$work/home" LC_ALL=C.UTF-8 DEBIAN_FRONTEND=noninteractive APT_CONFIG="$work/apt.conf" \
    PIP_NO_INDEX=1 PIP_DISABLE_PIP_VERSION_CHECK=1 timeout 300 "$@"
}

# dpkg passes over those that are not installed.
purge() {
  as_root dpkg --purge "${packages[@]}" < /dev/null > "$work/said" 2>&1
}

clean() {
  [ -z "$begun" ] || purge || true
  rm -rf "$work"
}
trap clean EXIT

# ---- what is there before

[ "$(id -u)" = 0 ] || stop 'only root can install packages'
command -v apt-get > /dev/null || stop 'apt-get is not there'
for package in "${packages[@]}"; do
  dpkg-deb --fsys-tarfile "$folder/$package"_*.deb | tar -t | grep -v '/$' | sed 's|^\.||'
done > "$work/files"
[ -s "$work/files" ] || stop "$folder has no packages"
# Prints the packages' files that are on this machine.
files_there() {
  local file
  while IFS= read -r file; do
    [ ! -e "$file" ] && [ ! -L "$file" ] || echo "$file"
  done < "$work/files"
}
[ -z "$(files_there)" ] || stop "nothing is installed over what is there: $(files_there | head -n 3 | tr '\n' ' ')"
state() {
  # shellcheck disable=SC2016
  dpkg-query -W -f '${binary:Package} ${Version} ${Status}\n'
  apt-mark showmanual
}
state > "$work/before"

# ---- installed

cargo=/usr/bin
[ -x "$cargo/cargo" ] || cargo=$(rustc --print sysroot)/bin
# Runs a line of a page as a user does, in the folder of the packages.
run() {
  (cd "$work/packages" && env -i PATH="/usr/bin:/bin$([[ $1 != cargo* ]] || echo ":$cargo")" HOME="$work/home" timeout 300 bash -c "$1") < /dev/null 2> "$work/said"
}
installs() {
  (cd "$work/packages" && as_root bash -euc "$1") < /dev/null > "$work/said" 2>&1
}
answers() {
  run "$1" > "$work/answer" && [ "$(cat "$work/answer")" = "$2" ] && return
  cat "$work/answer" >> "$work/said"
  return 1
}
# The lines of one of the page's blocks of commands.
block() {
  awk -v wanted="$1" '/^```sh$/ { inside = ++block; next } /^```$/ { inside = 0 } inside == wanted' "$page"
}

count 'no toolchain on the PATH' run '! command -v rt'
begun=yes
while IFS= read -r line; do
  count "$line" installs "$line"
done < <(block 1)
tried=$passed
while IFS= read -r line; do
  count "$line" answers "$line" 8301181f80
done < <(block 2)
count 'the page has examples' test "$passed" -gt "$tried"
tried=$passed
kind=
command=
wanted=
# Tries the command at hand of README.md, if there is one, by the program that is installed.
try() {
  [ -z "$command" ] || count "$command" answers "${command/ .\/cbor-edn / cbor-edn }" "${wanted%$'\n'}"
  command=
}
while IFS= read -r line; do
  case $kind,$line in
    ,'```'*) kind=${line#'```'} ;;
    ,*) ;;
    *,'```')
      try
      kind=
      ;;
    console,'$ '*)
      try
      command=${line#'$ '}
      wanted=
      ;;
    console,*) wanted+=$line$'\n' ;;
    *' | '*cbor-edn*'  # '*)
      command=${line%%  #*}
      wanted=${line##*# }
      try
      ;;
  esac
done < README.md
count 'README.md has examples' test "$passed" -gt "$tried"

# ---- as before

count 'the packages are purged' purge
begun=
left() {
  [ -z "$(files_there)" ] && state | diff "$work/before" - > "$work/said"
}
count 'the machine as before' left

end
