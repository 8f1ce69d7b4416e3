#!/usr/bin/env bash
# Runs the commands of docs/RECIPES.md in an empty folder, and compares what they write with what stands below them.
#
# usage: scripts/gate/recipes.sh [PROGRAM]
#
# Without PROGRAM it is the working tree's. A block of kind `console` has commands behind `$ `, each with what it writes to both its
# outputs. A block with a name behind its kind is the file of that name. It takes git and make. The last line is
# 'N passed, M failed'.
set -euo pipefail

cd "$(dirname "$(readlink -f "$0")")/../.."
# shellcheck source=scripts/gate/common.sh
. scripts/gate/common.sh
begin_trial "${1-}"

mkdir "$work/bin" "$work/folder"
ln -s "$program" "$work/bin/cbor-edn"
export PATH=$work/bin:$PATH HOME=$work GIT_CONFIG_NOSYSTEM=1 LC_ALL=C.UTF-8

writes() {
  (cd "$work/folder" && bash -c "$1") > "$work/written" 2>&1 < /dev/null || true
  diff "$2" "$work/written" > "$work/differs"
}

details() {
  echo ', where < is the page and > what was written:'
  cat "$work/differs"
}

# Tries the command at hand, if there is one.
try() {
  [ -z "$command" ] || count "$command" writes "$command" "$work/wanted"
  command=
}

kind=
command=
while IFS= read -r line; do
  case $kind,$line in
    ,'```'*)
      read -r kind file <<< "${line#'```'}"
      if [ -n "$file" ]; then
        kind='file'
        mkdir -p "$(dirname "$work/folder/$file")"
        : > "$work/folder/$file"
      fi
      ;;
    ,*) ;;
    *,'```')
      try
      [ "$kind" != file ] || [[ $(head -c 2 "$work/folder/$file") != '#!' ]] || chmod +x "$work/folder/$file"
      kind=
      ;;
    file,*) printf '%s\n' "$line" >> "$work/folder/$file" ;;
    console,'$ '*)
      try
      command=${line#'$ '}
      : > "$work/wanted"
      ;;
    console,*) printf '%s\n' "$line" >> "$work/wanted" ;;
  esac
done < docs/RECIPES.md
# a page without commands is no success
[ "$passed" != 0 ] || failed=$((failed + 1))
end
