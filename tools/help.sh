#!/usr/bin/env bash
# Answers `--help`, `COMMAND --help` and `--version`, and builds nothing for it. The status is 1 where the words are no such line.
# In an install folder the file `version` beside this one has the answer to `--version`.
set -u
here=$(cd "$(dirname "$(readlink -f "$0")")" && pwd) || exit 125

# The part of help.txt under a word, if there is one.
part() { awk -v head="== $1" '$0 == head { on = 1; found = 1; next } /^== / { on = 0 } on { print } END { exit !found }' "$here/help.txt"; }

version() {
  local top=${here%/*} number commit
  . "$here/crates.sh"
  number=$(sed -n 's/^#define FRAMEC_VERSION "\(.*\)"$/\1/p' "$top/include/framec.h")
  commit=$(git -C "$top" rev-parse --short HEAD 2>/dev/null || echo "no commit")
  echo "framec $number, unreleased ($commit)"
  echo "reads frame files and submission files of formats 1 and 2"
  read_crates
  if is_current "$top/crates/framec/out/framec"; then
    echo "the program is proved here"
  elif is_current "$top/out/unproved/framec"; then
    echo "the program is built without proofs"
  else
    echo "the program is not built yet"
  fi
}

case "$#:${*: -1}" in
  1:--help) part all ;;
  1:--version) cat "$here/version" 2>/dev/null || version ;;
  2:--help) [[ $1 =~ ^[a-z]+$ && $1 != all ]] && part "$1" ;;
  *) exit 1 ;;
esac
