#!/usr/bin/env bash
# Prints the path of the program: the one that ./prove has proved and built, or else one that is built without proofs.
# Either is taken only where no source is newer. Where neither can be, it is built without proofs first. The status is 0, or 125
# where it was not built.
set -u
top=$(cd "$(dirname "$(readlink -f "$0")")/.." && pwd) || exit 125
. "$top/tools/crates.sh"
proved=$top/crates/framec/out/framec
unproved=$top/out/unproved/framec

read_crates
if is_current "$proved"; then
  echo "$proved"
elif is_current "$unproved" || "$top/tools/unproved.py" framec </dev/null; then
  echo "$unproved"
else
  exit 125
fi
