#!/usr/bin/env bash
# bench/wrong-bodies.sh CRATE..: tries the further wrong bodies of these crates, those of wrong-bodies/, that the gate does
# not try: the prover must refuse each, but those that a script of .ci/ refuses, which are left out. It works on a copy of the repository, so the crates below are proved first, which
# takes as long as a first command does on a new machine. Prints what came of each; ends with 0 where all were refused.
set -u
[ $# -gt 0 ] || { echo 'usage: bench/wrong-bodies.sh CRATE..' >&2; exit 2; }
top=$(cd "$(dirname "${BASH_SOURCE[0]}")/.." && pwd)
room=$(mktemp -d)
trap 'rm -rf "$room"' EXIT
git clone -q "$top" "$room/copy" || exit 1
cd "$room/copy" || exit 1
rm -rf crates/*/must-fail
for crate in "$@"; do
  [ -d "wrong-bodies/$crate" ] || { echo "no wrong bodies of $crate stand in wrong-bodies/" >&2; exit 2; }
  grep -l '^refused by: ' "wrong-bodies/$crate"/*.edit | xargs -r rm
  mv "wrong-bodies/$crate" "crates/$crate/must-fail"
done
rt must-fail "$@"
