#!/usr/bin/env bash
# bench/version.sh [--unproved] COMMIT FILE: proves and builds the program of a commit of this repository, in a folder of its own,
# and copies it to FILE, so that a benchmark can run it beside today's. It takes as long as a first command does on a new machine.
# With --unproved the program is built without a proof, by bench/unproved.py, in some minutes: where a figure compares two versions,
# both are to be built in one of the two ways. `bench/unproved.py . FILE` builds today's so.
set -eu
way=proved
[ "${1:-}" != --unproved ] || { way=unproved; shift; }
[ $# = 2 ] || { echo 'usage: bench/version.sh [--unproved] COMMIT FILE' >&2; exit 2; }
top=$(cd "$(dirname "${BASH_SOURCE[0]}")/.." && pwd)
room=$(mktemp -d)
trap 'rm -rf "$room"' EXIT
git clone -q --no-checkout "$top" "$room/version"
git -C "$room/version" checkout -q "$1"
if [ "$way" = unproved ]; then
  "$top/bench/unproved.py" "$room/version" "$2"
  exit
fi
(cd "$room/version/crates/cyclist" && rt run -- check < ../../examples/first.proof > "$room/log" 2>&1) || { tail -n 5 "$room/log" >&2; exit 1; }
cp "$room/version/crates/cyclist/out/cyclist" "$2"
