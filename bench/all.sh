#!/usr/bin/env bash
# bench/all.sh [BEFORE]: one table of the benchmarks: for each run its seconds and megabytes of memory at the most, of the program
# BEFORE and of this version's, and the answer of the latter. Where no program BEFORE is named its column is empty; a command that
# it does not know has a dash. `bench/version.sh 89fd453 FILE` builds one: the version with `check`, `prove` and `ring` alone,
# before sets became masks. Wants GNU time. Prints figures; it passes and fails nothing.
before=${1:-}
set --
. "$(dirname "${BASH_SOURCE[0]}")/common.sh"

# Seconds and megabytes of a program on the file, or a dash where it does not know the words.
figures() { # PROGRAM WORD..
  local each=$1 spent kilobytes status
  shift
  [ -n "$each" ] || return 0
  /usr/bin/time -q -f '%e %M' -o "$work/time" "$each" "$@" < "$work/file" > "$work/answer"
  status=$?
  [ "$status" != 2 ] || { echo '-'; return 0; }
  read -r spent kilobytes < "$work/time"
  printf '%.2f s %d MB' "$spent" "$((kilobytes / 1024))"
}

row() { # NAME WORD..
  local name=$1 old
  shift
  old=$(figures "$before" "$@")
  printf '%-34s %16s %16s  %s\n' "$name" "$old" "$(figures "$program" "$@")" "$(head -n 1 "$work/answer" | cut -c1-48)"
}

many() { # CHARACTER
  head -c 16777216 /dev/zero | tr '\0' "$1"
}

printf '%-34s %16s %16s  %s\n' run before now answer
many ' ' > "$work/file"; row '16 MB of spaces' check
many '(' > "$work/file"; row '16 MB of (' check
(echo 'cyclist proof 1;'; yes 'node true : emp |- true : emp by Done;' | head -n 20000; echo 'end;') > "$work/file"; row '20,000 nodes' check
ring 2000 > "$work/file"; row 'a ring of 2,000 predicates' check
turns 12 4 > "$work/file"; row 'turns of 12 atoms' check
: > "$work/file"; row 'ring 2000' ring 2000
for problem in list-segments tree-segments list-reversal two-lists allocation acyclic-segments; do
  cp "$top/examples/$problem.problem" "$work/file"; row "$problem" prove
done
even_lists 3 > "$work/file"; row 'three even lists, depth 17' prove --depth 17
even_lists 4 > "$work/file"; row 'four even lists, depth 14' prove --depth 14
echo 'cyclist problem 1; pred p() { true : p() | true : p() }; goal true : emp |- true : p(); end;' > "$work/file"; row 'a million derivations' prove --depth 40
cp "$top/examples/odd-and-even.problem" "$work/file"; row odd-and-even sat
cp "$top/examples/ring.model" "$work/file"; row ring.model model
cp "$top/examples/acyclic-segments.problem" "$work/file"; row 'acyclic-segments, four cells' disprove --cells 4
