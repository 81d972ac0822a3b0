#!/usr/bin/env bash
# bench/disprove.sh [PROGRAM]: seconds and memory of `disprove` on the false problems of examples/ at sizes 1 to 4, and on goals
# that hold: over lists and segments at size 4, over trees and doubly linked segments at size 3. Wants GNU time. Prints figures;
# it passes and fails nothing.
. "$(dirname "${BASH_SOURCE[0]}")/common.sh"

for problem in "$top"/examples/acyclic-segments.problem "$top"/examples/refuted/*.problem; do
  cp "$problem" "$work/file"
  for cells in 1 2 3 4; do
    show "$(basename "${problem%.problem}"), $cells cells" disprove --cells "$cells"
  done
done

problem() { # DEFINITION GOAL
  printf 'cyclist problem 1;\n%s\ngoal %s;\nend;\n' "$1" "$2" > "$work/file"
}
segment='pred ls(a, b) { a = b : emp | true : a -> (c) * ls(c, b) };'
list='pred list(a) { a = nil : emp | true : a -> (b) * list(b) };'
tree='pred tree(a) { a = nil : emp | true : a -> (l, r) * tree(l) * tree(r) };'

problem "$segment" 'true : ls(x, y) * ls(y, z) |- true : ls(x, z)'; show 'two segments' disprove --cells 4
problem "$segment" 'true : ls(x, y) * ls(y, z) * ls(z, w) |- true : ls(x, w)'; show 'three segments' disprove --cells 4
problem "$list
$segment" 'true : ls(x, y) * list(y) |- true : list(x)'; show 'a segment and a list' disprove --cells 4
problem "$tree" 'true : tree(x) |- true : tree(x)'; show 'a tree' disprove --cells 3
cp "$top/examples/doubly-linked.problem" "$work/file"; show 'two doubly linked segments' disprove --cells 3
