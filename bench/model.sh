#!/usr/bin/env bash
# bench/model.sh [PROGRAM]: seconds and memory of `model` on a list of 16 cells, a tree of 15, and up to ten cells of eight fields
# each of which leads to many others, so that the heap fits in more than 10,000 ways; and on the models of examples/.
# Wants GNU time. Prints figures; it passes and fails nothing.
. "$(dirname "${BASH_SOURCE[0]}")/common.sh"

# A list of 16 cells that ends in nil.
list() {
  awk 'BEGIN {
    print "cyclist model 1;\npred list(1) { $0 = nil : emp | true : $0 -> (?0) * list(?0) };\nstack 1;"
    for (i = 1; i <= 16; i++) printf "%s%d -> (%d)", (i > 1 ? ", " : "heap "), i, (i < 16 ? i + 1 : 0)
    print ";\nask true : list($0);\nend;" }'
}

# A full tree of 15 cells.
tree() {
  awk 'BEGIN {
    print "cyclist model 1;\npred tree(1) { $0 = nil : emp | true : $0 -> (?0, ?1) * tree(?0) * tree(?1) };\nstack 1;"
    for (i = 1; i <= 15; i++) printf "%s%d -> (%d, %d)", (i > 1 ? ", " : "heap "), i, (i < 8 ? 2 * i : 0), (i < 8 ? 2 * i + 1 : 0)
    print ";\nask true : tree($0);\nend;" }'
}

# Cells of which each leads to the eight that follow it round a ring, as many as are asked for; a predicate that takes the cell,
# or nothing, and goes on from its fields in any way.
woven() { # CELLS
  awk -v n="$1" 'BEGIN {
    printf "cyclist model 1;\npred any(1) { true : emp | true : $0 -> (?0, ?1, ?2, ?3, ?4, ?5, ?6, ?7)"
    for (k = 0; k < 8; k++) printf " * any(?%d)", k
    print " };\nstack 1;"
    for (i = 0; i < n; i++) {
      printf "%s%d -> (", (i ? ", " : "heap "), i + 1
      for (k = 1; k <= 8; k++) printf "%s%d", (k > 1 ? ", " : ""), (i + k) % n + 1
      printf ")"
    }
    print ";\nask true : any($0);\nend;" }'
}

list > "$work/file"; show 'a list of 16 cells' model
tree > "$work/file"; show 'a tree of 15 cells' model
for cells in 6 8 10; do
  woven "$cells" > "$work/file"; show "$cells cells of eight fields" model
done
for model in "$top"/examples/*.model; do
  cp "$model" "$work/file"
  show "$(basename "$model" .model)" model
done
