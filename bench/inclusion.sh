#!/usr/bin/env bash
# bench/inclusion.sh [PROGRAM..]: seconds, product states a second, and megabytes of memory at the most, of `check` on two
# families of proofs; with several programs, as one before a change and one after it, each in turn on each file.
# Rings: K predicates, each unfolded once on the way round, 8K + 1 product states.
# Turns: proofs of n atoms; the more atoms, the more forests. Their numbers of states were counted by another program.
# Prints figures; it passes and fails nothing.
. "$(dirname "${BASH_SOURCE[0]}")/common.sh"

programs=("$@")
[ $# -gt 0 ] || programs=("$program")

measure() { # NAME STATES
  local each spent kilobytes
  for each in "${programs[@]}"; do
    /usr/bin/time -q -f '%e %M' -o "$work/time" "$each" check < "$work/file" > "$work/answer"
    read -r spent kilobytes < "$work/time"
    printf '%-12s %8d states %8.2f s %10.0f states/s %6.0f MB  %s\n' "$1" "$2" "$spent" \
      "$(echo "$2 / ($spent + 0.001)" | bc -l)" "$(echo "$kilobytes / 1024" | bc -l)" "$(cut -c1-60 "$work/answer")"
  done
}

for count in 250 500 1000 2000; do
  ring "$count" > "$work/file"
  measure "ring $count" $((8 * count + 1))
done
for row in '8 7819' '9 17931' '10 40459' '11 90123' '12 198667'; do
  read -r atoms states <<< "$row"
  turns "$atoms" 4 > "$work/file"
  measure "turns $atoms" "$states"
done
turns 12 5 > "$work/file"
measure 'turns 12 +1' 221196
# As many atoms as the versions of the formats allow: rings whose traces follow the last atom, and turns, which pass the limit of states.
for atoms in 16 32 60; do
  wide_ring 2000 "$atoms" > "$work/file"
  measure "wide ring $atoms" 2001
  turns "$atoms" 4 > "$work/file"
  measure "turns $atoms" 200000
done
