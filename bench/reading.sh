#!/usr/bin/env bash
# bench/reading.sh [PROGRAM]: how fast texts are read and answered. First megabytes a second for large texts, beside those
# of `wc -c` on the same bytes; then seconds for more and more nodes, definitions, and nodes of a loop; last seconds and
# megabytes of memory for texts of 16 MB. Wants GNU time. Prints figures; it passes and fails nothing.
. "$(dirname "${BASH_SOURCE[0]}")/common.sh"

repeated() { # TEXT COUNT: the text so many times
  yes "$1" | head -n "$2"
}

nodes() {
  echo 'cyclist proof 1;'
  repeated 'node true : emp |- true : emp by Done;' "$1"
  echo 'end;'
}

definitions() {
  echo 'cyclist proof 1;'
  for ((i = 0; i < $1; i++)); do echo "pred p$i(1) { \$0 = nil : emp | true : \$0 -> (?0) * p$i(?0) };"; done
  echo 'node true : emp |- true : emp by Done;'
  echo 'end;'
}

# one predicate, unfolded n times on the way round a loop
loop() {
  echo 'cyclist proof 1;'
  echo 'pred e(1) { true : e($0) };'
  for ((i = 0; i < $1; i++)); do echo "node true : e(\$0) |- true : emp by Unfold 0 to $((i + 1));"; done
  echo 'node true : e($0) |- true : emp by Link 0 { $0 := $0 } [0] [0];'
  echo 'end;'
}

# a node that begins so and never ends: the word again and again, up to the greatest input
endless() { # BEGIN WORD
  (printf '%s' "$1"; repeated "$2" 16777216 | tr -d '\n') | head -c 16777216
}

# right nodes, as many and as long as an input holds: from a contradiction, each with 13 disjuncts of 16 atoms
wide_nodes() {
  local atoms cases
  atoms=$(repeated 'a()' 16 | paste -sd'*')
  cases=$(for ((i = 0; i < 13; i++)); do echo "true:$atoms"; done | paste -sd'|' | sed 's/|/ or /g')
  echo 'cyclist proof 1;pred a(0){true:emp};'
  repeated "node nil!=nil:emp|-$cases by Absurd;" 17300
  echo 'end;'
}

rate() { # NAME: megabytes a second
  local bytes theirs mine
  bytes=$(wc -c < "$work/file")
  theirs=$(seconds wc -c)
  mine=$(seconds "$program" check)
  printf '%-18s %9d bytes %7.2f s %8.1f MB/s   wc -c %9.1f MB/s   %s\n' "$1" "$bytes" "$mine" \
    "$(echo "$bytes / 1000000 / $mine" | bc -l)" "$(echo "$bytes / 1000000 / $theirs" | bc -l)" "$(cut -c1-60 "$work/answer")"
}

measure() { # NAME
  local spent
  spent=$(seconds "$program" check)
  printf '%-24s %8.2f s  %s\n' "$1" "$spent" "$(cut -c1-60 "$work/answer")"
}

nodes 20000 > "$work/file"; rate '20,000 nodes'
head -c 16777216 /dev/zero | tr '\0' ' ' > "$work/file"; rate '16 MB of spaces'
head -c 16777216 /dev/zero | tr '\0' '(' > "$work/file"; rate '16 MB of ('

for kind in nodes definitions loop; do
  for count in 10 100 1000; do
    $kind "$count" > "$work/file"
    measure "$kind $count"
  done
done

begin='cyclist proof 1;pred a(0){true:emp};node true:'
many() { # CHARACTER
  head -c 16777216 /dev/zero | tr '\0' "$1"
}
many ' ' > "$work/file"; show '16 MB of spaces' check
many '#' > "$work/file"; show '16 MB of one comment' check
many 'a' > "$work/file"; show '16 MB of one name' check
many '(' > "$work/file"; show '16 MB of (' check
endless "${begin}emp|-true:emp by Link 0{}[" '0 ' > "$work/file"; show '16 MB of a list of numbers' check
endless "$begin" 'a()*' > "$work/file"; show '16 MB of atoms, no end' check
(printf '%s' "$begin"; repeated 'a()*' 4194200 | tr -d '\n'; echo 'a()|-true:emp by Done;end;') > "$work/file"; show '16 MB of atoms beyond a limit' check
(printf '%sb() |- true : emp by Done;' "$begin"; repeated 'node true : emp |- true : emp by Done;' 441000 | tr -d '\n'; printf 'end;') > "$work/file"
show '16 MB behind a flaw, no line feed' check
wide_nodes > "$work/file"; show '16 MB of right nodes' check
