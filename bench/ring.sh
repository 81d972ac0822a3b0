#!/usr/bin/env bash
# bench/ring.sh [PROGRAM]: seconds of processor by stage, and megabytes of memory at the most, of `ring K`, which makes the
# proof of the ring of K predicates, writes it, reads it again and checks it. Each figure is the mean of five runs. Reading
# is measured on the same text with a fault in node 0, at which a check ends; checking is what `check` takes beyond that,
# and making and writing what `ring` takes beyond `check`. Wants GNU time for the megabytes. Prints figures; it passes and
# fails nothing.
. "$(dirname "${BASH_SOURCE[0]}")/common.sh"

mean() { # COMMAND..: seconds of processor
  TIMEFORMAT='%U %S'
  for _ in 1 2 3 4 5; do
    { time "$@" < "$work/file" > "$work/answer"; } 2>&1
  done | awk '{ sum += $1 + $2 } END { printf "%.4f", sum / NR }'
}

for count in 250 500 1000 2000; do
  ring "$count" | sed '0,/Unfold 0 to 1 5/s//Done/' > "$work/file"
  read_only=$(mean "$program" check)
  ring "$count" > "$work/file"
  read_and_check=$(mean "$program" check)
  all=$(mean "$program" ring "$count")
  /usr/bin/time -f '%M' -o "$work/spent" "$program" ring "$count" < "$work/file" > "$work/answer"
  awk -v k="$count" -v bytes="$(wc -c < "$work/file")" -v r="$read_only" -v rc="$read_and_check" -v all="$all" \
    -v kilobytes="$(tail -n 1 "$work/spent")" -v line="$(head -n 1 "$work/answer")" 'BEGIN {
      printf "ring %4d %8d bytes  make, write %.3f s  read %.3f s  check %.3f s  all %.3f s  %.1f MB  %s\n",
        k, bytes, all - rc, r, rc - r, all, kilobytes / 1000, line }'
done
