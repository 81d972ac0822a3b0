#!/usr/bin/env bash
# bench/search.sh [PROGRAM [SOLVER [BEFORE]]]: seconds, and megabytes of memory at the most, of `prove` on each problem of examples/, and of
# the free search on each of them and of examples/solve/, with the answers: the nodes and links of the proof that was written, or
# its line; what bench/field.sh prints of the problems of examples/field/; of `fo` on the first-order
# problems of bench/first-order/; of two long searches; and derivations a second of five: one
# that finds nothing, three that pass the limit of derivations, of which one tries many links and one none, and one at a program.
# Those of `prove` also for the program BEFORE, if one is named. Wants GNU time. Prints figures; it passes and fails nothing.
. "$(dirname "${BASH_SOURCE[0]}")/common.sh"
solver=${2:-$top/crates/cyclist_solve/out/cyclist_solve}
before=${3:-}
[ -x "$solver" ] || { echo "no program at $solver; build it with $top/solve" >&2; exit 1; }

figures() { # NAME COMMAND..: of the problem in "$work/file"
  local spent kilobytes answer
  /usr/bin/time -q -f '%e %M' -o "$work/time" "${@:2}" < "$work/file" > "$work/answer"
  read -r spent kilobytes < "$work/time"
  if head -n 1 "$work/answer" | grep -q '^cyclist \(proof\|fo\) '; then
    answer="$(grep -c '^node' "$work/answer") nodes, $(grep -c ' by Link ' "$work/answer") links"
  else
    answer=$(cat "$work/answer")
  fi
  printf '%-28s %8.2f s %6d MB  %s\n' "$1" "$spent" "$((kilobytes / 1024))" "$answer"
}

measure() { # PROBLEM COMMAND..
  local name
  name=$(basename "${1%.*}")
  cp "$1" "$work/file"
  if [ -n "$before" ] && [ "${3:-}" = prove ]; then figures "$name, before" "$before" "${@:3}"; fi
  figures "$name" "${@:2}"
}

echo prove
for problem in "$top"/examples/*.problem; do measure "$problem" "$program" prove; done
echo solve
for problem in "$top"/examples/*.problem "$top"/examples/solve/*.problem; do measure "$problem" "$solver"; done
echo 'solve, problems of the field'
bash "$top/bench/field.sh" "$program" "$solver"
echo fo
for problem in "$top"/bench/first-order/*.foproblem; do measure "$problem" "$program" fo; done
echo 'prove, long searches'
for row in '3 17' '4 14'; do
  read -r count depth <<< "$row"
  even_lists "$count" > "$work/$count-even-lists.problem"
  measure "$work/$count-even-lists.problem" "$program" prove --depth "$depth"
done

# Seconds of processor, derivations a second and memory of a search. The derivations are those of all its depths, a link that is refused being
# one: they are what the search goes through, so that they are the same for each program that keeps its clauses. They were counted
# by the least limit of derivations that a depth does not reach; at the last depth of a search that ends so they are the limit.
rate() { # NAME DERIVATIONS WORD..: of a problem in "$work/file"
  local name=$1 derivations=$2 each spent system kilobytes
  shift 2
  for each in ${before:+"$before"} "$program"; do
    /usr/bin/time -q -f '%U %S %M' -o "$work/time" "$each" "$@" < "$work/file" > "$work/answer"
    read -r spent system kilobytes < "$work/time"
    spent=$(echo "$spent + $system" | bc)
    printf '%-20s %-6s %8.2f s %9.0f a second %4d MB  %s\n' "$name" "$([ "$each" = "$program" ] && echo now || echo before)" "$spent" \
      "$(echo "$derivations / ($spent + 0.01)" | bc)" "$((kilobytes / 1024))" "$(head -n 1 "$work/answer")"
  done
}

echo 'prove, derivations a second'
odd_lists odd 'ls(x, y) * odd(y, v)' > "$work/file"; rate odd-lists 1310618 prove --depth 16
odd_lists ls 'odd(x, v)' > "$work/file"; rate odd-and-any 1091412 prove --depth 16
two_ways > "$work/file"; rate two-ways 1526063 prove --depth 7
endless_pairs > "$work/file"; rate endless-pairs 17682 prove --depth 16
two_cases > "$work/file"; rate two-cases 2048555 prove --depth 40
