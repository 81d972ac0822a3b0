#!/usr/bin/env bash
# bench/field.sh [PROGRAM [SOLVER]]: for each problem of examples/field/ what the free search answers: seconds of processor, megabytes of
# memory at the most, and the nodes and links of the proof that it writes, or its line; then, for the problems that hold and for the
# others, how many there are and of how many a proof is found, with the seconds of the slowest and of all. PROGRAM checks the proofs.
# Wants GNU time. Prints figures; it passes and fails nothing.
. "$(dirname "${BASH_SOURCE[0]}")/common.sh"
solver=${2:-$top/crates/cyclist_solve/out/cyclist_solve}
[ -x "$solver" ] || { echo "no program at $solver; build it with $top/solve" >&2; exit 1; }

answer() { # of the search's last run, with a word for a proof that is not accepted
  if head -n 1 "$work/answer" | grep -q '^cyclist proof '; then
    echo "$(grep -c '^node' "$work/answer") nodes, $(grep -c ' by Link ' "$work/answer") links$("$program" check < "$work/answer" > "$work/verdict" || echo ', REFUSED')"
  else
    cat "$work/answer"
  fi
}

while IFS='|' read -r file wanted; do
  case $file in '#'*|'') continue ;; esac
  /usr/bin/time -q -f '%U %S %M' -o "$work/time" "$solver" < "$top/examples/field/$file" > "$work/answer"
  read -r spent system kilobytes < "$work/time"
  spent=$(echo "$spent + $system" | bc)
  line=$(answer)
  printf '%-34s %7.2f s %5d MB  %s\n' "${file%.problem}" "$spent" "$((kilobytes / 1024))" "$line"
  echo "$wanted $spent $line" >> "$work/figures"
done < "$top/examples/field/answers.txt"

awk '
  { asked[$1]++; spent[$1] += $2; if ($2 > most[$1]) most[$1] = $2; if ($0 ~ / nodes, /) found[$1]++ }
  END { for (wanted in asked) printf "%s: %d asked, %d found, the slowest %.2f s, all %.2f s\n", wanted, asked[wanted], found[wanted], most[wanted], spent[wanted] }
' "$work/figures"
