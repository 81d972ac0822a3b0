#!/usr/bin/env bash
# bench/solve.sh [FOLDER [PROGRAM [WORD..]]]: of each problem in the folder (by default examples/ with the folders in it) what `solve` answers, by which search
# a proof was found, in how many seconds of processor and with how many megabytes of memory at the most; then how many were answered so,
# and the slowest. Wants GNU time. Prints figures; it passes and fails nothing.
set -u
top=$(cd "$(dirname "${BASH_SOURCE[0]}")/.." && pwd)
folder=$(realpath "${1:-$top/examples}")
solver=$(realpath "${2:-$top/crates/cyclist_solve/out/cyclist_solve}")
words=("${@:3}")
work=$(mktemp -d)
trap 'rm -rf "$work"' EXIT
[ -x "$solver" ] || { echo "no program at $solver; build it with $top/solve" >&2; exit 1; }

while IFS= read -r problem; do
  /usr/bin/time -q -f '%U %S %M' -o "$work/time" "$solver" "${words[@]}" < "$problem" > "$work/answer"
  read -r spent system kilobytes < "$work/time"
  spent=$(echo "$spent + $system" | bc)
  line=$(head -n 1 "$work/answer")
  how=$(sed -n 's/^# found by the search //p; s/^cyclist \(model\|run\) .*/a \1/p' "$work/answer" | head -n 1)
  printf '%-52s %7.2f s %5d MB  %s%s\n' "${problem#"$folder"/}" "$spent" "$((kilobytes / 1024))" "$line" "${how:+, $how}"
  echo "$spent ${line// /-}" >> "$work/figures"
done < <(find "$folder" -name '*.problem' | sort)

awk '
  { asked[$2]++; spent[$2] += $1; if ($1 > most[$2]) most[$2] = $1 }
  END { for (line in asked) printf "%s: %d, the slowest %.2f s, all %.2f s\n", line, asked[line], most[line], spent[line] }
' "$work/figures" | sort
