#!/usr/bin/env bash
# bench/slcomp.sh FOLDER [PROGRAM [WORD..]]: what `solve` answers to each script below the folder, division by division: a division is a
# folder with files *.smt2. For each file a line with its seconds of processor, its megabytes of memory and the first line; then for each
# division how many were answered as `(set-info :status ..)` says, how many otherwise, how many are unknown, unsupported, or refused
# otherwise, and the seconds. Ends with 1 where a file was answered otherwise. Wants GNU time.
set -u
top=$(cd "$(dirname "${BASH_SOURCE[0]}")/.." && pwd)
[ $# -gt 0 ] || { echo "usage: bench/slcomp.sh FOLDER [PROGRAM [WORD..]]" >&2; exit 2; }
folder=$(realpath "$1")
solver=$(realpath "${2:-$top/crates/cyclist_solve/out/cyclist_solve}")
words=("${@:3}")
work=$(mktemp -d)
trap 'rm -rf "$work"' EXIT
[ -x "$solver" ] || { echo "no program at $solver; build it with $top/solve" >&2; exit 1; }

while IFS= read -r script; do
  /usr/bin/time -q -f '%U %S %M' -o "$work/time" "$solver" "${words[@]}" < "$script" > "$work/answer"
  read -r spent system kilobytes < "$work/time"
  spent=$(echo "$spent + $system" | bc)
  line=$(head -n 1 "$work/answer")
  status=$(sed -n 's/^(set-info :status \([a-z]*\)).*/\1/p' "$script" | head -n 1)
  case $line in
    sat | unsat) [ "$line" = "$status" ] && kind=right || kind=wrong ;;
    unknown) kind=unknown ;;
    unsupported*) kind=unsupported ;;
    *) kind=refused ;;
  esac
  division=$(dirname "${script#"$folder"/}")
  printf '%-56s %7.2f s %5d MB  %-6s %s\n' "${script#"$folder"/}" "$spent" "$((kilobytes / 1024))" "${status:--}" "$line"
  echo "$division $kind $spent" >> "$work/figures"
done < <(find "$folder" -name '*.smt2' | sort)
[ -f "$work/figures" ] || { echo "no script below $folder" >&2; exit 1; }

awk '
  { all[$1]++; count[$1, $2]++; spent[$1] += $3; if ($3 > most[$1]) most[$1] = $3; if ($2 == "wrong") wrong = 1 }
  END {
    for (d in all)
      printf "%s: %d, right %d, wrong %d, unknown %d, unsupported %d, refused %d, the slowest %.2f s, all %.2f s\n", d, all[d],
        count[d, "right"], count[d, "wrong"], count[d, "unknown"], count[d, "unsupported"], count[d, "refused"], most[d], spent[d]
    exit wrong
  }' "$work/figures" > "$work/divisions"
wrong=$?
sort "$work/divisions"
exit "$wrong"
