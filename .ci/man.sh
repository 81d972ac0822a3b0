#!/usr/bin/env bash
# .ci/man.sh [DIR]: the manual pages are in good form where mandoc is there to say so, and say what the programs do that the gate has
# built, or those in the folder DIR under their crates' names: their words, statuses and limits, and the examples (man.py).
set -u
top=$(cd "$(dirname "${BASH_SOURCE[0]}")/.." && pwd)
failed=0

if command -v mandoc > /dev/null; then
  # (of the pages that they name, those here are not installed)
  said=$(mandoc -T lint -W style "$top"/man/*.[15] 2>&1 | grep -v -e 'referenced manual not found: Xr' -e 'outdated mandoc.db')
  [ -z "$said" ] || { echo "$said"; failed=1; }
  while read -r named section; do
    [ -f "$top/man/$named.$section" ] || { echo "man: there is no page $named($section)"; failed=1; }
  done < <(sed -n 's/^\.Xr \(cyclist[a-z-]*\) \([15]\).*/\1 \2/p' "$top"/man/*.[15] | sort -u)
else
  echo 'man: skipped: mandoc is not there to read the pages'
fi
python3 "$top/.ci/man.py" "$@" || failed=1
exit "$failed"
