#!/usr/bin/env bash
# .ci/checks.sh CHECKER: runs the built checker alone, and compares its status and what it writes.
set -u
name=check
. "$(dirname "${BASH_SOURCE[0]}")/compare.sh"

while IFS='|' read -r file status text; do
  case $file in *.proof) ;; *) continue ;; esac
  # (a text with a star is a pattern: which path without progress is named, where there are several, is left open)
  case $text in *'*'*) ;; *) run "$status" "$text" < "$top/examples/$file" ;; esac
done < "$top/examples/answers.txt"
for words in 'check' 'prove' '--help' 'x y'; do
  # (the words are cut at the spaces)
  # shellcheck disable=SC2086
  run 2 'usage: check' $words < "$top/examples/first.proof"
done
run 5 'limit input' < <(all_of ' ' 16777217)

# a source that cannot be read, and a sink that cannot be written
run 7 '' < "$top"
"$program" < "$top/examples/first.proof" > /dev/full 2> /dev/null
[ $? = 8 ] || { echo "check: writing to a full device does not end with status 8"; failed=1; }
exit "$failed"
