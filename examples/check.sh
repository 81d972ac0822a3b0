#!/usr/bin/env bash
# examples/check.sh PROGRAM SOLVER: each example is answered as its line in answers.txt says; the proof beside a problem, its
# comments aside, is what `prove` writes of that problem, or there is none and no proof is found; `solve` answers each problem
# as solved.txt and field/answers.txt say, and the proofs in solve/ are what it writes; the model beside a problem is what `disprove` writes of that
# problem, and `model` says that it holds; the first-order proof beside a first-order problem is what `fo` writes of that problem;
# each script is answered as slcomp/answers.txt says, and each question for a frame as frames/answers.txt says.
set -u
program=$1
solver=$2
here=$(cd "$(dirname "$0")" && pwd)
failed=0

fail() { # MESSAGE
  echo "$1"
  failed=1
}

while IFS='|' read -r file status text; do
  case $file in '#'*|'') continue ;; esac
  case $file in *.model) command=model ;; *.fo) command=fo-check ;; *) command=check ;; esac
  got=$("$program" "$command" < "$here/$file")
  code=$?
  # (a text with a star is a pattern: which path without progress is named, where there are several, is left open)
  # shellcheck disable=SC2053
  if [ "$code" != "$status" ] || [[ $got != $text ]]; then
    fail "examples/$file: status $code, '$got'; wanted status $status, '$text'"
  fi
done < "$here/answers.txt"

for problem in "$here"/*.problem; do
  proof=${problem%.problem}.proof
  name=$(basename "$problem")
  got=$("$program" prove < "$problem")
  code=$?
  if [ -f "$proof" ]; then
    [ "$code" = 0 ] && [ "$got" = "$(grep -v '^#' "$proof")" ] || fail "examples/$name: prove ends with $code, and does not write $(basename "$proof")"
  else
    [ "$code" = 6 ] && [ "$got" = 'not found depth 16' ] || fail "examples/$name: prove ends with $code, and '$(echo "$got" | head -n 1)'"
  fi
done

for problem in "$here"/first-order/*.foproblem; do
  proof=${problem%.foproblem}.fo
  got=$("$program" fo < "$problem")
  code=$?
  [ "$code" = 0 ] && [ "$got" = "$(grep -v '^#' "$proof")" ] || fail "examples/first-order/$(basename "$problem"): fo ends with $code, and does not write the proof beside it"
done

# What `solve` answers to a problem: the word on the first line; what follows goes to $got.
word_of() { # PROBLEM
  got=$("$solver" < "$1")
  word=${got%%$'\n'*}
  got=$(tail -n +2 <<< "$got")
  case $word in
    holds) "$program" check <<< "$got" > /dev/null || fail "examples: what solve writes of $(basename "$1") is no proof" ;;
    fails) grep -q '^cyclist model' <<< "$got" || [ "$("$solver" <<< "$got")" = holds ] || fail "examples: what solve writes of $(basename "$1") is no run" ;;
  esac
}

while IFS='|' read -r file wanted; do
  case $file in '#'*|'') continue ;; esac
  word_of "$here/$file"
  [ "$word" = "$wanted" ] || fail "examples/$file: solve answers '$word', and not '$wanted'"
done < "$here/solved.txt"
for problem in "$here"/*.problem "$here"/solve/*.problem "$here"/refuted/*.problem "$here"/ends/*.problem; do
  grep -q "^${problem#"$here"/}|" "$here/solved.txt" || fail "examples/solved.txt does not tell of ${problem#"$here"/}"
done

while IFS='|' read -r file wanted; do
  case $file in '#'*|'') continue ;; esac
  got=$("$solver" < "$here/slcomp/$file")
  [ "${got%%$'\n'*}" = "$wanted" ] || fail "examples/slcomp/$file: solve answers '${got%%$'\n'*}', and not '$wanted'"
done < "$here/slcomp/answers.txt"
for script in "$here"/slcomp/*.smt2; do
  grep -q "^$(basename "$script")|" "$here/slcomp/answers.txt" || fail "examples/slcomp/answers.txt does not tell of $(basename "$script")"
done

# What `solve` finds of a question for a frame: the succedent of the problem that it writes, or a model where there is no frame.
while IFS='|' read -r file wanted; do
  case $file in '#'*|'') continue ;; esac
  got=$("$solver" < "$here/frames/$file")
  if [ "$wanted" = fails ]; then
    [ "${got%%$'\n'*}" = fails ] || fail "examples/frames/$file: solve answers '${got%%$'\n'*}', and not 'fails'"
    [ "$(sed 1d <<< "$got" | "$program" model)" = holds ] || fail "examples/frames/$file: what solve writes is no model"
    continue
  fi
  goal=$(sed -n '/^goal /{p;q}' <<< "$got")
  goal=${goal#*|- }
  [ "${got%%$'\n'*}" = holds ] && [ "$goal" = "$wanted" ] || fail "examples/frames/$file: solve answers '${got%%$'\n'*}' with '$goal', and not '$wanted'"
  sed -n '/^cyclist proof/,$p' <<< "$got" | "$program" check > /dev/null || fail "examples/frames/$file: what solve writes is no proof"
done < "$here/frames/answers.txt"
for problem in "$here"/frames/*.problem; do
  grep -q "^$(basename "$problem")|" "$here/frames/answers.txt" || fail "examples/frames/answers.txt does not tell of $(basename "$problem")"
done

for model in "$here"/*.model "$here"/refuted/*.model; do
  problem=${model%.model}.problem
  [ -f "$problem" ] || continue
  got=$("$program" disprove < "$problem")
  code=$?
  [ "$code" = 0 ] && [ "$got" = "$(grep -v '^#' "$model")" ] || fail "examples: disprove of $(basename "$problem") ends with $code, and does not write the model beside it"
  [ "$("$program" model <<< "$got")" = holds ] || fail "examples: what disprove writes of $(basename "$problem") does not hold"
done

for problem in "$here"/solve/*.problem; do
  word_of "$problem"
  [ "$(grep -v '^#' <<< "$got")" = "$(grep -v '^#' "${problem%.problem}.proof")" ] || fail "examples/solve/$(basename "$problem"): solve does not write the proof beside it"
done

while IFS='|' read -r file wanted; do
  case $file in '#'*|'') continue ;; esac
  word_of "$here/field/$file"
  [ "$word" = "$wanted" ] || fail "examples/field/$file: solve answers '$word', and not '$wanted'"
done < "$here/field/answers.txt"
exit "$failed"
