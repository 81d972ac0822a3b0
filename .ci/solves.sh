#!/usr/bin/env bash
# .ci/solves.sh PROGRAM CYCLIST: runs the built `solve`, and compares its status and what it writes: each of its answers, each status
# from 0 to 8, and that what stands after the first line shows what it says. Each problem in .ci/solves/ holds: such a proof needs moves that few
# examples need, or none.
set -u
name=solve
. "$(dirname "${BASH_SOURCE[0]}")/compare.sh"
cyclist=$2
usage='usage: solve [--effort N]'
room=$(mktemp -d)
trap 'rm -rf "$room"' EXIT

# The first line and the status of an answer, whose other lines have to show it: a proof is accepted, a model is one of the left side, a run
# is run again.
shows() { # STATUS LINE FILE WORD..
  local status=$1 line=$2 file=$3 code
  shift 3
  bounded "$program" "$@" < "$file" > "$room/answer" 2>&1
  code=$?
  tail -n +2 "$room/answer" > "$room/certificate"
  if [ "$code" != "$status" ] || [ "$(head -n 1 "$room/answer")" != "$line" ]; then
    echo "solve $* < $(basename "$file"): status $code, '$(head -n 1 "$room/answer")'; wanted status $status, '$line'"
    failed=1
    return
  fi
  case $line/$(grep -o '^cyclist [a-z]*' "$room/certificate") in
    'holds/cyclist proof') bounded "$cyclist" check < "$room/certificate" | grep -q '^accepted ' ;;
    'fails/cyclist model') [ "$(bounded "$cyclist" model < "$room/certificate")" = holds ] || grep -q constructive <(bounded "$cyclist" model < "$room/certificate") ;;
    'fails/cyclist run') [ "$(bounded "$program" < "$room/certificate")" = holds ] ;;
    'holds antecedent unsatisfiable/' | unknown/) true ;;
    *) false ;;
  esac || { echo "solve $* < $(basename "$file"): what follows does not show that it $line"; failed=1; }
}

count=0
for problem in "$top"/.ci/solves/*.problem; do
  shows 0 holds "$problem"
  count=$((count + 1))
done
[ "$count" -ge 8 ] || { echo ".ci/solves has $count problems"; failed=1; }

# the four answers, at the least effort and at the usual one
for words in '' '--effort 1'; do
  # (the words are cut at the spaces)
  # shellcheck disable=SC2086
  {
    shows 0 holds "$top/examples/list-segments.problem" $words
    shows 0 holds "$top/examples/list-walk.problem" $words
    shows 1 fails "$top/examples/acyclic-segments.problem" $words
    shows 1 fails "$top/examples/endless-choice.problem" $words
    shows 1 fails "$top/examples/allocation.problem" $words
    shows 1 fails "$top/examples/endless-list.problem" $words
    shows 6 unknown "$top/.ci/solves/unknown/walk-and-grow.problem" $words
  }
done
cat > "$room/impossible.problem" << 'END'
cyclist problem 1;
pred far(a, b) { true : a -> (b) };
pred twice(a, b) { true : far(a, b) * far(b, a) };
line 1 : if x = y goto 1;
line 2 : goto 1;
goal from 1 given true : twice(x, x);
end;
END
bounded "$program" < "$room/impossible.problem" > "$room/answer"
[ $? = 0 ] && grep -q '^holds' "$room/answer" || { echo 'solve: a precondition that nothing satisfies is not seen'; failed=1; }

# a run: as it tells, and with one thing changed at a time
freed_twice() { # FROM GIVEN STACK HEAP PICKS OUTCOME
  printf 'cyclist run 1;\npred ls(2) { $0 = $1 : emp | true : $0 -> (?0) * ls(?0, $1) };\nline 1 : free $0;\nline 2 : free $0;\nline 3 : stop;\nfrom %s given %s;\nstack %s;\nheap %s;\npicks %s;\n%s;\nend;\n' "$@"
}
run 0 holds < <(freed_twice 1 'true : $0 -> (nil)' 1 '1 -> (0)' '' 'faults line 2 step 1')
run 1 fails < <(freed_twice 1 'true : $0 -> ($1)' 1,7 '1 -> (0)' '' 'faults line 2 step 1')
run 1 fails < <(freed_twice 1 'true : $0 -> (nil)' 1 '1 -> (0)' '' 'faults line 1 step 1')
run 1 fails < <(freed_twice 1 'true : $0 -> (nil)' 1 '1 -> (0)' '' 'faults line 2 step 2')
run 1 fails < <(freed_twice 2 'true : $0 -> (nil)' 1 '1 -> (0)' '' 'faults line 2 step 0')
run 0 holds < <(freed_twice 2 'true : emp' 1 '' '' 'faults line 2 step 0')
run 1 fails < <(freed_twice 1 'true : $0 -> (nil)' 1 '1 -> (0)' '' 'repeats step 0 step 1')
run 0 holds < <(freed_twice 1 'true : ls($0, nil)' 1 '1 -> (2), 2 -> (0)' '' 'faults line 2 step 1')
picked() { # PICKS OUTCOME
  printf 'cyclist run 1;\nline 1 : if * goto 3;\nline 2 : goto 1;\nline 3 : $0 := new 1;\nline 4 : free $0;\nline 5 : goto 1;\nfrom 1 given true : emp;\nstack;\nheap;\npicks %s;\n%s;\nend;\n' "$@"
}
run 0 holds < <(picked 'next' 'repeats step 0 step 2')
run 1 fails < <(picked 'jump' 'repeats step 0 step 2')
run 1 fails < <(picked '' 'repeats step 0 step 2')
run 1 fails < <(picked 'next' 'repeats step 2 step 2')
run 1 fails < <(picked 'next' 'repeats step 0 step 1')
run 0 holds < <(picked 'jump, 5 -> (0), jump, 5 -> (0)' 'repeats step 4 step 8')
run 1 fails < <(picked 'jump, 5 -> (0), jump, 6 -> (0)' 'repeats step 4 step 8')
run 1 fails < <(picked 'jump, 0 -> (0), jump, 5 -> (0)' 'repeats step 4 step 8')
run 1 fails < <(picked 'jump, 5 -> (0, 0), jump, 5 -> (0)' 'repeats step 4 step 8')

longer() { # STACK HEAP PICKS OUTCOME
  printf 'cyclist run 1;\nline 1 : $1 := new 1;\nline 2 : $0.1 := $1;\nline 3 : $0 := $1;\nline 4 : goto 1;\nfrom 1 given true : $0 -> (nil);\nstack %s;\nheap %s;\npicks %s;\n%s;\nend;\n' "$@"
}
run 0 holds < <(longer 1 '1 -> (0)' '2 -> (0), 3 -> (0)' 'grows step 4 step 8 with (0 0, 2 3)')
run 0 holds < <(longer 7 '7 -> (0)' '9 -> (0), 20 -> (0)' 'grows step 4 step 8 with (9 20, 0 0)')
run 0 holds < <(longer 7 '7 -> (0)' '5 -> (0), 20 -> (0)' 'grows step 4 step 8 with (5 20, 0 0)')
run 0 holds < <(longer 1 '1 -> (0)' '2 -> (0), 3 -> (0)' 'grows step 2 step 6 with (0 0, 1 2, 2 3)')
run 1 fails < <(longer 1 '1 -> (0)' '2 -> (0), 3 -> (0)' 'grows step 3 step 8 with (0 0, 2 3)')
run 1 fails < <(longer 1 '1 -> (0)' '2 -> (0), 3 -> (0)' 'grows step 4 step 8 with (2 3)')
run 1 fails < <(longer 1 '1 -> (0)' '2 -> (0), 3 -> (0)' 'grows step 4 step 8 with (0 0, 2 3, 2 1)')
run 1 fails < <(longer 1 '1 -> (0)' '2 -> (0), 3 -> (0)' 'grows step 4 step 8 with (0 0, 2 3, 1 3)')
run 1 fails < <(longer 1 '1 -> (0)' '2 -> (0), 3 -> (0)' 'grows step 4 step 8 with (0 0, 2 3, 1 1)')
run 1 fails < <(longer 1 '1 -> (0)' '2 -> (0), 3 -> (0)' 'grows step 4 step 4 with (0 0, 2 2)')
run 1 fails < <(longer 1 '1 -> (0)' '3 -> (0), 2 -> (0)' 'grows step 4 step 8 with (0 0, 3 2)')
run 1 fails < <(longer 1 '1 -> (0)' '2 -> (0)' 'grows step 4 step 8 with (0 0, 2 3)')
run 1 fails < <(longer 1 '1 -> (0)' '2 -> (0), 3 -> (1)' 'grows step 4 step 8 with (0 0, 2 3)')

for words in 'check' 'prove' '--help' '--depth 5' 'x y' '--effort' '--effort 0' '--effort 10' '--effort 01' '--effort x' '--effort=3' '--effort 3 3'; do
  # shellcheck disable=SC2086
  run 2 "$usage" $words < "$top/examples/list-segments.problem"
done

# texts that cannot be read: the first line, and what explains it
first() { # STATUS LINE
  got=$(bounded "$program" 2>&1)
  code=$?
  if [ "$code" != "$1" ] || [ "$(echo "$got" | head -n 1)" != "$2" ]; then
    echo "solve: status $code, '$(echo "$got" | head -n 1)'; wanted status $1, '$2'"
    failed=1
  fi
}
first 3 'unreadable syntax token 0 line 1 column 1' < /dev/null
first 3 'unreadable byte offset 1 line 1 column 2' < <(printf 'a!')
first 3 'unreadable syntax token 1 line 3 column 9' < "$top/examples/first.proof"
first 4 'ill-formed unknown token 7 line 2 column 13' < <(printf 'cyclist problem 1;\ngoal true : zz(x) |- true : emp;\nend;')
first 4 'ill-formed no-line token 5 line 1 column 21' < <(printf 'cyclist run 1; from 1 given true : emp; stack; heap; picks; repeats step 0 step 1; end;')
first 5 'limit input' < <(all_of 'a' 16777217)
first 3 'unreadable number offset 0 line 1 column 1' < <(all_of '7' 16777216)

# a source that cannot be read, and a sink that cannot be written
run 7 '' < "$top"
"$program" < "$top/examples/list-segments.problem" > /dev/full 2> /dev/null
[ $? = 8 ] || { echo "solve: writing to a full device does not end with status 8"; failed=1; }
exit "$failed"
