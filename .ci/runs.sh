#!/usr/bin/env bash
# .ci/runs.sh PROGRAM: runs the built program with the words of each command, and compares its status and what it writes.
set -u
name=cyclist
. "$(dirname "${BASH_SOURCE[0]}")/compare.sh"
usage='usage: cyclist check | prove [--depth N] | ring K | upgrade | sat | model | disprove [--cells N] | fo [--depth N] | fo-check'

run 0 'accepted entailment nodes 1 links 0' check < "$top/examples/first.proof"
run 0 "$(grep -v '^#' "$top/examples/list-segments.proof")" prove --depth 5 < "$top/examples/list-segments.problem"
run 6 'not found depth 4' prove --depth 4 < "$top/examples/list-segments.problem"
run 0 'ring 5 accepted nodes 41 links 1' ring 5 < /dev/null
run 0 "$(grep -v '^#' "$top/examples/seventeen-cells.proof")" upgrade < "$top/examples/seventeen-cells.proof"
run 0 "$(grep -v '^#' "$top/examples/freed-twice.proof" | sed '1s/1/2/')" upgrade < "$top/examples/freed-twice.proof"
run 1 'refused path stem cycle 0.0' check <<< 'cyclist proof 1; node true : emp |- true : emp by Link 0 { } [] [0]; end;'
run 1 'refused node 0 NotEmpty' check <<< 'cyclist proof 1; node true : $0 -> (nil) |- true : emp by Done; end;'
for words in '' '--help' 'help' 'ring' 'ring 0' 'ring 2001' 'prove --depth 41' 'prove --depth' 'check check' 'Check' 'upgrade 2' 'model x' 'disprove --cells 5' 'fo-check 1' 'fo 5' 'fo --depth 41' 'fo --depth'; do
  # (the words are cut at the spaces)
  # shellcheck disable=SC2086
  run 2 "$usage" $words < /dev/null
done
run 3 'unreadable syntax token 0 line 1 column 1' check < /dev/null
run 3 'unreadable byte offset 1 line 1 column 2' check < <(printf 'a!')
run 3 'unreadable syntax token 1 line 3 column 9' prove < "$top/examples/first.proof"
run 0 'satisfiable' sat < "$top/examples/list-segments.problem"
run 0 'satisfiable' sat < "$top/examples/list-walk.problem"
run 1 'unsatisfiable' sat < "$top/examples/odd-and-even.problem"
run 1 'unsatisfiable' sat <<< 'cyclist problem 1; goal true : x -> (y) * x -> (z) |- true : emp; end;'
run 3 'unreadable syntax token 0 line 1 column 1' sat < /dev/null
run 0 'holds' model < "$top/examples/ring.model"
run 1 'fails' model < "$top/examples/wrong-link.model"
run 1 'fails' model <<< 'cyclist model 1; pred q(1) { true : q($0) }; stack; heap; ask true : q($0); end;'
run 3 'unreadable syntax token 0 line 1 column 1' model < /dev/null
run 4 'ill-formed address token 7 line 1 column 30' model <<< 'cyclist model 1; stack; heap 0 -> (1); ask true : emp; end;'
run 4 'ill-formed constructive case 0 1' model <<< 'cyclist model 1; pred r(1) { true : emp | true : r(?0) }; stack; heap; ask true : r($0); end;'
run 5 'limit input' model < <(all_of ' ' 16777217)
run 0 "$(grep -v '^#' "$top/examples/acyclic-segments.model")" disprove < "$top/examples/acyclic-segments.problem"
run 6 'not found cells 1' disprove --cells 1 < "$top/examples/acyclic-segments.problem"
run 6 'not found cells 2' disprove < "$top/examples/list-segments.problem"
run 4 'ill-formed judgement from' disprove < "$top/examples/list-walk.problem"
run 5 'limit universals' disprove <<< 'cyclist problem 1; goal a = b, c = d, e = f, g = h, i = i : emp |- true : emp; end;'
even=$top/examples/first-order/even-is-natural
run 0 "$(grep -v '^#' "$even.fo")" fo --depth 5 < "$even.foproblem"
run 0 "$(grep -v '^#' "$even.fo")" fo < "$even.foproblem"
run 6 'not found depth 4' fo --depth 4 < "$even.foproblem"
run 6 'not found depth 16' fo <<< 'cyclist foproblem 1; con z 0; goal true |- false; end;'
run 3 'unreadable syntax token 0 line 1 column 1' fo < /dev/null
run 3 'unreadable syntax token 1 line 3 column 9' fo < "$even.fo"
run 4 'ill-formed unknown token 11 line 1 column 44' fo <<< 'cyclist foproblem 1; con z 0; goal true |- p(z()); end;'
run 5 'limit input' fo < <(all_of ' ' 16777217)
run 0 'accepted first-order nodes 10 links 1' fo-check < "$top/examples/first-order/even-is-natural.fo"
run 1 'refused path stem cycle 0.0 1.0 2.0' fo-check < "$top/examples/first-order/copied-for-ever.fo"
run 1 'refused node 0 NoSuchAtom' fo-check <<< 'cyclist fo 1; con z 0; node true |- z() = z() by Refl 1; end;'
run 1 'refused node 1 LinkLeft 0' fo-check <<< 'cyclist fo 1; con z 0; node $0 = z() |- $0 = z() by WeakenRight 0 to 1; node $0 = z() |- false by Link 0 { $0 := z() } [0] []; end;'
run 3 'unreadable syntax token 0 line 1 column 1' fo-check < /dev/null
run 3 'unreadable syntax token 1 line 1 column 9' fo-check <<< 'cyclist proof 1; node true : emp |- true : emp by Done; end;'
run 4 'ill-formed constant token 6 line 1 column 21' fo-check <<< 'cyclist fo 1; con s 1; node true |- s() = s() by Refl 0; end;'
run 4 'ill-formed unknown token 11 line 1 column 37' fo-check <<< 'cyclist fo 1; con z 0; node true |- s() = s() by Refl 0; end;'
run 5 'limit variable token 10 line 1 column 30' fo-check <<< 'cyclist fo 1; con z 0; node $65535 = z() |- false by Clash 0; end;'
run 5 'limit input' fo-check < <(all_of ' ' 16777217)
run 4 'ill-formed unknown token 7 line 2 column 13' prove < <(printf 'cyclist problem 1;\ngoal true : zz(x) |- true : emp;\nend;')
run 5 'limit variable token 8 line 1 column 31' check <<< 'cyclist proof 1; node true : $65535 -> (nil) |- true : emp by Absurd; end;'

# the greatest inputs, of one character each
run 5 'limit input' check < <(all_of ' ' 16777217)
run 5 'limit input' prove < <(all_of 'a' 16777217)
run 5 'limit input' upgrade < <(all_of ' ' 16777217)
run 3 'unreadable syntax token 0 line 1 column 16777217' check < <(all_of ' ' 16777216)
run 3 'unreadable syntax token 0 line 1 column 16777217' check < <(all_of '#' 16777216)
run 3 'unreadable syntax token 0 line 1 column 1' check < <(all_of '(' 16777216)
run 3 'unreadable name offset 0 line 1 column 1' check < <(all_of 'a' 16777216)
run 3 'unreadable number offset 0 line 1 column 1' prove < <(all_of '7' 16777216)
run 3 'unreadable utf8 offset 16777215 line 1 column 16777216' check < <(all_of ' ' 16777215; printf '\303')
run 3 'unreadable syntax token 0 line 1 column 1' check < <(all_of '{' 16777216)

# as many lines as an input holds, the greatest number of definitions and one more, and of nodes, all links to the last
done_node='node true : emp |- true : emp by Done;'
repeat() { # LINE COUNT
  yes "$1" | head -n "$2"
}
run 4 'ill-formed numbering token 10 line 3 column 6' check < <(echo 'cyclist proof 1;'; repeat 'line 1 : stop;' 1118475; echo "$done_node"; echo 'end;')
definitions() { # COUNT: so many, with sixteen cases each
  local case='true : emp'
  seq 1 "$1" | sed "s/.*/pred p&(0) { $(yes "$case" | head -n 16 | paste -sd'|') };/"
}
run 0 'accepted entailment nodes 1 links 0' check < <(echo 'cyclist proof 1;'; definitions 4096; echo "$done_node"; echo 'end;')
run 5 'limit predicates token 290820 line 4098 column 1' check < <(echo 'cyclist proof 1;'; definitions 4097; echo "$done_node"; echo 'end;')
run 0 'accepted entailment nodes 20000 links 19999' check < <(echo 'cyclist proof 1;'; repeat 'node true : emp |- true : emp by Link 19999 { } [] [0];' 19999; echo "$done_node"; echo 'end;')

# the greatest ring, written by a script of its own
run 0 'accepted entailment nodes 16001 links 1' check < <(ring 2000)

# the deepest search, and products of 198,667 states and of more than 200,000
run 6 'not found depth 40' prove --depth 40 < "$top/examples/acyclic-segments.problem"
run 0 'accepted entailment nodes 9 links 2' check < <(turns 12 4)
run 5 'limit states' check < <(turns 12 5)
run 5 'limit derivations' prove --depth 40 <<< 'cyclist problem 1; pred p() { true : p() | true : p() }; goal true : emp |- true : p(); end;'

# a source that cannot be read, and a sink that cannot be written
run 7 '' check < "$top"
run 7 '' upgrade < "$top"
"$program" check < "$top/examples/first.proof" > /dev/full 2> /dev/null
[ $? = 8 ] || { echo "cyclist check: writing to a full device does not end with status 8"; failed=1; }
exit "$failed"
