#!/usr/bin/env bash
# .ci/pictures.sh DRAW CYCLIST: the texts in docs/pictures are what the program DRAW writes of the proofs of their names, folded of
# those in examples/field, which have lemmas, and with the problem behind the proof of those that end in -with-names; what is
# folded away, and that no picture loses what is red; which variables have names; and what cannot be read it tells with the lines
# and statuses of `cyclist check`, and what of a problem does not fit with its own.
set -u
draw=$1
cyclist=$2
. "$(dirname "${BASH_SOURCE[0]}")/../bench/common.sh"
failed=0

fail() { # MESSAGE
  echo "$1"
  failed=1
}

count=0
for dot in "$top"/docs/pictures/*.dot; do
  name=$(basename "$dot" .dot)
  [ "$name" != layers ] || continue # (that one is made of crates.txt: .ci/layers.py)
  if [ "$name" != "${name%-with-names}" ]; then
    got=$(cat "$top/examples/${name%-with-names}".{proof,problem} | "$draw")
  elif [ -f "$top/examples/$name.proof" ]; then
    got=$("$draw" < "$top/examples/$name.proof")
  else
    got=$("$draw" --fold < "$top/examples/field/$name.proof")
  fi
  code=$?
  [ "$code" = 0 ] && [ "$got" = "$(cat "$dot")" ] || fail "docs/pictures/$name.dot: status $code, or not what draw writes"
  [ -f "$top/docs/pictures/$name.svg" ] || fail "docs/pictures/$name.svg is missing"
  count=$((count + 1))
done
[ "$count" -ge 4 ] || fail "docs/pictures has $count texts"

# What stands in red, and the note below a picture without a verdict.
red='color="red"'
note='limit states: not checked, so nothing stands in red'
count_of() { # TEXT: in how many lines of the picture it stands
  grep -cF -- "$1" "$work/picture"
}
looks() { # NAME RED FAULT NOTE: draws what standard input holds, with so many lines in red, with the fault, and with the note
  "$draw" > "$work/picture"
  local code=$?
  [ "$code:$(count_of "$red"):$(count_of "$3"):$(count_of "$note")" = "0:$2:$2:$4" ] || fail "draw of $1: status $code, or not so many lines in red"
}
looks 'a refused node' 1 'refused node 1 NotEmpty' 0 <<'END'
cyclist proof 1;
node true : emp |- true : emp by Done;
node true : $0 -> (nil) |- true : emp by Done;
node true : emp |- true : emp by Done;
end;
END
looks 'a long path' 2000 "$red" 0 < <(
  echo 'cyclist proof 1; pred e(0) { true : e() };'
  for next in $(seq 1999) 0; do echo "node true : e() |- true : emp by Link $next { } [0] [0];"; done
  echo 'node true : emp |- true : emp by Done; end;'
)
looks 'many product states' 0 "$red" 1 < <(turns 12 5)

for words in help --help check --fold=1 ''; do
  got=$("$draw" "$words" < "$top/examples/first.proof")
  code=$?
  [ "$code" = 2 ] && [ "$got" = 'usage: draw [--fold]' ] || fail "draw '$words': status $code, '$got'"
done
"$draw" --fold --fold < "$top/examples/first.proof" > "$work/picture"
[ $? = 2 ] || fail 'draw --fold --fold does not end with 2'

# Folded pictures: what is red stays, and boxes have the nodes that they should.
folds() { # NAME FILE BOX..: the folded picture of a file has a box with each of these headings, and no other
  local name=$1 file=$2
  shift 2
  "$draw" --fold < "$file" > "$work/picture" || fail "draw --fold of $name fails"
  grep '^[0-9]* \[' "$work/picture" | sed 's/^[^>]*><B>\([^<]*\)<.*/\1/' > "$work/boxes"
  printf '%s\n' "$@" | cmp -s - "$work/boxes" || fail "draw --fold of $name has the boxes $(tr '\n' ',' < "$work/boxes")"
}
folds 'a reversal' "$top/examples/list-reversal.proof" 0 1 2 3 '5 .. 11' 12
folds 'a path in red' "$top/examples/no-progress.proof" 0 1
[ "$(count_of "$red")" = 2 ] || fail 'draw --fold loses a red step'

# Pictures with names: of a variable as long as it stands in each judgement on all ways from node 0, of a program's at each line; a
# number that a rule made anew, or might have on one of the ways, is a number, and so is an existential.
named() { # NAME BOX..: the picture of standard input has boxes with these texts, and no others
  local name=$1
  shift
  "$draw" > "$work/picture" || fail "draw of $name fails"
  sed -n 's/<BR ALIGN="LEFT"\/>/ /g; s/<FONT[^>]*><B>//g; s/<\/B><\/FONT>//g; s/&gt;/>/g; s/^[0-9]* \[ label=<\(.*\) > \];$/\1/p' "$work/picture" > "$work/boxes"
  printf '%s\n' "$@" | diff - "$work/boxes" || fail "draw of $name has other boxes"
}
named 'a variable that comes back' \
  "0 x = u', y = y : q(x) |- true : x -> (?0) by Weaken 1" \
  "1 x = u' : q(x) |- true : x -> (?0) by Unfold 0" \
  "2 x = u' : x -> (\$2) |- true : x -> (?0) by Instantiate ?0 \$2" \
  "3 x = u' : x -> (\$2) |- true : x -> (\$2) by Frame 0 0" \
  "4 x = u' : emp |- true : emp by Done" <<'END'
cyclist proof 1;
pred q(1) { true : $0 -> (?0) };
node $0 = $1, $2 = $2 : q($0) |- true : $0 -> (?0) by Weaken 1 to 1;
node $0 = $1 : q($0) |- true : $0 -> (?0) by Unfold 0 to 2;
node $0 = $1 : $0 -> ($2) |- true : $0 -> (?0) by Instantiate ?0 $2 to 3;
node $0 = $1 : $0 -> ($2) |- true : $0 -> ($2) by Frame 0 0 to 4;
node $0 = $1 : emp |- true : emp by Done;
end;
cyclist problem 1;
pred q(a) { true : a -> (b) };
goal x = u', y = y : q(x) |- true : x -> (u');
end;
END
named 'two ways to a node' \
  '0 x = x, y = y : emp |- true : emp by Split nil nil' \
  '1 x = x, y = y, nil = nil : emp |- true : emp by Weaken 2' \
  '2 x = x, y = y, nil != nil : emp |- true : emp by Weaken 1' \
  '3 x = x, nil != nil : emp |- true : emp by Split $1 $1' \
  '4 x = x, nil != nil, $1 = $1 : emp |- true : emp by Weaken 1' \
  '5 x = x, nil != nil, $1 != $1 : emp |- true : emp by Absurd' \
  '6 x = x, $1 = $1 : emp |- true : emp by Done' <<'END'
cyclist proof 1;
node $0 = $0, $1 = $1 : emp |- true : emp by Split nil nil to 1 2;
node $0 = $0, $1 = $1, nil = nil : emp |- true : emp by Weaken 2 to 6;
node $0 = $0, $1 = $1, nil != nil : emp |- true : emp by Weaken 1 to 3;
node $0 = $0, nil != nil : emp |- true : emp by Split $1 $1 to 4 5;
node $0 = $0, nil != nil, $1 = $1 : emp |- true : emp by Weaken 1 to 6;
node $0 = $0, nil != nil, $1 != $1 : emp |- true : emp by Absurd;
node $0 = $0, $1 = $1 : emp |- true : emp by Done;
end; cyclist problem 1; goal x = x, y = y : emp |- true : emp; end;
END
named 'a program' \
  '0 line 1 : x := y from 1 given z = x : emp by Exec' \
  '1 line 2 : stop from 2 given z = $3, x = y : emp by Exec' <<'END'
cyclist proof 2; line 1 : $0 := $1; line 2 : stop;
node from 1 given $2 = $0 : emp by Exec to 1;
node from 2 given $2 = $3, $0 = $1 : emp by Exec;
end;
# The proof is of the goal of this problem, whatever the versions are.
cyclist problem 1; line 1 : x := y; line 2 : stop; goal from 1 given z = x : emp; end;
END
named 'names that begin a problem' '0 nil != nil : cyclist() * problem(cyclist) |- true : emp by Absurd' <<'END'
cyclist proof 1; pred cyclist(0) { true : emp }; pred problem(1) { true : cyclist() };
node nil != nil : cyclist() * problem($0) |- true : emp by Absurd;
end;
cyclist problem 1; pred cyclist() { true : emp }; pred problem(a) { true : cyclist() };
goal nil != nil : cyclist() * problem(cyclist) |- true : emp;
end;
END
grep -qF 'label=<goal nil != nil : cyclist() * problem(cyclist)<BR ALIGN="LEFT"/>|- true : emp<BR ALIGN="LEFT"/>pred cyclist() { true : emp }<BR' "$work/picture" ||
  fail 'draw: the problem does not stand above'
folds 'a proof with its problem' <(cat "$top"/examples/list-reversal.{proof,problem}) 0 1 2 3 '5 .. 11' 12

# What is said of a problem that does not fit.
misfits() { # LINE STATUS TEXT: of a small proof with this behind it
  local got
  got=$(printf 'cyclist proof 1; line 1 : $0 := nil; line 2 : stop; node from 1 given true : emp by Exec; end;\n%s' "$3" | "$draw")
  [ "$?:$got" = "$2:$1" ] || fail "draw says '$got' of the problem $3"
}
program='line 1 : x := nil; line 2 : stop;'
misfits 'ill-formed problem definitions' 4 "cyclist problem 1; pred p() { true : emp }; $program goal from 1 given true : emp; end;"
misfits 'ill-formed problem program' 4 'cyclist problem 1; line 1 : x := x; line 2 : stop; goal from 1 given true : emp; end;'
misfits 'ill-formed problem goal' 4 "cyclist problem 1; $program goal from 2 given true : emp; end;"
misfits 'problem ill-formed no-line token 18 line 2 column 19' 4 "cyclist problem 1; $program
        goal from 3 given true : emp; end;"
misfits 'problem unreadable syntax token 4 line 2 column 19' 3 '# a comment
cyclist problem 1;'
misfits 'problem limit pure token 276 line 1 column 712' 5 "cyclist problem 1; $program goal from 1 given $(yes 'nil = nil' | head -65 | paste -sd,) : emp; end;"
misfits 'unreadable syntax token 29 line 2 column 1' 3 'cyclist model 1;'

# Compares what both programs say of a text that is no proof file.
compare() { # TEXT
  local got wanted code
  got=$(printf '%s' "$1" | "$draw")
  code=$?
  wanted=$(printf '%s' "$1" | "$cyclist" check)
  [ "$code" = $? ] && [ "$code" -ge 3 ] && [ "$got" = "$wanted" ] || fail "draw: status $code, '$got'; cyclist says '$wanted'"
}

compare ''
compare 'a!'
compare 'cyclist proof 1; end;'
compare 'cyclist proof 1; node true : zz() |- true : emp by Done; end;'
compare 'cyclist proof 1; node true : $65535 -> (nil) |- true : emp by Absurd; end;'
if [ -e /dev/full ]; then
  "$draw" < "$top/examples/first.proof" > /dev/full
  [ $? = 8 ] || fail 'draw: a full device does not end with 8'
fi
"$draw" < /
[ $? = 7 ] || fail 'draw: a folder does not end with 7'
exit "$failed"
