#!/usr/bin/env bash
# .ci/words.sh PROGRAM: inclusions of regular expressions, true and false. Of a true one `words prove` writes a proof, which
# `words check` accepts; of a false one it finds none. What is no proof is refused, with its cause; and the examples are as they say.
set -u
cd "$(dirname "$0")/.." || exit 1
program=${1:?usage: words.sh PROGRAM}
room=$(mktemp -d)
trap 'rm -rf "$room"' EXIT
failed=0 proved=0 refuted=0

fail() { # MESSAGE
  echo "words: $1"
  failed=1
}

is_true() { # LEFT RIGHT
  echo "$1 |- $2" | "$program" prove > "$room/proof" || fail "$1 |- $2: $(head -c 200 "$room/proof")"
  "$program" check < "$room/proof" > "$room/line" || fail "$1 |- $2: $(cat "$room/line")"
  grep -q '^accepted inclusion nodes ' "$room/line" || fail "$1 |- $2: $(cat "$room/line")"
  proved=$((proved + 1))
}

is_false() { # LEFT RIGHT
  echo "$1 |- $2" | "$program" prove > "$room/proof"
  [ "$?" = 6 ] && grep -q '^not found depth ' "$room/proof" || fail "$1 |- $2: $(head -c 200 "$room/proof")"
  refuted=$((refuted + 1))
}

are_equal() { # LEFT RIGHT
  is_true "$1" "$2"
  is_true "$2" "$1"
}

says() { # STATUS LINE < PROOF
  "$program" check > "$room/line"
  [ "$?" = "$1" ] && [ "$(cat "$room/line")" = "$2" ] || fail "wanted '$2', came '$(cat "$room/line")'"
}

has_no_meaning() { # WORD..
  "$program" "$@" < /dev/null > "$room/line"
  [ "$?" = 2 ] && [ "$(cat "$room/line")" = 'usage: words check | prove [--depth N]' ] || fail "the words '$*': $(cat "$room/line")"
}

are_equal '(a | b)*' 'a* (b a*)*'
are_equal '(a | b)*' '(a* b)* a*'
are_equal '(a | b)*' '(a* b*)*'
are_equal 'a (b a)*' '(a b)* a'
are_equal '(a*)*' 'a*'
are_equal '1 | a a*' 'a*'
are_equal '1 | a* a' 'a*'
are_equal 'a* a*' 'a*'
are_equal 'a* a' 'a a*'
are_equal '(a a)* (1 | a)' 'a*'
are_equal '(a | 1)*' 'a*'
are_equal '(a | b) c' 'a c | b c'
are_equal 'a (b | c)' 'a b | a c'
are_equal '0*' '1'
are_equal '(a b | a)* a' 'a (b a | a)*'
is_true '(a a)*' 'a*'
is_true 'a* b*' '(a | b)*'
is_true 'a b 0' '0'
is_true '(a a a)* (a a)*' 'a*'
is_true '(a b)*' '1 | a (a | b)* b'

is_false 'a*' '0'
is_false 'a*' '1'
is_false 'a*' '(a a)*'
is_false '(a | b)*' 'a* b*'
is_false 'a b' 'b a'
is_false '(a b)*' 'a* b*'
is_false '1' 'a a*'
is_false '(a a)* (a a a)*' '(a a | a a a a a)*'
is_false '(a | b)*' '(a b)*'
is_false '((a | b) (a | b))*' '(a a | b b | a b)*'

# a step that is locally sound and turns round without progress, and what is wrong at a node
says 1 'refused path stem cycle 0.0' <<< 'words proof; node a* |- 0 by Link 0; end;'
says 1 'refused node 0 NoEmptyWord' <<< 'words proof; node 1 |- a by Step; end;'
says 1 'refused node 0 PremiseCount' <<< 'words proof; node a |- a by Step; end;'
says 1 'refused node 0 PremiseDiffers 0' <<< 'words proof; node a |- a by Step to 1; node 1 |- 0 by Step; end;'
says 1 'refused node 0 NoSuchNode' <<< 'words proof; node a |- a by Step to 1; end;'
says 1 'refused node 1 LinkDiffers' <<< 'words proof; node a |- a by Step to 1; node 1 |- 1 | 0 by Link 0; end;'
says 0 'accepted inclusion nodes 2 links 0' <<< 'words proof; node a |- a by Step to 1; node 1 |- 1 | 0 by Step; end;'
says 3 'unreadable syntax token 5 line 1 column 21' <<< 'words proof; node a by Step; end;'
says 3 'unreadable byte offset 20 line 1 column 21' <<< 'words proof; node a + b |- a by Step; end;'

has_no_meaning
has_no_meaning check again
has_no_meaning prove --depth
has_no_meaning prove --depth 401
has_no_meaning prove --depth deep
echo '1 |- 1' | "$program" prove --depth 0 > "$room/line"
[ "$?" = 6 ] && [ "$(cat "$room/line")" = 'not found depth 0' ] || fail "to depth 0: $(cat "$room/line")"

for file in examples/words/*.inclusion; do
  "$program" prove < "$file" > "$room/proof"
  status=$?
  case $file in
    */no-*) [ "$status" = 6 ] || fail "$file: status $status" ;;
    *) [ "$status" = 0 ] && "$program" check < "$room/proof" > /dev/null || fail "$file: status $status" ;;
  esac
done
"$program" check < examples/words/star.proof > /dev/null || fail 'star.proof is refused'

[ "$failed" = 0 ] && echo "words: $proved inclusions proved, $refuted false ones not found"
exit "$failed"
