#!/usr/bin/env bash
# .ci/launchers.sh: the scripts that become a program take it for current exactly where it was built of the sources as they are. Each
# way to change the sources is tried in a copy of the tree, with a stand-in in place of the program and of the toolchain.
set -u
top=$(cd "$(dirname "${BASH_SOURCE[0]}")/.." && pwd)
room=$(mktemp -d)
trap 'rm -rf "$room"' EXIT
failed=0
copy=$room/copy
crate=unfold_rule
below=$copy/crates/pred_defs/src/lib.rt
built=$copy/crates/$crate/out/$crate

fail() { # MESSAGE
  echo "launchers: $1"
  failed=1
}

# Whether the copy's script says that the crate's program is current.
says_current() {
  # shellcheck disable=SC1091
  (. "$copy/.build.sh" && choose_crate "$crate" && is_current)
}

current() { # WHAT-WAS-DONE
  says_current || fail "$1: is not current, and should be"
}

stale() { # WHAT-WAS-DONE
  ! says_current || fail "$1: is current, and should not be"
}

stand_in() { # TEXT FILE
  mkdir -p "$(dirname "$2")" && printf '#!/bin/sh\n%s\n' "$1" > "$2" && chmod +x "$2"
}

mkdir "$copy"
mapfile -t scripts < <(awk '!/^#/ { print $3 }' "$top/programs.txt")
mapfile -t programs < <(awk '!/^#/ && $2 != "-" { print $2 }' "$top/programs.txt")
tar -C "$top" -c --exclude=out --exclude=docs/pictures .build.sh .layout.sh HANDLES README.md completions crates crates.txt docs examples install man \
  programs.txt "${scripts[@]}" | tar -x -C "$copy"
cp -a "$copy/crates.txt" "$copy/crates" "$room"

stale 'there is no program'
stand_in 'echo one' "$built"
mkdir "$copy/crates/pred_defs/out"
current 'the gate left a program, and something was built elsewhere'
touch "$below"
current 'a source was touched'
echo '// another line' >> "$below"
stale 'a source was changed'
cp "$room/crates/pred_defs/src/lib.rt" "$below"
current 'a source was changed back'
echo '// another line' >> "$below"
touch -d 2001-02-03 "$below"
stale 'a source was changed that bears an old time'
cp -p "$room/crates/pred_defs/src/lib.rt" "$below"
current 'a source was copied back with its time'

echo '// one more' > "$copy/crates/pred_defs/src/more.rt"
stale 'a source was added'
rm "$copy/crates/pred_defs/src/more.rt"
current 'an added source was removed'
rm "$below"
stale 'a source was removed'
cp "$room/crates/pred_defs/src/lib.rt" "$below"
current 'a removed source came back'
mv "$copy/crates/pred_defs" "$room/away"
stale 'a crate was removed'
mv "$room/away" "$copy/crates/pred_defs"
current 'a removed crate came back'

echo '# another remark' >> "$copy/crates.txt"
current 'a remark was added to crates.txt'
sed -i 's/^cyclist_draw:.*/& trace_pairs/' "$copy/crates.txt"
current 'the line of a crate that is not below was changed in crates.txt'
sed -i 's/^pred_defs:.*/& trace_pairs/' "$copy/crates.txt"
stale 'the line of a crate below was changed in crates.txt'
cp "$room/crates.txt" "$copy"
current 'crates.txt was changed back'
echo '// another line' >> "$copy/crates/cyclist_draw/src/main.rt"
current 'a crate that is not below was changed'
mkdir -p "$copy/crates/pred_defs/out" "$copy/crates/pred_defs/must-fail" && echo text | tee "$copy/crates/pred_defs/out/text" > "$copy/crates/pred_defs/must-fail/text"
current 'what is built and what must fail was changed'
echo text >> "$copy/HANDLES"
stale 'the allowed handles were changed'
cp "$top/HANDLES" "$copy"
current 'the allowed handles were changed back'

# Another program in the place of the one that the sums are of: it is of the changed sources.
echo '// another line' >> "$below"
stand_in 'echo two' "$built"
cp "$room/crates/pred_defs/src/lib.rt" "$below"
stale 'the program of changed sources stands where they were changed back'

# A source that changes while the sums are taken.
stand_in 'echo three' "$built"
current 'the gate left another program'
touch "$below"
stand_in "$(command -v sha256sum) \"\$@\"; [ -e '$room/done' ] || echo '// another line' >> '$below'; touch '$room/done'" "$room/bin/sha256sum"
PATH=$room/bin:$PATH says_current
stale 'a source was changed while the sums were taken'
rm "$room/bin/sha256sum"

# Without the toolchain a program that is not current is not run; with it, it is built once.
crate=cyclist_draw
built=$copy/crates/$crate/out/$crate
stand_in 'exit 1' "$room/none/rt"
got=$(PATH=$room/none:$PATH "$copy/draw" 2>&1 < /dev/null)
[ $? = 70 ] || fail "a build that fails does not end with 70: '$got'"
# (in place of the gate: makes the programs whose crates it is given, and notes its call)
# shellcheck disable=SC2016
stand_in '[ "$1" = ci ] || exit 1
echo ci >> "'"$room/calls"'"
for crate in '"${programs[*]}"'; do
  [ ! -d crates/$crate ] || { mkdir crates/$crate/out && printf "#!/bin/sh\necho $crate \"\$@\"\n" > crates/$crate/out/$crate && chmod +x crates/$crate/out/$crate; }
done
echo "rt: cyclist_draw proved"' "$room/bin/rt"
for words in 'a b' 'c'; do
  got=$(PATH=$room/bin:$PATH "$copy/draw" "$words" 2> /dev/null < /dev/null)
  [ "$got" = "cyclist_draw $words" ] || fail "draw '$words' becomes '$got'"
done
[ "$(wc -l < "$room/calls")" = 1 ] || fail 'a program that is current is built again'
current 'the program was built'
echo '// another line' >> "$copy/crates/cyclist_draw/src/main.rt"
stale 'a source of a program that was built was changed'

# An installation builds in one call what is missing or not current, and in the next call nothing.
for call in 2 2; do
  PATH=$room/bin:$PATH "$copy/install" "$room/prefix" > "$room/said" 2>&1 < /dev/null || fail "install ends with $?: $(cat "$room/said")"
  [ "$(wc -l < "$room/calls")" = "$call" ] || fail "install has built $(wc -l < "$room/calls") times, not $call"
done
for crate in "${programs[@]}"; do
  name=$(awk -v crate="$crate" '$2 == crate { print $1 }' "$top/programs.txt")
  [ "$("$room/prefix/bin/$name" x 2>&1)" = "$crate x" ] || fail "$name is installed and is not $crate"
done
exit "$failed"
