#!/usr/bin/env bash
# .ci/hand.sh [DIR]: takes the programs that the gate has built, or those in the folder DIR under their crates' names; installs them
# below a prefix, removes them, makes the Debian package of them, and runs `many` over files of which one takes too long, one is refused
# and one is not there, and over files where it is interrupted.
# (`fail` ends well, so that what stands before it and what stands in it are alternatives)
# shellcheck disable=SC2015,SC2016
set -u
top=$(cd "$(dirname "${BASH_SOURCE[0]}")/.." && pwd)
room=$(mktemp -d)
trap 'rm -rf "$room"' EXIT
failed=0

fail() { # MESSAGE
  echo "hand: $1"
  failed=1
}

# Whether the tools are here; says what is left out where they are not.
there() { # WHAT TOOL..
  local what=$1 tool
  shift
  for tool in "$@"; do
    type -P "$tool" > /dev/null || { echo "hand: skipped: $what, since there is no $tool here"; return 1; }
  done
}

given="$room/given programs"
mkdir "$given"
while read -r crate; do
  cp "${1:-$top/crates/$crate/out}/$crate" "$given" || exit 1
done < <(awk '!/^#/ && $2 != "-" { print $2 }' "$top/programs.txt")
example=$top/examples/first.proof

try_install() {
  local prefix="$room/a prefix" files
  mkdir -p "$prefix/bin"
  "$top/install" --from "$given" "$prefix" > "$room/said" 2> "$room/told" || fail "install ends with $?: $(cat "$room/told")"
  files=$(find "$prefix" -type f | wc -l)
  [ "$(wc -l < "$room/said")" = "$((files - 1))" ] || fail "install says $(wc -l < "$room/said") files, and there are $files with its list"
  grep -q 'is not in PATH' "$room/told" || fail 'install does not say that the programs are not in PATH'
  cmp "$given/cyclist_check" "$prefix/bin/cyclist-check" || fail 'what is installed is not the program'
  [ "$(PATH=$prefix/bin:$PATH cyclist-check < "$example")" = 'accepted entailment nodes 1 links 0' ] || fail 'what is installed does not check'
  while read -r name _; do
    [ -x "$prefix/bin/$name" ] && [ -f "$prefix/share/man/man1/$name.1" ] || fail "$name or its page is not installed"
  done < <(grep -v '^#' "$top/programs.txt")
  [[ $("$top/install" --from "$given" "$prefix" 2> /dev/null) == "nothing is changed"* ]] || fail 'install changes something the second time'
  echo more >> "$prefix/share/man/man1/cyclist.1"
  [ "$("$top/install" --from "$given" "$prefix" 2> /dev/null)" = "installed $prefix/share/man/man1/cyclist.1" ] || fail 'a changed file is not installed again'
  [ "$("$top/install" --remove "$prefix" | wc -l)" = "$((files - 1))" ] || fail 'remove does not say what it removes'
  [ "$(find "$prefix" | wc -l)" = 2 ] || fail "remove leaves $(find "$prefix" -type f | head -n 3)"
}

try_refusals() {
  local prefix="$room/another"
  mkdir -p "$prefix/bin"
  echo mine > "$prefix/bin/cyclist-solve"
  "$top/install" --from "$given" "$prefix" > /dev/null 2>&1
  [ $? = 70 ] && [ "$(cat "$prefix/bin/cyclist-solve")" = mine ] && [ "$(find "$prefix" -type f | wc -l)" = 1 ] || fail 'a file of someone else is not left alone'
  "$top/install" --remove "$prefix" > /dev/null 2>&1
  [ $? = 1 ] || fail 'a removal of nothing does not end with 1'
  "$top/install" --form x > /dev/null 2>&1
  [ $? = 2 ] || fail 'words without a meaning do not end with 2'
  "$top/install" --from "$room/another" "$room/third" > /dev/null 2>&1
  [ $? = 70 ] && [ ! -e "$room/third" ] || fail 'missing programs do not end with 70'
}

try_package() {
  local made unpacked="$room/unpacked"
  made=$(cd "$room" && "$top/package" --from "$given") || fail "package ends with $?"
  made=$room/$made
  dpkg-deb -x "$made" "$unpacked" || fail 'the package cannot be unpacked'
  while read -r name crate _; do
    cmp "$given/$crate" "$unpacked/usr/bin/$name" || fail "what is packed is not the program $name"
  done < <(awk '!/^#/ && $2 != "-"' "$top/programs.txt")
  [ "$("$unpacked/usr/bin/cyclist" check < "$example")" = 'accepted entailment nodes 1 links 0' ] || fail 'what is packed does not check'
  [[ $(dpkg-deb -f "$made" Depends) =~ ^('libc6 (>= 2.'[0-9.]+')')?$ ]] || fail "the package needs '$(dpkg-deb -f "$made" Depends)'"
  if ldd "$given"/* | grep -v -e '^/' -e linux-vdso -e 'libc\.so' -e ld-linux; then fail 'a program needs more than the C library'; fi
  grep -q "^sha256 $(sha256sum < "$given/cyclist_draw" | cut -d' ' -f1)" "$unpacked/usr/share/doc/cyclist/proved" || fail 'the sums of the programs are not told'
  dpkg-deb -f "$made" Description | tr '\n' ' ' | grep -q "$(git -C "$top" rev-parse HEAD)" || fail 'the package does not name the commit'
  if there 'what lintian says of the package' lintian; then
    lintian --allow-root --fail-on error "$made" || fail 'lintian has errors'
  fi
}

# What bash completes of the words so far.
completed() { # WORD..
  # shellcheck disable=SC1091
  (. "$top/completions/cyclist.bash" && COMP_WORDS=("$given/cyclist" "$@") && COMP_CWORD=$# && _cyclist && echo "${COMPREPLY[*]}")
}

try_completion() {
  [ "$(completed '')" = 'check prove ring upgrade sat model disprove fo fo-check' ] || fail "bash completes '$(completed '')'"
  [ "$(completed d)" = disprove ] || fail "bash completes d to '$(completed d)'"
  [ "$(completed prove -)" = --depth ] && [ -z "$(completed ring '')" ] || fail "bash completes prove to '$(completed prove -)'"
  if type -P fish > /dev/null; then fish -n "$top/completions/cyclist.fish" || fail 'fish cannot read its completions'; fi
  if type -P zsh > /dev/null; then zsh -n "$top/completions/_cyclist" || fail 'zsh cannot read its completions'; fi
}

# What is run over the files: a checker of all lines but the first, which may say to wait or to note.
write_command() {
  cat > "$room/command" << end
#!/bin/sh
read -r first
case \$first in
  '# wait') exec sleep 1000 ;;
  '# hold') echo "begun \$first" >> '$room/notes'; until [ -e '$room/go' ]; do sleep 0.05; done ;;
  '# note'*) echo "begun \$first" >> '$room/notes' ;;
esac
'$given/cyclist_check'
status=\$?
case \$first in '# hold'|'# note'*) echo "ended \$first" >> '$room/notes' ;; esac
exit "\$status"
end
  chmod +x "$room/command"
}

# Twenty files and one that is not there: one takes too long, one is refused, one is no proof.
try_many() {
  local files="$room/many files" number
  mkdir "$files"
  for number in $(seq 1 16); do { echo '# go'; cat "$example"; } > "$files/number $number.proof"; done
  { echo '# wait'; cat "$example"; } > "$files/takes long"
  { echo '# go'; cat "$top/examples/freed-twice.proof"; } > "$files/is refused"
  echo '# go' > "$files/is no proof"
  { echo '# go'; cat "$top/examples/list-segments.proof"; } > "$files/of"$'\n'"two 'lines'"
  "$top/many" --seconds 10 --keep "$room/kept" "$room/command" -- "$files"/* "$files/is not there" > "$room/table" 2> "$room/told"
  [ $? = 1 ] || fail "many ends otherwise than with 1: $(cat "$room/told")"
  [ "$(head -n 1 "$room/table")" = $'status\tseconds\tmegabytes\tfile\tanswer' ] || fail 'the table of many begins otherwise'
  { echo 17 accepted entailment; printf '1 %s\n' 'no file' 'refused node' timeout 'unreadable syntax'; } > "$room/wanted"
  sed '1,/^$/d' "$room/table" | tr '\t' ' ' | LC_ALL=C sort | diff <(LC_ALL=C sort "$room/wanted") - || fail 'the sum of many is another'
  grep -qE $'^1\t[0-9.]+\t[0-9]+\t\'.*/is refused\'\trefused node 1 NoCell$' "$room/table" || fail 'the table does not say what is refused'
  grep -qE $'^timeout\t10\t-\t\'.*/takes long\'\t$' "$room/table" || fail 'the table does not say what takes long'
  grep -qE $'^0\t[0-9.]+\t[0-9]+\t\\$\'.*/of\\\\x0atwo .*\'\taccepted entailment nodes 8 links 1$' "$room/table" || fail 'a name of two lines is not told'
  [ "$(find "$room/kept" -type f -print0 | tr -cd '\0' | wc -c)" = 17 ] || fail 'many keeps another number of answers'
  [ "$(cat "$room/kept/number 1.proof.answer")" = 'accepted entailment nodes 1 links 0' ] || fail 'many keeps another answer'
  "$top/many" "$room/command" -- "$files"/number* > /dev/null 2>&1 || fail "many ends with $? where every run gives an answer"
}

try_limits() {
  { echo '# go'; echo 'cyclist proof 1;'; yes 'node true : emp |- true : emp by Done;' | head -n 20000; echo 'end;'; } > "$room/large"
  "$top/many" --megabytes 5 "$room/command" -- "$room/large" > "$room/table"
  [ $? = 1 ] && [[ $(sed -n 2p "$room/table") == memory$'\t'* ]] || fail "too little memory: $(sed -n 2p "$room/table")"
  "$top/many" --megabytes 500 "$room/command" -- "$room/large" > /dev/null || fail "enough memory ends with $?"
  (export SHELL=/no/shell && "$top/many" "$room/command" -- "$room/large" > /dev/null) || fail "a shell that is not there: $?"
  printf '#!/bin/sh\nshift\n[ "$1" != -- ] || shift\ncd / && exec sh -c "$*"\n' > "$room/elsewhere"
  chmod +x "$room/elsewhere"
  (unset SHELL && cd "$room" && "$top/many" --sshlogin "1/$room/elsewhere one" --sshlogin "1/$room/elsewhere two" ./command -- 'many files'/number* > "$room/table") ||
    fail "two places end with $?: $(cat "$room/table")"
  "$top/many" x > /dev/null 2>&1
  [ $? = 2 ] || fail 'many without files does not end with 2'
}

# An interruption in the middle: what had ended is not run again, what had not is.
try_resume() {
  local files="$room/held" number pid
  mkdir "$files"
  for number in 1 2 3 5 6; do { echo "# note $number"; cat "$example"; } > "$files/$number"; done
  { echo '# hold'; cat "$example"; } > "$files/4"
  "$top/many" --jobs 1 --resume "$room/state" "$room/command" -- "$files"/* > "$room/table" 2> "$room/told" &
  pid=$!
  for number in $(seq 1 1200); do
    if grep -qs 'begun # hold' "$room/notes"; then break; fi
    sleep 0.05
  done
  kill -INT "$pid"
  wait "$pid"
  [ $? = 130 ] || fail "an interruption does not end with 130: $(cat "$room/told")"
  sed '1,/^$/d' "$room/table" | grep -qxF $'3\taccepted entailment' || fail "three had ended, and the table is $(cat "$room/table")"
  "$top/many" --resume "$room/state" sh -- "$files"/* > /dev/null 2>&1
  [ $? = 70 ] || fail 'another command goes on in the same folder'
  touch "$room/go"
  "$top/many" --jobs 1 --resume "$room/state" "$room/command" -- "$files"/* > "$room/table" 2> "$room/told" || fail "going on ends with $?: $(cat "$room/told")"
  sed '1,/^$/d' "$room/table" | grep -qxF $'6\taccepted entailment' || fail 'going on gives another sum'
  [ "$(sort "$room/notes" | uniq -c | awk '{ print $1, $2, $3, $4 $5 }' | sort | tr '\n' ';')" = \
    '1 begun # note1;1 begun # note2;1 begun # note3;1 begun # note5;1 begun # note6;1 ended # hold;1 ended # note1;1 ended # note2;1 ended # note3;1 ended # note5;1 ended # note6;2 begun # hold;' ] ||
    fail "something was run twice, or not at all: $(tr '\n' ';' < "$room/notes")"
  "$top/many" --jobs 1 --resume "$room/state" "$room/command" -- "$files"/* > /dev/null 2>&1 || fail "the third time ends with $?"
  [ "$(wc -l < "$room/notes")" = 13 ] || fail 'the third time runs something again'
}

try_install
try_refusals
try_completion
if there 'the package' dpkg-deb; then try_package; fi
write_command
if there 'many' parallel time timeout; then
  try_many
  try_limits
  try_resume
fi
exit "$failed"
