# shellcheck shell=bash
# .build.sh, read by the scripts that become a program of this repository (programs.txt), and by `install` and `package`. A program is
# proved and built first where it is missing or its sources are not those it was built of.
set -u
top=$(cd "$(dirname "$(readlink -f "${BASH_SOURCE[0]}")")" && pwd)

# Prints the programs of programs.txt: the name where it is installed, the crate or `-`, the script that becomes it.
programs() {
  sed 's/#.*//; /^[[:space:]]*$/d' "$top/programs.txt"
}

# Prints the lines of crates.txt of these crates and of those below them.
lines_below() { # CRATE..
  awk -v top_crates="$*" '
    function take(name, uses, count, i) {
      if (!(name in text) || name in taken) return
      taken[name] = 1
      print text[name]
      count = split(text[name], uses, /[: \t]+/)
      for (i = 2; i <= count; i++) take(uses[i])
    }
    { sub(/#.*/, "") }
    NF { split($0, words, /[: \t]+/); text[words[1]] = $0 }
    END { count = split(top_crates, tops, " "); for (i = 1; i <= count; i++) take(tops[i]) }
  ' "$top/crates.txt"
}

# The files and folders of the sources of the crates below the one that was chosen, of which `find` takes the words. Fails where one
# is missing.
sources() { # WORDS..
  local names
  mapfile -t names < <(lines_below "$crate" | cut -d: -f1)
  [ "${#names[@]}" -gt 0 ] && (cd "$top/crates" && find "${names[@]}" \( -name out -o -name must-fail \) -prune -o "$@")
}

sum_of_sources() {
  (lines_below "$crate"; cat "$top/HANDLES"; sources -type f -print0 2> /dev/null | LC_ALL=C sort -z | (cd "$top/crates" && xargs -0 sha256sum)) | sha256sum
}

# A time before which every change has been made: a second ago, since a file's time may be some thousandths behind the clock.
now() {
  echo "@$(($(date +%s) - 1))"
}

# Whether a source changed after this file's time, or is missing. A change is told by the time at which the system saw it, which,
# unlike the time that a file bears, no copy and no archive brings along. The words are further tests of `find`.
changed_after() { # FILE TEST..
  local changed
  changed=$(sources "${@:2}" -cnewer "$1" -print 2>&1) || return 0
  [ -n "$changed$(find "$top/crates.txt" "$top/HANDLES" -cnewer "$1")" ]
}

# The toolchain that is here.
kit_here() {
  rt version 2> /dev/null || echo 'of a toolchain that is not here'
}

# Writes the record beside the program, of three lines: the sum of the sources that it was built of, its own, and the toolchain. The file's
# time is one at which the sources had that sum.
write_record() { # TIME SUM-OF-SOURCES TOOLCHAIN
  { echo "$2"; sha256sum < "$program"; echo "$3"; } > "$record.new" && touch -d "$1" "$record.new" && mv "$record.new" "$record"
}

# Whether the record is of this program.
is_recorded() {
  [ -f "$record" ] && [ "$(sha256sum < "$program")" = "$(sed -n 2p "$record")" ]
}

# Whether the program was built of the sources as they are. One without a record of its own was left by the gate: of it the times alone
# tell, and it gets a record, with the toolchain that is here. (That a source changed while the gate was at work, they do not tell. A
# crate's own folder changes too where something is built in it, so that its time says nothing.)
is_current() {
  local time sum kit
  [ -x "$program" ] || return 1
  if is_recorded && ! changed_after "$record"; then return 0; fi
  time=$(now)
  sum=$(sum_of_sources)
  if is_recorded; then
    [ "$sum" = "$(head -n 1 "$record")" ] || return 1
    kit=$(sed -n 3p "$record")
  else
    ! changed_after "$program" -path '*/*' || return 1
    kit=$(kit_here)
  fi
  write_record "$time" "$sum" "$kit" 2> /dev/null || true
}

# Copies the crates below these, without must-fail edits, as a repository that the gate can prove.
copy_crates() { # ROOM CRATE..
  local room=$1
  shift
  mkdir "$room/.git" "$room/crates" && lines_below "$@" > "$room/crates.txt" && cp "$top/HANDLES" "$room" || return 1
  while IFS=': ' read -r below _; do
    mkdir "$room/crates/$below" || return 1
    for part in "$top/crates/$below"/*; do
      case ${part##*/} in out|must-fail) ;; *) cp -R "$part" "$room/crates/$below" || return 1 ;; esac
    done
  done < "$room/crates.txt"
}

# Shows how many crates are proved, or kept by a toolchain that keeps proofs, until the gate has ended.
show_progress() { # ROOM GATE
  local all shown=-1 count
  all=$(wc -l < "$1/crates.txt")
  while kill -0 "$2" 2> /dev/null; do
    count=$(grep -cE '^rt: [a-z_0-9]+ (proved$|is kept)' "$1/log")
    if [ "$count" != "$shown" ]; then
      shown=$count
      if [ -t 2 ]; then printf '\r%s: %d of %d crates proved ' "$name" "$count" "$all"; else echo "$name: $count of $all crates proved"; fi >&2
    fi
    sleep 1
  done
  if [ -t 2 ]; then echo >&2; fi
}

# Moves a crate's program out of the room into its place, with its record.
take_program() { # ROOM CRATE TIME TOOLCHAIN
  local built=$1/crates/$2/out/$2
  choose_crate "$2"
  [ -x "$built" ] && mkdir -p "$out" && cp "$built" "$program.new" && mv "$program.new" "$program" && write_record "$3" "$(cat "$1/$2.sum")" "$4"
}

# Proves the crates as the gate does, side by side, and moves the programs of these into their places.
build() { # ROOM CRATE..
  local room=$1 time kit each
  shift
  time=$(now)
  kit=$(kit_here)
  for each in "$@"; do
    choose_crate "$each"
    sum_of_sources > "$room/$each.sum"
  done
  copy_crates "$room" "$@" && : > "$room/log" || return 1
  set -m
  (cd "$room" && exec rt ci < /dev/null > "$room/log" 2>&1) &
  gate=$!
  set +m
  show_progress "$room" "$gate"
  wait "$gate" || return 1
  for each in "$@"; do
    take_program "$room" "$each" "$time" "$kit" || return 1
  done
}

leave_nothing() {
  if [ -n "$gate" ]; then kill -- "-$gate" 2> /dev/null; wait "$gate" 2> /dev/null; fi
  rm -rf "$room" "$program.new" "$record.new"
}

build_or_exit() { # CRATE..
  local failed
  command -v rt > /dev/null || { echo "$name: the toolchain's command rt is not here" >&2; exit 70; }
  echo "$name: the first build proves the program and all crates below it, side by side; that takes an hour of processor or more" >&2
  gate='' room=$(mktemp -d) || exit 70
  choose_crate "$1"
  trap leave_nothing EXIT
  trap 'exit 70' INT TERM HUP
  if ! build "$room" "$@"; then
    failed=$(grep -hoE '^rt: [a-z_0-9]+ NOT PROVED|^rt: FAILED.*' "$room/log" 2> /dev/null | head -n 1)
    mkdir -p "$out" && cp "$room/log" "$out/build.log"
    echo "$name: the build failed${failed:+ (${failed#rt: })}; its log is $out/build.log" >&2
    exit 70
  fi
  leave_nothing
  trap - EXIT INT TERM HUP
}

# Names a crate and its program, for the functions above.
choose_crate() { # CRATE
  crate=$1
  out=$top/crates/$crate/out
  program=$out/$crate
  record=$program.sources
}

# Chooses the crate of a script's program.
choose() { # SCRIPT
  name=$1
  choose_crate "$(programs | awk -v script="$1" '$3 == script { print $2 }')"
}

# Becomes the program of a script, with these words.
become() { # SCRIPT WORDS..
  choose "$1"
  shift
  is_current || build_or_exit "$crate"
  exec "$program" "$@"
}
