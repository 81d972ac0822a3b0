# .layout.sh, read by `install` and `package`: the files of an installation, laid out in a folder as below a prefix.
# shellcheck shell=bash source=.build.sh
. "$(dirname "$(readlink -f "${BASH_SOURCE[0]}")")/.build.sh"

# The crates of the programs.
program_crates() {
  programs | awk '$2 != "-" { print $2 }'
}

# Sees that each program is there: in the folder that was given, under its crate's name, or built of the sources as they are.
have_programs() { # GIVEN-FOLDER
  local each missing=()
  for each in $(program_crates); do
    if [ -n "$1" ]; then
      [ -x "$1/$each" ] || { echo "$name: there is no program $1/$each" >&2; exit 70; }
    else
      choose_crate "$each"
      is_current || missing+=("$each")
    fi
  done
  [ "${#missing[@]}" = 0 ] || build_or_exit "${missing[@]}"
}

# Where the program of a crate is.
program_of() { # CRATE GIVEN-FOLDER
  choose_crate "$1"
  echo "${2:-$out}/$1"
}

# Says which sources the programs were proved with, in which toolchain, and what their sums are; of programs that were given, their sums.
provenance() { # GIVEN-FOLDER
  local each commit
  commit=$(git -C "$top" rev-parse HEAD 2> /dev/null) || commit='that is not known'
  [ -z "$(git -C "$top" status --porcelain 2> /dev/null)" ] || commit="$commit, with changes that are not committed"
  if [ -n "$1" ]; then
    echo 'The programs were given as they are; nothing is known here of their proofs.'
    echo "The other files are of commit $commit."
  else
    echo "The programs were proved and built of the sources of commit $commit."
  fi
  for each in $(program_crates); do
    choose_crate "$each"
    printf '\n%s\nsha256 %s\n' "$each" "$(sha256sum < "$(program_of "$each" "$1")" | cut -d' ' -f1)"
    [ -n "$1" ] || echo "toolchain $(sed -n 3p "$record")"
  done
}

lay_out_programs() { # FOLDER GIVEN-FOLDER
  while read -r installed each script; do
    if [ "$each" = - ]; then program=$top/$script; else program=$(program_of "$each" "$2"); fi
    install -D -m 755 "$program" "$1/bin/$installed" || return 1
  done < <(programs)
}

lay_out_pages() { # FOLDER
  for page in "$top"/man/*.[15]; do
    install -D -m 644 "$page" "$1/share/man/man${page##*.}/${page##*/}" || return 1
  done
}

lay_out_documents() { # FOLDER
  for text in "$top"/README.md "$top"/docs/*.md; do
    install -D -m 644 "$text" "$1/share/doc/cyclist/${text##*/}" || return 1
  done
  while IFS= read -r -d '' example; do
    install -D -m 644 "$top/examples/$example" "$1/share/doc/cyclist/examples/$example" || return 1
  done < <(cd "$top/examples" && find . -type f ! -name '*.sh' ! -name '*.md' ! -name answers.txt -print0)
}

lay_out() { # FOLDER GIVEN-FOLDER
  lay_out_programs "$1" "$2" && lay_out_pages "$1" && lay_out_documents "$1" || return 1
  provenance "$2" > "$1/share/doc/cyclist/proved" || return 1
  chmod 644 "$1/share/doc/cyclist/proved"
  install -D -m 644 "$top/completions/cyclist.bash" "$1/share/bash-completion/completions/cyclist" &&
    install -D -m 644 "$top/completions/_cyclist" "$1/share/zsh/site-functions/_cyclist" &&
    install -D -m 644 "$top/completions/cyclist.fish" "$1/share/fish/vendor_completions.d/cyclist.fish"
}
