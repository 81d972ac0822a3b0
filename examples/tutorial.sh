#!/usr/bin/env bash
# examples/tutorial.sh CYCLIST SOLVE: types the commands of README.md in this folder, in a copy of the examples, and compares what
# they write with what stands there. A line that begins with `$ ` is a command, one with `> ` goes on with it, and what follows is
# what it writes.
set -u
cyclist=$(realpath "$1")
solve=$(realpath "$2")
here=$(cd "$(dirname "$0")" && pwd)
room=$(mktemp -d)
trap 'rm -rf "$room"' EXIT
cp -R "$here" "$room/examples" && ln -s "$cyclist" "$room/cyclist" && ln -s "$solve" "$room/solve"
command=
wanted=
typed=0
failed=0

# Types the command that was read, if there is one.
type_it() {
  local got
  [ -n "$command" ] || { wanted=; return 0; }
  got=$(cd "$room" && bash -c "$command" 2>&1)
  if [ "$got" != "${wanted%$'\n'}" ]; then
    printf 'examples/README.md: %s\nwrites\n%s\nand not\n%s' "$command" "$got" "$wanted"
    failed=1
  fi
  typed=$((typed + 1))
  command=
  wanted=
}

while IFS= read -r line; do
  case $line in
    '    $ '*) type_it; command=${line#    $ } ;;
    '    > '*) command+=$'\n'${line#    > } ;;
    '    '*) wanted+=${line#    }$'\n' ;;
    *) type_it ;;
  esac
done < "$here/README.md"
type_it
[ "$typed" -ge 15 ] || { echo "examples/README.md has $typed commands"; failed=1; }
exit "$failed"
