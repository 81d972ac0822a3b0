#!/usr/bin/env bash
# bench/links.sh [PROGRAM]: goals with so many like atoms, for which `prove` lists the links from a bud to a companion:
# seconds of processor and megabytes for 4, 6, 8, 10 and 12 atoms, a dash where 60 seconds of processor do not suffice, and
# the answer for 12. Wants GNU time. Prints figures; it passes and fails nothing.
. "$(dirname "${BASH_SOURCE[0]}")/common.sh"

# One row: the family is a command that writes the input for a number of atoms.
row() { # NAME FAMILY DEPTH
  local name=$1 family=$2 depth=$3 spent kilobytes figures='' size
  for size in 4 6 8 10 12; do
    "$family" "$size" > "$work/file"
    (ulimit -t 60; exec /usr/bin/time -q -f '%U %M' -o "$work/time" "$program" prove --depth "$depth" < "$work/file" > "$work/answer")
    if [ $? -lt 128 ]; then
      read -r spent kilobytes < "$work/time"
      figures+=$(printf '%3d: %6.2f s %4d MB  ' "$size" "$spent" "$((kilobytes / 1024))")
    else
      figures+=$(printf '%3d:      - s    - MB  ' "$size")
    fi
  done
  printf '%-44s %s %s\n' "$name" "$figures" "$(head -n 1 "$work/answer" | cut -c1-24)"
}

lists='pred l(a) { true : l(b) | a = nil : emp };
pred k(a) { true : k(a) | a = nil : emp };
pred r(a, b) { a = b : emp | true : a -> (c) * r(c, b) };'

# So many atoms of a pattern, with I for the number and N for the next.
atoms() { # COUNT PATTERN
  local i all=''
  for ((i = 1; i <= $1; i++)); do
    local atom=${2//I/$i}
    all+="${all:+ * }${atom//N/$((i + 1))}"
  done
  echo "$all"
}

problem() { # LEFT RIGHT
  printf 'cyclist problem 1;\n%s\ngoal %s |- %s;\nend;\n' "$lists" "$1" "$2"
}

# The same atom so many times: the one that is unfolded differs then, and the others have one place less than they need.
equal() { problem "true : $(atoms "$1" 'l(x)')" 'true : emp'; }

# Each atom has its own variable: every order of the atoms is a link.
different() { problem "true : $(atoms "$1" 'l(xI)')" 'true : emp'; }

# The right side ties the variables together, so that one order is a link.
tied() { problem "true : $(atoms "$1" 'k(xI)')" "true : $(atoms "$1" 'r(xI, xN)')"; }

# One atom of the right side has the variables, eight at the most.
wide() {
  local i names='x1' size=$(($1 < 8 ? $1 : 8))
  for ((i = 2; i <= size; i++)); do names+=", x$i"; done
  printf 'cyclist problem 1;\npred k(a) { true : k(a) | a = nil : emp };\npred all(%s) { true : x1 -> (nil) };\n' "$names"
  printf 'goal true : %s |- true : all(%s);\nend;\n' "$(atoms "$1" 'k(xI)')" "$names"
}

# The left side says of two variables that they differ.
unequal() { problem "x1 != x2 : $(atoms "$1" 'l(xI)')" 'true : emp'; }

# Variables of the right side alone.
right_alone() { problem 'true : k(x)' "true : $(atoms "$1" 'r(uI, uN)')"; }

# Cells beside the atoms.
mixed() { problem "true : $(atoms "$(($1 / 2))" 'zI -> (xI) * k(xI)')" 'true : emp'; }

# A program that walks along a list, with other lists beside it.
walk() {
  printf 'cyclist problem 1;\npred p(a) { a = nil : emp | true : a -> (b) * p(b) };\n'
  printf 'line 1 : if x = nil goto 4;\nline 2 : x := x.1;\nline 3 : goto 1;\nline 4 : stop;\n'
  printf 'goal from 1 given true : p(x) * %s;\nend;\n' "$(atoms "$(($1 - 1))" 'p(yI)')"
}

row 'the same atom: no link' equal 2
row 'tied by the right side: one link' tied 2
row 'one wide atom on the right: one link' wide 2
row 'variables of the right side alone: one link' right_alone 2
row 'cells and predicates: half as many orders' mixed 3
row 'two that differ: the orders of the others' unequal 2
row 'each its own variable: all orders' different 2
row 'a program beside lists: all their orders' walk 8
