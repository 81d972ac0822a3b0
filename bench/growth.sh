#!/usr/bin/env bash
# bench/growth.sh [PROGRAM]: for each command a family of inputs that doubles: seconds of processor and megabytes at K, 2K and 4K,
# and by how much the time grew at the last step (2 is linear, 4 quadratic; a dash where it is too short to say). Wants GNU time. Prints figures; it
# passes and fails nothing.
. "$(dirname "${BASH_SOURCE[0]}")/common.sh"

# One row: the family is a command that writes the input for a size.
row() { # NAME FAMILY K WORD..
  local name=$1 family=$2 size=$3 spent kilobytes before=0 figures='' growth
  shift 3
  for _ in 1 2 3; do
    "$family" "$size" > "$work/file"
    /usr/bin/time -q -f '%U %M' -o "$work/time" "$program" "${@//K/$size}" < "$work/file" > "$work/answer"
    read -r spent kilobytes < "$work/time"
    figures+=$(printf '%7d: %6.2f s %4d MB  ' "$size" "$spent" "$((kilobytes / 1024))")
    growth=$(echo "$before $spent" | awk '{ if ($1 < 0.02) print "-"; else printf "%.1f", $2 / $1 }')
    before=$spent
    size=$((2 * size))
  done
  printf '%-44s %s %5s  %s\n' "$name" "$figures" "$growth" "$(head -n 1 "$work/answer" | cut -c1-40)"
}

none() { :; }

# Definitions that nothing uses, then a list segment's.
definitions() { # COUNT
  awk -v n="$1" 'BEGIN {
    for (i = 0; i < n; i++) printf "pred p%d(a) { a = nil : emp | true : a -> (b) * p%d(b) };\n", i, (i + 1) % n
    print "pred ls(a, b) { a = b : emp | true : a -> (c) * ls(c, b) };"
  }'
}

segments() { # DEFINITIONS
  echo 'cyclist problem 1;'
  definitions "$1"
  printf 'goal true : ls(x, y) * ls(y, z) |- true : ls(x, z);\nend;\n'
}

no_segments() { # DEFINITIONS
  echo 'cyclist problem 1;'
  definitions "$1"
  printf 'goal true : ls(x, y) * ls(y, z) |- true : ls(x, z) * ls(y, z);\nend;\n'
}

chain() { # DEFINITIONS
  echo 'cyclist problem 1;'
  definitions "$1"
  printf 'goal true : p0(x) |- true : emp;\nend;\n'
}

# A program of so many jumps forward.
jumps() { # LINES
  awk -v n="$1" 'BEGIN {
    print "cyclist problem 1;"
    for (i = 1; i < n; i++) printf "line %d : goto %d;\n", i, i + 1
    printf "line %d : stop;\ngoal from 1 given true : emp;\nend;\n", n
  }'
}

# A counter of as many bits as make so many base pairs, which come one after the other.
counter() { # PAIRS
  awk -v pairs="$1" '
    function bits(name,   i, s) { for (i = 1; i <= n; i++) s = s (i > 1 ? ", " : "") name i; return s }
    function each(pred,   i, s) { for (i = 1; i <= n; i++) s = s (i > 1 ? " * " : "") pred "(x" i ")"; return s }
    function successor(   i, s, carry) {
      s = "not(y1, x1)"; carry = "y1"
      for (i = 2; i <= n; i++) {
        s = s " * xor(y" i ", " carry ", x" i ")"
        if (i < n) s = s " * and(y" i ", " carry ", c" i ")"
        carry = "c" i
      }
      return s
    }
    BEGIN {
      for (n = 0; pairs > 1; n++) pairs = pairs / 2
      print "cyclist problem 1;"
      print "pred zero(a) { a = nil : emp };\npred one(a) { a != nil : emp };"
      print "pred not(a, b) { true : zero(a) * one(b) | true : one(a) * zero(b) };"
      printf "pred xor(a, b, c) { true : zero(a) * zero(b) * zero(c) | true : zero(a) * one(b) * one(c)"
      print " | true : one(a) * zero(b) * one(c) | true : one(a) * one(b) * zero(c) };"
      printf "pred and(a, b, c) { true : zero(a) * zero(b) * zero(c) | true : zero(a) * one(b) * zero(c)"
      print " | true : one(a) * zero(b) * zero(c) | true : one(a) * one(b) * one(c) };"
      printf "pred count(%s) { true : %s | true : count(%s) * %s };\n", bits("x"), each("zero"), bits("y"), successor()
      printf "goal true : count(%s) * %s |- true : emp;\nend;\n", bits("x"), each("one")
    }'
}

# A list of so many cells, whose fields are the next address.
cells() { # COUNT
  awk -v n="$1" 'BEGIN {
    print "cyclist model 1;\npred list(1) { $0 = nil : emp | true : $0 -> (?0) * list(?0) };\nstack 1;"
    printf "heap "
    for (i = 1; i <= n; i++) printf("%s%d -> (%d)", i > 1 ? ", " : "", i, i < n ? i + 1 : 0)
    print ";\nask true : list($0);\nend;"
  }'
}

numbers() { # DEFINITIONS: that nothing uses, then those of numbers
  awk -v n="$1" 'BEGIN {
    print "con z 0;\ncon s 1;"
    for (i = 0; i < n; i++) printf "pred p%d(1) { $0 = z() | $0 = s(?0), p%d(?0) };\n", i, (i + 1) % n
    print "pred nat(1) { $0 = z() | $0 = s(?0), nat(?0) };\npred even(1) { $0 = z() | $0 = s(s(?0)), even(?0) };"
  }'
}

even_numbers() { # DEFINITIONS
  echo 'cyclist foproblem 1;'
  numbers "$1"
  printf 'goal even($0) |- nat($0);\nend;\n'
}

# A copy of an atom is made and dropped, so many times.
copies() { # TIMES
  awk -v n="$1" 'BEGIN {
    print "cyclist fo 1;\ncon z 0;\ncon s 1;\npred nat(1) { $0 = z() | $0 = s(?0), nat(?0) };"
    for (i = 0; i < n; i++) {
      printf "node nat($0) |- nat($0) by Contract 0 to %d;\n", 2 * i + 1
      printf "node nat($0), nat($0) |- nat($0) by WeakenLeft 0 to %d;\n", 2 * i + 2
    }
    print "node nat($0) |- nat($0) by Axiom 0 0;\nend;"
  }'
}

printf '%-44s %-25s%-25s%-25s %s\n' family 'K: seconds, MB' 2K 4K growth
row 'check: the ring of K predicates' ring 500 check
row 'prove: K definitions' segments 1000 prove
row 'prove: a program of K lines' jumps 9 prove --depth 40
row 'disprove: K definitions' no_segments 1000 disprove
row 'sat: K definitions' chain 1000 sat
row 'sat: a counter with K base pairs' counter 64 sat
row 'model: a list of K cells' cells 4 model
row 'fo: K definitions' even_numbers 1000 fo
row 'fo-check: K copies' copies 2000 fo-check
row 'upgrade: the ring of K predicates' ring 500 upgrade
row 'ring: K predicates' none 500 ring K
