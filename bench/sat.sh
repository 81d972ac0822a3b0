#!/usr/bin/env bash
# bench/sat.sh [PROGRAM]: seconds and memory of `sat` on the problems of examples/, on 4,096 predicates of which each uses
# another (in the order of the file, against it, and mixed), on a ring of them, on a family of many base pairs and on one
# above the limit, and on counters of bits, whose base pairs come one after the other, and on goals of many states. Wants GNU time. Prints figures; it passes and fails nothing.
. "$(dirname "${BASH_SOURCE[0]}")/common.sh"

# The predicates p0 to p(n-1), in the order that is read; each is a cell before the next, the last the empty heap at nil.
chain() { # COUNT ENDS: the last leads on to p0 where ENDS is ring
  awk -v n="$1" -v ends="$2" '
    BEGIN { print "cyclist problem 1;" }
    { i = $1; next_one = i + 1
      if (i == n - 1 && ends != "ring") printf "pred p%d(a) { a = nil : emp };\n", i
      else printf "pred p%d(a) { a = nil : emp | true : a -> (b) * p%d(b) };\n", i, next_one % n }
    END { print "goal true : p0(x) |- true : emp;\nend;" }'
}

# Predicates of eight parameters, each of which may be nil or not and equal to the next or not.
family() { # COUNT: of such predicates, each with one disequation more
  awk -v n="$1" '
    BEGIN {
      print "cyclist problem 1;"
      print "pred is(a) { a = nil : emp | a != nil : emp };"
      print "pred same(a, b) { a = b : emp | a != b : emp };"
      for (i = 0; i < n; i++) {
        printf "pred q%d(a, b, c, d, e, f, g, h) { true : ", i
        printf "same(a, b) * same(b, c) * same(c, d) * same(d, e) * same(e, f) * same(f, g) * same(g, h)"
        printf " * is(a) * is(b) * is(c) * is(d) * is(e) * is(f) * is(g) * is(h) };\n"
      }
      print "goal true : q0(s, t, u, v, w, x, y, z) |- true : emp;\nend;"
    }'
}

# A counter as definitions (in the manner of Brotherston, Fuhs, Navarro Perez and Gorogiannis 2014): of n bits, nil for 0, a
# predicate holds of zero and of the successor of each number of which it holds.
counter() { # BITS
  awk -v n="$1" '
    function bits(name,   i, s) { for (i = 1; i <= n; i++) s = s (i > 1 ? ", " : "") name i; return s }
    function each(pred,   i, s) { for (i = 1; i <= n; i++) s = s (i > 1 ? " * " : "") pred "(x" i ")"; return s }
    function successor(   i, s, carry) {
      s = "not(y1, x1)"; carry = "y1"
      for (i = 2; i <= n; i++) {
        s = s " * xor(y" i ", " carry ", x" i ")"
        if (i < n) s = s " * and(y" i ", " carry ", c" i ")"
        carry = "c" i
      }
      return s
    }
    BEGIN {
      print "cyclist problem 1;"
      print "pred zero(a) { a = nil : emp };\npred one(a) { a != nil : emp };"
      print "pred not(a, b) { true : zero(a) * one(b) | true : one(a) * zero(b) };"
      printf "pred xor(a, b, c) { true : zero(a) * zero(b) * zero(c) | true : zero(a) * one(b) * one(c)"
      print " | true : one(a) * zero(b) * one(c) | true : one(a) * one(b) * zero(c) };"
      printf "pred and(a, b, c) { true : zero(a) * zero(b) * zero(c) | true : zero(a) * one(b) * zero(c)"
      print " | true : one(a) * zero(b) * zero(c) | true : one(a) * one(b) * one(c) };"
      printf "pred count(%s) { true : %s | true : count(%s) * %s };\n", bits("x"), each("zero"), bits("y"), successor()
      printf "goal true : count(%s) * %s |- true : emp;\nend;\n", bits("x"), each("one")
    }'
}

# A goal of n atoms that leave two base pairs each, and of wide ones that keep their terms, each term in two that share few others.
apart() { # COUNT: a multiple of 8
  awk -v n="$1" '
    BEGIN {
      print "cyclist problem 2;\npred is(a) { a = nil : emp | a != nil : emp };"
      print "pred wide(a, b, c, d, e, f, g, h) { true : emp };"
      printf "goal true : is(x0)"
      for (i = 1; i < n; i++) printf " * is(x%d)", i
      for (i = 0; i < n; i += 8) {
        printf " * wide(x%d", i
        for (j = 1; j < 8; j++) printf ", x%d", i + j
        printf ") * wide(x%d", i / 8
        for (j = 1; j < 8; j++) printf ", x%d", i / 8 + j * n / 8
        printf ")"
      }
      print " |- true : emp;\nend;"
    }'
}

for problem in "$top"/examples/*.problem; do
  cp "$problem" "$work/file"
  show "$(basename "$problem" .problem)" sat
done
seq 0 4095 | chain 4096 end > "$work/file"; show '4,096 predicates in a chain' sat
seq 4095 -1 0 | chain 4096 end > "$work/file"; show 'the same against the order' sat
seq 0 4095 | awk '{ print ($1 * 1597) % 4096 }' | chain 4096 end > "$work/file"; show 'the same mixed' sat
seq 0 4095 | awk '{ print ($1 * 1597) % 4096 }' | chain 4096 ring > "$work/file"; show '4,096 predicates in a ring, mixed' sat
for count in 1 4 16 32 48 64; do
  family "$count" > "$work/file"; show "$count predicates of eight parameters" sat
done
for count in 4 6 7 8; do
  counter "$count" > "$work/file"; show "a counter of $count bits" sat
done
for count in 8 16 24; do
  apart "$count" > "$work/file"; show "a goal of $count atoms with two base pairs each" sat
done
