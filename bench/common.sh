# What the benchmarks share: the program to measure, a folder for its input and answer, the seconds of a run, and two
# families of proofs.
set -u
top=$(cd "$(dirname "${BASH_SOURCE[0]}")/.." && pwd)
program=${1:-$top/crates/cyclist/out/cyclist}
[ -x "$program" ] || { echo "no program at $program; build it with $top/cyclist" >&2; exit 1; }
work=$(mktemp -d)
trap 'rm -rf "$work"' EXIT

seconds() { # COMMAND..: of a run with the file as its input
  local start end
  start=$(date +%s.%N)
  "$@" < "$work/file" > "$work/answer"
  end=$(date +%s.%N)
  echo "$end - $start" | bc
}

ring() { # K: the proof that the ring of K predicates entails the plain list
  awk -v K="$1" '
    function node(left, right, reason) { printf "node %s |- %s by %s;\n", left, right, reason }
    BEGIN {
      print "cyclist proof 1;"
      for (i = 0; i < K; i++) printf "pred p%d(1) { $0 = nil : emp | true : $0 -> (?0) * p%d(?0) };\n", i, (i + 1) % K
      print "pred q(1) { $0 = nil : emp | true : $0 -> (?0) * q(?0) };"
      for (i = 0; i < K; i++) {
        b = 8 * i; v = "$" i; u = "$" (i + 1); j = (i + 1) % K
        node("true : p" i "(" v ")", "true : q(" v ")", "Unfold 0 to " b + 1 " " b + 5)
        node(v " = nil : emp", "true : q(" v ")", "Rewrite 0 left to " b + 2)
        node("true : emp", "true : q(nil)", "UnfoldRight 0 0 to " b + 3)
        node("true : emp", "nil = nil : emp", "PureRight 0 to " b + 4)
        node("true : emp", "true : emp", "Done")
        rest = "true : " v " -> (" u ") * p" j "(" u ")"
        node(rest, "true : q(" v ")", "UnfoldRight 0 1 to " b + 6)
        node(rest, "true : " v " -> (?0) * q(?0)", "Instantiate ?0 " u " to " b + 7)
        node(rest, "true : " v " -> (" u ") * q(" u ")", "Frame 0 0 to " b + 8)
      }
      node("true : p0($" K ")", "true : q($" K ")", "Link 0 { $0 := $" K " } [0] [0]")
      print "end;"
    }'
}

# A right proof with many product states: n atoms, of which the first is unfolded again and again, after it two ways on, one of
# which turns the order of the atoms round. Each way is a permutation of the atoms, so each trace comes back to its place.
turns() { # ATOMS NODES: so many atoms, and nodes before the two ways part
  awk -v n="$1" -v k="$2" '
    function pures(count, more,   i, s) {
      s = more
      for (i = 0; i < count; i++) s = (i ? "nil = nil, " : "nil = nil" (more == "" ? "" : ", ")) s
      return s == "" ? "true" : s
    }
    function node(count, more, reason) { printf "node %s : %s |- true : emp by %s;\n", pures(count, more), atoms, reason }
    BEGIN {
      for (i = 0; i < n; i++) {
        atoms = atoms (i ? " * " : "") "e()"
        same = same (i ? " " : "") i
        round = round (i ? " " : "") (n - 1 - i)
      }
      print "cyclist proof " (n > 32 ? 3 : n > 16 ? 2 : 1) ";\npred e(0) { true : e() };"
      for (i = 0; i < k; i++) node(k - i, "", "Weaken 0 to " i + 1)
      node(0, "", "Split $0 $1 to " k + 1 " " k + 3)
      node(0, "$0 = $1", "Unfold 0 to " k + 2)
      node(0, "$0 = $1", "Link 0 { } [" same "] [0]")
      node(0, "$0 != $1", "Unfold 0 to " k + 4)
      node(0, "$0 != $1", "Link 0 { } [" round "] [0]")
      print "end;"
    }'
}

# A problem that has no proof by the moves, and many partial ones: lists of even length one after the other make no list of even
# length where the last is a list of any length.
even_lists() { # COUNT: so many lists, the last of any length
  awk -v n="$1" '
    BEGIN {
      print "cyclist problem 1;"
      print "pred ls(a, b) { a = b : emp | true : a -> (c) * ls(c, b) };"
      print "pred even(a, b) { a = b : emp | true : a -> (c) * odd(c, b) };"
      print "pred odd(a, b) { true : a -> (c) * even(c, b) };"
      printf "goal true : "
      for (i = 0; i < n; i++) printf "%s%s(x%d, x%d)", i ? " * " : "", i < n - 1 ? "even" : "ls", i, i + 1
      printf " |- true : even(x0, x%d);\nend;\n", n
    }'
}

# A problem of which no proof of depth 16 is found, and many partial ones are made: three lists of odd length and one more.
odd_lists() { # LAST RIGHT: the predicate of the last list, and the right side
  cat <<END
cyclist problem 1;
pred ls(a, b) { a = b : emp | true : a -> (c) * ls(c, b) };
pred even(a, b) { a = b : emp | true : a -> (c) * odd(c, b) };
pred odd(a, b) { true : a -> (c) * even(c, b) };
goal true : odd(x, y) * odd(y, z) * odd(z, u) * $1(u, v) |- true : $2;
end;
END
}

# A problem whose search passes the limit of derivations, and tries many links on the way.
two_ways() {
  cat <<'END'
cyclist problem 1;
pred p() { true : p() * q(nil, nil) | true : p() * u -> (u) * p() };
pred q(a, b) { true : emp };
goal true : p() |- true : emp;
end;
END
}

# A problem whose search passes the limit of derivations and tries no link: each goal has two cases, and its judgement stays as small.
two_cases() {
  cat <<'END'
cyclist problem 1;
pred p() { true : p() | true : p() };
goal true : emp |- true : p();
end;
END
}

# A program that allocates pairs for ever: it does not halt, and the links between its states are many.
endless_pairs() {
  cat <<'END'
cyclist problem 1;
line 1 : x := new 2;
line 2 : goto 1;
goal from 1 given true : emp;
end;
END
}

# Runs the program on the file "$work/file" with these words, and prints seconds, memory and the first line of its answer.
show() { # NAME WORD..
  local name=$1 spent kilobytes
  shift
  /usr/bin/time -q -f '%e %M' -o "$work/time" "$program" "$@" < "$work/file" > "$work/answer"
  read -r spent kilobytes < "$work/time"
  printf '%-36s %8.2f s %6d MB  %s\n' "$name" "$spent" "$((kilobytes / 1024))" "$(head -n 1 "$work/answer")"
}

wide_ring() { # K ATOMS: K predicates, each of which is the next one, beside atoms that stay: traces follow the last of so many atoms
  awk -v K="$1" -v n="$2" '
    function node(i, reason) { printf "node true : %sp%d() |- true : emp by %s;\n", beside, i % K, reason }
    BEGIN {
      print "cyclist proof " (n > 32 ? 3 : n > 16 ? 2 : 1) ";"
      for (i = 0; i < K; i++) printf "pred p%d(0) { true : p%d() };\n", i, (i + 1) % K
      print "pred e(0) { true : emp };"
      for (i = 0; i < n; i++) {
        if (i) beside = beside "e() * "
        places = places (i ? " " : "") i
      }
      for (i = 0; i < K; i++) node(i, "Unfold " n - 1 " to " i + 1)
      node(0, "Link 0 { } [" places "] [0]")
      print "end;"
    }'
}
