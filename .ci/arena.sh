#!/usr/bin/env bash
# .ci/arena.sh: of the two programs in crates/proof_graph/must-fail/graph_past_its_arena.md, which keep a graph, the first must be
# refused with the message that stands there, since the graph outlives its arena; the second must compile. Each is tried as a crate
# of its own, above copies of proof_graph and the crates below it, without a proof.
set -u
top=$(cd "$(dirname "${BASH_SOURCE[0]}")/.." && pwd)
page=$top/crates/proof_graph/must-fail/graph_past_its_arena.md
room=$(mktemp -d)
trap 'rm -rf "$room"' EXIT

fail() { # MESSAGE
  echo "arena: $1"
  exit 1
}

program() { # NUMBER: that program of the page
  awk -v wanted="$1" '
    /^    / { if (!inside) count++; inside = 1; if (count == wanted) print substr($0, 5); next }
    { inside = 0 }' "$page"
}

uses=$(sed -n 's/^proof_graph: //p' "$top/crates.txt")
[ -n "$uses" ] || fail 'crates.txt has no line for proof_graph'
mkdir -p "$room/crates/kept_graph/src"
for name in proof_graph $uses; do
  [ -d "$top/crates/$name" ] || continue
  mkdir -p "$room/crates/$name"
  cp -r "$top/crates/$name/src" "$room/crates/$name/src"
  grep "^$name:" "$top/crates.txt" >> "$room/crates.txt"
done
echo "kept_graph: proof_graph heap_formula bumpalo" >> "$room/crates.txt"
cp "$top/HANDLES" "$room/HANDLES"

# What `rt try` says of the program.
try() { # NUMBER
  {
    printf '%s\n' '//! A graph and its arena.' '#![tactic(auto)]' '' 'use bumpalo::Bump;' 'use heap_formula::Judgement;'
    printf '%s\n' 'use proof_graph::{Graph, GraphFault};' 'use std::alloc::Global;' 'use std::test::Fail;' ''
    program "$1"
    printf '%s\n' '' '#[test]' 'fn ends(_rt: HostRuntime) -> Result<(), Fail> {' '    Ok(())' '}'
  } > "$room/crates/kept_graph/src/lib.rt"
  (cd "$room/crates/kept_graph" && rt try --test 2>&1)
}

message=$(sed -n 's/^> //p' "$page")
[ -n "$message" ] || fail 'the page has no message'
refused=$(try 1)
grep -qF "$message" <<< "$refused" || fail "the graph past its arena: wanted '$message'; got: $refused"
passed=$(try 2)
grep -q '^test result: ok. 1 passed' <<< "$passed" || fail "the graph within its arena: $passed"
