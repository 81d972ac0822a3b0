#!/usr/bin/env bash
# bench/pieces.sh: how fast a lexer takes 16 MB in pieces of 65,536 bytes, its tokens being dropped after each piece: tokens
# of one byte, and one name, one number, one comment. The program that it runs is proved and built in a folder of its own, over
# copies of the crates it needs; this takes some minutes where these were not proved before.
# Prints figures; it passes and fails nothing.
set -eu
top=$(cd "$(dirname "${BASH_SOURCE[0]}")/.." && pwd)
work=$(mktemp -d)
trap 'rm -rf "$work"' EXIT
mkdir "$work/crates"
for name in cyc_basics cyc_lex piecewise_lex; do
  cp -r "$top/crates/$name" "$work/crates/"
  grep "^$name:" "$top/crates.txt" >> "$work/crates.txt"
done
# (the gate wants each .rt file to stand in a crate of its own, so the program's files end in .in here)
cp -r "$top/bench/pieces" "$work/crates/pieces_speed"
find "$work/crates/pieces_speed" -name '*.in' | while read -r file; do mv "$file" "${file%.in}"; done
echo 'pieces_speed: piecewise_lex cyc_lex' >> "$work/crates.txt"
cp "$top/HANDLES" "$work/"
cd "$work/crates/pieces_speed"
rt check > "$work/log" 2>&1 && rt run > "$work/log" 2>&1 || { tail "$work/log" >&2; exit 1; }
for _ in 1 2 3; do ./out/pieces_speed; done
