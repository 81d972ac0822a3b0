#!/usr/bin/env bash
# bench/mutate.sh N SEED [PROGRAM [SOLVER]]: changes bytes, tokens and numbers of the examples at random, N times, and checks what
# must hold of any answer: a status from 0 to 6, one line that such an answer may have and nothing on standard error, the
# same answer when the input comes in pieces, within 5 seconds; the token of a fault of what a text says is the name, number or
# word that the fault is about, at its line and column; what `prove` and `fo` find, `check` and `fo-check` accept; of what
# `disprove` writes `model` says that it holds; and what `upgrade` writes it writes again as it is. The same N and SEED try the
# same inputs. Prints how many ended with each status; at the first answer that breaks a rule it says where the
# input is kept, and ends with 1. With a built `solve` as SOLVER that is asked instead, of problems, frames, ends and
# scripts, with the least effort: within a minute it says one of its words, and the proofs, models and runs that it writes are
# accepted. Wants Python 3.
set -u
top=$(cd "$(dirname "${BASH_SOURCE[0]}")/.." && pwd)
[ $# -ge 2 ] || { echo "usage: bench/mutate.sh N SEED [PROGRAM [SOLVER]]" >&2; exit 2; }
exec python3 "$top/bench/mutate.py" "$1" "$2" "${3:-$top/crates/cyclist/out/cyclist}" "$top/examples" ${4:+"$4"}
