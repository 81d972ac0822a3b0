#!/usr/bin/env bash
# bench/gate.sh [LOG]: processor minutes that a run of the gate takes, by crate: for its proof, its tests and its must-fail
# edits, and the ten tasks that take most. Where the file LOG is there, the figures are those that it keeps; else the gate
# runs now, with its output and the figures in LOG (by default gate.log in the folder it is called from). The time of each
# process of the prover is read every two seconds, so what a process does in its last two seconds is not counted. Wants
# Python 3, as the toolchain does. Prints figures; it passes and fails nothing.
set -u
top=$(cd "$(dirname "${BASH_SOURCE[0]}")/.." && pwd)
log=$(realpath -m "${1:-gate.log}")

if [ ! -e "$log" ]; then
  (cd "$top" && exec bash .ci/run) > "$log" 2>&1 < /dev/null &
  python3 "$top/bench/gate_times.py" watch $! "$log"
fi
python3 "$top/bench/gate_times.py" print "$log"
