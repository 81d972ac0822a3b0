#!/usr/bin/env bash
# bench/refused-memory.sh [PROGRAM CHECKER SEEKER DRAW]: refuses each allocation of a run in turn, the first, the second and so on (of
# more than 2,000 so many), for each command and program on small inputs. Each such run has to end with status 9 and to write nothing, or to give the whole right
# answer where it can do without. Prints how many were tried and how they ended; where a run ends otherwise it says which, and ends
# with 1. The gate refuses some of these allocations. Wants a C compiler.
set -u
top=$(cd "$(dirname "${BASH_SOURCE[0]}")/.." && pwd)
if [ $# = 0 ]; then
  set --
  for name in cyclist cyclist_check cyclist_solve cyclist_draw; do set -- "$@" "$top/crates/$name/out/$name"; done
fi
exec python3 "$top/.ci/edges.py" "$@" --each
