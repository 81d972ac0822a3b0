# Read by the scripts that run a built program: `run` compares its status and what it writes, and `failed` says whether some
# run was another. NAME is what the program is called.
. "$(dirname "${BASH_SOURCE[0]}")/../bench/common.sh"
failed=0

# Runs a program, and ends it after so many seconds of processor that it must have run away.
bounded() { # COMMAND..
  (ulimit -t 100 && exec "$@")
}

# Runs the program with the words on this function's standard input, and compares status and output.
run() { # STATUS OUTPUT WORD..
  local status=$1 text=$2 got code
  shift 2
  got=$(bounded "$program" "$@" 2>&1)
  code=$?
  if [ "$code" != "$status" ] || [ "$got" != "$text" ]; then
    echo "$name $*: status $code, '$(echo "$got" | head -n 1)'; wanted status $status, '$(echo "$text" | head -n 1)'"
    failed=1
  fi
}

all_of() { # CHARACTER COUNT
  head -c "$2" /dev/zero | tr '\0' "$1"
}
