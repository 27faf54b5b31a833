# What the benchmarks share: which program is measured, a folder of their own, and how long runs take. It is read by
# them, with the words of their command line, and is no program by itself.
set -u
export LC_ALL=C

RUNS=21 # odd, so that the median is one of them

due_status=0 # with which a run ends

program=${1:-$(dirname "${BASH_SOURCE[0]}")/../crates/i2cbus/out/i2cbus}
if [ ! -f "$program" ] || [ ! -x "$program" ]; then
  echo "there is no program $program: rt ci, or rt run in crates/i2cbus, leaves it in crates/i2cbus/out/" >&2
  exit 1
fi

folder=$(mktemp -d) || exit 1
trap 'rm -rf "$folder"' EXIT

# A run (what it is, the file with what is due, its status) has to end with the status that is due and print what is due.
check_run() {
  if [ "$3" -ne "$due_status" ]; then
    echo "$1 ended with status $3" >&2
    exit 1
  fi
  if ! cmp -s "$folder/out" "$2"; then
    echo "$1 printed something else than is due" >&2
    exit 1
  fi
}

# The times of all runs in microseconds, the shortest first: what they are, the file with what is due, and the words.
times_of() {
  local run begin end status
  for ((run = 0; run < RUNS; run++)); do
    begin=$EPOCHREALTIME
    "$program" "${@:3}" >"$folder/out" </dev/null
    status=$?
    end=$EPOCHREALTIME
    check_run "$1" "$2" "$status"
    echo $((${end/./} - ${begin/./}))
  done >"$folder/times"
  sort -n "$folder/times"
}

# Of such times, the shortest and the median.
best_of() {
  sed -n 1p <<<"$1"
}

median_of() {
  sed -n "$((RUNS / 2 + 1))p" <<<"$1"
}

# The peak memory of one more such run in KiB, or nothing where there is no GNU time. It is asked of that small program,
# since a shell that starts the run would count its own memory in.
memory_of() {
  local status
  /usr/bin/time -f %M -o "$folder/memory" true 2>/dev/null || return 0
  /usr/bin/time -f %M -o "$folder/memory" "$program" "${@:3}" >"$folder/out" </dev/null
  status=$?
  check_run "$1" "$2" "$status"
  tail -n 1 "$folder/memory"
}

# The instructions of one more such run, or nothing where there is no valgrind.
instructions_of() {
  local status
  command -v valgrind >/dev/null || return 0
  valgrind --tool=callgrind --callgrind-out-file=/dev/null --log-file="$folder/valgrind" "$program" "${@:3}" \
    >"$folder/out" </dev/null
  status=$?
  check_run "$1" "$2" "$status"
  sed -n 's/.*Collected : *//p' "$folder/valgrind"
}

# So many thousandths, with a point.
thousandths() {
  awk -v n="$1" 'BEGIN { printf "%.3f", n / 1000 }'
}

# How many times the first number the second one is.
ratio() {
  awk -v one="$1" -v other="$2" 'BEGIN { if (one > 0) printf "%.2f", other / one; else printf "-" }'
}
