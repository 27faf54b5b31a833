#!/usr/bin/env bash
# What threads cost: 1 and 8 callers with 1,000 register reads each on one root, by `run`, where each has a thread of its
# own, beside `replay` of the same scripts with an empty schedule. Running threads may take at most 20 ms more with 8
# callers, and at most 1 ms more with one.
#
#     bench/threads.sh [PROGRAM]
#
# PROGRAM is crates/i2cbus/out/i2cbus where it isn't given. Nothing is built here, and nothing is left behind. A run whose
# output isn't the report that is due ends it with status 1; of `run` the sections are compared, and how many entries the
# journal has, since its order is free.
. "$(dirname "$0")/common.sh"
. "$(dirname "$0")/board.sh"

READS=1000

# The times of all runs by threads in microseconds, the shortest first: how many callers, and the words.
times_of_threads() {
  local run begin end status what="the run of $1 threads"
  local sections=$(($1 * (2 * READS + 1)))
  local lines=$((sections + $1 * READS * entries_a_read[root] + 2))
  head -n "$sections" "$folder/due" >"$folder/sections"
  for ((run = 0; run < RUNS; run++)); do
    begin=$EPOCHREALTIME
    "$program" "${@:2}" >"$folder/report" </dev/null
    status=$?
    end=$EPOCHREALTIME
    head -n "$sections" "$folder/report" >"$folder/out"
    check_run "$what" "$folder/sections" "$status"
    if [ "$(wc -l <"$folder/report")" -ne "$lines" ]; then
      echo "$what has another number of entries than is due" >&2
      exit 1
    fi
    echo $((${end/./} - ${begin/./}))
  done >"$folder/times"
  sort -n "$folder/times"
}

# A line of the table: a word for each of its columns.
line() {
  printf '%7s %10s %10s %10s %10s %10s\n' "$@"
}

# Measures so many callers both ways.
measure() {
  write_files root "$READS" "$1"
  local caller one many
  local -a scripts=()
  for ((caller = 0; caller < $1; caller++)); do
    scripts+=("$folder/script")
  done
  one=$(times_of "the replay of $1 callers" "$folder/due" replay "$folder/board.root" "$folder/schedule" "${scripts[@]}") || exit 1
  many=$(times_of_threads "$1" run "$folder/board.root" "${scripts[@]}") || exit 1
  line "$1" "$(thousandths "$(best_of "$one")")" "$(thousandths "$(median_of "$one")")" \
    "$(thousandths "$(best_of "$many")")" "$(thousandths "$(median_of "$many")")" \
    "$(thousandths $(($(median_of "$many") - $(median_of "$one"))))"
}

write_boards
line callers 'replay, ms' median 'run, ms' median more
measure 1
measure 8
