#!/usr/bin/env bash
# How time, instructions and memory grow with the journal: for 1 and for 8 callers with 10, 100 and 1,000 register reads
# each, on a root and behind a mux of the same board. From one size to the next each should grow as the entries do, so
# that the instructions for an entry stay about the same.
#
#     bench/journal.sh [PROGRAM]
#
# PROGRAM is crates/i2cbus/out/i2cbus where it isn't given. Nothing is built here, and nothing is left behind. But for
# times and memory it prints the same each time. A run whose output isn't the report that is due ends it with status 1.
. "$(dirname "$0")/common.sh"
. "$(dirname "$0")/board.sh"

# A line of the table: a word for each of its columns. One that isn't known is a dash.
line() {
  printf '%-6s %7s %6s %8s %13s %9s %9s %9s %9s\n' "$@"
}

# Measures so many callers with so many reads each, of the device on the root or behind the mux.
measure() {
  write_files "$1" "$3" "$2"
  local caller times memory instructions an_entry what="the run of $2 callers with $3 reads ($1)"
  local entries=$(($2 * $3 * entries_a_read[$1]))
  local -a words=(replay "$folder/board.mux" "$folder/schedule")
  for ((caller = 0; caller < $2; caller++)); do
    words+=("$folder/script")
  done
  times=$(times_of "$what" "$folder/due" "${words[@]}") || exit 1
  memory=$(memory_of "$what" "$folder/due" "${words[@]}") || exit 1
  instructions=$(instructions_of "$what" "$folder/due" "${words[@]}") || exit 1
  if [ -n "$instructions" ]; then
    an_entry=$((instructions / entries))
  fi
  line "$1" "$2" "$3" "$entries" "${instructions:--}" "${an_entry:--}" "$(thousandths "$(best_of "$times")")" \
    "$(thousandths "$(median_of "$times")")" "${memory:--}"
}

write_boards
line where callers reads entries instructions "an entry" "best, ms" "median" "peak, KiB"
for where in root mux; do
  for callers in 1 8; do
    for reads in 10 100 1000; do
      measure "$where" "$callers" "$reads"
    done
  done
done
