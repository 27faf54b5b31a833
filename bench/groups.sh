#!/usr/bin/env bash
# What groups gain: 8 callers with 10, 100 and 1,000 register reads each, each caller on a root of its own, by `run`, where
# each has a core and a thread of its own, beside `replay` of the same scripts with an empty schedule. Both print the same
# bytes. `run` should be no slower with 1,000 reads, on four processors.
#
#     bench/groups.sh [PROGRAM]
#
# PROGRAM is crates/i2cbus/out/i2cbus where it isn't given. Nothing is built here, and nothing is left behind. The report
# that is due is worked out from the rules. A run whose output is another one ends it with status 1.
. "$(dirname "$0")/common.sh"

CALLERS=8

# A board of a root for each caller, each with a register device, whose register 5 holds 0x7e.
write_board() {
  local root
  {
    echo "version = 1"
    for ((root = 0; root < CALLERS; root++)); do
      echo "[[root]]"
    done
    for ((root = 0; root < CALLERS; root++)); do
      printf '[[device]]\nbus = %s\nkind = "regs"\naddress = 0x20\nset = [[5, 0x7e]]\n' "$root"
    done
  } >"$folder/board"
  : >"$folder/schedule"
}

# The scripts of so many reads each, and the report that is due.
write_scripts() {
  local root
  {
    for ((root = 0; root < CALLERS; root++)); do
      yes "i2cget -y $root 0x20 5" | head -n "$1" >"$folder/script$root"
      echo "caller $root"
      sed 's/^\(.*\)$/> \1\n0x7e/' "$folder/script$root"
    done
    echo "journal"
    for ((root = 0; root < CALLERS; root++)); do
      printf 'take %s buslock %s\nmsg %s bus %s call 1/2 w 0x20 [05] heard d%s ok\nmsg %s bus %s call 2/2 r 0x20 [7e] heard d%s ok\nsettle %s read 7e\nfree %s buslock %s\n' \
        "$root" "$root" "$root" "$root" "$root" "$root" "$root" "$root" "$root" "$root" "$root" >"$folder/entries"
      for ((turn = 0; turn < $1; turn++)); do
        cat "$folder/entries"
      done
    done
    echo "end"
  } >"$folder/due"
}

# A line of the table: a word for each of its columns.
line() {
  printf '%6s %8s %10s %10s %10s %10s %10s %10s\n' "$@"
}

measure() {
  write_scripts "$1"
  local root one many
  local -a scripts=()
  for ((root = 0; root < CALLERS; root++)); do
    scripts+=("$folder/script$root")
  done
  one=$(times_of "the replay of $1 reads" "$folder/due" replay "$folder/board" "$folder/schedule" "${scripts[@]}") || exit 1
  many=$(times_of "the run of $1 reads" "$folder/due" run "$folder/board" "${scripts[@]}") || exit 1
  line "$1" "$((5 * CALLERS * $1))" "$(thousandths "$(best_of "$one")")" "$(thousandths "$(median_of "$one")")" \
    "$(thousandths "$(best_of "$many")")" "$(thousandths "$(median_of "$many")")" \
    "$(memory_of "the replay of $1 reads" "$folder/due" replay "$folder/board" "$folder/schedule" "${scripts[@]}")" \
    "$(memory_of "the run of $1 reads" "$folder/due" run "$folder/board" "${scripts[@]}")"
}

write_board
line reads entries 'replay, ms' median 'run, ms' median 'replay KiB' 'run KiB'
for reads in 10 100 1000; do
  measure "$reads"
done
