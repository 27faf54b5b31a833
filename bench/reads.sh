#!/usr/bin/env bash
# How long the proved program takes for 100 and for 1,000 register reads on a root, and for 1,000 behind a mux, and how
# much memory, and how many instructions where there is valgrind. An entry of the journal should take at most 1.3 times
# as long behind the mux as on the root.
#
#     bench/reads.sh [PROGRAM]
#
# PROGRAM is crates/i2cbus/out/i2cbus where it isn't given. Nothing is built here, and nothing is left behind. But for
# times and memory it prints the same each time. A run whose output isn't the report that is due ends it.
. "$(dirname "$0")/common.sh"
. "$(dirname "$0")/board.sh"

FEW=100
MANY=1000
WANTED=1.3 # so many times as long as on the root may an entry take behind the mux

# Measures so many reads on this board.
measure() {
  write_files "$1" "$2" 1
  local times what="the run of $2 reads ($1)" due=$folder/due
  local -a words=(replay "$folder/board.$1" "$folder/schedule" "$folder/script")
  times=$(times_of "$what" "$due" "${words[@]}") || exit 1
  entries[$1.$2]=$(($2 * entries_a_read[$1]))
  best[$1.$2]=$(best_of "$times")
  median[$1.$2]=$(median_of "$times")
  an_entry[$1.$2]=$((median[$1.$2] * 1000 / entries[$1.$2]))
  memory[$1.$2]=$(memory_of "$what" "$due" "${words[@]}") || exit 1
  instructions[$1.$2]=$(instructions_of "$what" "$due" "${words[@]}") || exit 1
  size[$1.$2]=$(($(wc -c <"$due")))
}

# A row of the table: its name, and a word for each of the three and for the ratio to the one before.
row() {
  printf '%-26s %12s %12s %8s %12s %8s\n' "$@"
}

# A row of three numbers as they are, and of three in thousandths. One that isn't known is a dash.
row_of_numbers() {
  row "$1" "${2:--}" "${3:--}" "$(ratio "${2:-0}" "${3:-0}")" "${4:--}" "$(ratio "${3:-0}" "${4:-0}")"
}

row_of_times() {
  row "$1" "$(thousandths "$2")" "$(thousandths "$3")" "$(ratio "$2" "$3")" "$(thousandths "$4")" "$(ratio "$3" "$4")"
}

declare -A entries best median an_entry memory instructions size
write_boards
measure root "$FEW"
measure root "$MANY"
measure mux "$MANY"

few=root.$FEW
many=root.$MANY
behind=mux.$MANY

row "reads" "$FEW" "$MANY" "ratio" "$MANY" "ratio"
row "where" "root" "root" "" "mux" ""
row_of_numbers "journal entries" "${entries[$few]}" "${entries[$many]}" "${entries[$behind]}"
row_of_times "best of $RUNS runs, ms" "${best[$few]}" "${best[$many]}" "${best[$behind]}"
row_of_times "median of $RUNS runs, ms" "${median[$few]}" "${median[$many]}" "${median[$behind]}"
row_of_times "median an entry, us" "${an_entry[$few]}" "${an_entry[$many]}" "${an_entry[$behind]}"
row_of_numbers "peak memory, KiB" "${memory[$few]}" "${memory[$many]}" "${memory[$behind]}"
row_of_numbers "instructions" "${instructions[$few]}" "${instructions[$many]}" "${instructions[$behind]}"
row_of_numbers "output, bytes" "${size[$few]}" "${size[$many]}" "${size[$behind]}"

slower=$(ratio "${an_entry[$many]}" "${an_entry[$behind]}")
echo "an entry behind the mux takes $slower times as long as on the root; wanted: at most $WANTED"
