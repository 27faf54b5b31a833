#!/usr/bin/env bash
# How much a kept channel saves: 1,000 register reads behind a mux that disconnects when idle, and behind the same mux where it
# stays as it is, which leaves out all selects but the first and all deselects.
#
#     bench/kept.sh [PROGRAM]
#
# PROGRAM is crates/i2cbus/out/i2cbus where it isn't given. Nothing is built here, and nothing is left behind. But for times it
# prints the same each time. A run whose output isn't the report that is due ends it with status 1.
. "$(dirname "$0")/common.sh"
. "$(dirname "$0")/board.sh"

READS=1000
WANTED=0.85 # so many times the instructions of the mux that disconnects may the other one take

declare -A instructions median

# Measures the reads behind this mux.
measure() {
  write_files "$1" "$READS" 1
  local times what="the run of $READS reads ($1)"
  local -a words=(replay "$folder/board.$1" "$folder/schedule" "$folder/script")
  times=$(times_of "$what" "$folder/due" "${words[@]}") || exit 1
  median[$1]=$(median_of "$times")
  instructions[$1]=$(instructions_of "$what" "$folder/due" "${words[@]}") || exit 1
}

write_boards
measure mux
measure kept
printf '%-24s %12s %12s %8s\n' '' disconnect as-is ratio
printf '%-24s %12s %12s %8s\n' "instructions (at most $WANTED)" "${instructions[mux]:--}" "${instructions[kept]:--}" \
  "$(ratio "${instructions[mux]:-0}" "${instructions[kept]:-0}")"
printf '%-24s %12s %12s %8s\n' 'median, ms' "$(thousandths "${median[mux]}")" "$(thousandths "${median[kept]}")" \
  "$(ratio "${median[mux]}" "${median[kept]}")"
