#!/usr/bin/env bash
# How much it costs to verify a report: of 1, 61 and 488 dumps of all words of a register device, of which the last has 624,640 entries;
# as it was written, with a first entry that is wrong, with a last one that is, and without a line `journal`. It prints the
# instructions as a multiple of those of the replay that wrote the report, which should be at most 1.8, and for an entry, which should
# stay as they are from one size to the next.
#
#     bench/verify.sh [PROGRAM]
#
# PROGRAM is crates/i2cbus/out/i2cbus where it isn't given. Nothing is built here, and nothing is left behind. A run that prints another
# verdict than is due ends it with status 1.
. "$(dirname "$0")/common.sh"
command -v valgrind >/dev/null || { echo 'there is no valgrind, which counts the instructions' >&2; exit 1; }

printf '%s\n' 'version = 1' '[[root]]' '[[device]]' 'bus = 0' 'kind = "regs"' 'address = 0x20' 'set = [[5, 0x7e]]' >"$folder/board"
: >"$folder/schedule"

line() {
  printf '%-20s %8s %13s %9s %9s %10s\n' "$@"
}

# Verifies a report of so many entries, for which this line and status are due: what it is, the entries, the status and the line.
measure() {
  local what=$1 entries=$2 verdict=$4 count memory
  due_status=$3
  echo "$verdict" >"$folder/verdict"
  count=$(instructions_of "$what, $entries entries" "$folder/verdict" verify "$folder/board" "$folder/report" "$folder/script") || exit 1
  memory=$(memory_of "$what, $entries entries" "$folder/verdict" verify "$folder/board" "$folder/report" "$folder/script") || exit 1
  line "$what" "$entries" "$count" $((count / entries)) "$(ratio "$replayed" "$count")" "${memory:--}"
}

# All of them for so many dumps, each of which is 1,280 entries behind 33 lines of text.
measure_all() {
  local entries=$((1280 * $1)) text=$((1 + 33 * $1 + 1)) memory
  yes 'i2cdump -y 0 0x20 w' | head -n "$1" >"$folder/script"
  "$program" replay "$folder/board" "$folder/schedule" "$folder/script" >"$folder/written" || exit 1
  due_status=0
  replayed=$(instructions_of "the replay of $1 dumps" "$folder/written" replay "$folder/board" "$folder/schedule" "$folder/script") || exit 1
  memory=$(memory_of "the replay of $1 dumps" "$folder/written" replay "$folder/board" "$folder/schedule" "$folder/script") || exit 1
  line 'its replay' "$entries" "$replayed" $((replayed / entries)) 1.00 "${memory:--}"

  cp "$folder/written" "$folder/report"
  measure 'as it was written' "$entries" 0 "verified $entries entries"
  sed "$((text + 1))s/take/free/" "$folder/written" >"$folder/report"
  measure 'the first is wrong' "$entries" 10 'not verified: entry 0'
  sed "$((text + entries))s/free/take/" "$folder/written" >"$folder/report"
  measure 'the last is wrong' "$entries" 10 "not verified: entry $((entries - 1))"
  sed "${text}s/journal/journals/" "$folder/written" >"$folder/report"
  measure 'no line is journal' "$entries" 10 "not verified: line $((text + entries + 2))"
}

line report entries instructions 'an entry' multiple 'peak, KiB'
for dumps in 1 61 488; do measure_all "$dumps"; done
