#!/usr/bin/env bash
# How generated runs grow: `gen 1 8 LINES` with 10, 100 and 1,000 lines a script, of which the last has 8,000 transfers. Instructions
# and memory should grow as the lines do.
#
#     bench/generate.sh [PROGRAM]
#
# PROGRAM is crates/i2cbus/out/i2cbus where it isn't given. Nothing is built here, and nothing is left behind. The summary
# that is due is worked out from the rules: draw by draw, with the messages and the locks of each line. A run whose output is
# another one ends it with status 1.
. "$(dirname "$0")/common.sh"

SEED=1
ROOTS=8

# Draws one of so many numbers into `drawn`: 64 bits that wrap, of which the high 31 are used.
draw() {
  x=$((x * 6364136223846793005 + 1442695040888963407))
  drawn=$(((x >> 33 & 0x7fffffff) % $1))
}

# The summary of so many lines in each of 8 scripts. A line is a transfer of two messages, or of one where it writes, between two
# that switch the channel; the locks of the root and of the switch are taken once each behind an even root, and behind an odd one
# the root's for each of the three. A byte is read, or none, or the two of a temperature.
write_due() {
  local x=$SEED drawn line root messages=0 locks=0 bytes=0
  for ((line = 0; line < 8 * $1; line++)); do
    draw "$ROOTS"
    root=$drawn
    draw 8
    draw 3
    case $drawn in
      0) messages=$((messages + 4)) bytes=$((bytes + 1)) ;;
      1) messages=$((messages + 3)) ;;
      2) messages=$((messages + 4)) bytes=$((bytes + 2)) ;;
    esac
    locks=$((locks + 2 + 2 * (root % 2)))
    draw 256
    draw 256
  done
  printf 'gen seed %s roots %s lines %s\ntransfers %s\nmessages %s\nlocks %s\nerrors 0\nbytes %s\n' \
    "$SEED" "$ROOTS" "$1" "$((8 * $1))" "$messages" "$locks" "$bytes" >"$folder/due"
}

# A line of the table: a word for each of its columns.
line() {
  printf '%6s %10s %14s %12s %10s %10s %8s\n' "$@"
}

measure() {
  local what="the generated run of $1 lines" times instructions
  write_due "$1"
  times=$(times_of "$what" "$folder/due" gen "$SEED" "$ROOTS" "$1") || exit 1
  instructions=$(instructions_of "$what" "$folder/due" gen "$SEED" "$ROOTS" "$1") || exit 1
  line "$1" "$((8 * $1))" "${instructions:--}" "$((${instructions:-0} / (8 * $1)))" "$(thousandths "$(best_of "$times")")" \
    "$(thousandths "$(median_of "$times")")" "$(memory_of "$what" "$folder/due" gen "$SEED" "$ROOTS" "$1")"
}

line lines transfers instructions 'a transfer' 'best, ms' median KiB
for lines in 10 100 1000; do
  measure "$lines"
done
