#!/usr/bin/env bash
# How long dumps take: scripts of 1, 61 and 488 dumps of all words of a register device on a root, of which the last costs nearly
# as much as scripts may. From one size to the next time, instructions and memory should grow as the entries do.
#
#     bench/dumps.sh [PROGRAM]
#
# PROGRAM is crates/i2cbus/out/i2cbus where it isn't given. Nothing is built here, and nothing is left behind. But for
# times and memory it prints the same each time. A run whose output isn't the report that is due ends it with status 1.
. "$(dirname "$0")/common.sh"

printf '%s\n' 'version = 1' '[[root]]' '[[device]]' 'bus = 0' 'kind = "regs"' 'address = 0x20' 'set = [[5, 0x7e]]' >"$folder/board"
: >"$folder/schedule"

# The script of so many dumps, and the report that is due: registers 4 and 5 hold the words 0x7e00 and 0x007e.
write_files() {
  awk -v dumps="$1" -v script="$folder/script" -v due="$folder/due" '
    function byte(reg) { return reg % 256 == 5 ? "7e" : "00" }
    BEGIN {
      print "caller 0" >due
      for (i = 0; i < dumps; i++) {
        print "i2cdump -y 0 0x20 w" >script
        print "> i2cdump -y 0 0x20 w" >due
        for (row = 0; row < 256; row += 8) {
          printf "%02x:", row >due
          for (reg = row; reg < row + 8; reg++) printf " %s%s", byte(reg + 1), byte(reg) >due
          print "" >due
        }
      }
      print "journal" >due
      for (i = 0; i < dumps; i++)
        for (reg = 0; reg < 256; reg++) {
          word = byte(reg) " " byte(reg + 1)
          printf "take 0 buslock 0\nmsg 0 bus 0 call 1/2 w 0x20 [%02x] heard d0 ok\n", reg >due
          printf "msg 0 bus 0 call 2/2 r 0x20 [%s] heard d0 ok\nsettle 0 read %s\nfree 0 buslock 0\n", word, word >due
        }
      print "end" >due
    }'
}

line() {
  printf '%7s %8s %13s %9s %9s %9s %9s\n' "$@"
}

measure() {
  write_files "$1"
  local times memory instructions an_entry what="the run of $1 dumps" entries=$((1280 * $1))
  local -a words=(replay "$folder/board" "$folder/schedule" "$folder/script")
  times=$(times_of "$what" "$folder/due" "${words[@]}") || exit 1
  memory=$(memory_of "$what" "$folder/due" "${words[@]}") || exit 1
  instructions=$(instructions_of "$what" "$folder/due" "${words[@]}") || exit 1
  if [ -n "$instructions" ]; then
    an_entry=$((instructions / entries))
  fi
  line "$1" "$entries" "${instructions:--}" "${an_entry:--}" "$(thousandths "$(best_of "$times")")" \
    "$(thousandths "$(median_of "$times")")" "${memory:--}"
}

line dumps entries instructions "an entry" "best, ms" "median" "peak, KiB"
for dumps in 1 61 488; do
  measure "$dumps"
done
