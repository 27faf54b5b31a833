#!/usr/bin/env bash
# How long the lines of drivers and handles take: `sensors` over 128 bound sensors on 10, 100 and 976 lines, of which the last cost
# nearly as much as scripts may; 10, 100 and 250 handles, each opened, addressed, read by and closed, which are 1,000 lines at last;
# and an `at24 read` of 1, 4 and 32 KiB. From one size to the next time, instructions and memory should grow as the entries do.
#
#     bench/drivers.sh [PROGRAM]
#
# PROGRAM is crates/i2cbus/out/i2cbus where it isn't given. Nothing is built here, and nothing is left behind. But for
# times and memory it prints the same each time. A run whose output isn't the report that is due ends it with status 1.
. "$(dirname "$0")/common.sh"

: >"$folder/schedule"

# 64 sensors on each of two roots, all of 25 degrees.
sensors_board() {
  printf '%s\n' 'version = 1' '[[root]]' '[[root]]'
  local bus addr
  for bus in 0 1; do
    for ((addr = 8; addr < 72; addr++)); do
      printf '%s\n' '[[device]]' "bus = $bus" 'kind = "lm75"' "address = $addr" 'bound = true' 'raw = 0x1900'
    done
  done
}

sensors_lines() {
  yes sensors | head -n "$1"
}

sensors_due() {
  awk -v lines="$1" 'BEGIN {
    print "caller 0"
    for (i = 0; i < lines; i++) {
      print "> sensors"
      for (s = 0; s < 128; s++) printf "%d-00%02x 25000\n", s / 64, 8 + s % 64
    }
    print "journal"
    for (i = 0; i < lines; i++)
      for (s = 0; s < 128; s++) {
        bus = int(s / 64); addr = 8 + s % 64
        printf "take 0 buslock %d\nmsg 0 bus %d call 1/2 w 0x%02x [00] heard d%d ok\n", bus, bus, addr, s
        printf "msg 0 bus %d call 2/2 r 0x%02x [19 00] heard d%d ok\nsettle 0 read 19 00\nfree 0 buslock %d\n", bus, addr, s, bus
      }
    print "end"
  }'
}

# One device of registers, of which the first, which is read each time, and all behind it hold 0.
handles_board() {
  printf '%s\n' 'version = 1' '[[root]]' '[[device]]' 'bus = 0' 'kind = "regs"' 'address = 0x20'
}

handles_lines() {
  local handle
  for ((handle = 0; handle < $1; handle++)); do
    printf 'open 0\nslave %d 0x20\nread %d 1\nclose %d\n' "$handle" "$handle" "$handle"
  done
}

handles_due() {
  awk -v handles="$1" 'BEGIN {
    print "caller 0"
    for (h = 0; h < handles; h++)
      printf "> open 0\nhandle %d\n> slave %d 0x20\nok\n> read %d 1\n0x00\n> close %d\nok\n", h, h, h, h
    print "journal"
    for (h = 0; h < handles; h++)
      print "take 0 buslock 0\nmsg 0 bus 0 call 1/1 r 0x20 [00] heard d0 ok\nsettle 0 read 00\nfree 0 buslock 0"
    print "end"
  }'
}

# An EEPROM that holds 0xff.
pages_board() {
  printf '%s\n' 'version = 1' '[[root]]' '[[device]]' 'bus = 0' 'kind = "24c256"' 'address = 0x50' 'bound = true'
}

pages_lines() {
  echo "at24 read 0 0x50 0 $((1024 * $1))"
}

pages_due() {
  awk -v bytes="$((1024 * $1))" 'BEGIN {
    printf "caller 0\n> at24 read 0 0x50 0 %d\n", bytes
    row = "ff"; for (i = 1; i < 16; i++) row = row " ff"
    piece = row; for (i = 1; i < 8; i++) piece = piece " " row
    for (i = 0; i < bytes / 16; i++) print row
    print "journal"
    for (at = 0; at < bytes; at += 128) {
      printf "take 0 buslock 0\nmsg 0 bus 0 call 1/2 w 0x50 [%02x %02x] heard d0 ok\n", at / 256, at % 256
      printf "msg 0 bus 0 call 2/2 r 0x50 [%s] heard d0 ok\nsettle 0 read %s\nfree 0 buslock 0\n", piece, piece
    }
    print "end"
  }'
}

line() {
  printf '%-8s %5s %8s %13s %9s %9s %9s %9s\n' "$@"
}

# What is measured, and at which size.
measure() {
  "$1_board" >"$folder/board"
  "$1_lines" "$2" >"$folder/script"
  "$1_due" "$2" >"$folder/due"
  local times memory instructions an_entry entries what="the run of $1 at $2"
  local -a words=(replay "$folder/board" "$folder/schedule" "$folder/script")
  entries=$(sed '1,/^journal$/d' "$folder/due" | wc -l)
  entries=$((entries - 1))
  times=$(times_of "$what" "$folder/due" "${words[@]}") || exit 1
  memory=$(memory_of "$what" "$folder/due" "${words[@]}") || exit 1
  instructions=$(instructions_of "$what" "$folder/due" "${words[@]}") || exit 1
  if [ -n "$instructions" ]; then
    an_entry=$((instructions / entries))
  fi
  line "$1" "$2" "$entries" "${instructions:--}" "${an_entry:--}" "$(thousandths "$(best_of "$times")")" \
    "$(thousandths "$(median_of "$times")")" "${memory:--}"
}

line what size entries instructions "an entry" "best, ms" "median" "peak, KiB"
for lines in 10 100 976; do
  measure sensors "$lines"
done
for handles in 10 100 250; do
  measure handles "$handles"
done
for kibibytes in 1 4 32; do
  measure pages "$kibibytes"
done
