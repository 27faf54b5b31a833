#!/usr/bin/env bash
# What ordinary and large replays cost beside an unverified program that prints the same bytes: instructions, the best time, and
# the peak memory. That program isn't here; its figures, measured once, stand in the table. Instructions should be at most 1.10
# times its own, at the end of the chain 1.30, and memory at most its own.
#
#     bench/works.sh [PROGRAM]
#
# PROGRAM is crates/i2cbus/out/i2cbus where it isn't given. Nothing is built here, and nothing is left behind. But for times and
# memory it prints the same each time. A run whose sections aren't what is due, or whose journal has another number of entries,
# ends it with status 1.
. "$(dirname "$0")/common.sh"

READS=1000

# The lines of a device with registers: its bus and its address. Register 5 holds 0x7e.
regs() {
  printf '%s\n' '[[device]]' "bus = $1" 'kind = "regs"' "address = $2" 'set = [[5, 0x7e]]'
}

# The lines of a pca9548: its bus, its address, and how it is locked.
mux() {
  printf '%s\n' '[[mux]]' "bus = $1" 'kind = "pca9548"' "address = $2" "lock = \"$3\""
}

# A board with so many roots.
roots() {
  printf 'version = 1\n'
  yes '[[root]]' | head -n "$1"
}

# The script of a caller that has this line 1,000 times, and its section, in which each has this answer.
same_lines() {
  awk -v lines="$READS" -v line="$2" -v answer="$3" -v script="$folder/script.$1" -v due="$folder/section.$1" -v caller="$1" 'BEGIN {
    print "caller " caller >due
    for (i = 0; i < lines; i++) { print line >script; print "> " line "\n" answer >due }
  }'
}

# The script of a caller that has the lines of a file by turns, 1,000 in all, and its section, in which each answers 0x7e.
by_turns() {
  awk -v lines="$READS" -v script="$folder/script.$1" -v due="$folder/section.$1" -v caller="$1" '
    { line[NR - 1] = $0 }
    END {
      print "caller " caller >due
      for (i = 0; i < lines; i++) { print line[i % NR] >script; print "> " line[i % NR] "\n0x7e" >due }
    }' "$2"
}

no_schedule() {
  : >"$folder/schedule"
}

# 60,000 numbers of eight callers, each as likely.
random_schedule() {
  awk 'BEGIN { srand(1); for (i = 0; i < 60000; i++) printf "%d%s", int(8 * rand()), i % 40 == 39 ? "\n" : " " }' >"$folder/schedule"
}

# A run has to print these sections, and a journal of so many entries.
is_due() {
  local callers=$1 entries=$2 caller
  for ((caller = 0; caller < callers; caller++)); do
    cat "$folder/section.$caller"
  done >"$folder/sections"
  sed '/^journal$/,$d' "$folder/out" | cmp -s - "$folder/sections" &&
    [ "$(sed '1,/^journal$/d' "$folder/out" | sed '$d' | wc -l)" -eq "$entries" ]
}

# Measures the replay of the files in the folder: its name, how many callers, how many entries its journal has, and the figures
# of the unverified program, in thousands of instructions and in KiB.
measure() {
  local name=$1 callers=$2 entries=$3 peer=$4 peer_memory=$5 caller times memory instructions
  local -a words=(replay "$folder/board" "$folder/schedule")
  for ((caller = 0; caller < callers; caller++)); do
    words+=("$folder/script.$caller")
  done
  "$program" "${words[@]}" >"$folder/out" </dev/null
  if ! is_due "$callers" "$entries"; then
    echo "$name printed something else than is due" >&2
    exit 1
  fi
  cp "$folder/out" "$folder/due"
  times=$(times_of "$name" "$folder/due" "${words[@]}") || exit 1
  memory=$(memory_of "$name" "$folder/due" "${words[@]}") || exit 1
  instructions=$(instructions_of "$name" "$folder/due" "${words[@]}") || exit 1
  line "$name" "$entries" "${instructions:--}" "$(ratio "${peer}000" "${instructions:-0}")" "$(thousandths "$(best_of "$times")")" \
    "${memory:--}" "$(ratio "$peer_memory" "${memory:-0}")"
}

line() {
  printf '%-34s %8s %12s %7s %9s %9s %7s\n' "$@"
}

line work entries instructions ratio "best, ms" "peak, KiB" ratio

# one root with a device, and a mux with a device behind its first channel
{ roots 1; mux 0 0x70 parent; regs 0 0x20; regs 1 0x30; } >"$folder/board"
no_schedule
for caller in 0 1 2 3 4 5 6 7; do same_lines "$caller" "i2cget -y 0 0x20 5" 0x7e; done
measure "root" 1 5000 5720 1700
measure "8 callers, root" 8 40000 47900 5000
random_schedule
measure "8 callers, root, random words" 8 40000 52300 5000
no_schedule
for caller in 0 1 2 3 4 5 6 7; do same_lines "$caller" "i2cget -y 1 0x30 5" 0x7e; done
measure "behind a mux" 1 9000 8560 2100
measure "8 callers, mux" 8 72000 75800 7400
random_schedule
measure "8 callers, mux, random words" 8 72000 80400 7400
no_schedule

# a chain of two parent-locked and two mux-locked muxes
{ roots 1; mux 0 0x70 parent; mux 1 0x71 parent; mux 9 0x72 mux; mux 17 0x73 mux; regs 25 0x20; } >"$folder/board"
same_lines 0 "i2cget -y 25 0x20 5" 0x7e
measure "chain of four" 1 145000 112600 12300

# eight roots, each with a device at one address, and a caller for each
{ roots 8; for root in 0 1 2 3 4 5 6 7; do regs "$root" 0x20; done; } >"$folder/board"
for caller in 0 1 2 3 4 5 6 7; do same_lines "$caller" "i2cget -y $caller 0x20 5" 0x7e; done
measure "8 callers on 8 roots, one address" 8 40000 48000 5200

# 32 muxes on a root, and a device at one address behind each
{
  roots 1
  for ((number = 0; number < 32; number++)); do mux 0 "$(printf '0x%x' $((0x50 + number)))" parent; done
  for ((number = 0; number < 32; number++)); do regs $((1 + 8 * number)) 0x20; done
} >"$folder/board"
for ((number = 0; number < 32; number++)); do echo "i2cget -y $((1 + 8 * number)) 0x20 5"; done >"$folder/turns"
by_turns 0 "$folder/turns"
measure "32 muxes on a root" 1 9000 13300 2300

# 64 devices on a root, and 8 behind each channel of a mux
{
  roots 1
  mux 0 0x77 parent
  for ((number = 0; number < 64; number++)); do regs 0 "$(printf '0x%x' $((0x10 + number)))"; done
  for ((number = 0; number < 64; number++)); do regs $((1 + number / 8)) "$(printf '0x%x' $((0x60 + number % 8)))"; done
} >"$folder/board"
for ((number = 0; number < 64; number++)); do
  printf 'i2cget -y 0 0x%x 5\ni2cget -y %d 0x%x 5\n' $((0x10 + number)) $((1 + number / 8)) $((0x60 + number % 8))
done >"$folder/turns"
by_turns 0 "$folder/turns"
measure "128 devices of a root" 1 7000 9850 2200

# a block of 32 bytes of an EEPROM
{ roots 1; printf '%s\n' '[[device]]' 'bus = 0' 'kind = "24c02"' 'address = 0x50' 'set = [[0, 1, 2, 3]]'; } >"$folder/board"
same_lines 0 "i2cget -y 0 0x50 0 i 32" "$(printf '0x01 0x02 0x03'; yes ' 0xff' | head -n 29 | tr -d '\n')"
measure "EEPROM, 32 bytes" 1 5000 11400 2500

# an SMBus block of 32 bytes with its error code
{ roots 1; printf '%s\n' '[[device]]' 'bus = 0' 'kind = "smbus"' 'address = 0x21' 'width = 0' 'set = [[0, 32]]'; } >"$folder/board"
same_lines 0 "i2cget -y 0 0x21 0 sp" "$(printf '0x00'; yes ' 0x00' | head -n 31 | tr -d '\n')"
measure "SMBus block with PEC" 1 5000 13300 2600
