#!/usr/bin/env bash
# What a register cache saves, and what it costs: 1,000 reads of the limit of one sensor by `replay` and by `cached`, which sends the
# first alone; and 1,000 register reads by both beside a sensor that another script forces, so that nothing is kept.
#
#     bench/cached.sh [PROGRAM]
#
# PROGRAM is crates/i2cbus/out/i2cbus where it isn't given. Nothing is built here, and nothing is left behind. But for times it
# prints the same each time. A run whose output isn't the report that is due ends it with status 1.
. "$(dirname "$0")/common.sh"

READS=1000

# So many times the instructions of `replay` may `cached` take, where it sends one read of all, and where it keeps nothing.
WANTED=0.50
WANTED_UNKEPT=1.03

declare -A instructions median

: >"$folder/schedule"
printf '%s\n' 'version = 1' '[[root]]' '[[device]]' 'bus = 0' 'kind = "lm75"' 'address = 0x48' 'bound = true' \
  '[[device]]' 'bus = 0' 'kind = "regs"' 'address = 0x20' 'set = [[5, 0x7e]]' >"$folder/board"

# The script of the limit's reads, and the reports that are due: a replay sends each, and `cached` the first alone.
limit_files() {
  yes 'lm75 read 0 0x48 max' | head -n "$READS" >"$folder/script"
  awk -v lines="$READS" -v replayed="$folder/due.replay" -v cached="$folder/due.cached" 'BEGIN {
    section = "caller 0\n"
    for (i = 0; i < lines; i++) section = section "> lm75 read 0 0x48 max\n80000\n"
    one = "take 0 buslock 0\nmsg 0 bus 0 call 1/2 w 0x48 [03] heard d0 ok\n"
    one = one "msg 0 bus 0 call 2/2 r 0x48 [50 00] heard d0 ok\nsettle 0 read 50 00\nfree 0 buslock 0\n"
    printf "%sjournal\n%send\n", section, one >cached
    printf "%sjournal\n", section >replayed
    for (i = 0; i < lines; i++) printf "%s", one >replayed
    print "end" >replayed
  }'
}

# The scripts of the register reads and of the forced line, and the report that is due of both forms.
regs_files() {
  echo 'i2cget -f -y 0 0x48 0' >"$folder/other"
  awk -v lines="$READS" -v script="$folder/script" -v due="$folder/due.replay" 'BEGIN {
    printf "" >script
    print "caller 0" >due
    for (i = 0; i < lines; i++) {
      print "i2cget -y 0 0x20 " i % 256 >script
      printf "> i2cget -y 0 0x20 %d\n0x%s\n", i % 256, i % 256 == 5 ? "7e" : "00" >due
    }
    print "caller 1\n> i2cget -f -y 0 0x48 0\n0x00\njournal" >due
    for (i = 0; i < lines; i++) {
      byte = i % 256 == 5 ? "7e" : "00"
      printf "take 0 buslock 0\nmsg 0 bus 0 call 1/2 w 0x20 [%02x] heard d1 ok\n", i % 256 >due
      printf "msg 0 bus 0 call 2/2 r 0x20 [%s] heard d1 ok\nsettle 0 read %s\nfree 0 buslock 0\n", byte, byte >due
    }
    print "take 1 buslock 0\nmsg 1 bus 0 call 1/2 w 0x48 [00] heard d0 ok" >due
    print "msg 1 bus 0 call 2/2 r 0x48 [00] heard d0 ok\nsettle 1 read 00\nfree 1 buslock 0\nend" >due
  }'
  cp "$folder/due.replay" "$folder/due.cached"
}

# Measures these scripts by this form.
measure() {
  local form=$1 times what="the run of $READS reads by $1"
  local -a words=("$form" "$folder/board" "$folder/schedule" "${@:2}")
  times=$(times_of "$what" "$folder/due.$form" "${words[@]}") || exit 1
  median[$form]=$(median_of "$times")
  instructions[$form]=$(instructions_of "$what" "$folder/due.$form" "${words[@]}") || exit 1
}

# Measures them by both forms: what they are, the multiple that is wanted, and the scripts.
compare() {
  measure replay "${@:3}"
  measure cached "${@:3}"
  printf '%-38s %12s %12s %8s\n' "$1" replay cached ratio
  printf '%-38s %12s %12s %8s\n' "instructions (at most $2)" "${instructions[replay]:--}" "${instructions[cached]:--}" \
    "$(ratio "${instructions[replay]:-0}" "${instructions[cached]:-0}")"
  printf '%-38s %12s %12s %8s\n' 'median, ms' "$(thousandths "${median[replay]}")" "$(thousandths "${median[cached]}")" \
    "$(ratio "${median[replay]}" "${median[cached]}")"
}

limit_files
compare "$READS reads of one limit" "$WANTED" "$folder/script"
regs_files
compare "$READS register reads, nothing kept" "$WANTED_UNKEPT" "$folder/script" "$folder/other"
