#!/usr/bin/env bash
# How long reads take at the end of a chain of four muxes, the two on the root's side parent-locked and the others
# mux-locked, with 10, 100 and 1,000 register reads. From one size to the next time and instructions should grow as the
# entries do.
#
#     bench/chain.sh [PROGRAM]
#
# PROGRAM is crates/i2cbus/out/i2cbus where it isn't given. Nothing is built here, and nothing is left behind. But for
# times and memory it prints the same each time. A run whose output isn't the report that is due ends it with status 1.
. "$(dirname "$0")/common.sh"

# Mux m stands on the first channel of mux m - 1, and mux 0 on the root, each with eight channels.
{
  printf '%s\n' 'version = 1' '[[root]]'
  for mux in 0 1 2 3; do
    printf '%s\n' '[[mux]]' "bus = $((mux == 0 ? 0 : 8 * mux - 7))" 'kind = "pca9548"' "address = 0x7$mux" \
      "lock = \"$([ "$mux" -lt 2 ] && echo parent || echo mux)\""
  done
  printf '%s\n' '[[device]]' 'bus = 25' 'kind = "regs"' 'address = 0x20' 'set = [[5, 0x7e]]'
} >"$folder/board"
: >"$folder/schedule"

# The script of so many reads, and the report that is due. A place counts the muxes between a bus and that of the device;
# the mux over place p is mux 3 - p, on the bus at place p + 1. Work on the bus at a place goes so: the locks of that bus
# are held; if a mux is over the bus, it is selected, the work is done, and it is deselected, each as work at the next
# place. Below a mux-locked mux each of the three takes its locks itself; below a parent-locked one they are held all the
# time.
write_files() {
  awk -v lines="$1" -v script="$folder/script" -v due="$folder/due" '
    function is_parent(place) { return place >= 2 }
    function bus_at(place) { return place == 4 ? 0 : 25 - 8 * place }
    function say(work) {
      if (work == "call") {
        printf "msg 0 bus 25 call 1/2 w 0x20 [05] heard d0 ok\nmsg 0 bus 25 call 2/2 r 0x20 [7e] heard d0 ok\n" >due
        print "settle 0 read 7e" >due
      } else {
        split(work, word, " ")
        mux = 3 - word[2]
        printf "msg 0 bus %d mux %d 1/1 w 0x7%d [0%d] heard m%d ok\n", bus_at(word[2] + 1), mux, mux, word[1] == "select", mux >due
      }
    }
    function part(parent, place, work) { if (parent) enter(place, work); else locked(place, place, work) }
    function enter(place, work) {
      # a select and a deselect are work on the bus of their mux
      if (place == 4) { say(work); return }
      part(is_parent(place), place + 1, "select " place)
      part(is_parent(place), place + 1, work)
      part(is_parent(place), place + 1, "deselect " place)
    }
    function locked(from, place, work,   lock) {
      lock = from == 4 ? "buslock 0" : "muxlock " bus_at(from + 1)
      print "take 0 " lock >due
      if (from < 4 && is_parent(from)) locked(from + 1, place, work); else enter(place, work)
      print "free 0 " lock >due
    }
    BEGIN {
      printf "" >script
      print "caller 0" >due
      for (i = 0; i < lines; i++) {
        print "i2cget -y 25 0x20 5" >script
        print "> i2cget -y 25 0x20 5\n0x7e" >due
      }
      print "journal" >due
      for (i = 0; i < lines; i++) locked(0, 0, "call")
      print "end" >due
    }'
}

line() {
  printf '%7s %8s %13s %9s %9s %9s %9s\n' "$@"
}

measure() {
  write_files "$1"
  local times memory instructions an_entry what="the run of $1 reads" entries=$((145 * $1))
  local -a words=(replay "$folder/board" "$folder/schedule" "$folder/script")
  times=$(times_of "$what" "$folder/due" "${words[@]}") || exit 1
  memory=$(memory_of "$what" "$folder/due" "${words[@]}") || exit 1
  instructions=$(instructions_of "$what" "$folder/due" "${words[@]}") || exit 1
  if [ -n "$instructions" ]; then
    an_entry=$((instructions / entries))
  fi
  line "$1" "$entries" "${instructions:--}" "${an_entry:--}" "$(thousandths "$(best_of "$times")")" \
    "$(thousandths "$(median_of "$times")")" "${memory:--}"
}

line reads entries instructions "an entry" "best, ms" "median" "peak, KiB"
for reads in 10 100 1000; do
  measure "$reads"
done
