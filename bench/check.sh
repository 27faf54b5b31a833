#!/usr/bin/env bash
# How long the proved program takes to check the largest board, and how much memory, beside half of that board.
#
#     bench/check.sh [PROGRAM]
#
# PROGRAM is crates/i2cbus/out/i2cbus where it isn't given. Nothing is built here, and nothing is left behind. But for
# times and memory it prints the same each time. A check whose output isn't the line that is due ends it.
. "$(dirname "$0")/common.sh"

ROOTS=8 # the most that a board may have; the other numbers follow from them
WANTED=50 # at most so many milliseconds should the largest board take

# On each root stand four muxes, one behind the other, since no bus may have more over it. Behind each of them stand four
# devices, and on one root no two have the same address: so every pair of them is compared and none clashes. The runs of
# a device are its whole memory.
MUXES_A_ROOT=4
CHANNELS_A_MUX=8
DEVICES_A_MUX=4
RUNS_A_DEVICE=16
BYTES_A_RUN=16

# The board of so many roots, and the line that is due. The channels of mux m have the bus numbers from roots + 8 m on,
# and the next mux of its root stands on the first of them.
write_files() {
  awk -v board="$folder/board.$1" -v due="$folder/due.$1" -v roots="$1" -v muxes="$MUXES_A_ROOT" \
    -v channels="$CHANNELS_A_MUX" -v devices="$DEVICES_A_MUX" -v runs="$RUNS_A_DEVICE" -v bytes="$BYTES_A_RUN" 'BEGIN {
    print "version = 1" >board
    for (root = 0; root < roots; root++) print "[[root]]" >board
    for (mux = 0; mux < roots * muxes; mux++) {
      first = mux % muxes == 0
      print "[[mux]]" >board
      print "bus = " (first ? int(mux / muxes) : roots + channels * (mux - 1)) >board
      print "kind = \"pca9548\"" >board
      printf "address = 0x%02x\n", 112 + mux % muxes >board
      print "lock = \"parent\"" >board
      print "idle = \"disconnect\"" >board
    }
    for (device = 0; device < roots * muxes * devices; device++) {
      mux = int(device / devices)
      print "[[device]]" >board
      print "bus = " roots + channels * mux + 1 + device % devices >board
      print "kind = \"regs\"" >board
      printf "address = 0x%02x\n", 32 + device % (muxes * devices) >board
      print "bound = true" >board
      printf "set = [" >board
      for (run = 0; run < runs; run++) {
        printf "%s[%d", run ? ", " : "", run * bytes >board
        for (byte = 0; byte < bytes; byte++) printf ", 0x%02x", (run * bytes + byte + device) % 256 >board
        printf "]" >board
      }
      print "]" >board
    }
    printf "accepted: %d roots %d muxes %d devices %d buses\n", roots, roots * muxes, roots * muxes * devices, \
      roots + roots * muxes * channels >due
  }'
}

# Measures the board of so many roots.
measure() {
  write_files "$1"
  local times what="the check of $1 roots" due=$folder/due.$1
  local -a words=(check "$folder/board.$1")
  times=$(times_of "$what" "$due" "${words[@]}") || exit 1
  best[$1]=$(best_of "$times")
  median[$1]=$(median_of "$times")
  memory[$1]=$(memory_of "$what" "$due" "${words[@]}") || exit 1
  size[$1]=$(($(wc -c <"$folder/board.$1")))
}

# A row of the table: its name, and a word for each of the two and for their ratio.
row() {
  printf '%-26s %12s %12s %8s\n' "$@"
}

# A row of two numbers as they are, and of two in thousandths. One that isn't known is a dash.
row_of_numbers() {
  row "$1" "${2:--}" "${3:--}" "$(ratio "${2:-0}" "${3:-0}")"
}

row_of_times() {
  row "$1" "$(thousandths "$2")" "$(thousandths "$3")" "$(ratio "$2" "$3")"
}

declare -a best median memory size
half=$((ROOTS / 2))
measure "$half"
measure "$ROOTS"

row_of_numbers "roots" "$half" "$ROOTS"
row_of_numbers "muxes" "$((half * MUXES_A_ROOT))" "$((ROOTS * MUXES_A_ROOT))"
row_of_numbers "devices" "$((half * MUXES_A_ROOT * DEVICES_A_MUX))" "$((ROOTS * MUXES_A_ROOT * DEVICES_A_MUX))"
row_of_times "best of $RUNS runs, ms" "${best[$half]}" "${best[$ROOTS]}"
row_of_times "median of $RUNS runs, ms" "${median[$half]}" "${median[$ROOTS]}"
row_of_numbers "peak memory, KiB" "${memory[$half]}" "${memory[$ROOTS]}"
row_of_numbers "board, bytes" "${size[$half]}" "${size[$ROOTS]}"

echo "the largest board takes $(thousandths "${median[$ROOTS]}") ms; wanted: under $WANTED ms"
