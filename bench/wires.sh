#!/usr/bin/env bash
# How many instructions the proved program takes, which drives two wires, as a multiple of those of the same program over the rig of
# bytes: for register reads on a root, behind a mux, behind 32 muxes by turns, of eight callers, and on a root of 112 devices; for
# blocks of an EEPROM and of an SMBus device, dumps, an `at24 read`, `sensors`, a scan of each bus of a tree, and `gen`. The
# multiple should be at most 1.5 in each. It prints the memory of both too.
#
#     bench/wires.sh [PROGRAM [OTHER]]
#
# PROGRAM is crates/i2cbus/out/i2cbus where it isn't given, and OTHER crates/i2cbus_bytes/out/i2cbus_bytes. Nothing is built here, and
# nothing is left behind. A run whose output isn't that of the other program, or the report that is due, ends it.
. "$(dirname "$0")/common.sh"
. "$(dirname "$0")/board.sh"

wires=$program
bytes=${2:-$(dirname "$0")/../crates/i2cbus_bytes/out/i2cbus_bytes}
if [ ! -f "$bytes" ] || [ ! -x "$bytes" ]; then
  echo "there is no program $bytes: rt ci, or rt run in crates/i2cbus_bytes, leaves it in crates/i2cbus_bytes/out/" >&2
  exit 1
fi
command -v valgrind >/dev/null || { echo 'there is no valgrind, which counts the instructions' >&2; exit 1; }

MOST=1.5 # so many times the instructions of the rig of bytes

# A root with register devices at these addresses.
write_devices() {
  local address
  printf '%s\n' 'version = 1' '[[root]]'
  for address in "$@"; do printf '%s\n' '[[device]]' 'bus = 0' 'kind = "regs"' "address = $address" 'set = [[5, 0x7e]]'; done
}

# A script of 1,000 reads of this address.
write_reads() {
  awk -v address="$1" 'BEGIN { for (i = 0; i < 1000; i++) print "i2cget -y 0 " address " " i % 256 }'
}

# Measures a run with these words, whose report is in the file `due`, over both programs.
compare() {
  local what=$1 many few used held
  shift
  program=$wires
  many=$(instructions_of "$what" "$folder/due" "$@") || exit 1
  used=$(memory_of "$what" "$folder/due" "$@") || exit 1
  program=$bytes
  few=$(instructions_of "$what over bytes" "$folder/due" "$@") || exit 1
  held=$(memory_of "$what over bytes" "$folder/due" "$@") || exit 1
  printf '%-34s %13d %13d %8s   %s KiB, %s KiB\n' "$what" "$many" "$few" "$(ratio "$few" "$many")" "${used:--}" "${held:--}"
}

write_boards
printf '%-34s %13s %13s %8s   %s\n' run 'on two wires' 'in bytes' multiple 'peak memory of each'
for where in root mux; do
  write_files "$where" 1000 1
  compare "1,000 reads ($where)" replay "$folder/board.$where" "$folder/schedule" "$folder/script"
done

addresses=()
scripts=()
for ((k = 0; k < 8; k++)); do
  address=$(printf '0x%02x' $((0x20 + k)))
  addresses+=("$address")
  write_reads "$address" >"$folder/script$k"
  scripts+=("$folder/script$k")
done
write_devices "${addresses[@]}" >"$folder/board.eight"
"$bytes" replay "$folder/board.eight" "$folder/schedule" "${scripts[@]}" >"$folder/due" || exit 1
compare '8 callers, 1,000 reads each' replay "$folder/board.eight" "$folder/schedule" "${scripts[@]}"

addresses=()
for ((k = 0x08; k < 0x78; k++)); do addresses+=("$(printf '0x%02x' "$k")"); done
write_devices "${addresses[@]}" >"$folder/board.many"
"$bytes" replay "$folder/board.many" "$folder/schedule" "$folder/script0" >"$folder/due" || exit 1
compare '1,000 reads, 112 devices' replay "$folder/board.many" "$folder/schedule" "$folder/script0"

# Measures the lines of a script, so many times over, on the board of this name, over both programs.
compare_lines() {
  local what=$1 board=$2 times=$3
  shift 3
  for ((k = 0; k < times; k++)); do printf '%s\n' "$@"; done >"$folder/lines"
  "$bytes" replay "$folder/board.$board" "$folder/schedule" "$folder/lines" >"$folder/due" || exit 1
  compare "$what" replay "$folder/board.$board" "$folder/schedule" "$folder/lines"
}

# A device of this kind at an address of a bus, with more lines of its table.
write_device() {
  printf '%s\n' '[[device]]' "bus = $1" "kind = \"$2\"" "address = $3" "${@:4}"
}

write_mux() {
  printf '%s\n' '[[mux]]' "bus = $1" 'kind = "pca9548"' "address = $2"
}

{
  printf '%s\n' 'version = 1' '[[root]]'
  for ((k = 0; k < 32; k++)); do write_mux 0 "$((0x40 + k))"; done
  for ((k = 0; k < 32; k++)); do write_device "$((1 + 8 * k))" regs 0x20 'set = [[5, 0x7e]]'; done
} >"$folder/board.muxes"
lines=()
for ((k = 0; k < 32; k++)); do lines+=("i2cget -y $((1 + 8 * k)) 0x20 5"); done
compare_lines '992 reads, 32 muxes by turns' muxes 31 "${lines[@]}"

{
  printf '%s\n' 'version = 1' '[[root]]'
  write_device 0 24c02 0x50 'set = [[0, 1, 2, 3]]'
  write_device 0 smbus 0x21 'width = 0' 'set = [[0, 32]]'
  write_device 0 regs 0x20 'set = [[5, 0x7e]]'
  write_device 0 24c256 0x51 'bound = true'
} >"$folder/board.blocks"
compare_lines '1,000 blocks of an EEPROM' blocks 1000 'i2cget -y 0 0x50 0 i 32'
compare_lines '1,000 SMBus blocks with PEC' blocks 1000 'i2cget -y 0 0x21 0 sp'
compare_lines '61 dumps of 256 words' blocks 61 'i2cdump -y 0 0x20 w'
compare_lines 'at24 read of 32 KiB' blocks 1 'at24 read 0 0x51 0 32768'

{
  printf '%s\n' 'version = 1' '[[root]]'
  for ((k = 0; k < 64; k++)); do write_device 0 lm75 "$((8 + k))" 'bound = true' 'raw = 0x1900'; done
} >"$folder/board.sensors"
compare_lines '100 times sensors, 64 of them' sensors 100 sensors

{
  printf '%s\n' 'version = 1' '[[root]]'
  write_mux 0 0x70
  write_mux 1 0x71
  write_mux 2 0x72
  write_device 9 regs 0x20
} >"$folder/board.tree"
lines=()
for ((k = 0; k < 25; k++)); do lines+=("i2cdetect -y $k"); done
compare_lines 'a scan of 25 buses of a tree' tree 1 "${lines[@]}"

"$bytes" gen 1 8 1000 >"$folder/due" || exit 1
compare 'gen 1 8 1000' gen 1 8 1000
echo "wanted: a multiple of at most $MOST in each"
