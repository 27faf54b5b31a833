# What the benchmarks of reads share beside common.sh: a board, scripts of reads, and the reports that are due. It is read
# by them, and is no program by itself.

# The bus, the address and the number of the device that is read, and the entries of one read: take, two messages,
# settle, free; behind the mux there are two locks, and the channel is selected and deselected, but where it is kept.
declare -A bus=([root]=0 [mux]=1 [kept]=1)
declare -A address=([root]=0x20 [mux]=0x30 [kept]=0x30)
declare -A device=([root]=0 [mux]=1 [kept]=1)
declare -A entries_a_read=([root]=5 [mux]=9 [kept]=7)

# A register device whose register 5 holds 0x7e.
device_of() {
  printf '%s\n' '[[device]]' "bus = ${bus[$1]}" 'kind = "regs"' "address = ${address[$1]}" 'set = [[5, 0x7e]]'
}

# One root with such a device, the same with a parent-locked mux whose first channel has a device too, and that with a mux
# that stays as it is.
write_boards() {
  printf '%s\n' 'version = 1' '[[root]]' >"$folder/board.root"
  cp "$folder/board.root" "$folder/board.mux"
  printf '%s\n' '[[mux]]' 'bus = 0' 'kind = "pca9548"' 'address = 0x70' 'lock = "parent"' >>"$folder/board.mux"
  device_of root | tee -a "$folder/board.mux" >>"$folder/board.root"
  device_of mux >>"$folder/board.mux"
  sed 's/^lock = .*/&\nidle = "as-is"/' "$folder/board.mux" >"$folder/board.kept"
  : >"$folder/schedule"
}

# The script of so many reads of the device on the root or behind the mux, each of the next register, and the report that
# is due of so many callers with this script, one after the other: the empty schedule has it so.
write_files() {
  awk -v lines="$2" -v callers="$3" -v script="$folder/script" -v due="$folder/due" \
    -v bus="${bus[$1]}" -v address="${address[$1]}" -v device="${device[$1]}" -v where="$1" 'BEGIN {
    printf "" >script
    for (i = 0; i < lines; i++) print "i2cget -y " bus " " address " " i % 256 >script
    printf "" >due
    for (k = 0; k < callers; k++) {
      print "caller " k >due
      for (i = 0; i < lines; i++)
        printf "> i2cget -y %d %s %d\n0x%s\n", bus, address, i % 256, i % 256 == 5 ? "7e" : "00" >due
    }
    print "journal" >due
    for (k = 0; k < callers; k++)
      for (i = 0; i < lines; i++) {
        byte = i % 256 == 5 ? "7e" : "00"
        if (bus > 0) print "take " k " muxlock 0" >due
        print "take " k " buslock 0" >due
        if (where == "mux" || where == "kept" && k + i == 0) print "msg " k " bus 0 mux 0 1/1 w 0x70 [01] heard m0 ok" >due
        printf "msg %d bus %d call 1/2 w %s [%02x] heard d%d ok\n", k, bus, address, i % 256, device >due
        printf "msg %d bus %d call 2/2 r %s [%s] heard d%d ok\n", k, bus, address, byte, device >due
        print "settle " k " read " byte >due
        if (where == "mux") print "msg " k " bus 0 mux 0 1/1 w 0x70 [00] heard m0 ok" >due
        print "free " k " buslock 0" >due
        if (bus > 0) print "free " k " muxlock 0" >due
      }
    print "end" >due
  }'
}
