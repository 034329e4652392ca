#!/usr/bin/env bash
# How long the built program takes to write an image, beside the same work by coreutils (and by
# Debian's rauc, where it is installed) and beside hashing alone by the same sha2 (build/hash_file, if
# it was built), in one run on the same files: the best of three runs in ms, MB/s, and how many times as
# long as the program each takes; then system calls for each 65,536 bytes and the largest resident
# memory. Needs bash, coreutils and awk; strace and GNU time where they are installed.
# Use: bench/write_slot.sh [PROGRAM [MIB..]]
set -euo pipefail
program=$(realpath "${1:-build/rauc}")
hash_file=$(dirname "$program")/hash_file
[ $# -gt 0 ] && shift
[ $# -gt 0 ] || set -- 64 256 1024
scratch=$(mktemp -d "$(dirname "$program")/bench.XXXXXX")
trap 'rm -rf "$scratch"' EXIT
cd "$scratch"

cat > system.conf << CONF
[system]
compatible=Bench
bootloader=noop

[slot.rootfs.0]
device=$scratch/booted

[slot.rootfs.1]
device=$scratch/device
CONF
: > booted

# The words before it run the program, if there are any.
write_by_rauc() { "$@" "$program" write-slot -c system.conf --override-boot-slot=rootfs.0 rootfs.1 image.img; }
# Debian's rauc has no option for the booted slot in this command, and reads the kind of an image off
# its name.
write_by_debian() { /usr/bin/rauc write-slot -c system.conf rootfs.1 image.img; }
write_by_dd() { dd if=image.img of=device bs=64K conv=fsync,notrunc status=none; }
write_and_hash() { dd if=image.img bs=64K status=none | tee device | sha256sum && sync device; }
# tee cuts a file off first, which no device does; the program does not.
write_in_place_and_hash() {
  dd if=image.img bs=64K status=none | tee >(dd of=device bs=64K iflag=fullblock conv=notrunc status=none) | sha256sum && sync device
}

# best WORD..: the best of three runs of a command, in microseconds.
best() {
  local least=999999999999 run start took
  for run in 1 2 3; do
    sync
    start=${EPOCHREALTIME//[.,]/}
    "$@" > said 2>&1 || { cat said >&2; return 1; }
    took=$((${EPOCHREALTIME//[.,]/} - start))
    if [ "$took" -lt "$least" ]; then least=$took; fi
  done
  echo "$least"
}

# print NAME SIZE TOOK OURS: how long a command took, beside the program's time.
print() {
  awk -v name="$1" -v size="$2" -v took="$3" -v ours="$4" \
    'BEGIN { printf "  %-28s %9.1f ms %8.1f MB/s %6.2f\n", name, took / 1000, size * 1.048576e6 / took, took / ours }'
}

# row NAME SIZE OURS WORD..: the same of a command that is run here.
row() {
  local name=$1 size=$2 ours=$3 took
  shift 3
  took=$(best "$@")
  print "$name" "$size" "$took" "$ours"
}

for size in "$@"; do
  head -c $((size << 20)) /dev/urandom > image.img
  cp image.img device
  ours=$(best write_by_rauc)
  echo "$size MiB                               time          speed  times ours"
  print "rauc write-slot" "$size" "$ours" "$ours"
  row "dd conv=fsync" "$size" "$ours" write_by_dd
  row "dd | tee | sha256sum; sync" "$size" "$ours" write_and_hash
  row "the same in place" "$size" "$ours" write_in_place_and_hash
  row "sha256sum" "$size" "$ours" sha256sum image.img
  if [ -x "$hash_file" ]; then
    row "the same sha2 alone" "$size" "$ours" "$hash_file" image.img
  fi
  if [ -x /usr/bin/rauc ]; then
    row "Debian's rauc write-slot" "$size" "$ours" write_by_debian
  fi
  if strace -o /dev/null true 2> /dev/null; then
    write_by_rauc strace -f -o calls > said
    awk -v calls="$(wc -l < calls)" -v pieces=$((size << 4)) 'BEGIN { printf "  %.2f system calls for each piece\n", calls / pieces }'
  fi
  if [ -x /usr/bin/time ]; then
    memory=$(write_by_rauc /usr/bin/time -f %M 2>&1 > said)
    echo "  $memory KiB resident at most"
  fi
done
