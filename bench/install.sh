#!/usr/bin/env bash
# How long the built program takes to install a bundle of one image, beside `write-slot` of the same image and
# `dd` with the same pieces and a sync, in one run on the same files: the best of five runs of each, taken in
# turn, in seconds, MiB/s, and how many times as long as `write-slot` each takes. The helpers are shell scripts;
# the one that mounts makes hard links, so that the image is not copied. They, a boot loader in sh and the
# status file are run alone for comparison, as an install without bytes to write. Then how many system calls an
# install makes beside those of the write, without those that start, read and await children; and the largest
# resident memory. An install is to take at most 5% longer than `write-slot` with an image of 256 MiB or more,
# and at most 40 system calls more: the status is 1 where it does not. Needs bash, coreutils and awk; strace
# and GNU time where they are installed.
# Debian's `rauc install` is not compared: it asks a service on the system bus, which mounts the bundle by a
# loop device and device mapper, and both need root.
# Use: bench/install.sh [PROGRAM [MIB..]]
set -euo pipefail
program=$(realpath "${1:-build/rauc}")
[ $# -gt 0 ] && shift
[ $# -gt 0 ] || set -- 64 256 1024
cd "$(dirname "$0")/.."
. tests/lib/bundle_helpers.sh
. tests/lib/install_files.sh
scratch=$(mktemp -d "$(dirname "$program")/bench.XXXXXX")
trap 'rm -rf "$scratch"' EXIT
cd "$scratch"

# Set before the helpers are made of it.
# shellcheck disable=SC2016,SC2034
mount_bundle='inside "$2" && mkdir -p "$2" && cp -Rl -- "$1/." "$2"'
helpers helpers
grub > grub_said
plain_grub
PATH=$scratch/bin:$PATH
install_conf
: > a
late=0

# The words before it run the program, if there are any.
install_bundle() { "$@" "$program" install -c c --override-boot-slot=A bundle; }
write_slot() { "$@" "$program" write-slot -c c --override-boot-slot=A rootfs.1 bundle/r.img; }
write_by_dd() { dd if=bundle/r.img of=b bs=64K conv=fsync,notrunc status=none; }
install_nothing() { "$program" install -c c --override-boot-slot=A nothing; }

# anew: what an install changes beside the slot, as an earlier one has left it; write-slot notes in the record
# of the status file too.
anew() {
  grub_has 'ORDER=B A' A_OK=1 A_TRY=0 B_OK=1 B_TRY=0
  cp earlier status/central.raucs
}

# once WORD..: how long a command takes, in microseconds.
once() {
  local start
  anew
  sync
  start=${EPOCHREALTIME//[.,]/}
  "$@" > said 2>&1 || { cat said >&2; return 1; }
  echo $((${EPOCHREALTIME//[.,]/} - start))
}

ways=(install_bundle write_slot write_by_dd install_nothing)

# measure: the best of five runs of each, in turn, in `best`.
declare -A best
measure() {
  local way took
  best=()
  for _ in 1 2 3 4 5; do
    for way in "${ways[@]}"; do
      took=$(once "$way")
      [ "$took" -ge "${best[$way]:-999999999999}" ] || best[$way]=$took
    done
  done
}

# print NAME SIZE WAY: how long it took, beside `write-slot`.
print() {
  awk -v name="$1" -v size="$2" -v took="${best[$3]}" -v written="${best[write_slot]}" \
    'BEGIN { printf "  %-34s %8.3f s %9.1f MiB/s %6.2f\n", name, took / 1e6, size * 1e6 / took, took / written }'
}

# own_calls FILE: how many of the traced calls since the configuration was opened have nothing to do with
# children, memory and signals. What is done from the first pipe of a child to the wait for it is for the child.
own_calls() {
  awk -v conf="\"c\"" '
    /^openat/ && index($0, conf) { begun = 1 }
    /^pipe2/ { child = 1 }
    begun && !child && /^[a-z0-9_]+\(/ && !/^(mmap|munmap|mprotect|madvise|brk|mremap|futex|rt_sig|sigaltstack|gettid|exit)/ { calls++ }
    /^wait4/ { child = 0 }
    END { print calls + 0 }' "$1"
}

# An empty image, in a bundle of its own.
begin_bundle Test 2
: > bundle/r.img
add_image rootfs r.img
mv bundle nothing
: > b
grub_has 'ORDER=A B' A_OK=1 A_TRY=0 B_OK=1 B_TRY=0
install_nothing > said
mv status/central.raucs earlier

for size in "$@"; do
  begin_bundle Test 2
  head -c $((size << 20)) /dev/urandom > bundle/r.img
  add_image rootfs r.img
  cp bundle/r.img b
  measure
  echo "$size MiB                                   time          speed  times write-slot"
  print "rauc install" "$size" install_bundle
  print "rauc write-slot" "$size" write_slot
  print "dd bs=64K conv=fsync,notrunc" "$size" write_by_dd
  awk -v took="${best[install_nothing]}" 'BEGIN { printf "  %-34s %8.3f s\n", "rauc install of an empty image", took / 1e6 }'
  if [ "$size" -ge 256 ] && [ $((100 * best[install_bundle])) -gt $((105 * best[write_slot])) ]; then
    echo "  that is more than 5% over write-slot"
    late=1
  fi
  if strace -o /dev/null true 2> /dev/null; then
    anew
    install_bundle strace -o calls_install > said
    anew
    write_slot strace -o calls_write > said
    installed=$(own_calls calls_install)
    written=$(own_calls calls_write)
    echo "  $installed system calls without those for children, and $written of write-slot: $((installed - written)) more"
    if [ $((installed - written)) -gt 40 ]; then
      echo "  that is more than 40"
      late=1
    fi
  else
    echo "  skipped: system calls, since strace is missing or cannot trace here"
  fi
  if [ -x /usr/bin/time ]; then
    anew
    memory=$(install_bundle /usr/bin/time -f %M 2>&1 > said)
    echo "  $memory KiB resident at most"
  else
    echo "  skipped: resident memory, since /usr/bin/time is missing"
  fi
done
echo "not compared: Debian's rauc install, since its service mounts the bundle, which needs root"
exit "$late"
