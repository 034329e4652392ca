#!/usr/bin/env bash
# How long `status` of the built program takes with 64 slots: without a status file, with a record of each
# slot as an install writes it, and with records whose seven texts have 1,024 bytes each, which is as long
# as they may be. There is no boot loader (`noop`), and the name of the slot that runs is given, so that no
# program is run and no command line is read. Prints the median of 21 runs, in ms; the times hold the
# start of the program. Each is to take less than 50 ms: the status is 1 where one does not. Needs bash,
# coreutils, awk, sed and grep.
# Use: bench/status.sh [PROGRAM]
set -eu
. "$(dirname "$0")/lib/scratch.sh"
digest=ba7816bf8f01cfea414140de5dae2223b00361a396177a9cb410ff61f20015ad

{
  printf '[system]\ncompatible=Test\nbootloader=noop\nstatusfile=%s/central.raucs\n\n' "$scratch"
  for slot in $(seq 0 63); do
    printf '[slot.rootfs.%s]\ndevice=/dev/disk/by-partlabel/rootfs-%s\ntype=ext4\nbootname=system-%s\n\n' "$slot" "$slot" "$slot"
  done
} > conf

# long LETTER: a text of 1,024 bytes.
long() { printf "%1024s" | tr ' ' "$1"; }

# records COMPATIBLE VERSION DESCRIPTION BUILD STATUS INSTALLED ACTIVATED: a full record of each slot, with
# these texts.
records() {
  local slot
  for slot in $(seq 0 63); do
    printf '[slot.rootfs.%s]\nbundle.compatible=%s\nbundle.version=%s\nbundle.description=%s\nbundle.build=%s\n' \
      "$slot" "$1" "$2" "$3" "$4"
    printf 'status=%s\nsha256=%s\nsize=104857600\n' "$5" "$digest"
    printf 'installed.timestamp=%s\ninstalled.count=17\nactivated.timestamp=%s\nactivated.count=12\n\n' "$6" "$7"
  done
}

# status WORD..: what it says with these words behind it.
status() { "$program" -c conf --override-boot-slot=rootfs.0 status "$@"; }

# once WORD..: how long that takes, in microseconds.
once() {
  local start=${EPOCHREALTIME//[.,]/}
  status "$@" > said 2>&1 || { cat said >&2; return 1; }
  echo $((${EPOCHREALTIME//[.,]/} - start))
}

late=0

# measure NAME LINES WORD..: `status` with these words; of the lines for a reader, so many tell a digest.
measure() {
  local name=$1 lines=$2 took size=0
  shift 2
  status "$@" > told
  [ "$(grep -c '^  sha256: ' told)" = "$lines" ] || { cat told >&2; exit 1; }
  for _ in $(seq "$runs"); do
    once "$@" >> times
  done
  took=$(median times)
  rm times
  [ ! -e central.raucs ] || size=$(wc -c < central.raucs)
  awk -v name="$name" -v words="status $*" -v size="$size" -v took="$took" \
    'BEGIN { printf "%-20s %7d bytes  %-28s %8.2f ms\n", name, size, words, took / 1000 }'
  if [ "$took" -ge 50000 ]; then
    echo "that is not under 50 ms"
    late=1
  fi
}

# each NAME LINES: `status` in each form.
each() {
  measure "$1" 0
  measure "$1" "$2" --detailed
  measure "$1" 0 --output-format=shell
}

each 'no status file' 0
records Test 2024.05-1 'All regions' 7 ok 2024-05-01T12:00:00Z 2024-05-01T12:00:01Z > central.raucs
each '64 records' 64
records "$(long a)" "$(long b)" "$(long c)" "$(long d)" "$(long e)" "$(long f)" "$(long g)" > central.raucs
each '64 long records' 64
exit "$late"
