#!/usr/bin/env bash
# How long the built program takes to read a configuration: files of comments, of many groups with
# twenty keys each, of as many short keys as fit, and of 64 slots, each at three lengths; and files of
# 1 MiB with fewer slots. Prints the best of nine runs in ms, and MB/s; the times hold the start of the
# program too. Each file is to take less than 50 ms, those with slots less than 100 ms: the
# status is 1 where one takes longer. Needs bash, coreutils, awk, sed and grep.
set -eu
. "$(dirname "$0")/lib/scratch.sh"

head_of() { printf '[system]\ncompatible=Test\nbootloader=noop\n\n'; }

comments() { yes '# A comment of the length that comments in such files often have.'; }

groups() {
  awk 'BEGIN { for (group = 0; ; group++) { print "[log." group "]"; for (key = 0; key < 20; key++) print "key-" key "=the value\\sof the key " key } }'
}

keys() {
  awk 'BEGIN { print "[log.a]"; for (key = 0; ; key++) printf "%x=\n", key }'
}

# slots COUNT: so many slots, and then comments.
slots() {
  for slot in $(seq 0 $(($1 - 1))); do
    printf '[slot.rootfs.%s]\ndevice=/dev/disk/by-partlabel/rootfs-%s\ntype=ext4\nbootname=system-%s\n\n' "$slot" "$slot" "$slot"
  done
  comments
}

# best FILE: the best of nine runs, in microseconds.
best() {
  local least=999999999 run start took
  for run in 1 2 3 4 5 6 7 8 9; do
    start=${EPOCHREALTIME//[.,]/}
    "$program" write-slot -c "$1" no.0 no > said 2>&1 || true
    took=$((${EPOCHREALTIME//[.,]/} - start))
    grep -q '^rauc: no such slot: no.0$' said || { cat said >&2; exit 1; }
    if [ "$took" -lt "$least" ]; then least=$took; fi
  done
  echo "$least"
}

late=0

# measure SIZE LIMIT KIND..: reads a file of a kind, of so many bytes at most. The limit is in ms.
measure() {
  local size=$1 limit=$2 took
  shift 2
  # The last line is cut off whole, so that it is no bad one.
  (head_of; "$@") 2> /dev/null | head -c "$size" | sed '$d' > file || true
  took=$(best file)
  awk -v kind="$*" -v size="$(wc -c < file)" -v took="$took" \
    'BEGIN { printf "%-9s %8d bytes %8.2f ms %8.1f MB/s\n", kind, size, took / 1000, size / took }'
  if [ "$took" -ge $((limit * 1000)) ]; then
    echo "that is not under $limit ms"
    late=1
  fi
}

for size in 262144 524288 1048576; do
  measure "$size" 50 comments
  measure "$size" 50 groups
  measure "$size" 50 keys
  measure "$size" 100 slots 64
done
measure 1048576 100 slots 16
measure 1048576 100 slots 32
exit "$late"
