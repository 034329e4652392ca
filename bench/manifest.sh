#!/usr/bin/env bash
# How long `info` of the built program takes: with manifests of 1 image and of 64, and with such ones of
# 1 MiB, filled up by comments or by groups with twenty keys each that are passed over. The helpers are
# three shell scripts that do next to nothing; they are timed alone too, and the last column is what is
# left when their time is taken off. Prints the median of 21 runs, in ms. Each manifest is to leave less
# than 100 ms: the status is 1 where one does not. Needs bash, coreutils, awk, sed and grep.
# Use: bench/manifest.sh [PROGRAM]
set -eu
. "$(dirname "$0")/lib/scratch.sh"

# helper NAME LINE: a helper that does this, and ends well if it does.
helper() {
  printf '#!/bin/sh\n%s\n' "$2" > "$1"
  chmod 755 "$1"
}
helper check '[ -r "$1/manifest.raucm" ]'
helper mount 'ln -s "$1" "$2"'
helper umount 'rm "$1"'
mkdir bundle mnt

cat > conf << CONF
[system]
compatible=Test
bootloader=noop
mountprefix=$scratch/mnt

[slot.rootfs.0]
device=/dev/disk/by-partlabel/rootfs-0

[x-helpers]
bundle-check=$scratch/check
bundle-mount=$scratch/mount
bundle-umount=$scratch/umount
CONF

# images COUNT: what a manifest of so many images begins with.
images() {
  local image
  printf '[update]\ncompatible=Test\nversion=2024.05-1\n\n'
  for image in $(seq 1 "$1"); do
    printf '[image.class-%s]\nfilename=image-%s.ext4\nsize=104857600\nsha256=ba7816bf8f01cfea414140de5dae2223b00361a396177a9cb410ff61f20015ad\n\n' "$image" "$image"
  done
}

comments() { yes '# A comment of the length that comments in such files often have.'; }

groups() {
  awk 'BEGIN { for (group = 0; ; group++) { print "[meta." group "]"; for (key = 0; key < 20; key++) print "key-" key "=the value\\sof the key " key } }'
}

# filled SIZE COMMAND..: a manifest of 64 images, and behind them what this command puts, in so many bytes
# at most. The last line is cut off whole, so that it is no bad one.
filled() {
  local size=$1
  shift
  (images 64; "$@") 2> /dev/null | head -c "$size" | sed '$d' || true
}

info() { "$program" info -c conf "$scratch/bundle"; }

helpers() {
  ./check "$scratch/bundle"
  ./mount "$scratch/bundle" "$scratch/mnt/bundle"
  ./umount "$scratch/mnt/bundle"
}

# once COMMAND: how long a command takes, in microseconds.
once() {
  local start=${EPOCHREALTIME//[.,]/}
  "$1" > said 2>&1 || { cat said >&2; return 1; }
  echo $((${EPOCHREALTIME//[.,]/} - start))
}

late=0

# measure NAME IMAGES COMMAND..: `info` of the manifest that this command puts.
measure() {
  local name=$1 count=$2 took alone
  shift 2
  "$@" > bundle/manifest.raucm
  info > told
  grep -qx "images: $count" told || { cat told >&2; exit 1; }
  # One after the other, so that both have the same share of what else the machine does.
  for _ in $(seq "$runs"); do
    once info >> whole
    once helpers >> alone
  done
  took=$(median whole)
  alone=$(median alone)
  rm whole alone
  awk -v name="$name" -v size="$(wc -c < bundle/manifest.raucm)" -v took="$took" -v alone="$alone" \
    'BEGIN { printf "%-24s %8d bytes %8.2f ms, helpers alone %6.2f ms, the rest %6.2f ms\n", name, size, took / 1000, alone / 1000, (took - alone) / 1000 }'
  if [ $((took - alone)) -ge 100000 ]; then
    echo "that is not under 100 ms"
    late=1
  fi
}

measure '1 image' 1 images 1
measure '64 images' 64 images 64
measure '64 images and comments' 64 filled 1048576 comments
measure '64 images and groups' 64 filled 1048576 groups
exit "$late"
