#!/usr/bin/env bash
# Shows the program's main job on files that it makes in a scratch folder: an image is written to the
# inactive one of two slots, and the other, which counts as booted, is left alone. It stops with status 1
# where the program does not do so. Needs bash, coreutils and cmp.
set -eu
program=$(realpath "${1:-build/rauc}")
scratch=$(mktemp -d "$(dirname "$program")/demo.XXXXXX")
trap 'rm -rf "$scratch"' EXIT
cd "$scratch"

# run STATUS WORDS..: shows a run of the program, which has to end with this status.
run() {
  local wanted=$1 status=0
  shift
  printf '\n$ rauc %s\n' "$*"
  "$program" "$@" 2>&1 || status=$?
  printf '[status %s]\n' "$status"
  [ "$status" = "$wanted" ] || { echo "it should have ended with status $wanted" >&2; exit 1; }
}

slots() {
  for slot in slot-a slot-b; do
    printf '  %s: %s bytes, sha256 %s\n' "$slot" "$(wc -c < "$slot")" "$(sha256sum < "$slot" | cut -c1-64)"
  done
}

head -c 4194304 /dev/zero | tr '\0' 'a' > slot-a
head -c 4194304 /dev/zero | tr '\0' 'b' > slot-b
head -c 1000000 /dev/urandom > system.img
head -c 5000000 /dev/zero > large.img
cat > system.conf <<CONF
[system]
compatible=Demo
bootloader=grub

[slot.rootfs.0]
device=$scratch/slot-a
bootname=A

[slot.rootfs.1]
device=$scratch/slot-b
bootname=B
CONF

echo "Two files stand for the devices of two slots, of which the first counts as booted:"
slots
echo "The image system.img: $(wc -c < system.img) bytes, sha256 $(sha256sum < system.img | cut -c1-64)"
cp slot-a running
cp slot-b before
run 0 write-slot --override-boot-slot=A -c system.conf rootfs.1 system.img
echo
slots
cmp -n 1000000 system.img slot-b
cmp -i 1000000 before slot-b
cmp running slot-a
echo "  slot-b begins with the 1000000 bytes of system.img; the rest of it and slot-a are as before"
run 1 write-slot --override-boot-slot=A -c system.conf rootfs.0 system.img
run 1 write-slot --override-boot-slot=A -c system.conf rootfs.1 large.img
run 1 write-slot --override-boot-slot=A -c system.conf rootfs.7 system.img
echo
echo "Next: docs/reference.md says what each command, line and status means; README.md says what is proved."
