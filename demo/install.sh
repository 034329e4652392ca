#!/usr/bin/env bash
# Shows an update from its bundle to its end, on files that it makes in a scratch folder: a bundle is installed
# into the slot that does not run, two bundles are refused, and an install is killed in the middle of its
# write, after which the old system is still the one that starts, and the same install then succeeds. It stops
# with status 1 where the program does not do so. Needs bash, coreutils, cmp, sed and grep; the boot loader is
# GRUB by the real grub-editenv, where that is installed.
set -eu
program=$(realpath "${1:-build/rauc}")
cd "$(dirname "$0")/.."
. tests/lib/bundle_helpers.sh
. tests/lib/install_files.sh
scratch=$(mktemp -d "$(dirname "$program")/demo.XXXXXX")
trap 'rm -rf "$scratch"' EXIT
cd "$scratch"

say() { printf '\n%s\n' "$*"; }

fail() {
  echo "the demo failed: $*" >&2
  exit 1
}

# run STATUS WORD..: shows a run of the program, which has to end with this status. What it printed stands in
# the file `said`.
run() {
  local wanted=$1 status=0
  shift
  printf '$ rauc %s\n' "$*"
  "$program" "$@" > said 2>&1 || status=$?
  cat said
  printf '[status %s]\n' "$status"
  [ "$status" = "$wanted" ] || fail "it should have ended with status $wanted"
}

# said LINE: the last run put this line.
said() { grep -qxF -- "$1" said || fail "it should have said: $1"; }

# The first slot counts as booted.
given=(-c system.conf --override-boot-slot=A)
install=(install "${given[@]}")

# tell: which slot is started next, and what both hold.
tell() { run 0 status "${given[@]}" --detailed; }

# starts NAME: this is the slot that the boot loader starts next.
starts() {
  run 0 status "${given[@]}"
  said "primary: $1"
}

# marked NAME WORD: whether the boot loader may start the slot of this bootname.
marked() {
  grub_vars | grep -qx "$1_OK=$2" || fail "$1_OK should be $2: $(grub_vars)"
}

# begins SLOT IMAGE: the slot begins with the image.
begins() { cmp -n "$(wc -c < "$2")" "$2" "$1" || fail "$1 does not begin with $2"; }

# ---- the device and the bundle

size=8388608
head -c "$size" /dev/zero | tr '\0' a > slot-a
head -c "$size" /dev/zero | tr '\0' b > slot-b
cp slot-a running
cp slot-b before
helpers helpers
grub
PATH=$scratch/bin:$PATH
grub_has 'ORDER=A B' A_OK=1 A_TRY=0 B_OK=1 B_TRY=0
install_conf
sed "s|^compatible=.*|compatible=Demo|; s|^device=.*/a\$|device=$scratch/slot-a|; s|^device=.*/b\$|device=$scratch/slot-b|" c > system.conf

# bundle_of COMPATIBLE VERSION: the folder `bundle`, with a system image of this version.
bundle_of() {
  begin_bundle "$1" "$2"
  { echo "system $2"; head -c 3000000 /dev/urandom; } | head -c 3000000 > bundle/system.img
  add_image rootfs system.img
}

# cut_off: an install of the fourth bundle, which is killed once its first bytes are in the slot; whether its
# last ones are not there by then.
cut_off() {
  local line='' installing
  cp before slot-b
  : > said
  "$program" "${install[@]}" bundle > said 2>&1 &
  installing=$!
  while [ "$line" != 'system 4' ] && kill -0 "$installing" 2> /dev/null; do
    read -r line < slot-b || :
  done
  kill -KILL "$installing" 2> /dev/null || :
  wait "$installing" 2> /dev/null || :
  begins_with 'system 4' && ! cmp -s -n 3000000 bundle/system.img slot-b
}

# begins_with LINE: the second slot begins with this line.
begins_with() {
  local line=''
  read -r line < slot-b || :
  [ "$line" = "$1" ]
}

say "Two files stand for the devices of two slots, A and B. A is the one that runs, and the boot loader starts it next:"
starts 'rootfs.0 (A)'

bundle_of Demo 2
say "A bundle is a folder here, with an image and a manifest; three programs in sh check, mount and unmount it:"
run 0 info -c system.conf bundle
said 'version: 2'

# ---- an install

say "The bundle is installed into the slot that does not run:"
: > ran
run 0 "${install[@]}" bundle
said '90% slot rootfs.1 written'
said '100% done'
said 'Installing bundle succeeded'
begins slot-b bundle/system.img
cmp -i 3000000 before slot-b || fail 'slot-b differs behind the image'
cmp running slot-a || fail 'slot-a differs'
[ ! -e mnt/bundle ] || fail 'the bundle is still mounted'
say "slot-b begins with the image now; the rest of it, and slot-a, which runs, are as before. These programs were run:"
sed "s|$scratch/||g" ran
say "The boot loader starts B next, and the status file says what it holds:"
tell
said 'primary: rootfs.1 (B)'
said '  status: ok'
said '  size: 3000000'
said "  sha256: $(sha256sum < bundle/system.img | cut -c1-64)"

# ---- installs that are refused

say "The device is to keep its old system for now:"
run 0 status "${given[@]}" mark-active booted
said 'activated slot rootfs.0'
say "A bundle for another system is refused before anything is changed:"
cp slot-b before
cp status/central.raucs old-status
bundle_of Other 3
run 1 "${install[@]}" bundle
said 'rauc: compatible is Demo, bundle has Other'
cmp before slot-b || fail 'slot-b differs'
cmp old-status status/central.raucs || fail 'the status file differs'
starts 'rootfs.0 (A)'
marked B 1
say "A bundle whose image was damaged on the way is refused once its image was written and hashed:"
bundle_of Demo 3
printf X | dd of=bundle/system.img bs=1 seek=1500000 conv=notrunc status=none
printf Y | dd of=bundle/system.img bs=1 seek=1500001 conv=notrunc status=none
damaged=$(sha256sum < bundle/system.img | cut -c1-64)
run 1 "${install[@]}" bundle
said "rauc: image system.img: sha256 $damaged, manifest says $(sed -n 's/^sha256=//p' bundle/manifest.raucm)"
marked B 0
say "The boot loader may not start B then, and A starts next:"
starts 'rootfs.0 (A)'
cmp running slot-a || fail 'slot-a differs'

# ---- an install that is killed

say "An install whose process is killed in the middle of its write, as where the power fails:"
bundle_of Demo 4
cp slot-b before
tries=0
until cut_off; do
  tries=$((tries + 1))
  [ "$tries" -lt 10 ] || fail 'no install could be killed in the middle of its write'
done
echo "\$ rauc ${install[*]} bundle"
cat said
echo '[killed]'
cmp running slot-a || fail 'slot-a differs'
cmp -i 3000000 before slot-b || fail 'slot-b differs behind the image'
say "slot-b has a part of the image now, and the boot loader may not start it. The status file knows it, and A starts next:"
marked B 0
tell
said 'primary: rootfs.0 (A)'
said '  status: update'
say "So the device comes up as it was before, and the same install is run again:"
run 0 "${install[@]}" bundle
said 'Installing bundle succeeded'
begins slot-b bundle/system.img
cmp running slot-a || fail 'slot-a differs'
marked B 1
starts 'rootfs.1 (B)'
say "Next: docs/reference.md says what each command, line and status means; README.md says what is proved."
