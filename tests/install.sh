#!/bin/sh
# Installs bundles by the built program on ordinary files, with helpers, hooks, handlers and boot loaders that
# are programs in POSIX sh, and with the real grub-editenv where it is installed. Each case compares both
# outputs, the status, the programs that were run, the variables of the boot loader, the status file and the
# bytes of the slots. Needs a POSIX shell, coreutils, sed and grep; what needs more is skipped by name. Its last
# line counts the cases.
# Use: tests/install.sh [PROGRAM]. Without a program it has make and rt build one first.
set -u
check=install
. "$(dirname "$0")/lib/program.sh"
. tests/lib/bundle_helpers.sh
. tests/lib/install_files.sh
. tests/lib/real_files.sh
. ../../tests/lib/boot_files.sh
book=status/central.raucs
point=$scratch/mnt/bundle
abc=ba7816bf8f01cfea414140de5dae2223b00361a396177a9cb410ff61f20015ad
bundle=bundle

# has FILE LINE..: the file has these lines and nothing else.
has() {
  if holds "$@"; then pass; else fail "$about: $1 has: $(cat "$1")"; fi
}

now() { date -u +%Y-%m-%dT%H:%M:%SZ; }

# notes PERCENT: the lines of an install of one image, up to the one with this percent.
notes() {
  lines '0% installing' '20% bundle mounted' '30% manifest accepted' '40% targets chosen' \
    '90% slot rootfs.1 written' '95% target activated' '100% done' | sed "/^$1%/q"
}

# installs STATUS OUT ERR [WORD..]: an install with these words ends with the status, and these are all the
# lines that it puts on the two outputs. The words for what is booted stand in `booted`.
booted=--override-boot-slot=A
installs() {
  wanted_status=$1
  wanted_out=$2
  wanted_err=$3
  shift 3
  : > ran
  moment=$(now)
  # shellcheck disable=SC2086 # The words are to be split.
  "$program" install $booted -c c "$@" "$bundle" > said_out 2> said_err
  code=$?
  if [ "$code" = "$wanted_status" ] && holds said_out "$wanted_out" && holds said_err "$wanted_err"; then
    pass
  else
    fail "$about: rauc install $booted -c c $* $bundle
  wanted $wanted_status:
$(lines "$wanted_out" "$wanted_err")
  got    $code:
$(cat said_out said_err)"
  fi
}

# succeeds [WORD..]: an install of one image is done, without a warning.
succeeds() { installs 0 "$(notes 100; lines "Installing $bundle succeeded")" '' "$@"; }

# refused PERCENT LINE [WORD..]: an install is refused with this line, after the note with this percent.
refused() {
  refused_notes=$(notes "$1")
  refused_line=$2
  shift 2
  installs 1 "$refused_notes" "rauc: $refused_line" "$@"
}

# The programs that are run before and behind the work on a bundle.
opened() { lines "bundle-check [$bundle]" "bundle-mount [$bundle] [$point]"; }
closed() { lines "bundle-umount [$point]"; }

# runs LINE..: these programs were run in between, in this order, and the bundle is not mounted any more.
runs() {
  has ran "$(opened)" "$@" "$(closed)"
  if [ -e "$point" ]; then fail "$about: left in the mount point: $(ls -A "$point")"; else pass; fi
}

# What marks the name B bad, and what makes it primary.
marks_bad="grub-editenv $scratch/grubenv set B_OK=0 B_TRY=0"
makes_primary="grub-editenv $scratch/grubenv list
grub-editenv $scratch/grubenv set B_OK=1 B_TRY=0 ORDER=B A"

# grub_is LINE..: GRUB has these variables.
grub_is() {
  grub_vars > listed
  has listed "$@"
}
first_vars='A_OK=1
A_TRY=0
B_OK=1
B_TRY=0
ORDER=A B'
bad_vars='A_OK=1
A_TRY=0
B_OK=0
B_TRY=0
ORDER=A B'
primary_vars='A_OK=1
A_TRY=0
B_OK=1
B_TRY=0
ORDER=B A'

# begins DEVICE IMAGE BEFORE: the device has the bytes of the image, and behind them those of the file before.
begins() {
  { cat "$2"; tail -c "+$(($(wc -c < "$2") + 1))" "$3"; } > wanted
  same "$1" wanted
}

# time_of KEY: the last value of this key in the status file, which has to be a time since `moment`.
time_of() {
  time=$(sed -n "s/^$1=//p" "$book" | tail -n 1)
  if lines "$moment" "$time" "$(now)" | LC_ALL=C sort -c 2> /dev/null; then pass; else fail "$about: $1 is $time, since $moment"; fi
}

# book_is LINE..: the status file has these lines, in which T stands for one time since `moment`.
book_is() {
  time_of installed.timestamp
  lines "$@" | sed "s/timestamp=T\$/timestamp=$time/" > wanted
  has "$book" "$(cat wanted)"
}

# record SIZE DIGEST INSTALLED ACTIVATED: the status file has just this record, with these counts.
record() {
  book_is '[slot.rootfs.1]' bundle.compatible=Test bundle.version=2 status=ok "sha256=$2" "size=$1" \
    installed.timestamp=T "installed.count=$3" activated.timestamp=T "activated.count=$4"
}

# unchanged: slots, variables and the status file are as `anew` left them.
unchanged() {
  same a running
  same b before
  grub_is "$first_vars"
  if [ -e "$book" ]; then fail "$about: the status file has: $(cat "$book")"; else pass; fi
}

# begun LINE..: an update has begun: the second slot is marked bad, and the status file says so.
begun() {
  same a running
  grub_is "$bad_vars"
  has "$book" '[slot.rootfs.1]' status=update
}

# activated: all was done to the slots and to the boot loader.
activated() {
  begins b bundle/r.img before
  same a running
  grub_is "$primary_vars"
}

# anew: the slots, the boot loader, the helpers and the configuration as they are at first, and a bundle whose
# one image is `abc`.
anew() {
  rm -rf status mnt given
  mkdir mnt
  slots 16
  install_conf
  helpers helpers
  grub_has 'ORDER=A B' A_OK=1 A_TRY=0 B_OK=1 B_TRY=0
  begin_bundle Test 2
  printf abc > bundle/r.img
  add_image rootfs r.img
}

boot_programs
grub
PATH=$scratch/bin:$PATH

# ---- an install of one image
about='an install'
anew
succeeds
activated
record 3 "$abc" 1 1
runs "$marks_bad" "$makes_primary"
about='the same once more'
cp b before
succeeds
activated
record 3 "$abc" 2 2
runs "$marks_bad" "$makes_primary"

about='an image of several pieces'
anew
slots 200000
install_conf
begin_bundle Test 2
head -c 150000 /dev/urandom > bundle/r.img
add_image rootfs r.img
succeeds
activated
record 150000 "$(digest bundle/r.img)" 1 1
about='an image as long as the device'
anew
begin_bundle Test 2
printf 0123456789abcdef > bundle/r.img
add_image rootfs r.img
succeeds
same b bundle/r.img
activated
record 16 "$(digest bundle/r.img)" 1 1
about='an empty image'
anew
begin_bundle Test 2
: > bundle/r.img
add_image rootfs r.img
succeeds
activated
same b before
record 0 "$(digest bundle/r.img)" 1 1

about='names with blanks'
anew
bundle="a bundle's name; \$(touch touched)"
begin_bundle Test 2
printf abc > 'bundle/r o o t.img'
add_image rootfs 'r o o t.img'
mv bundle "$bundle"
succeeds
runs "$marks_bad" "$makes_primary"
begins b "$bundle/r o o t.img" before
if [ -e touched ]; then fail 'a name was run as a command'; else pass; fi
bundle=bundle

# ---- what is there already
about='install-same=false'
anew
echo install-same=false >> c
succeeds
activated
record 3 "$abc" 1 1
installed_at=$(sed -n 's/^installed.timestamp=//p' "$book")
# The slot is not looked into: what was written into it since then stays.
printf xyz | dd of=b conv=notrunc status=none
cp b before
installs 0 "$(notes 100 | sed 's/rootfs.1 written/rootfs.1 kept/'; lines 'Installing bundle succeeded')" ''
same b before
grub_is "$primary_vars"
time_of activated.timestamp
has "$book" '[slot.rootfs.1]' bundle.compatible=Test bundle.version=2 status=ok "sha256=$abc" size=3 \
  "installed.timestamp=$installed_at" installed.count=1 "activated.timestamp=$time" activated.count=2
runs "$marks_bad" "$makes_primary"
about='install-same=false and an image of other bytes'
begin_bundle Test 2
printf abd > bundle/r.img
add_image rootfs r.img
succeeds
activated
record 3 "$(digest bundle/r.img)" 2 3
about='install-same=false and an update that was begun'
sed -i 's/^status=ok/status=update/' "$book"
printf xyz | dd of=b conv=notrunc status=none
succeeds
activated
record 3 "$(digest bundle/r.img)" 3 4

# ---- two groups of slots with children, and another boot loader
about='two groups with child slots'
anew
loader bootloader=uboot "mountprefix=$scratch/mnt"
cat >> c << CONF
type=ext4

[slot.appfs.0]
device=$scratch/d
parent=rootfs.0

[slot.appfs.1]
device=$scratch/e
type=vfat
parent=rootfs.1

[handlers]
post-install=$scratch/helpers/post

[x-helpers]
bundle-check=$scratch/helpers/bundle-check
bundle-mount=$scratch/helpers/bundle-mount
bundle-umount=$scratch/helpers/bundle-umount
CONF
child helpers/post
head -c 16 /dev/zero | tr '\0' 'e' > e
cp e before.e
cp d running.d
variables 'BOOT_ORDER=A B' BOOT_A_LEFT=3 BOOT_B_LEFT=3
begin_bundle Test 2024.05
printf abc > bundle/rootfs.ext4
: > bundle/appfs.ext4
add_lines description=a\\sb build=7
add_image rootfs rootfs.ext4
add_image appfs appfs.ext4
installs 0 '0% installing
20% bundle mounted
30% manifest accepted
40% targets chosen
65% slot rootfs.1 written
90% slot appfs.1 written
95% target activated
100% done
Installing bundle succeeded' ''
begins b bundle/rootfs.ext4 before
same e before.e
same a running
same d running.d
runs 'fw_printenv BOOT_ORDER' 'fw_setenv BOOT_B_LEFT 0' 'fw_setenv BOOT_ORDER A' \
  'fw_printenv BOOT_ORDER' 'fw_setenv BOOT_B_LEFT 3' 'fw_setenv BOOT_ORDER B A' post
LC_ALL=C sort vars > listed
has listed BOOT_A_LEFT=3 BOOT_B_LEFT=3 'BOOT_ORDER=B A'
both='bundle.compatible=Test
bundle.version=2024.05
bundle.description=a b
bundle.build=7
status=ok'
book_is '[slot.rootfs.1]' "$both" "sha256=$abc" size=3 installed.timestamp=T installed.count=1 \
  activated.timestamp=T activated.count=1 '
[slot.appfs.1]' "$both" "sha256=$(digest bundle/appfs.ext4)" size=0 installed.timestamp=T installed.count=1
has given/post "$(lines RAUC_BUNDLE_MOUNT_POINT="$point" RAUC_CURRENT_BOOTNAME=A RAUC_MOUNT_PREFIX="$scratch/mnt" \
  'RAUC_SLOTS=1 2 3 4' \
  RAUC_SLOT_BOOTNAME_1=A RAUC_SLOT_BOOTNAME_2=B \
  RAUC_SLOT_CLASS_1=rootfs RAUC_SLOT_CLASS_2=rootfs RAUC_SLOT_CLASS_3=appfs RAUC_SLOT_CLASS_4=appfs \
  RAUC_SLOT_DEVICE_1="$scratch/a" RAUC_SLOT_DEVICE_2="$scratch/b" RAUC_SLOT_DEVICE_3="$scratch/d" RAUC_SLOT_DEVICE_4="$scratch/e" \
  RAUC_SLOT_NAME_1=rootfs.0 RAUC_SLOT_NAME_2=rootfs.1 RAUC_SLOT_NAME_3=appfs.0 RAUC_SLOT_NAME_4=appfs.1 \
  RAUC_SLOT_PARENT_3=rootfs.0 RAUC_SLOT_PARENT_4=rootfs.1 \
  RAUC_SLOT_TYPE_1=raw RAUC_SLOT_TYPE_2=ext4 RAUC_SLOT_TYPE_3=raw RAUC_SLOT_TYPE_4=vfat \
  'RAUC_TARGET_SLOTS=2 4' RAUC_UPDATE_SOURCE="$point")"
about='a program of the boot loader that fails'
cp b before
boot_program fw_setenv 'exit 4'
installs 1 "$(notes 40)" 'rauc: fw_setenv BOOT_B_LEFT 0 failed: status 4'
runs 'fw_printenv BOOT_ORDER' 'fw_setenv BOOT_B_LEFT 0'
same b before

about='two roots, of two classes, and one without a bootname'
anew
printf '\n[slot.rescue.0]\ndevice=%s\nbootname=R\n\n[slot.data.0]\ndevice=%s\n' "$scratch/d" "$scratch/e" >> c
printf eeeeeeeeeeeeeeee > e
cp e before.e
cp d before.d
begin_bundle Test 2
printf abc > bundle/r.img
printf data > bundle/d.img
printf rescue > bundle/rescue.img
add_image data d.img
add_image rescue rescue.img
add_image rootfs r.img
installs 0 '0% installing
20% bundle mounted
30% manifest accepted
40% targets chosen
56% slot data.0 written
73% slot rescue.0 written
90% slot rootfs.1 written
95% target activated
100% done
Installing bundle succeeded' ''
begins e bundle/d.img before.e
begins d bundle/rescue.img before.d
begins b bundle/r.img before
same a running
runs "grub-editenv $scratch/grubenv set R_OK=0 R_TRY=0" "$marks_bad" "$makes_primary" \
  "grub-editenv $scratch/grubenv list" "grub-editenv $scratch/grubenv set R_OK=1 R_TRY=0 ORDER=R B A"
grub_is A_OK=1 A_TRY=0 B_OK=1 B_TRY=0 'ORDER=R B A' R_OK=1 R_TRY=0
about='a root without a bootname alone'
cp e before.e
begin_bundle Test 2
printf DATA > bundle/d.img
add_image data d.img
installs 0 '0% installing
20% bundle mounted
30% manifest accepted
40% targets chosen
90% slot data.0 written
95% target activated
100% done
Installing bundle succeeded' ''
begins e bundle/d.img before.e
runs
grub_is A_OK=1 A_TRY=0 B_OK=1 B_TRY=0 'ORDER=R B A' R_OK=1 R_TRY=0

about='no boot loader and no status file'
anew
sed -i "/^data-directory=/d; s/^bootloader=.*/bootloader=noop/" c
succeeds
begins b bundle/r.img before
runs
grub_is "$first_vars"
if [ -z "$(ls -A status)" ]; then pass; else fail "$about: in the folder of the status file: $(ls -A status)"; fi

# ---- hooks
of_bundle=$(lines RAUC_BUNDLE_MOUNT_POINT="$point" RAUC_MF_COMPATIBLE=Test RAUC_MF_VERSION=2 RAUC_MOUNT_PREFIX="$scratch/mnt")
of_slot="RAUC_SLOT_BOOTNAME=B
RAUC_SLOT_CLASS=rootfs
RAUC_SLOT_DEVICE=$scratch/b
RAUC_SLOT_NAME=rootfs.1
RAUC_SLOT_TYPE=raw"

about='hooks before and after a write'
anew
begin_bundle Test 2
printf abc > bundle/r.img
add_image rootfs r.img 'hooks=pre-install;post-install'
add_hooks 'case $1 in' \
  '  slot-pre-install) cp "$RAUC_SLOT_DEVICE" "$scratch/at_pre" ;;' \
  '  slot-post-install) cp "$RAUC_SLOT_DEVICE" "$scratch/at_post"; printf post | dd of="$RAUC_SLOT_DEVICE" bs=1 seek=3 conv=notrunc status=none ;;' \
  'esac'
succeeds
runs "$marks_bad" 'hook slot-pre-install' 'hook slot-post-install' "$makes_primary"
same at_pre before
begins at_post bundle/r.img before
printf abcpost > wanted.img
begins b wanted.img before
same a running
record 3 "$abc" 1 1
for word in pre-install post-install; do
  has "given/hook-slot-$word-rootfs.1" "$(lines "$of_bundle" RAUC_IMAGE_CLASS=rootfs RAUC_IMAGE_DIGEST="$abc" \
    RAUC_IMAGE_NAME="$point/r.img" RAUC_IMAGE_SIZE=3 "$of_slot" RAUC_SYSTEM_COMPATIBLE=Test | LC_ALL=C sort)"
done

about='a hook that installs an image'
anew
begin_bundle Test 2
printf abc > bundle/r.tar.gz
add_image rootfs r.tar.gz hooks=install
add_hooks 'tr a-c A-C < "$RAUC_IMAGE_NAME" | dd of="$RAUC_SLOT_DEVICE" conv=notrunc status=none'
succeeds
runs "$marks_bad" 'hook slot-install' "$makes_primary"
printf ABC > wanted.img
begins b wanted.img before
same a running
grub_is "$primary_vars"
record 3 "$abc" 1 1
about='a hook that installs without an image'
anew
begin_bundle Test 2
add_lines '' '[image.rootfs]' 'hooks=install;pre-install'
add_hooks '[ "$1" = slot-pre-install ] || printf hook | dd of="$RAUC_SLOT_DEVICE" conv=notrunc status=none'
succeeds
runs "$marks_bad" 'hook slot-pre-install' 'hook slot-install' "$makes_primary"
printf hook > wanted.img
begins b wanted.img before
book_is '[slot.rootfs.1]' bundle.compatible=Test bundle.version=2 status=ok installed.timestamp=T installed.count=1 \
  activated.timestamp=T activated.count=1
has given/hook-slot-install-rootfs.1 \
  "$(lines "$of_bundle" RAUC_IMAGE_CLASS=rootfs "$of_slot" RAUC_SYSTEM_COMPATIBLE=Test | LC_ALL=C sort)"

about='a hook that fails'
for which in pre-install install post-install; do
  anew
  begin_bundle Test 2
  printf abc > bundle/r.img
  add_image rootfs r.img "hooks=$which"
  add_hooks 'exit 7'
  refused 40 "hook slot-$which of rootfs.1 failed: status 7"
  runs "$marks_bad" "hook slot-$which"
  begun
  if [ "$which" = post-install ]; then begins b bundle/r.img before; else same b before; fi
done
anew
begin_bundle Test 2
printf abc > bundle/r.img
add_image rootfs r.img hooks=pre-install
add_hooks 'kill -KILL $$'
refused 40 'hook slot-pre-install of rootfs.1 failed: signal'
chmod 644 bundle/hook
installs 2 "$(notes 40)" 'rauc: outside fault: run'
runs "$marks_bad"
begun
same b before

about='the check of a bundle'
anew
begin_bundle Other 2
printf abc > bundle/r.img
add_image rootfs r.img
add_hooks 'exit 0'
add_lines hooks=install-check
succeeds
activated
runs 'hook install-check' "$marks_bad" "$makes_primary"
has given/hook-install-check \
  "$(lines "$of_bundle" RAUC_SYSTEM_COMPATIBLE=Test | sed 's/^RAUC_MF_COMPATIBLE=.*/RAUC_MF_COMPATIBLE=Other/')"
anew
begin_bundle Test 2
printf abc > bundle/r.img
add_image rootfs r.img
add_hooks 'echo told; printf "too old\nx\n" >&2; exit 10'
add_lines hooks=install-check
refused 20 'bundle rejected: too old'
refused 20 'bundle rejected: too old' --ignore-compatible
runs 'hook install-check'
child bundle/hook 'exit 3'
refused 20 'install-check failed: status 3'
child bundle/hook 'kill -KILL $$'
refused 20 'install-check failed: signal'
rm bundle/hook
installs 2 "$(notes 20)" 'rauc: outside fault: run'
runs
unchanged

# ---- handlers
about='handlers'
anew
printf '\n[handlers]\npre-install=%s\npost-install=%s\n' "$scratch/helpers/pre" "$scratch/helpers/post" >> c
child helpers/pre 'cp "$RAUC_SLOT_DEVICE_2" "$scratch/at_pre"'
child helpers/post 'cp "$RAUC_SLOT_DEVICE_2" "$scratch/at_post"'
succeeds
runs pre "$marks_bad" "$makes_primary" post
activated
record 3 "$abc" 1 1
same at_pre before
same at_post b
for which in pre post; do
  has "given/$which" "$(lines RAUC_BUNDLE_MOUNT_POINT="$point" RAUC_CURRENT_BOOTNAME=A RAUC_MOUNT_PREFIX="$scratch/mnt" \
    'RAUC_SLOTS=1 2' RAUC_SLOT_BOOTNAME_1=A RAUC_SLOT_BOOTNAME_2=B RAUC_SLOT_CLASS_1=rootfs RAUC_SLOT_CLASS_2=rootfs \
    RAUC_SLOT_DEVICE_1="$scratch/a" RAUC_SLOT_DEVICE_2="$scratch/b" RAUC_SLOT_NAME_1=rootfs.0 RAUC_SLOT_NAME_2=rootfs.1 \
    RAUC_SLOT_TYPE_1=raw RAUC_SLOT_TYPE_2=raw RAUC_TARGET_SLOTS=2 RAUC_UPDATE_SOURCE="$point")"
done
about='a handler that fails at the end'
child helpers/post 'exit 1'
cp b before
refused 95 'handler post-install failed: status 1'
runs pre "$marks_bad" "$makes_primary" post
activated
record 3 "$abc" 2 2
child helpers/post 'kill -TERM $$'
refused 95 'handler post-install failed: signal'
about='a handler that fails at the start'
anew
printf '\n[handlers]\npre-install=%s\n' "$scratch/helpers/pre" >> c
child helpers/pre 'exit 255'
refused 40 'handler pre-install failed: status 255'
runs pre
unchanged
rm helpers/pre
installs 2 "$(notes 40)" 'rauc: outside fault: run'
runs
unchanged

# ---- bundles for other systems, and images that are not as the manifest says
about='a bundle for another system'
anew
begin_bundle Other 2
printf abc > bundle/r.img
add_image rootfs r.img
refused 20 'compatible is Test, bundle has Other'
runs
unchanged
succeeds --ignore-compatible
activated
book_is '[slot.rootfs.1]' bundle.compatible=Other bundle.version=2 status=ok "sha256=$abc" size=3 \
  installed.timestamp=T installed.count=1 activated.timestamp=T activated.count=1
runs "$marks_bad" "$makes_primary"
about='the words of --ignore-compatible'
installs 1 '' "$usage" --ignore-compatible --ignore-compatible
installs 1 '' "$usage" --ignore-compatible=true
installs 1 '' "$usage" another-bundle
installs 1 '' "$usage" --detailed
has ran

about='a damaged image'
anew
printf abd > bundle/r.img
refused 40 "image r.img: sha256 $(digest bundle/r.img), manifest says $abc"
runs "$marks_bad"
begins b bundle/r.img before
begun
about='a good image after a damaged one'
printf abc > bundle/r.img
succeeds
activated
record 3 "$abc" 1 1
about='an image of another length'
anew
printf ab > bundle/r.img
refused 30 'image r.img: 2 bytes, manifest says 3'
printf abcd > bundle/r.img
refused 30 'image r.img: 4 bytes, manifest says 3'
rm bundle/r.img
refused 30 "no image $point/r.img"
runs
unchanged
about='an image that is longer than the device'
anew
begin_bundle Test 2
printf 0123456789abcdefg > bundle/r.img
add_image rootfs r.img
refused 30 'image r.img: 17 bytes do not fit device of 16'
runs
unchanged
about='a second image that does not fit'
printf '\n[slot.data.0]\ndevice=%s\n' "$scratch/d" >> c
begin_bundle Test 2
printf abc > bundle/r.img
printf 0123456789abcdefg > bundle/d.img
add_image rootfs r.img
add_image data d.img
refused 30 'image d.img: 17 bytes do not fit device of 16'
runs
unchanged
about='a device that is missing'
anew
mv b gone
refused 30 "no device $scratch/b"
runs
mv gone b
unchanged

# ---- images that go nowhere
about='images that go nowhere'
anew
add_image appfs r.img
refused 30 'no target for class appfs'
booted=--override-boot-slot=C
refused 20 'booted slot is not known'
booted=--override-boot-slot=A
begin_bundle Test 2
printf abc > bundle/r.tar
add_image rootfs r.tar
refused 30 'image r.tar is an archive'
begin_bundle Test 2
printf abc > bundle/r.img
add_image rootfs r.img
echo type=nand >> c
refused 30 'slot rootfs.1 cannot be written'
echo type=raw >> c
echo readonly=true >> c
refused 30 'slot rootfs.1 is readonly'
echo readonly=false >> c
printf '\n[slot.rootfs.2]\ndevice=%s\nparent=rootfs.1\n' "$scratch/d" >> c
refused 30 'many targets for class rootfs'
runs
unchanged
about='the other slot is booted'
anew
booted=--override-boot-slot=rootfs.1
installs 0 "$(notes 100 | sed 's/rootfs\.1/rootfs.0/'; lines 'Installing bundle succeeded')" ''
begins a bundle/r.img running
same b before
grub_is "$first_vars"
runs "grub-editenv $scratch/grubenv set A_OK=0 A_TRY=0" "grub-editenv $scratch/grubenv list" \
  "grub-editenv $scratch/grubenv set A_OK=1 A_TRY=0 ORDER=A B"
booted=--override-boot-slot=A

# ---- what the kernel says, and what is mounted, where these can be put in the place of what they are here
about='what the kernel says'
if echo rauc.slot=A > cmdline && unshare -rm mount --bind cmdline /proc/cmdline 2> /dev/null; then
  real=$program
  printf '#!/bin/sh\nmount --bind %s /proc/cmdline && exec %s "$@"\n' "'$scratch/cmdline'" "'$real'" > in_kernel
  printf '#!/bin/sh\nexec unshare -rm %s "$@"\n' "'$scratch/in_kernel'" > by_kernel
  chmod 755 in_kernel by_kernel
  program=$scratch/by_kernel
  booted=''
  for words in 'quiet rauc.slot=A' 'rauc.slot=rootfs.0 rauc.slot=B' "root=$scratch/a ro" 'rauc.slot=A root=/dev/none'; do
    anew
    echo "$words" > cmdline
    succeeds
    activated
    record 3 "$abc" 1 1
  done
  anew
  echo 'rauc.slot=A rauc.external' > cmdline
  installs 0 "$(notes 100 | sed 's/rootfs\.1/rootfs.0/'; lines 'Installing bundle succeeded')" ''
  begins a bundle/r.img running
  same b before
  for words in '' 'rauc.slot=C' 'rauc.slot=C root=/a' 'root=UUID=1'; do
    anew
    echo "$words" > cmdline
    refused 20 'booted slot is not known'
    runs
    unchanged
  done
  booted=--override-boot-slot=A
  program=$real
else
  echo "skipped: what the kernel's command line tells, since none can be put in its place here"
fi

about='a slot that is mounted'
mkdir -p room
if unshare -rm mount -t tmpfs "$scratch/b" room 2> /dev/null; then
  real=$program
  printf '#!/bin/sh\nmount -t tmpfs %s %s && exec %s "$@"\n' "'$scratch/b'" "'$scratch/room'" "'$real'" > in_mounts
  printf '#!/bin/sh\nexec unshare -rm %s "$@"\n' "'$scratch/in_mounts'" > by_mounts
  chmod 755 in_mounts by_mounts
  program=$scratch/by_mounts
  anew
  refused 30 'slot rootfs.1 is mounted'
  echo allow-mounted=true >> c
  refused 30 'slot rootfs.1 is mounted'
  runs
  unchanged
  begin_bundle Test 2
  printf abc > bundle/r.img
  add_image rootfs r.img hooks=install
  add_hooks 'dd if="$RAUC_IMAGE_NAME" of="$RAUC_SLOT_DEVICE" conv=notrunc status=none'
  succeeds
  activated
  record 3 "$abc" 1 1
  anew
  begin_bundle Test 2
  printf abc > bundle/r.img
  add_image rootfs r.img hooks=install
  add_hooks 'exit 0'
  refused 30 'slot rootfs.1 is mounted'
  program=$real
else
  echo "skipped: a slot that is mounted, since nothing can be mounted here"
fi

# ---- bundles that are not trusted, not mounted, or without a manifest that can be read
about='bundles that cannot be opened'
anew
echo '# changed' >> bundle/manifest.raucm
refused 0 'bundle is not trusted: status 1'
has ran "bundle-check [$bundle]"
anew
helper helpers/bundle-mount 'exit 5'
refused 0 'bundle mount failed: status 5'
has ran "$(opened)"
rm helpers/bundle-mount
installs 2 "$(notes 0)" 'rauc: outside fault: run'
anew
rm bundle/manifest.raucm
echo > bundle/manifest.raucm
seal bundle
refused 20 'manifest: [update] compatible missing'
helper helpers/bundle-check 'exit 0'
rm bundle/manifest.raucm
refused 20 'no manifest'
mkdir bundle/manifest.raucm
installs 2 "$(notes 20)" 'rauc: outside fault: read'
runs
unchanged
mv c gone
installs 1 '' 'rauc: no configuration c'
has ran
mv gone c

# ---- warnings
about='an unmount that fails'
anew
helper helpers/bundle-umount 'exit 3'
installs 0 "$(notes 100; lines 'Installing bundle succeeded')" 'warning: bundle not unmounted: status 3'
activated
record 3 "$abc" 1 1
helper helpers/bundle-umount 'kill -KILL $$'
printf ab > bundle/r.img
installs 1 "$(notes 30)" 'warning: bundle not unmounted: signal
rauc: image r.img: 2 bytes, manifest says 3'
rm helpers/bundle-umount
installs 1 "$(notes 30)" 'warning: bundle not unmounted: run
rauc: image r.img: 2 bytes, manifest says 3'
about='a status file that cannot be read'
anew
echo '[' > "$book"
installs 0 "$(notes 100; lines 'Installing bundle succeeded')" 'warning: status file unreadable'
activated
record 3 "$abc" 1 1
printf ab > bundle/r.img
echo '[' > "$book"
helper helpers/bundle-umount 'exit 3'
installs 1 "$(notes 30)" 'warning: status file unreadable
warning: bundle not unmounted: status 3
rauc: image r.img: 2 bytes, manifest says 3'
has "$book" '['

# ---- status files that cannot note it
about='counts at their end'
anew
for key in installed activated; do
  lines '[slot.rootfs.1]' "$key.count=4294967295" > "$book"
  refused 30 'count of rootfs.1 is at its end'
  has "$book" '[slot.rootfs.1]' "$key.count=4294967295"
done
rm "$book"
runs
unchanged
about='what the status file had before'
lines '[other]' x=y '[slot.rootfs.0]' status=ok installed.count=5 '[slot.rootfs.1]' bundle.build=old size=9 \
  installed.count=41 activated.count=7 > "$book"
succeeds
activated
book_is '[slot.rootfs.0]' status=ok installed.count=5 '
[slot.rootfs.1]' bundle.compatible=Test bundle.version=2 status=ok "sha256=$abc" size=3 \
  installed.timestamp=T installed.count=42 activated.timestamp=T activated.count=8
about='a folder in the way of the status file'
anew
mkdir "$book"
installs 2 "$(notes 20)" 'rauc: outside fault: read'
rmdir "$book"
runs
unchanged
about='a status file without a folder'
rmdir status
installs 2 "$(notes 40)" 'rauc: outside fault: replace'
runs "$marks_bad"
grub_is "$bad_vars"
same b before

# ---- outputs that take nothing
about='outputs that take nothing'
anew
"$program" install --override-boot-slot=A -c c bundle >&- 2> said_err
if [ $? = 2 ] && holds said_err; then pass; else fail "a closed output: $(cat said_err)"; fi
activated
record 3 "$abc" 1 1
if [ -w /dev/full ]; then
  anew
  "$program" install --override-boot-slot=A -c c bundle > /dev/full 2> said_err
  if [ $? = 2 ] && holds said_err; then pass; else fail "a full output: $(cat said_err)"; fi
  activated
  record 3 "$abc" 1 1
  printf ab > bundle/r.img
  "$program" install --override-boot-slot=A -c c bundle > said_out 2> /dev/full
  if [ $? = 2 ] && holds said_out "$(notes 30)"; then pass; else fail "a full error output: $(cat said_out)"; fi
else
  echo "skipped: a full output, since /dev/full is missing"
fi
anew
# The reader of the pipe is gone before the second note.
helper helpers/bundle-check 'while [ ! -e "$scratch/gone" ]; do sleep 0.01; done'
rm -rf gone
{
  "$program" install --override-boot-slot=A -c c bundle 2> said_err
  echo $? > code
} | { read -r first; echo "$first" > said_out; exec <&-; : > gone; }
has said_out '0% installing'
has code 2
has said_err
activated
record 3 "$abc" 1 1

# ---- memory, and system calls on the image and the device

# image_of BYTES: all as it is at first, with an image so long and slots of this length.
image_of() {
  anew
  slots "$1"
  install_conf
  begin_bundle Test 2
  head -c "$1" /dev/urandom > bundle/r.img
  add_image rootfs r.img
}

# resident: the largest resident memory of an install and of the programs that it runs, in KiB.
resident() {
  /usr/bin/time -f %M "$program" install --override-boot-slot=A -c c bundle 2>&1 > said_out | tail -n 1
}

about='memory and system calls'
if [ -x /usr/bin/time ]; then
  image_of 3
  small=$(resident)
  image_of 4194304
  large=$(resident)
  activated
  if [ "$large" -lt $((small + 1024)) ]; then pass; else fail "$large KiB resident for 4 MiB, and $small for 3 bytes"; fi
else
  echo "skipped: resident memory, since /usr/bin/time is missing (Debian's package time has it)"
fi
if strace -o /dev/null true 2> /dev/null; then
  image_of 4194304
  strace -qq -o calls -P "$point/r.img" -P "$scratch/b" "$program" install --override-boot-slot=A -c c bundle > said_out
  activated
  calls=$(($(wc -l < calls)))
  if [ "$calls" -gt 128 ] && [ "$calls" -le $((3 * 64)) ]; then pass; else fail "$calls system calls for 64 pieces"; fi
else
  echo "skipped: system calls, since strace is missing or cannot trace here"
fi

printf '%s passed, %s failed\n' "$passed" "$failed"
[ "$failed" = 0 ]
