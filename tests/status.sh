#!/bin/sh
# Runs `status` and the marks of slots by the built program on real files, with each boot loader by small
# programs in POSIX sh, and with the real grub-editenv where it is installed: what it tells, which programs
# it runs with what, what they leave, and what stands in the status file; what write-slot notes there;
# status files that are long, not readable or in the way; and a mark that is killed at each system call
# since it read the status file. Needs a POSIX shell, coreutils, sed, awk and grep; what needs more is
# skipped by name. Its last line counts the cases.
# Use: tests/status.sh [PROGRAM]. Without a program it has make and rt build one first.
set -u
check=status
. "$(dirname "$0")/lib/program.sh"
. tests/lib/real_files.sh
. ../../tests/lib/boot_files.sh
book=status/central.raucs
slots 4096
boot_programs
real_path=$PATH
PATH=$scratch/bin:$PATH

# asks STATUS LINE WORDS..: `expect` of status with these words, where the first slot counts as booted.
asks() {
  wanted_status=$1
  wanted_line=$2
  shift 2
  : > ran
  expect "$wanted_status" "$wanted_line" status --override-boot-slot=A -c c "$@"
}

# told PRIMARY FIRST SECOND [LINE..]: what status tells, where the slots have these boot statuses; the lines
# stand behind the second slot.
told() {
  primary=$1
  first_status=$2
  second_status=$3
  shift 3
  lines 'compatible: Test' 'booted: rootfs.0 (A)' "primary: $primary" \
    'slot rootfs.0' "  device: $scratch/a" '  type: raw' '  state: booted' '  bootname: A' \
    "  boot status: $first_status" \
    'slot rootfs.1' "  device: $scratch/b" '  type: raw' '  state: inactive' '  bootname: B' \
    "  boot status: $second_status" "$@"
}

# has FILE LINE..: the file has these lines and nothing else.
has() {
  if holds "$@"; then pass; else fail "$1 has: $(cat "$1")"; fi
}

# vars_are LINE..: the boot loader has these variables, in any order.
vars_are() {
  LC_ALL=C sort vars > sorted
  has sorted "$(lines "$@" | LC_ALL=C sort)"
}

now() { date -u +%Y-%m-%dT%H:%M:%SZ; }

# notes COUNT: the status file says that the second slot was activated so many times, the last time since
# `moment`, and nothing else.
notes() {
  time=$(sed -n 's/^activated.timestamp=//p' "$book")
  has "$book" '[slot.rootfs.1]' "activated.timestamp=$time" "activated.count=$1"
  if lines "$moment" "$time" "$(now)" | LC_ALL=C sort -c 2> /dev/null; then pass; else fail "activated at $time, since $moment"; fi
}

# all_marks: marks the booted slot as good, and then the other one as bad and active.
all_marks() {
  rm -f "$book"
  asks 0 'marked slot rootfs.0 as good' mark-good
  asks 0 'marked slot rootfs.1 as bad' mark-bad other
  moment=$(now)
  asks 0 'activated slot rootfs.1' mark-active rootfs.1
  notes 1
}

# ---- each boot loader
loader bootloader=grub grubenv=/env
variables 'ORDER=A B' A_OK=1 A_TRY=1 B_OK=1 B_TRY=0
asks 0 "$(told 'rootfs.1 (B)' bad good)"
has ran 'grub-editenv /env list'
all_marks
has ran 'grub-editenv /env list' 'grub-editenv /env set B_OK=1 B_TRY=0 ORDER=B A'
vars_are 'ORDER=B A' A_OK=1 A_TRY=0 B_OK=1 B_TRY=0
asks 0 "$(told 'rootfs.1 (B)' good good)"
time=$(sed -n 's/^activated.timestamp=//p' "$book")
asks 0 "$(told 'rootfs.1 (B)' good good "  activated: $time (1)")" --detailed
asks 0 "RAUC_SYSTEM_COMPATIBLE='Test'
RAUC_SYSTEM_BOOTED_SLOT='rootfs.0'
RAUC_BOOT_PRIMARY='rootfs.1'
RAUC_SYSTEM_SLOTS='1 2'
RAUC_SLOT_NAME_1='rootfs.0'
RAUC_SLOT_STATE_1='booted'
RAUC_SLOT_DEVICE_1='$scratch/a'
RAUC_SLOT_BOOTNAME_1='A'
RAUC_SLOT_PARENT_1=''
RAUC_SLOT_BOOT_STATUS_1='good'
RAUC_SLOT_NAME_2='rootfs.1'
RAUC_SLOT_STATE_2='inactive'
RAUC_SLOT_DEVICE_2='$scratch/b'
RAUC_SLOT_BOOTNAME_2='B'
RAUC_SLOT_PARENT_2=''
RAUC_SLOT_BOOT_STATUS_2='good'" --output-format=shell

loader bootloader=uboot
variables 'BOOT_ORDER=A B' BOOT_A_LEFT=1
asks 0 "$(told 'rootfs.0 (A)' good bad)"
has ran 'fw_printenv BOOT_ORDER' 'fw_printenv BOOT_A_LEFT' 'fw_printenv BOOT_B_LEFT'
all_marks
vars_are 'BOOT_ORDER=B A' BOOT_A_LEFT=3 BOOT_B_LEFT=3
asks 0 "$(told 'rootfs.1 (B)' good good)"

loader bootloader=barebox
variables bootstate.A.priority=20 bootstate.A.remaining_attempts=1
asks 0 "$(told 'rootfs.0 (A)' good bad)"
all_marks
vars_are bootstate.A.priority=10 bootstate.A.remaining_attempts=3 bootstate.B.priority=20 bootstate.B.remaining_attempts=3
asks 0 "$(told 'rootfs.1 (B)' good good)"

loader bootloader=efi
variables Boot0001=A Boot0002=B BootOrder=0001,0002
asks 0 "$(told 'rootfs.0 (A)' good good)"
all_marks
vars_are Boot0001=A Boot0002=B BootOrder=0001 BootNext=0002
asks 0 "$(told 'rootfs.1 (B)' good bad)"
variables Boot0001=A BootOrder=0001
asks 1 'rauc: no boot entry B' mark-active other
has ran efibootmgr

loader bootloader=custom
variables primary=A
asks 0 "$(told 'rootfs.0 (A)' good good)"
all_marks
vars_are primary=B state.A=good state.B=good
asks 0 "$(told 'rootfs.1 (B)' good good)"

loader bootloader=noop
variables
asks 0 "$(told none good good)"
all_marks
has ran

# ---- the real grub-editenv, on a block of its own
PATH=$real_path
if command -v grub-editenv > /dev/null; then
  loader bootloader=grub "grubenv=$scratch/grubenv"
  grub-editenv grubenv create
  grub-editenv grubenv set 'ORDER=A B' A_OK=1 A_TRY=1 B_OK=1 B_TRY=0
  asks 0 "$(told 'rootfs.1 (B)' bad good)"
  all_marks
  grub-editenv grubenv list > vars
  vars_are 'ORDER=B A' A_OK=1 A_TRY=0 B_OK=1 B_TRY=0
  asks 0 "$(told 'rootfs.1 (B)' good good)"
  if [ "$(($(wc -c < grubenv)))" = 1024 ]; then pass; else fail "the block of GRUB has $(wc -c < grubenv) bytes"; fi
  echo no block > grubenv
  asks 1 "rauc: grub-editenv $scratch/grubenv list failed: status 1" mark-active other
else
  echo "skipped: grub-editenv, since it is missing (Debian's package grub-common has it)"
fi
PATH=$scratch/bin:$PATH

# ---- what is asked for
loader bootloader=grub grubenv=/env
variables 'ORDER=A B' A_OK=1 A_TRY=0 B_OK=1 B_TRY=0
rm -f "$book"
asks 1 "$usage" mark-gut
asks 1 "$usage" mark-good rootfs.0 more
asks 1 "$usage" mark-good --detailed
asks 1 'rauc: no such slot: rootfs.7' mark-good rootfs.7
expect 1 'rauc: no such slot: other' status --override-boot-slot=C -c c mark-active other
sed '/rootfs.1/,$d' c > one.conf
expect 1 'rauc: no other slot' status --override-boot-slot=A -c one.conf mark-active other
printf '[slot.rootfs.2]\ndevice=%s\n' "$scratch/d" >> c
asks 1 'rauc: slot rootfs.2 has no bootname' mark-bad rootfs.2
echo bootname=C >> c
asks 1 'rauc: 2 other slots' mark-active other
has ran
loader bootloader=uboot
boot_program fw_setenv 'exit 3'
asks 1 'rauc: fw_setenv BOOT_B_LEFT 0 failed: status 3' mark-bad other
boot_program fw_setenv 'kill -9 $$'
asks 1 'rauc: fw_setenv BOOT_B_LEFT 0 failed: signal' mark-bad other
boot_program fw_printenv 'echo BOOT_ORDE=A'
asks 1 'rauc: fw_printenv BOOT_ORDER: bad output' mark-bad other
boot_program fw_printenv 'exit 2'
asks 1 'rauc: fw_printenv BOOT_ORDER failed: status 2' mark-bad other
rm bin/fw_printenv
as="env PATH=$scratch/bin"
asks 2 'rauc: outside fault: run' mark-bad other
as=''

# ---- write-slot notes in a record of the slot that an update has begun
loader bootloader=noop
head -c 100 /dev/urandom > r.img
old_digest=$(digest b)
written="slot rootfs.1 written: 100 bytes, sha256 $(digest r.img)"
lines '[other]' a=b '[slot.rootfs.1]' status=ok "sha256=$old_digest" size=4096 '[slot.rootfs.0]' status=ok > "$book"
expect 0 "$written" write-slot --override-boot-slot=A -c c rootfs.1 r.img
has "$book" '[slot.rootfs.0]' status=ok "
[slot.rootfs.1]" status=update "sha256=$old_digest" size=4096
same b r.img 100
for text in '[slot.rootfs.0]
status=ok' '[' ''; do
  cp before b
  lines "$text" > "$book"
  [ "$text" != '[' ] || warning='warning: status file unreadable'
  expect 0 "$written" write-slot --override-boot-slot=A -c c rootfs.1 r.img
  warning=''
  has "$book" "$text"
done
cp before b
rm "$book"
mkdir "$book"
expect 2 'rauc: outside fault: read' write-slot --override-boot-slot=A -c c rootfs.1 r.img
same b before
rmdir "$book"

# ---- status files that are long, faulty or in the way
loader bootloader=grub grubenv=/env
variables 'ORDER=A B' A_OK=1 A_TRY=0 B_OK=1 B_TRY=0
head -c 1048576 /dev/zero | tr '\0' '\n' > "$book"
asks 0 "$(told 'rootfs.0 (A)' good good)" --detailed
moment=$(now)
asks 0 'activated slot rootfs.1' mark-active other
notes 1
for text in '[' 'a=b' '[slot.rootfs.1]
activated.count=\q'; do
  lines "$text" > "$book"
  warning='warning: status file unreadable'
  asks 0 "$(told 'rootfs.1 (B)' good good)" --detailed
  has "$book" "$text"
  asks 0 'activated slot rootfs.1' mark-active other
  warning=''
  notes 1
done
head -c 1048577 /dev/zero | tr '\0' '\n' > "$book"
warning='warning: status file unreadable'
asks 0 "$(told 'rootfs.1 (B)' good good)"
asks 0 'activated slot rootfs.1' mark-active other
warning=''
notes 1
asks 0 'activated slot rootfs.1' mark-active other
notes 2
cp vars vars.before
rm "$book"
mkdir "$book"
asks 2 'rauc: outside fault: read'
asks 2 'rauc: outside fault: read' mark-active rootfs.0
has ran
rmdir "$book"
same vars vars.before
cp c deep.conf
sed -i "s|^data-directory=.*|data-directory=$scratch/nowhere|" deep.conf
expect 2 'rauc: outside fault: replace' status --override-boot-slot=A -c deep.conf mark-active other

# ---- files and folders without rights; root may do all, so the program runs as another user
[ "$(id -u)" = 0 ] && as='setpriv --reuid=65534 --regid=65534 --clear-groups'
chmod 755 .
chmod 777 bin
lines '[slot.rootfs.1]' activated.count=7 > "$book"
cp "$book" book.before
boot_program grub-editenv 'case $2 in list) cat "$vars" ;; esac'
: > ran
chmod 666 ran
if $as test -x "$program" -a -r c 2> /dev/null; then
  chmod 000 "$book"
  expect 2 'rauc: outside fault: read' status --override-boot-slot=A -c c
  has ran 'grub-editenv /env list'
  : > ran
  expect 2 'rauc: outside fault: read' status --override-boot-slot=A -c c mark-active other
  has ran
  chmod 644 "$book"
  chmod 555 status
  expect 2 'rauc: outside fault: replace' status --override-boot-slot=A -c c mark-active other
  same "$book" book.before
  chmod 755 status
else
  echo "skipped: files without rights, since no other user can run the program here"
fi
as=''
if [ "$(ls -A status)" = central.raucs ]; then pass; else fail "in the folder of the status file: $(ls -A status)"; fi

# ---- a mark that is killed at each system call since it read the status file
if strace -o /dev/null true 2> /dev/null; then
  boot_programs
  strace -o calls "$program" status --override-boot-slot=A -c c mark-active other > said_out
  has said_out 'activated slot rootfs.1'
  # Each call since the status file was read, with its number among those of its name.
  awk -F '(' '/^[a-z0-9_]+\(/ { numbers[$1]++ } /central\.raucs/ { begun = 1 } begun && numbers[$1] { print $1, numbers[$1] }' calls > points
  killed=0
  old=0
  new=0
  while read -r call number; do
    cp book.before "$book"
    # A shell of its own, since a shell tells of a child that a signal ended.
    sh -c 'strace -o /dev/null -e "inject=$1:signal=KILL:when=$2" "$3" status --override-boot-slot=A -c c mark-active other
      exit $?' sh "$call" "$number" "$program" > /dev/null 2>&1
    [ $? = 137 ] && killed=$((killed + 1))
    sed 's/^activated.timestamp=.*/activated.timestamp=T/' "$book" > left
    holds left '[slot.rootfs.1]' activated.count=7 && old=$((old + 1))
    holds left '[slot.rootfs.1]' activated.timestamp=T activated.count=8 && new=$((new + 1))
  done < points
  echo "a mark was killed at $killed system calls; $old times the old status file was left, $new times the new one"
  if [ "$old" -gt 0 ] && [ "$new" -gt 0 ] && [ $((old + new)) = "$(($(wc -l < points)))" ]; then
    pass
  else
    fail "of $(($(wc -l < points))) marks that were to be killed, some left another status file"
  fi
else
  echo "skipped: marks that are killed, since strace is missing or cannot trace here"
fi
same a running
same b before

printf '%s passed, %s failed\n' "$passed" "$failed"
[ "$failed" = 0 ]
