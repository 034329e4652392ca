#!/bin/sh
# Runs the boot scripts that docs/boot has, with boot variables of all kinds: what they start has to be the
# primary name, which is worked out here once more, and they have to leave the variables as the pages say.
# That of GRUB is run by grub-emu on an image of a disk; that of U-Boot by the shell, with the commands of
# U-Boot as functions. Needs a POSIX shell, coreutils, sed and awk; a program that is not installed is
# skipped by name. Its last line counts the cases.
# Use: tests/boot_scripts.sh
set -u
check=boot_scripts
cd "$(dirname "$0")/.." || exit 2
mkdir -p build
. tests/lib/real_files.sh
. ../../tests/lib/boot_pages.sh

# value NAME SETTING..: the value of a variable in these settings.
value() {
  wanted=$1
  shift
  found=''
  for setting in "$@"; do
    [ "${setting%%=*}" != "$wanted" ] || found=${setting#*=}
  done
  printf '%s' "$found"
}

# ---- GRUB

# grub_starts SETTING..: the name that has to be started with this block.
grub_starts() {
  for word in $(value ORDER "$@"); do
    case $word in A | B) ;; *) continue ;; esac
    try=$(value "${word}_TRY" "$@")
    if [ "$(value "${word}_OK" "$@")" = 1 ] && [ "${try:-0}" = 0 ]; then
      printf '%s' "$word"
      return
    fi
  done
}

# in_grub SETTING..: runs the script on a disk with this block. What it printed stands in `screen`, and the
# block after it in `env`.
in_grub() {
  grub-editenv env create
  [ $# = 0 ] || grub-editenv env set "$@"
  rm -f disk
  head -c 4194304 /dev/zero > disk
  mkfs.vfat disk > out
  mmd -i disk ::/boot ::/boot/grub
  mcopy -i disk grub.cfg env ::/boot/grub/
  mmove -i disk ::/boot/grub/env ::/boot/grub/grubenv
  TERM=vt100 timeout 30 script -qec 'grub-emu -m disk.map -r hd0 -d /boot/grub' /dev/null < /dev/null > screen 2>&1
  [ $? != 124 ] || hangs=yes
  mcopy -n -i disk ::/boot/grub/grubenv env
}

# grub_case SETTING..: the script starts what it has to with this block, and leaves of it what it has to.
# After a run that does not end, no other is begun.
hangs=''
grub_case() {
  [ -z "$hangs" ] || return
  starts=$(grub_starts "$@")
  in_grub "$@"
  for setting in "$@"; do
    case $setting in
      *_TRY=*) ;;
      *) printf '%s\n' "$setting" ;;
    esac
  done > wanted
  for word in A B; do
    try=$(value "${word}_TRY" "$@")
    case $starts in
      "$word") try=1 ;;
      '') try=0 ;;
    esac
    printf '%s_TRY=%s\n' "$word" "${try:-0}"
  done >> wanted
  grub-editenv env list | LC_ALL=C sort > left
  LC_ALL=C sort wanted > out
  said="${starts:+started $starts.}"
  if grep -q "${said:-No system is left to try}" screen && cmp -s out left; then
    pass
  else
    fail "GRUB with $*: wanted ${said:-no system} and $(tr '\n' ' ' < out)
  got $(tr '\n' ' ' < left)and $(tr -d '\033' < screen | tail -n 5)"
  fi
}

grub_cases() {
  # The kernel is not started, and the machine not left.
  sed 's/^  linux .*rauc.slot=\(.\)$/  echo "started \1."; exit/; s/^  sleep 30$/  exit/' script > grub.cfg
  printf '(hd0) %s/disk\n' "$scratch" > disk.map
  for order in 'A B' 'B A' B 'C B A' ''; do
    for marks in '1 0 1 0' '1 1 1 0' '0 0 1 0' '1 0 0 0' '1 1 1 1' '0 0 0 0'; do
      set -- $marks
      grub_case "ORDER=$order" "A_OK=$1" "A_TRY=$2" "B_OK=$3" "B_TRY=$4"
    done
  done
  grub_case
  grub_case 'ORDER=A B'
  grub_case 'ORDER=A B' A_OK=1
  grub_case A_OK=1 B_OK=1
  grub_case 'ORDER=A B' B_OK=1 saved_entry=7
}

# ---- U-Boot

# uboot_starts SETTING..: the name that has to be started with this environment.
uboot_starts() {
  for word in $(value BOOT_ORDER "$@"); do
    case $word in A | B) ;; *) continue ;; esac
    case $(value "BOOT_${word}_LEFT" "$@") in
      [1-9])
        printf '%s' "$word"
        return
        ;;
    esac
  done
}

# in_uboot SETTING..: runs the script with this environment, and with functions in the place of U-Boot's
# commands. What it printed stands in `screen`, and the environment that it saved in `env`.
in_uboot() (
  set +u
  unset chosen part
  for setting in "$@"; do
    eval "${setting%%=*}=\${setting#*=}"
  done
  setenv() {
    variable=$1
    shift
    eval "$variable=\$*"
  }
  setexpr() { eval "$1=$(($2 $3 $4))"; }
  saveenv() {
    for variable in BOOT_ORDER BOOT_A_LEFT BOOT_B_LEFT; do
      eval "printf '%s=%s\n' $variable \"\$$variable\""
    done > env
  }
  load() { :; }
  booti() {
    echo "started $chosen with $bootargs."
    exit
  }
  reset() { exit; }
  sleep() { :; }
  . ./boot.cmd
)

# uboot_case SETTING..: the script starts what it has to with this environment, and saves what it has to.
uboot_case() {
  unset BOOT_ORDER BOOT_A_LEFT BOOT_B_LEFT
  starts=$(uboot_starts "$@")
  rm -f env
  in_uboot "$@" > screen 2> err
  order=$(value BOOT_ORDER "$@")
  printf 'BOOT_ORDER=%s\n' "$order" > wanted
  for word in A B; do
    left=$(value "BOOT_${word}_LEFT" "$@")
    case "$starts $word $order" in
      'A A '* | 'B B '*) left=$((left - 1)) ;;
      " $word $word"* | " $word "*" $word"*) left=3 ;;
    esac
    printf 'BOOT_%s_LEFT=%s\n' "$word" "$left"
  done >> wanted
  said="${starts:+started $starts with .*rauc.slot=$starts[.]}"
  if grep -q "^${said:-No system is left to try}" screen && cmp -s wanted env; then
    pass
  else
    fail "U-Boot with $*: wanted ${said:-no system} and $(tr '\n' ' ' < wanted)
  got $(tr '\n' ' ' < env)and $(cat screen err)"
  fi
}

uboot_cases() {
  for order in 'A B' 'B A' B 'C B A' ''; do
    for left in '3 3' '1 0' '0 1' '0 0' '9 2'; do
      uboot_case "BOOT_ORDER=$order" "BOOT_A_LEFT=${left% *}" "BOOT_B_LEFT=${left#* }"
    done
  done
  uboot_case
  uboot_case 'BOOT_ORDER=A B'
  uboot_case 'BOOT_ORDER=A B' BOOT_B_LEFT=1
  uboot_case BOOT_A_LEFT=3 BOOT_B_LEFT=3
  uboot_case 'BOOT_ORDER=A B' BOOT_A_LEFT=none BOOT_B_LEFT=2
}

# ---- what is here

script_of grub.md > script
if is_there grub-script-check grub-common; then
  if [ -s script ] && grub-script-check script; then
    pass
  else
    fail 'the syntax of the script in docs/boot/grub.md'
    hangs=yes
  fi
fi
if is_there grub-editenv grub-common && is_there grub-emu grub-emu && is_there mkfs.vfat dosfstools && is_there mcopy mtools && is_there script bsdutils; then
  grub_cases
fi

script_of uboot.md > boot.cmd
if [ -s boot.cmd ] && sh -n boot.cmd; then pass; else fail 'the syntax of the script in docs/boot/uboot.md'; fi
uboot_cases

printf '%s passed, %s failed\n' "$passed" "$failed"
[ "$failed" = 0 ]
