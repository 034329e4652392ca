#!/bin/sh
# Runs the same commands by the boot loaders' own programs, over plain files, and by their model
# (boot_session); and so for the backend that docs/boot/custom.md has. What they print, how they end and
# which variables they leave has to be the same, but for the differences that docs/DECISIONS.md names: of
# these each side has to be exactly as named. Needs a POSIX shell, coreutils, sed, awk and gzip; a program
# that is not installed is skipped by name. Its last line counts the cases.
# Use: tests/boot_programs.sh [MODEL]. Without a program it has make and rt build one first.
set -u
check=boot_programs
built=boot_session
. "$(dirname "$0")/lib/program.sh"
. tests/lib/real_files.sh
. ../../tests/lib/boot_pages.sh
tab=$(printf '\t')

# ---- sessions: the same commands for both, on variables that are none at first

# words WORD..: a line of these words, as the model reads it.
words() {
  line=$1
  shift
  for word in "$@"; do
    line=$line$tab$word
  done
  printf '%s\n' "$line"
}

# begin KIND [PLACE]: a session with the programs of this boot loader.
begin() {
  kind=$1
  words "$@" > session
  : > real
  "empty_$kind"
}

# given NAME VALUE: a variable is set from elsewhere.
given() {
  words '' "$@" >> session
  "give_$kind" "$@" > out 2> err
}

# does WORDS..: the next command.
does() {
  words "$@" >> session
  "run_$kind" "$@" > out 2> err
  code=$?
  printf 'status %s, bytes %s\n' "$code" "$(($(wc -c < out)))" >> real
  cat out >> real
}

# settle: the session is over; what is told of it by both stands in `real` and `model`.
settle() {
  "list_$kind" 2> err | sed "s/=/$tab/; s/^/$tab/" | LC_ALL=C sort >> real
  "$program" session > model 2>&1 || echo "and status $?" >> model
}

# by_name FILE: the same file with the lines that each command printed in the order of their bytes.
by_name() {
  awk '{ first = /^status / } first { block++ } { printf "%03d %d %s\n", block, !first, $0 }' "$1" | LC_ALL=C sort | cut -c7-
}

# agrees NAME: both tell the same. What `grub-editenv` lists may be in another order.
agrees() {
  settle
  case $kind in
    grub)
      by_name real > first
      by_name model > second
      ;;
    *)
      cp real first
      cp model second
      ;;
  esac
  if cmp -s first second; then
    pass
  else
    tell "$kind: $1"
  fi
}

# differs NAME MODEL REAL: the model tells these lines, and the programs those.
differs() {
  settle
  if holds model "$2" && holds real "$3"; then
    pass
  else
    tell "$kind: $1 (a difference that is named)"
  fi
}

# tell NAME: this session failed.
tell() {
  fail "$1
  session:
$(cat session)
  the model:
$(cat model)
  the programs:
$(cat real)"
}

# variable NAME VALUE: the line of a variable at the end of a session.
variable() { printf '\t%s\t%s' "$1" "$2"; }

refused='status 1, bytes 0'
ended_well='status 0, bytes 0'

# ---- GRUB

empty_grub() { rm -rf env other; }
give_grub() { grub-editenv env set "$1=$2"; }
run_grub() { "$@"; }
list_grub() { grub-editenv env list; }

grub_sessions() {
  begin grub env
  does grub-editenv env list
  agrees 'a missing file has no variables'

  begin grub env
  does grub-editenv env set A_OK=1
  does grub-editenv env list
  agrees 'one variable'

  begin grub env
  does grub-editenv env set A_OK=1 A_TRY=0 'ORDER=A B'
  does grub-editenv env list
  does grub-editenv env set B_OK=1 A_TRY=1
  does grub-editenv env set 'ORDER=B A' ORDER=B
  does grub-editenv env list
  agrees 'several variables, some set again'

  begin grub env
  does grub-editenv env set E= 'BLANKS= two  words ' 'SIGNS=a=b=' "QUOTES=it's \"\$HOME\" \\" 'HASH=#1' 'LESS=-1' 'UTF8=é' =nameless
  does grub-editenv env list
  does grub-editenv env set BLANKS= E=1
  does grub-editenv env list
  agrees 'values that are empty, or have blanks and signs'

  begin grub env
  does grub-editenv env set A=1
  does grub-editenv env set B
  does grub-editenv env set A=2 B
  does grub-editenv env frobnicate
  does grub-editenv env
  does grub-editenv env list
  agrees 'words that are refused'

  begin grub env
  given ORDER 'A B'
  given A_OK 1
  given A_TRY 0
  given B_OK 1
  given B_TRY 1
  given saved_entry 0
  does grub-editenv env list
  does grub-editenv env set B_OK=0 B_TRY=0
  does grub-editenv env list
  does grub-editenv env set B_OK=1 B_TRY=0
  does grub-editenv env list
  does grub-editenv env set B_OK=1 B_TRY=0 'ORDER=B A'
  does grub-editenv env list
  does grub-editenv env set A_OK=0 A_TRY=0
  does grub-editenv env list
  agrees 'marks of A and B'

  # ---- named differences
  begin grub env
  does grub-editenv env set B=1 A=2
  does grub-editenv env list
  differs 'the order of a list' "$ended_well
status 0, bytes 8
A=2
B=1
$(variable A 2)
$(variable B 1)" "$ended_well
status 0, bytes 8
B=1
A=2
$(variable A 2)
$(variable B 1)"

  begin grub env
  given A 1
  does grub-editenv env set
  differs 'nothing to set' "$refused
$(variable A 1)" "$ended_well
$(variable A 1)"

  begin grub env
  given A 1
  does grub-editenv env list more
  differs 'words behind list' "$refused
$(variable A 1)" "status 0, bytes 4
A=1
$(variable A 1)"

  begin grub env
  given A 1
  does grub-editenv env unset A
  differs 'other commands: unset' "$refused
$(variable A 1)" "$ended_well"

  begin grub env
  given A 1
  does grub-editenv env create
  differs 'other commands: create' "$refused
$(variable A 1)" "$ended_well"

  begin grub env
  does grub-editenv
  differs 'no words' "$refused" 'status 64, bytes 0'

  begin grub env
  does grub-editenv other set A=1
  does grub-editenv other list
  differs 'another file' "$refused
$refused" "$ended_well
status 0, bytes 4
A=1"

  begin grub env
  does grub-editenv env set A=1 -A_OK=1
  differs 'a name that begins with -' "$ended_well
$(variable -A_OK 1)
$(variable A 1)" 'status 64, bytes 0'

  begin grub env
  does grub-editenv env set A=1 '#A_OK=1'
  does grub-editenv env list
  differs 'a name that begins with #' "$ended_well
status 0, bytes 12
#A_OK=1
A=1
$(variable '#A_OK' 1)
$(variable A 1)" "$ended_well
status 0, bytes 4
A=1
$(variable A 1)"

  long=$(head -c 1100 /dev/zero | tr '\0' x)
  begin grub env
  given A 1
  does grub-editenv env set A=2 "B=$long"
  differs 'more than the block holds' "$ended_well
$(variable A 2)
$(variable B "$long")" "$refused
$(variable A 1)"

  begin grub env
  printf 'no environment block' > env
  does grub-editenv env set A=1
  does grub-editenv env list
  differs 'a file that is no environment block' "$ended_well
status 0, bytes 4
A=1
$(variable A 1)" "$refused
$refused"

  begin grub env
  does grub-editenv env list
  if [ "$(($(wc -c < env)))" = 1024 ]; then pass; else fail 'grub: list makes a missing file (a difference that is named)'; fi
}

# ---- U-Boot

# The environment is a file of 4 bytes for the sum and 16,380 for the settings, of which there are none.
empty_uboot() { cp empty.env u-boot.env; }
give_uboot() { run_uboot fw_setenv "$@"; }
run_uboot() {
  tool=$1
  shift
  "$tool" -c fw.conf "$@"
}
list_uboot() { run_uboot fw_printenv; }

# blank_environment SIZE: the environment is of so many bytes, and has no variables.
blank_environment() {
  head -c "$(($1 - 4))" /dev/zero > settings
  { gzip -c settings | tail -c 8 | head -c 4 && cat settings; } > empty.env
  printf '%s/u-boot.env 0x0 0x%x\n' "$scratch" "$1" > fw.conf
}

# told_by U_BOOT LIBUBOOTENV: of these texts the one for the programs that are here.
told_by() {
  case $maker in
    U-Boot) printf '%s' "$1" ;;
    *) printf '%s' "$2" ;;
  esac
}

# agrees_or NAME MODEL REAL: the programs of U-Boot agree; those of libubootenv differ in this way.
agrees_or() {
  case $maker in
    U-Boot) agrees "$1" ;;
    *) differs "$@" ;;
  esac
}

uboot_sessions() {
  blank_environment 16384

  begin uboot
  does fw_setenv BOOT_ORDER 'A B'
  does fw_printenv BOOT_ORDER
  does fw_setenv BOOT_ORDER B
  does fw_setenv BOOT_A_LEFT 3
  does fw_printenv BOOT_ORDER
  does fw_printenv BOOT_A_LEFT
  agrees 'variables, one set again'

  begin uboot
  does fw_setenv BLANKS ' two  words '
  does fw_printenv BLANKS
  does fw_setenv SIGNS 'a=b='
  does fw_printenv SIGNS
  does fw_setenv QUOTES "it's \"\$HOME\" \\"
  does fw_printenv QUOTES
  does fw_setenv '#HASH' 'é'
  does fw_printenv '#HASH'
  does fw_setenv '' nameless
  does fw_printenv ''
  agrees 'values that have blanks and signs'

  begin uboot
  given BOOT_ORDER 'A B'
  given BOOT_A_LEFT 3
  given BOOT_B_LEFT 1
  given bootcmd 'run distro_bootcmd'
  does fw_printenv BOOT_ORDER
  does fw_printenv BOOT_A_LEFT
  does fw_printenv BOOT_B_LEFT
  # B is marked bad, then made primary, then marked good; then A is marked bad, and good.
  does fw_printenv BOOT_ORDER
  does fw_setenv BOOT_B_LEFT 0
  does fw_setenv BOOT_ORDER A
  does fw_printenv BOOT_ORDER
  does fw_setenv BOOT_B_LEFT 3
  does fw_setenv BOOT_ORDER 'B A'
  does fw_printenv BOOT_ORDER
  does fw_setenv BOOT_B_LEFT 3
  does fw_printenv BOOT_ORDER
  does fw_setenv BOOT_A_LEFT 0
  does fw_setenv BOOT_ORDER B
  does fw_printenv BOOT_ORDER
  does fw_setenv BOOT_A_LEFT 3
  does fw_setenv BOOT_ORDER 'B A'
  does fw_printenv BOOT_ORDER
  agrees 'marks of A and B'

  # ---- named differences
  begin uboot
  given A 1
  does fw_printenv B
  agrees_or 'a variable that is not set' "$refused
$(variable A 1)" "status 0, bytes 3
B=
$(variable A 1)"

  begin uboot
  given BOOT_ORDER A
  does fw_setenv BOOT_ORDER ''
  does fw_printenv BOOT_ORDER
  agrees_or 'an empty value' "$ended_well
$refused" "$ended_well
status 0, bytes 12
BOOT_ORDER=
$(variable BOOT_ORDER '')"

  begin uboot
  does fw_setenv
  agrees_or 'nothing to set' "$refused" "$ended_well"

  begin uboot
  given A 1
  does fw_setenv A=B 2
  differs 'a name with =' "$ended_well
$(variable A 1)
$(variable A=B 2)" "$(told_by "$ended_well
$(variable A B=2)" "$refused
$(variable A 1)")"

  begin uboot
  given A 1
  does fw_setenv A
  differs 'no value' "$refused
$(variable A 1)" "$ended_well"

  begin uboot
  does fw_setenv A 1 2
  differs 'two values' "$refused" "$ended_well
$(variable A "$(told_by '1 2' 1)")"

  begin uboot
  given A 1
  given B 2
  does fw_printenv A B
  does fw_printenv
  differs 'other than one name' "$refused
$refused
$(variable A 1)
$(variable B 2)" "status 0, bytes 8
A=1
B=2
status 0, bytes 8
A=1
B=2
$(variable A 1)
$(variable B 2)"

  begin uboot
  given BOOT_ORDER 'A -B'
  does fw_setenv BOOT_ORDER '-B A'
  differs 'a value that begins with -' "$ended_well
$(variable BOOT_ORDER '-B A')" "$(told_by "$refused
$(variable BOOT_ORDER 'A -B')" "$ended_well")"

  begin uboot
  given A 1
  rm u-boot.env
  does fw_printenv A
  does fw_setenv A 2
  differs 'no environment' "status 0, bytes 4
A=1
$ended_well
$(variable A 2)" "$(told_by "$refused
$refused" 'status 234, bytes 0
status 234, bytes 0')"

  long=$(head -c 100 /dev/zero | tr '\0' x)
  blank_environment 64
  begin uboot
  given A 1
  given B 2
  does fw_setenv B "$long"
  differs 'more than the environment holds' "$ended_well
$(variable A 1)
$(variable B "$long")" "$(told_by "$ended_well
$(variable A 1)" "status 244, bytes 0
$(variable A 1)
$(variable B 2)")"
}

# ---- EFI: the program takes a folder in the place of the firmware's variables

vendor=8be4df61-93ca-11d2-aa0d-00e098032b8c
export EFIVARFS_PATH="$scratch/efi/"

empty_efi() {
  rm -rf efi
  mkdir efi
}

# An entry is its attributes, those of its boot option, the length of its path, its label in UTF-16, and a
# path that is at its end.
give_efi() {
  {
    printf '\7\0\0\0\1\0\0\0\4\0'
    label=$2
    while [ -n "$label" ]; do
      behind=${label#?}
      printf '%s\0' "${label%"$behind"}"
      label=$behind
    done
    printf '\0\0\177\377\4\0'
  } > "efi/$1-$vendor"
}

# What a writing command prints is left out, and so is the line that there is no order. Two of the named
# differences are looked at without that. A file keeps the end of a longer order that it had, which a
# variable of the firmware does not, so that is cut off.
all_of_efi=''
run_efi() {
  "$@" > all
  code=$?
  if [ "$code ${2-}" = '0 -o' ]; then
    head -c $((4 + (${#3} + 1) / 5 * 2)) "efi/BootOrder-$vendor" > order
    cp order "efi/BootOrder-$vendor"
  fi
  if [ -n "$all_of_efi" ]; then
    cat all
  elif [ $# = 1 ]; then
    grep -v '^No BootOrder is set; firmware will attempt recovery$' all
  fi
  return "$code"
}
list_efi() { efibootmgr | sed -n 's/^\(BootNext\|BootOrder\): /\1=/p; s/^\(Boot[0-9A-F]\{4\}\)\* /\1=/p'; }

efi_sessions() {
  begin efi
  given Boot0000 A
  given Boot0001 B
  given Boot000A 'Other system 1.0'
  does efibootmgr
  does efibootmgr -o 0000,0001
  does efibootmgr
  does efibootmgr -o 000A,0001,0000
  does efibootmgr -n 0001
  does efibootmgr
  does efibootmgr -n 0000
  does efibootmgr
  does efibootmgr -N
  does efibootmgr
  does efibootmgr -O
  does efibootmgr
  agrees 'the next boot, the order and the entries'

  begin efi
  given Boot0000 A
  given Boot0001 B
  given Boot0002 Shell
  given Boot0003 B
  does efibootmgr -o 0000,0002,0001
  does efibootmgr -n 0001
  does efibootmgr
  # B is marked bad, then good, then made primary in both ways; then A is marked bad, and good.
  does efibootmgr -N
  does efibootmgr -o 0000,0002
  does efibootmgr
  does efibootmgr -o 0001,0000,0002
  does efibootmgr
  does efibootmgr -n 0001
  does efibootmgr
  does efibootmgr -N
  does efibootmgr -o 0001,0000,0002
  does efibootmgr
  does efibootmgr -o 0001,0002
  does efibootmgr
  does efibootmgr -o 0000,0001,0002
  does efibootmgr
  agrees 'marks of A and B'

  begin efi
  given Boot0000 A
  does efibootmgr -o 0000
  does efibootmgr
  does efibootmgr -O
  does efibootmgr
  does efibootmgr -o 0000
  does efibootmgr
  agrees 'marks of one name alone'

  # ---- named differences
  all_of_efi=yes
  begin efi
  given Boot0000 A
  does efibootmgr -o 0000
  differs 'what a writing command prints' "$ended_well
$(variable Boot0000 A)
$(variable BootOrder 0000)" "status 0, bytes 28
BootOrder: 0000
Boot0000* A
$(variable Boot0000 A)
$(variable BootOrder 0000)"

  begin efi
  given Boot0000 A
  does efibootmgr
  differs 'a line where there is no order' "status 0, bytes 12
Boot0000* A
$(variable Boot0000 A)" "status 0, bytes 64
No BootOrder is set; firmware will attempt recovery
Boot0000* A
$(variable Boot0000 A)"
  all_of_efi=''

  begin efi
  given Boot0001 A
  does efibootmgr -o 0001
  does efibootmgr -N
  does efibootmgr -O
  does efibootmgr -O
  differs 'taking away what is not set' "$ended_well
$ended_well
$ended_well
$ended_well
$(variable Boot0001 A)" "$ended_well
status 10, bytes 0
$ended_well
$refused
$(variable Boot0001 A)"

  begin efi
  given Boot0000 A
  does efibootmgr -o 0000
  does efibootmgr -n 0000
  does efibootmgr -N
  case $(efibootmgr --version) in
    'version 17')
      differs 'taking the next boot away where there is no entry 0001' "$ended_well
$ended_well
$ended_well
$(variable Boot0000 A)
$(variable BootOrder 0000)" "$ended_well
$ended_well
status 17, bytes 0
$(variable Boot0000 A)
$(variable BootNext 0000)
$(variable BootOrder 0000)"
      ;;
    *) agrees 'taking the next boot away where there is no entry 0001' ;;
  esac

  begin efi
  given Boot0000 A
  does efibootmgr -o 0000
  does efibootmgr -n 0007
  does efibootmgr -o 0000,0007
  differs 'numbers of no entry' "$ended_well
$ended_well
$ended_well
$(variable Boot0000 A)
$(variable BootNext 0007)
$(variable BootOrder 0000,0007)" "$ended_well
status 12, bytes 0
status 8, bytes 0
$(variable Boot0000 A)
$(variable BootOrder 0000)"

  begin efi
  given Boot0000 A
  does efibootmgr -o 0000
  does efibootmgr -n x
  does efibootmgr -o x
  does efibootmgr -o ''
  differs 'what is no number' "$ended_well
$ended_well
$ended_well
$ended_well
$(variable Boot0000 A)
$(variable BootNext x)
$(variable BootOrder '')" "$ended_well
status 35, bytes 0
status 8, bytes 0
status 8, bytes 0
$(variable Boot0000 A)
$(variable BootOrder 0000)"

  begin efi
  given Boot000A A
  does efibootmgr -o 000a
  does efibootmgr -n 000a
  differs 'digits in lower case' "$ended_well
$ended_well
$(variable Boot000A A)
$(variable BootNext 000a)
$(variable BootOrder 000a)" "$ended_well
$ended_well
$(variable Boot000A A)
$(variable BootNext 000A)
$(variable BootOrder 000A)"

  begin efi
  given Boot0000 A
  does efibootmgr more
  differs 'more words' "$refused
$(variable Boot0000 A)" "$ended_well
$(variable Boot0000 A)"
}

# ---- a backend of the system's own: the one in docs/boot/custom.md

empty_custom() { rm -f systems; }
give_custom() { printf '%s=%s\n' "$1" "$2" >> systems; }
run_custom() { "$@"; }
list_custom() { cat systems; }

custom_sessions() {
  begin custom ./backend
  does ./backend get-primary
  does ./backend get-state A
  does ./backend set-state A bad
  does ./backend get-state A
  does ./backend get-state B
  does ./backend set-primary A
  does ./backend get-primary
  does ./backend get-state A
  does ./backend set-state A bad
  does ./backend get-primary
  does ./backend set-state A good
  does ./backend get-primary
  agrees 'states and the primary name'

  begin custom ./backend
  given primary A
  given state.A good
  given state.C bad
  does ./backend get-primary
  does ./backend get-state A
  does ./backend get-state B
  # B is marked bad, good, and made primary; then A is marked bad, and good.
  does ./backend set-state B bad
  does ./backend get-state B
  does ./backend set-state B good
  does ./backend get-state B
  does ./backend set-primary B
  does ./backend get-primary
  does ./backend set-state A bad
  does ./backend get-state A
  does ./backend set-state A good
  does ./backend get-state C
  agrees 'marks of A and B'

  begin custom ./backend
  for name in -n '#' "it's" '\' '$(touch touched)' '*' a/b state.A primary; do
    does ./backend set-state "$name" bad
    does ./backend set-primary "$name"
    does ./backend get-state "$name"
    does ./backend get-primary
  done
  does ./backend get-state '?'
  agrees 'names of all kinds'
  if [ -e touched ]; then fail 'custom: a name was run as a command'; else pass; fi

  begin custom ./backend
  given primary A
  does ./backend
  does ./backend get-state
  does ./backend get-primary A
  does ./backend set-state A
  does ./backend set-primary A B
  does ./backend set-state A bad B
  does ./backend frobnicate A
  does ./backend ''
  agrees 'words that are refused'

  # The old file stays where the new one cannot be written.
  begin custom ./backend
  given primary A
  mkdir systems.new
  if ./backend set-primary B 2> err; then fail 'custom: a write that cannot be done ends well'; else pass; fi
  rmdir systems.new
  does ./backend get-primary
  agrees 'a write that cannot be done'
}

# ---- the programs that are here

if is_there grub-editenv grub-common; then grub_sessions; fi

if is_there fw_printenv libubootenv-tool && is_there fw_setenv libubootenv-tool; then
  case $(fw_printenv --help 2>&1) in
    *--defenv*) maker=libubootenv ;;
    *) maker=U-Boot ;;
  esac
  uboot_sessions
fi

if is_there efibootmgr efibootmgr; then
  empty_efi
  if efibootmgr > out 2>&1; then
    efi_sessions
  else
    echo "skipped: efibootmgr, since it takes no folder for the variables here"
  fi
fi

script_of custom.md sh | sed "s|^file=.*|file=$scratch/systems|" > backend
chmod 755 backend
if sh -n backend && grep -q '^file=' backend; then pass; else fail 'the backend of docs/boot/custom.md'; fi
custom_sessions

echo "skipped: barebox-state, since it needs a device tree with a state, and the storage that this names"

printf '%s passed, %s failed\n' "$passed" "$failed"
[ "$failed" = 0 ]
