#!/usr/bin/env bash
# Has an install by the built program go wrong at each of its points, on ordinary files: each of its system
# calls that reads or changes something, or starts or awaits a child, fails once; and each program that it runs
# fails once, by its status and by a signal. Each time it compares what is told, and what is left: the booted
# slot keeps its bytes; the status file is the old one or one of the three new ones, whole; the other slot has
# changed in whole pieces of the image and nowhere else; and these and the variables of GRUB stand together as
# after one of the steps, so that the other slot is started next only where it begins with the whole image. Then
# the same install is run once more, and has to succeed. The calls of the thread that reads the output of a
# child, and those that close files or get memory, are left out. A program of sh stands for grub-editenv and puts
# whole files in place: the real one, where it is stopped while it writes, may leave an empty block. What a kill
# leaves at each call is looked at by power_cuts.sh.
# Needs bash, coreutils, cmp, awk, sed, grep and strace; make and rt where no program is named. It takes half a
# minute; its last line counts the cases.
# Use: tests/install_system.sh [PROGRAM]. Without a program it has make build one first.
set -u
if ! strace -o /dev/null true 2> /dev/null; then
  echo "skipped: install_system, since strace is missing or cannot trace here"
  exit 0
fi
check=install_system
. "$(dirname "$0")/lib/program.sh"
. tests/lib/bundle_helpers.sh
. tests/lib/install_files.sh
. tests/lib/real_files.sh
. ../../tests/lib/install_steps.sh

# ---- an install over two slots, of which the second one has an old image

# Each program first does the lines of the file `trip`, if there is one.
trip='[ ! -e "$scratch/trip" ] || . "$scratch/trip"'
helpers helpers "$trip"
grub "$trip" > grub_said
plain_grub
link_tools
install_of 'A B' rootfs:140000
# The calls that fail, and those that are left out: of files that are closed, memory, signals, threads, and the
# end.
calls=openat,statx,read,write,pread64,pwrite64,lseek,fsync,rename,fchown,fchmod,pipe2,clone3,wait4
left_out='close|mmap|munmap|mprotect|madvise|mremap|brk|futex|rt_sigaction|rt_sigprocmask|sigaltstack|gettid|prlimit64|exit_group'

# ---- the install in which nothing goes wrong, and its points

goes_well
cp ran ran_well
programs=$(wc -l < ran_well)
since_conf | cut -d ' ' -f 1,2 > points
# No kind of call is passed over unknown.
anew
strace -o trace "${run[@]}" > said_out
since_conf | sed 's/ .*//' | sort -u | grep -vxE "${calls//,/|}|$left_out" > unknown
wrong=$(cat unknown)
judge 'kinds of system calls that are not known here'

# ---- each call fails

# wanted CALL DONE: how the install ends where this traced call fails, after this part of its trace.
wanted() {
  local kind
  case $1 in
    # What is told is not told, and all is done.
    write\(1\<*) echo '2 '; return ;;
    # Where a file ends and whose it is are asked for only to do better; and a program that was not found is
    # started by its name alone.
    lseek\(* | fchown\(* | fchmod\(* | statx\(*/bin/grub-editenv\"*) echo '0 '; return ;;
    statx\(*AT_EMPTY_PATH*) kind='read' ;;
    pipe2\(* | clone3\(* | wait4\(* | openat\(*\"/dev/null\"* | read\(*\<pipe:*) kind=run ;;
    openat\(*central.raucs.*.new* | write\(*central.raucs* | fsync\(*/status* | rename\(* | statx\(*central.raucs\"* | openat\(*/status\"*) kind=replace ;;
    statx\(*) kind=size ;;
    pwrite64\(* | openat\(*/b\"*) kind='write' ;;
    fsync\(*) kind=sync ;;
    *) kind='read' ;;
  esac
  if [ "$kind" = run ] && grep -q '"100% done' <<< "$2"; then
    echo '0 warning: bundle not unmounted: run'
  else
    echo "2 rauc: outside fault: $kind"
  fi
}

# fails CALL NUMBER: the install in which this call fails.
fails() {
  local text way
  anew
  wrong=''
  traced -e "trace=$calls" -e "inject=$1:error=EIO:when=$2"
  text=$(grep '(INJECTED)' trace)
  if [ -z "$text" ]; then
    wrong="$wrong
  the call did not come"
  else
    way=$(wanted "$text" "$(sed '/(INJECTED)/q' trace)")
    told "${way%% *}" "${way#* }"
    if [ "$(ls -A status)" != central.raucs ]; then
      wrong="$wrong
  left beside the status file: $(ls -A status)"
    fi
    # Where a child is in doubt, so is what it mounted or not.
    if [[ $way != *run ]] && [ -e "$point" ]; then
      wrong="$wrong
  the bundle is still mounted"
    fi
  fi
  settle "call $1 $2 fails: $text"
}

while read -r call number; do
  fails "$call" "$number"
done < points
each_seen "$(wc -l < points) system calls failed" 0 1 2 3 4 5

# ---- each program fails

# ends NUMBER ENDED: how the install ends where the program of this number ends so.
ends() {
  local words
  words=$(sed -n "$1p" ran_well)
  case $words in
    bundle-check*) echo "1 rauc: bundle is not trusted: $2" ;;
    bundle-mount*) echo "1 rauc: bundle mount failed: $2" ;;
    bundle-umount*) echo "0 warning: bundle not unmounted: $2" ;;
    *) echo "1 rauc: $words failed: $2" ;;
  esac
}

for number in $(seq "$programs"); do
  for way in 'exit 9' 'kill -KILL $$'; do
    anew
    : > ran
    wrong=''
    printf 'if [ "$(($(wc -l < "$scratch/ran")))" = %s ]; then %s; fi\n' "$number" "$way" > trip
    "${run[@]}" > said_out 2> said_err
    code=$?
    ended=signal
    [ "$way" != 'exit 9' ] || ended='status 9'
    way=$(ends "$number" "$ended")
    told "${way%% *}" "${way#* }"
    settle "program $number ends by $ended: $(sed -n "${number}p" ran_well)"
  done
done
each_seen "$((2 * programs)) programs failed" 0 3 5

printf '%s passed, %s failed\n' "$passed" "$failed"
[ "$failed" = 0 ]
