#!/usr/bin/env bash
# Kills an install by the built program at each of its system calls that change something, on ordinary files,
# and looks at what it leaves. The calls are those that write, sync, rename, remove, set an owner or a mode,
# start a child or a thread, or open a file that they may make; and it is killed where it has just started a
# child, which then goes on. Two installs are killed so: that of the demo, into one slot, and one into three,
# of a root and two children, where the target is booted next before. Each time these hold:
#  1. every booted or active slot has kept its bytes;
#  2. once a write of the target was begun, the target is booted next (first good name in ORDER) only while each
#     slot of a job begins with bytes of its image's size and SHA-256;
#  3. what the status file says is true: each slot with `status=ok`, a size and a sha256 begins with such bytes;
#     and the name that is booted, which was good, is good.
# What is left is also as after one of the steps of the install, to the byte. Then the same install is run once
# more, has to succeed, and all of it has to be there. A kill comes before a call or behind it, so each write of
# an image is also done by hand in its front half alone, and in its back half alone; and each slot gets back what
# it had before the writes that were not synced yet. The three are looked at and the install is run then, too.
# The boot loader is GRUB by the real grub-editenv, where that is installed. It writes its block in place, but it
# is not killed: what the program has started ends before anything is looked at.
# Needs bash, coreutils, cmp, awk, sed, grep and strace; make and rt where no program is named. It takes a
# minute; it says how many points there were, by call, and its last line counts the cases.
# Use: tests/power_cuts.sh [PROGRAM]. Without a program it has make build one first.
set -u
if ! strace -o /dev/null true 2> /dev/null; then
  echo "skipped: power_cuts, since strace is missing or cannot trace here"
  exit 0
fi
check=power_cuts
. "$(dirname "$0")/lib/program.sh"
. tests/lib/bundle_helpers.sh
. tests/lib/install_files.sh
. tests/lib/real_files.sh
. ../../tests/lib/install_steps.sh

# The calls that change nothing, but for openat where it may make a file. Any other call is a point.
harmless='access|newfstatat|fstat|stat|statx|lseek|read|pread64|getdents64|openat|close|pipe2|fcntl|fadvise64'
harmless="$harmless|mmap|munmap|mprotect|madvise|mremap|brk|futex|rt_sigaction|rt_sigprocmask|rt_sigreturn|sigaltstack"
harmless="$harmless|set_robust_list|rseq|gettid|getpid|getrandom|clock_gettime|prlimit64|sched_yield|wait4|exit|exit_group"

# ---- the three sentences

# begins FILE SIZE DIGEST: the file begins with so many bytes of this SHA-256.
begins() {
  [ "$(($(wc -c < "$1")))" -ge "$2" ] && [ "$(head -c "$2" "$1" | sha256sum)" = "$3  -" ]
}

# noted: the slots that have `status=ok`, a size and a sha256 in the status file, with the two.
noted() {
  awk -F = '
    function tell() {
      if (status == "ok" && size != "" && sha256 != "") print slot, size, sha256
      status = size = sha256 = ""
    }
    /^\[/ { tell(); slot = substr($0, 7, length($0) - 7) }
    $1 == "status" { status = $2 }
    $1 == "size" { size = $2 }
    $1 == "sha256" { sha256 = $2 }
    END { tell() }' "$book"
}

# is_good NAME: the name is good by the variables in `var`.
is_good() { [ "${var[$1_OK]:-0}" = 1 ] && [ "${var[$1_TRY]:-0}" = 0 ]; }

# booted_next: sets `next` to the first good name in ORDER, by the variables in `var`, or to nothing.
booted_next() {
  local name
  next=''
  for name in ${var[ORDER]:-}; do
    if [ -z "$next" ] && [[ $name == [AB] ]] && is_good "$name"; then next=$name; fi
  done
}

# sentences: the three hold.
checked=0
sentences() {
  local file number begun='' slot size sha256 key value next
  local -A var
  while IFS='=' read -r key value; do var[$key]=$value; done < <(grub_vars)
  booted_next
  checked=$((checked + 1))
  for file in "${kept[@]}"; do
    cmp -s "$file" "was/$file" || wrong="$wrong
  1: $file, which is active, has other bytes"
  done
  ! grep -q '^pwrite64' trace || begun=yes
  for file in "${targets[@]}"; do
    cmp -s "$file" "was/$file" || begun=yes
  done
  if [ -n "$begun" ] && [ "$next" = B ]; then
    for number in "${!targets[@]}"; do
      begins "${targets[number]}" "${image_sizes[number]}" "${image_digests[number]}" || wrong="$wrong
  2: B is booted next, and ${target_slots[number]} does not begin with its image"
    done
  fi
  while read -r slot size sha256; do
    begins "${device_of[$slot]:-/dev/null}" "$size" "$sha256" || wrong="$wrong
  3: $slot does not begin with the $size bytes that the status file says"
  done < <(noted)
  is_good A || wrong="$wrong
  3: A, which is booted, is not good any more"
}

# ---- what a cut in the middle of a write leaves, and one before a sync

# keep: `cut` has what is left. restore: it is left again.
keep() {
  rm -rf cut
  mkdir cut
  cp -R "${kept[@]}" "${targets[@]}" grubenv status mnt cut/
}
restore() {
  rm -rf status mnt
  cp -R cut/. .
  wrong=''
  look
}

# half WHICH: this half of the last write in the trace is on its slot, and the other half is not.
half() {
  local device length offset
  read -r device length offset < <(
    sed -n "s|^pwrite64([0-9]*<$scratch/\([^>]*\)>, .*, \([0-9]*\), \([0-9]*\)) *= .*|\1 \2 \3|p" trace | tail -n 1
  )
  if [ -z "${device:-}" ] || [ -z "${size_of[$device]:-}" ]; then
    wrong="$wrong
  the last write was not one of a target: $device"
    return
  fi
  if [ "$1" = front ]; then
    length=$((length / 2))
  else
    offset=$((offset + length / 2))
    length=$((length - length / 2))
  fi
  # These bytes come from what the slot is to become.
  tail -c +$((offset + 1)) "want/$device.${size_of[$device]}" | head -c "$length" |
    dd of="$device" bs=65536 iflag=fullblock oflag=seek_bytes seek="$offset" conv=notrunc status=none
  ! cmp -s "$device" "cut/$device" || wrong="$wrong
  the $1 half of the write has changed nothing"
}

# pending: the slots that were written, and not synced since then, by the trace.
pending() {
  awk -v scratch="$scratch/" '
    /^(pwrite64|fsync|fdatasync)\(.*= [0-9]+$/ {
      file = $0
      sub(/^[^<]*</, "", file)
      sub(/>.*/, "", file)
      if (index(file, scratch) == 1) wet[substr(file, length(scratch) + 1)] = /^pwrite64/
    }
    END { for (file in wet) if (wet[file]) print file }' trace
}

# ---- the kills

# points: each point of the traced install, as the call and its number among those of its name.
points() {
  since_conf | awk -v harmless="^($harmless)\$" '
    ($1 == "openat" && /O_CREAT|O_TRUNC/) || ($1 == "read" && $3 ~ /<pipe:/) || $1 !~ harmless { print $1, $2 }'
}

# killed CALL NUMBER: the install that is killed at this call, and then run again.
declare -A covered
killed() {
  local which wet file name
  anew
  wrong=''
  traced -e "inject=$1:signal=KILL:when=$2"
  told 137 ''
  if [ "$code" = 137 ] && grep -q 'killed by SIGKILL' trace; then covered[$1]=$((${covered[$1]:-0} + 1)); fi
  name="killed at $1 $2"
  wet=$(pending)
  if [ "$1" = pwrite64 ] || [ -n "$wet" ]; then keep; fi
  sentences
  settle "$name"
  if [ "$1" = pwrite64 ]; then
    for which in front back; do
      restore
      half "$which"
      halves=$((halves + 1))
      sentences
      again
      judge "$name, with the $which half of it done"
    done
  fi
  if [ -n "$wet" ]; then
    restore
    for file in $wet; do cp "was/$file" "$file"; done
    unsynced=$((unsynced + 1))
    sentences
    again
    judge "$name, with nothing of what was not synced"
  fi
}

# cut_all WHAT: the install is killed at each of its points; all calls that change something are among them.
cut_all() {
  local call number counted='' kinds=() beyond
  covered=()
  halves=0
  unsynced=0
  goes_well
  points > of_install
  since_conf > all_calls
  while read -r call number; do
    killed "$call" "$number"
  done < of_install
  mapfile -t kinds < <(cut -d ' ' -f 1 of_install | sort -u)
  for call in "${kinds[@]}"; do
    # No call of this name comes after those that were counted.
    beyond=$(($(awk -v call="$call" '$1 == call { number = $2 } END { print number }' all_calls) + 1))
    anew
    wrong=''
    traced -e "inject=$call:signal=KILL:when=$beyond"
    told 0 ''
    sentences
    all_there || wrong="$wrong
  not all is there"
    judge "no kill at $call $beyond, which does not come"
    counted="$counted, ${covered[$call]:-0} $call"
  done
  echo "$1 was killed at $(wc -l < of_install) points:${counted#,}"
  echo "and $halves times a half of a write was there, and $unsynced times nothing of what was not synced"
  # One more install, by itself, has no other kind of call that changes something.
  goes_well
  wrong=''
  while read -r call; do
    [ "${covered[$call]:-0}" -gt 0 ] || wrong="$wrong
  $call"
  done < <(points | cut -d ' ' -f 1 | sort -u)
  [ "$halves" -gt 0 ] && [ "$unsynced" -gt 0 ] || wrong="$wrong
  writes of an image"
  judge "$1: changing calls at which it was not killed"
  # shellcheck disable=SC2046 # The numbers are to be split.
  each_seen "$1" $(seq 0 "$last")
}

# other_threads: the kinds of calls of the program's other threads, which strace does not show unless it follows.
other_threads() {
  anew
  strace -f -o trace "${run[@]}" > said_out
  awk '
    NR == FNR && /CLONE_THREAD/ && /unfinished/ { starts[$1] = 1 }
    NR == FNR && /CLONE_THREAD/ && !/unfinished/ { threads[$NF] = 1 }
    NR == FNR && /clone3? resumed/ && starts[$1] { threads[$NF] = 1; starts[$1] = 0 }
    NR != FNR && threads[$1] && $2 ~ /^[a-z0-9_]+\(/ { sub(/\(.*/, "", $2); print $2 }' trace trace | sort -u
}

helpers helpers
grub
link_tools
install_of 'A B' rootfs:140000
cut_all 'the install of the demo'
other_threads > threads_do
wrong=$(grep -vxE "$harmless" threads_do)
grep -qx read threads_do || wrong="$wrong
  no thread that reads was seen"
judge 'what another thread of the program changes'
install_of 'B A' rootfs:140000 appfs:70000 datafs:9000
cut_all 'an install into three slots'

echo "the three sentences were looked at $checked times"
printf '%s passed, %s failed\n' "$passed" "$failed"
[ "$failed" = 0 ]
