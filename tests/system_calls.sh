#!/usr/bin/env bash
# Has each system call that the built program makes on the configuration, the image and the device fail
# once, but for those that close them, and looks at what it says and leaves: status 2 and the line of
# that fault (or all done, where the call is but a hint), the slot that runs as before, and an end in
# time. Needs bash, coreutils, cmp and strace; make and rt where no program is named. Its last line
# counts the cases.
# Use: tests/system_calls.sh [PROGRAM]. Without a program it has make build one first.
set -u
if ! strace -o /dev/null true 2> /dev/null; then
  echo "skipped: system_calls, since strace is missing or cannot trace here"
  exit 0
fi
check=system_calls
. "$(dirname "$0")/lib/program.sh"
scratch=$(mktemp -d build/system_calls.XXXXXX)
trap 'rm -rf "$OLDPWD/$scratch"' EXIT
cd "$scratch" || exit 2
passed=0
failed=0

head -c 1500000 /dev/zero | tr '\0' 'a' > a
cp a before
cp a b
head -c 1200000 /dev/urandom > image
cat > c << CONF
[system]
compatible=Test
bootloader=noop

[slot.rootfs.0]
device=$PWD/a

[slot.rootfs.1]
device=$PWD/b
CONF
run=("$program" write-slot --override-boot-slot=rootfs.0 -c "$PWD/c" rootfs.1 "$PWD/image")
paths=(-P "$PWD/c" -P "$PWD/image" -P "$PWD/b")

line="slot rootfs.1 written: 1200000 bytes, sha256 $(sha256sum < image | cut -c1-64)"
said=$(strace -o calls "${paths[@]}" "${run[@]}" 2>&1)
if [ "$said" != "$line" ]; then
  printf 'failed: the run in which no call fails\n  got %s\n0 passed, 1 failed\n' "$said"
  exit 1
fi

# wanted CALL: what the program says where this traced call fails, with its status before it. A file
# whose end cannot be sought, or of which the kernel takes no advice, is read or written all the same.
wanted() {
  case $1 in
    lseek* | fadvise64*) echo "0 $line" ;;
    statx\(AT_FDCWD*) echo "2 rauc: outside fault: size" ;;
    pwrite64* | write\(* | openat*"/b\""*) echo "2 rauc: outside fault: write" ;;
    fsync* | fdatasync*) echo "2 rauc: outside fault: sync" ;;
    *) echo "2 rauc: outside fault: read" ;;
  esac
}

# fails CALL NUMBER WANTED: the run in which this system call fails at this number says and leaves what
# it must.
fails() {
  local said code
  cp before b
  said=$(timeout 20 strace -o /dev/null "${paths[@]}" -e "inject=$1:error=EIO:when=$2" "${run[@]}" 2>&1)
  code=$?
  if [ "$code $said" = "$3" ] && cmp -s a before && { [ "$code" != 0 ] || cmp -s -n 1200000 image b; }; then
    passed=$((passed + 1))
  else
    failed=$((failed + 1))
    printf 'failed: %s number %s\n  wanted %s\n  got    %s %s\n' "$1" "$2" "$3" "$code" "$said"
  fi
}

# A file that cannot be closed was read or synced already, so those calls are left out.
declare -A numbers
while IFS= read -r text; do
  call=${text%%(*}
  if [[ $call =~ ^[a-z0-9_]+$ && $call != close ]]; then
    numbers[$call]=$((${numbers[$call]:-0} + 1))
    fails "$call" "${numbers[$call]}" "$(wanted "$text")"
  fi
done < calls

printf '%s passed, %s failed\n' "$passed" "$failed"
[ "$failed" = 0 ] && [ "$passed" -gt 0 ]
