#!/bin/sh
# Runs the built program on real files: each image that fits, those that do not, what is missing or in
# the way, what runs or is mounted, and runs that are cut off. Needs a POSIX shell and coreutils; what
# needs more is skipped by name. Its last line counts the cases.
# Use: tests/end_to_end.sh [PROGRAM]. Without a program it has make and rt build one first.
set -u
check=end_to_end
. "$(dirname "$0")/lib/program.sh"
. tests/lib/real_files.sh

# writes STATUS LINE SLOT IMAGE: the same of a write, where the first slot counts as booted.
writes() {
  expect "$1" "$2" write-slot --override-boot-slot=A -c c "$3" "$4"
}

# written SLOT IMAGE: the line of a write that was done.
written() {
  printf 'slot %s written: %s bytes, sha256 %s' "$1" "$(($(wc -c < "$2")))" "$(digest "$2")"
}

# at_most LIMIT COUNT WHAT: a count was measured and is no more than the limit.
at_most() {
  if [ "${2:-$(($1 + 1))}" -le "$1" ]; then
    pass
  else
    fail "${2:-no count of} $3, over $1"
  fi
}

# advice FILE: of the traced calls of a write, sets `advised` to how often the kernel is advised, and
# `unwritten` to how often of bytes behind the end of what is written by then.
advice() {
  advised=0
  unwritten=0
  end=0
  while read -r call; do
    words=${call%)*}
    case $call in
      pwrite64*)
        at=${words##*, }
        words=${words%, *}
        count=${words##*, }
        [ $((at + count)) -le "$end" ] || end=$((at + count))
        ;;
      fadvise64*)
        words=${words%, *}
        count=${words##*, }
        words=${words%, *}
        at=${words##*, }
        advised=$((advised + 1))
        [ $((at + count)) -le "$end" ] || unwritten=$((unwritten + 1))
        ;;
    esac
  done < "$1"
}

# others BYTE COMMAND..: how many bytes of the command's output are not this one.
others() {
  byte=$1
  shift
  printf '%s' "$(($("$@" | tr -d "$byte" | wc -c)))"
}

# ---- images that fit, and one that does not
slots 4096
: > empty.img
writes 0 "$(written rootfs.1 empty.img)" rootfs.1 empty.img
same b before
head -c 4096 /dev/urandom > full.img
writes 0 "$(written rootfs.1 full.img)" rootfs.1 full.img
same full.img b
cp b before
head -c 4097 /dev/urandom > long.img
writes 1 "rauc: image long.img: 4097 bytes do not fit device of 4096" rootfs.1 long.img
same b before
for name in 'a name with blanks.img' 'Ünïcode-名.img'; do
  head -c 100 /dev/urandom > "$name"
  writes 0 "$(written rootfs.1 "$name")" rootfs.1 "$name"
  same "$name" b 100
done
cp b before

# ---- words, and what is missing or in the way
expect 1 "$usage"
expect 1 "$usage" write-slot rootfs.1
expect 1 "$usage" "$(printf '\377')"
expect 1 "$usage" --help "$(printf '\377')"
expect 0 "usage: rauc [-c FILE] [--override-boot-slot=NAME] COMMAND
commands: install BUNDLE, info BUNDLE, status [ACTION [SLOT]], write-slot SLOT IMAGE, service" frobnicate --help
expect 1 "rauc: no configuration nothing" write-slot --override-boot-slot=A -c nothing rootfs.1 full.img
expect 2 "rauc: outside fault: read" write-slot --override-boot-slot=A -c . rootfs.1 full.img
writes 1 "rauc: no such slot: rootfs.2" rootfs.2 full.img
writes 1 "rauc: image r.tar.xz is an archive" rootfs.1 r.tar.xz
writes 1 "rauc: no image nothing.img" rootfs.1 nothing.img
writes 2 "rauc: outside fault: size" rootfs.1 .
same b before
mv b gone
writes 1 "rauc: no device $scratch/b" rootfs.1 full.img
mv gone b

# ---- what runs is not written, nor where it is not known what runs, nor what is mounted
writes 1 "rauc: slot rootfs.0 is in use" rootfs.0 full.img
expect 1 "rauc: slot rootfs.1 is in use" write-slot --override-boot-slot=rootfs.1 -c c rootfs.1 full.img
expect 1 "rauc: booted slot is not known" write-slot --override-boot-slot=C -c c rootfs.1 full.img
case $(cat /proc/cmdline) in
  *rauc.*) echo "skipped: what the kernel's command line does not tell, since it has words for rauc here" ;;
  *) expect 1 "rauc: booted slot is not known" write-slot -c c rootfs.1 full.img ;;
esac
mounted=''
while read -r device rest; do
  case $device in
    *\\*) ;;
    /*) mounted=$device ;;
  esac
done < /proc/mounts
if [ -n "$mounted" ]; then
  conf "$mounted" > mounted.conf
  expect 1 "rauc: slot rootfs.1 is mounted" write-slot --override-boot-slot=A -c mounted.conf rootfs.1 empty.img
else
  echo "skipped: a mounted device, since no device is mounted here"
fi
same a running
same b before

# ---- files that may not be read or written; root may do all, so the program runs as another user
[ "$(id -u)" = 0 ] && as='setpriv --reuid=65534 --regid=65534 --clear-groups'
chmod 755 .
if $as test -x "$program" -a -r c 2> /dev/null; then
  chmod 000 full.img
  writes 2 "rauc: outside fault: read" rootfs.1 full.img
  chmod 644 full.img
  chmod 444 b
  writes 2 "rauc: outside fault: write" rootfs.1 full.img
  chmod 644 b
else
  echo "skipped: files without rights, since no other user can run the program here"
fi
as=''
same b before

# ---- a block device, which ends where it can be sought to
head -c 4096 /dev/zero > disk
if loop=$(losetup -f --show disk 2> /dev/null); then
  trap 'losetup -d "$loop"; rm -rf "$scratch"' EXIT
  conf "$loop" > loop.conf
  expect 1 "rauc: image long.img: 4097 bytes do not fit device of 4096" write-slot --override-boot-slot=A -c loop.conf rootfs.1 long.img
  expect 0 "$(written rootfs.1 full.img)" write-slot --override-boot-slot=A -c loop.conf rootfs.1 full.img
  same full.img disk
  losetup -d "$loop"
  trap 'rm -rf "$scratch"' EXIT
else
  echo "skipped: a block device, since no loop device can be set up here"
fi

# ---- an output that takes nothing
"$program" write-slot --override-boot-slot=A -c c rootfs.1 full.img >&- 2> said
if [ $? = 2 ]; then pass; else fail "a closed output: $(cat said)"; fi
same full.img b
if [ -w /dev/full ]; then
  "$program" --help > /dev/full 2> said
  if [ $? = 2 ]; then pass; else fail "a full output: $(cat said)"; fi
else
  echo "skipped: a full output, since /dev/full is missing"
fi

# ---- a file system without room for what is written
mkdir room
if unshare -rm mount -t tmpfs tmpfs room 2> /dev/null; then
  conf "$scratch/room/b" > room.conf
  head -c 2000000 /dev/urandom > large.img
  said=$(unshare -rm sh -c 'mount -t tmpfs -o size=1m tmpfs room && truncate -s 2000000 room/b && "$@" 2>&1' sh \
    "$program" write-slot --override-boot-slot=A -c room.conf rootfs.1 large.img)
  if [ $? = 2 ] && [ "$said" = "rauc: outside fault: write" ]; then pass; else fail "no room: $said"; fi
else
  echo "skipped: a full file system, since none can be made here"
fi

# ---- 256 MiB: two slots at once, a run that is cut off, memory and system calls
slots 268435456
head -c 268435456 /dev/urandom > large.img
"$program" write-slot --override-boot-slot=A -c c rootfs.1 large.img > one &
"$program" write-slot --override-boot-slot=A -c c data.0 large.img > other &
wait
if [ "$(cat one)" = "$(written rootfs.1 large.img)" ] && [ "$(cat other)" = "$(written data.0 large.img)" ]; then
  pass
else
  fail "two at once: $(cat one other)"
fi
same large.img b
same large.img d
slots 268435456
"$program" write-slot --override-boot-slot=A -c c rootfs.1 large.img > one 2>&1 &
writer=$!
tries=0
while [ "$(others b head -c 65536 b)" = 0 ] && [ "$tries" -lt 200 ]; do
  sleep 0.05
  tries=$((tries + 1))
done
kill -9 "$writer" 2> /dev/null
wait "$writer" 2> /dev/null
# Its first bytes are written then, and its last are not.
if [ ! -s one ] && [ "$(others b head -c 65536 b)" != 0 ] && [ "$(others b tail -c 65536 b)" = 0 ]; then
  pass
else
  fail "it was to be cut off on the way: $(cat one)"
fi
same a running
writes 0 "$(written rootfs.1 large.img)" rootfs.1 large.img
same large.img b
if [ -x /usr/bin/time ]; then
  memory=$(/usr/bin/time -f %M "$program" write-slot --override-boot-slot=A -c c rootfs.1 large.img 2>&1 > /dev/null | tail -n 1)
  at_most 8191 "$memory" "KiB resident for an image of 256 MiB"
else
  echo "skipped: resident memory, since /usr/bin/time is missing"
fi
if strace -o /dev/null true 2> /dev/null; then
  strace -f -qq -o calls "$program" write-slot --override-boot-slot=A -c c rootfs.1 large.img > one
  if [ "$(cat one)" = "$(written rootfs.1 large.img)" ]; then pass; else fail "a traced run: $(cat one)"; fi
  at_most $((3 * 4096)) "$(($(wc -l < calls)))" "system calls for 4096 pieces"
  strace -qq -o calls -e trace=pwrite64,fadvise64 "$program" write-slot --override-boot-slot=A -c c rootfs.1 large.img > /dev/null
  advice calls
  if [ "$advised" = 256 ]; then pass; else fail "not each of 256 MiB is begun with early: $advised"; fi
  if [ "$unwritten" = 0 ]; then pass; else fail "$unwritten times the kernel is advised of what is not written yet"; fi
else
  echo "skipped: system calls, since strace is missing or cannot trace here"
fi
same a running

printf '%s passed, %s failed\n' "$passed" "$failed"
[ "$failed" = 0 ]
