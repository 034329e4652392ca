#!/usr/bin/env bash
# Completes words of `rauc` in bash and compares what is offered. Needs bash, coreutils and sed. Its last line
# counts the cases.
set -u
cd "$(dirname "$0")/.." || exit 2
. completions/rauc.bash || exit 1
mkdir -p build
scratch=$(mktemp -d build/completions.XXXXXX)
trap 'rm -rf "$OLDPWD/$scratch"' EXIT
cd "$scratch" || exit 2
passed=0
failed=0

cat > c << CONF
[system]
compatible=Test
bootloader=grub

[slot.rootfs.0]
device=/dev/a
bootname=A

[slot.rootfs.1]
device=/dev/b
bootname=B
CONF
cp c other.conf
printf '[slot.data.0]\nbootname=$(touch/run)\n' >> other.conf
: > system.img
: > 'a name with blanks.img'
: > new.raucb
: > 'one with blanks.raucb'
mkdir bundles
: > bundles/old.raucb
: > bundles/old.img

# offers OFFERED WORDS..: where the last of the words is at hand, exactly these lines are offered.
offers() {
  local wanted=$1 offered
  shift
  COMP_WORDS=(rauc "$@")
  COMP_CWORD=$#
  _rauc
  offered=$(printf '%s\n' "${COMPREPLY[@]}")
  if [ "$offered" = "$wanted" ]; then
    passed=$((passed + 1))
  else
    failed=$((failed + 1))
    printf 'failed: rauc %s\n  wanted: %s\n  got:    %s\n' "$*" "$wanted" "$offered"
  fi
}

offers $'install\nstatus\nwrite-slot\ninfo' ''
offers status st
offers write-slot wri
offers $'install\ninfo' in
offers install ins
offers info inf
offers '' service
offers $'-c\n--conf\n--override-boot-slot\n-h\n--help' -
offers $'--conf' --c
offers --override-boot-slot write-slot --o
offers c -c c
offers other.conf --conf oth
offers other.conf --conf = oth
offers $'a name with blanks.img' -c a
offers $'rootfs.0\nrootfs.1' -c c write-slot ''
offers $'rootfs.0\nrootfs.1' write-slot -cc ro
offers data.0 write-slot --conf = other.conf d
offers data.0 --conf other.conf write-slot d
offers $'rootfs.0\nrootfs.1' -c c --override-boot-slot = A write-slot ''
offers $'A\nB\nrootfs.0\nrootfs.1' -c c --override-boot-slot =
offers B -c c --override-boot-slot = B
offers '$(touch/run)' -c other.conf --override-boot-slot = '$'
offers system.img -c c write-slot rootfs.1 sys
offers 'a name with blanks.img' -c c write-slot rootfs.1 'a name'
offers '' -c c write-slot rootfs.1 system.img ''
offers '' -c nothing write-slot ''
offers new.raucb info n
offers 'one with blanks.raucb' -c c info one
offers bundles info b
offers bundles/old.raucb info bundles/
offers '' info sys
offers '' info new.raucb ''
offers $'-c\n--conf\n--override-boot-slot\n-h\n--help\n--output-format' info -
offers --output-format info new.raucb --ou
offers $'readable\nshell' info new.raucb --output-format =
offers shell info --output-format = s
offers readable info --output-format r
offers new.raucb info --output-format = shell n
offers new.raucb --output-format shell info n
offers new.raucb install n
offers 'one with blanks.raucb' -c c install one
offers bundles install b
offers bundles/old.raucb install bundles/
offers '' install sys
offers '' install new.raucb ''
offers $'-c\n--conf\n--override-boot-slot\n-h\n--help\n--ignore-compatible' install -
offers --ignore-compatible install new.raucb --ig
offers new.raucb install --ignore-compatible n
offers new.raucb --ignore-compatible install n
offers $'A\nB\nrootfs.0\nrootfs.1' -c c install --override-boot-slot = ''
offers new.raucb -c c --override-boot-slot = A install n
offers '' install --ou
offers '' install --d
offers '' install --output-format = ''
offers '' info --ig
offers '' write-slot --ig
offers '' status --ig
offers new.raucb -- install n
offers '' write-slot --ou
offers '' write-slot --output-format = ''
offers '' --output-format = ''
offers '' -- -
offers $'install\nstatus\nwrite-slot\ninfo' -- ''
offers $'mark-good\nmark-bad\nmark-active' -c c status ''
offers mark-active status mark-a
offers $'booted\nother\nrootfs.0\nrootfs.1' -c c status mark-good ''
offers other -c c status mark-active o
offers data.0 -c other.conf status mark-bad d
offers '' -c c status mark-bad other ''
offers '' -c c status frobnicate ''
offers $'-c\n--conf\n--override-boot-slot\n-h\n--help\n--output-format\n--detailed' status -
offers --detailed status --d
offers '' status mark-good --d
offers '' info --d
offers $'readable\nshell' status --output-format = ''
offers new.raucb -- info n
if [ "$(complete -p rauc)" = 'complete -F _rauc rauc' ]; then
  passed=$((passed + 1))
else
  failed=$((failed + 1))
  echo 'failed: the function is not set for rauc'
fi

printf '%s passed, %s failed\n' "$passed" "$failed"
[ "$failed" = 0 ]
