#!/bin/sh
# Runs `info` of the built program on folders that stand for bundles, with helpers that are shell scripts:
# what it tells of a bundle, which helpers it runs and with what, and what it makes of how they end. Needs
# a POSIX shell, coreutils and sed; what needs more is skipped by name. Its last line counts the cases.
# Use: tests/info.sh [PROGRAM]. Without a program it has make and rt build one first.
set -u
check=info
. "$(dirname "$0")/lib/program.sh"
. tests/lib/bundle_helpers.sh
. tests/lib/real_files.sh

# mounts_at PREFIX FOLDER: the configuration over the slots has this mount prefix, if any, and the helpers
# of this folder.
mounts_at() {
  point=${1:-/mnt/rauc}
  point=${point%/}/bundle
  conf "$scratch/b" > c
  cat >> c << CONF
[system]
${1:+mountprefix=$1}

[x-helpers]
bundle-check=$2/bundle-check
bundle-mount=$2/bundle-mount
bundle-umount=$2/bundle-umount
CONF
}

# tells STATUS LINE COUNT WORDS..: `expect` of info with these words and the bundle. Of check, mount and
# unmount the first COUNT are run, each once and with its arguments. Where all three are run and there is
# no warning, nothing is left at the mount point. What the case is about stands in `about`.
tells() {
  wanted_status=$1
  wanted_line=$2
  count=$3
  shift 3
  rm -rf ./*/bundle
  : > ran
  run "$wanted_status" "$wanted_line" info -c c "$@" "$bundle"
  to_run=$(lines "bundle-check [$bundle]" "bundle-mount [$bundle] [$point]" "bundle-umount [$point]" | head -n "$count")
  holds ran "$to_run" || wrong="$wrong
  helpers wanted: $to_run
  helpers run:    $(cat ran)"
  if [ "$count" = 3 ] && [ -z "$warning" ] && [ -e "$point" ]; then
    wrong="$wrong
  left in the mount point: $(ls -A "$point")"
  fi
  judge "$about: rauc info -c c${*:+ $*} $bundle"
}

# manifest LINE..: the bundle's manifest is the base with these lines behind it.
manifest() {
  rm -rf bundle/manifest.raucm
  lines "$base" "$@" > bundle/manifest.raucm
  seal bundle
}

# usual LINE..: the manifest is the base alone, and the helpers are the usual ones, which do these lines
# first.
usual() {
  manifest
  helpers helpers "$@"
}

# refused MATTER LINE..: a manifest with these lines is refused, and the bundle is unmounted.
refused() {
  matter=$1
  shift
  manifest "$@"
  tells 1 "rauc: manifest: $matter" 3
}

# warned WHY COUNT: with the unmount as it is now there is this warning, and all else is as without it:
# where the manifest is told, where it is refused, where it is missing and where it cannot be read. So many
# helpers are run.
warned() {
  warning="warning: bundle not unmounted: $1"
  tells 0 "$readable" "$2"
  tells 0 "$shell" "$2" --output-format=shell
  manifest 'filename=../x'
  tells 1 'rauc: manifest: bad file name [image.rootfs]' "$2"
  helper helpers/bundle-check 'exit 0'
  rm bundle/manifest.raucm
  tells 1 'rauc: no manifest' "$2"
  mkdir bundle/manifest.raucm
  tells 2 'rauc: outside fault: read' "$2"
  warning=''
}

# images COUNT: the groups of so many images. told_images COUNT: what is told of them.
images() {
  for number in $(seq 1 "$1"); do
    printf '[image.a%s]\nfilename=%s.img\nsize=%s\nsha256=%s\n' "$number" "$number" "$number" "$abc"
  done
}

told_images() {
  for number in $(seq 1 "$1"); do
    printf 'image a%s\n  file: %s.img\n  size: %s\n  sha256: %s\n' "$number" "$number" "$number" "$abc"
  done
}

# long_manifest SIZE: the bundle's manifest is the base behind comments, and has so many bytes.
long_manifest() {
  {
    yes '# A comment that fills the file.' | head -c "$(($1 - 1 - $(lines "$base" | wc -c)))"
    echo
    lines "$base"
  } > bundle/manifest.raucm
  seal bundle
}

abc=ba7816bf8f01cfea414140de5dae2223b00361a396177a9cb410ff61f20015ad
base="[update]
compatible=Test
version=2

[image.rootfs]
filename=r.img
size=3
sha256=$abc"
readable="compatible: Test
version: 2
images: 1
image rootfs
  file: r.img
  size: 3
  sha256: $abc"
shell="RAUC_MF_COMPATIBLE='Test'
RAUC_MF_VERSION='2'
RAUC_MF_DESCRIPTION=''
RAUC_MF_BUILD=''
RAUC_MF_IMAGES='1'
RAUC_IMAGE_CLASS_1='rootfs'
RAUC_IMAGE_NAME_1='r.img'
RAUC_IMAGE_SIZE_1='3'
RAUC_IMAGE_DIGEST_1='$abc'"

slots 4096
cp d data
mkdir bundle mnt
printf abc > bundle/r.img
bundle=bundle
usual
mounts_at "$scratch/mnt" "$scratch/helpers"

# ---- both forms
about='both forms'
tells 0 "$readable" 3
tells 0 "$readable" 3 --output-format=readable
tells 0 "$shell" 3 --output-format=shell
tells 0 "$shell" 3 --output-format shell
cat > bundle/manifest.raucm << MANIFEST
[update]
compatible=Acme Gateway
version=it's "2" \$(touch touched)
description=two\nlines
build=20240501

[hooks]
filename=hook.sh
hooks=install-check

[image.rootfs]
filename=r o o t.img
size=007
sha256=$(lines "$abc" | tr a-f A-F)
hooks=post-install;pre-install

[image.boot]
hooks=install

[image.data]
filename='.img
size=18446744073709551615
sha256=$abc
hooks=install
adaptive=block-hash-index

[meta.acme]
ticket=1234
MANIFEST
seal bundle
tells 0 "compatible: Acme Gateway
version: it's \"2\" \$(touch touched)
description: two?lines
build: 20240501
images: 3
image rootfs
  file: r o o t.img
  size: 7
  sha256: $abc
  hooks: pre-install post-install
image boot
  hooks: install
image data
  file: '.img
  size: 18446744073709551615
  sha256: $abc
  hooks: install
  adaptive: block-hash-index" 3
tells 0 "RAUC_MF_COMPATIBLE='Acme Gateway'
RAUC_MF_VERSION='it'\\''s \"2\" \$(touch touched)'
RAUC_MF_DESCRIPTION='two
lines'
RAUC_MF_BUILD='20240501'
RAUC_MF_IMAGES='3'
RAUC_IMAGE_CLASS_1='rootfs'
RAUC_IMAGE_NAME_1='r o o t.img'
RAUC_IMAGE_SIZE_1='7'
RAUC_IMAGE_DIGEST_1='$abc'
RAUC_IMAGE_CLASS_2='boot'
RAUC_IMAGE_NAME_2=''
RAUC_IMAGE_SIZE_2=''
RAUC_IMAGE_DIGEST_2=''
RAUC_IMAGE_CLASS_3='data'
RAUC_IMAGE_NAME_3=''\\''.img'
RAUC_IMAGE_SIZE_3='18446744073709551615'
RAUC_IMAGE_DIGEST_3='$abc'" 3 --output-format=shell
(. ./said_out && lines "$RAUC_MF_VERSION" "$RAUC_MF_DESCRIPTION" "$RAUC_IMAGE_NAME_3") > read_back
if holds read_back "it's \"2\" \$(touch touched)" 'two
lines' "'.img"; then pass; else fail "a shell reads back: $(cat read_back)"; fi
usual

# ---- words and configurations that are refused: no helper is run
about='refused words and configurations'
tells 1 "$usage" 0 --output-format=json
tells 1 "$usage" 0 --output-format=
tells 1 "$usage" 0 --output-format=shell --output-format=shell
tells 1 "$usage" 0 another-bundle
expect 1 "$usage" info -c c
expect 1 "$usage" info -c c bundle --output-format
mounts_at "$scratch/mnt" helpers
tells 1 'rauc: configuration: [x-helpers] bundle-check bad value' 0
rm c
tells 1 'rauc: no configuration c' 0

# ---- names of bundles, helpers and mount points
about='names'
mkdir 'a mount prefix'
helpers 'helpers; of bundles'
mounts_at "$scratch/a mount prefix" "$scratch/helpers; of bundles"
bundle="a bundle's name; \$(touch touched) \"名\""
cp -R bundle "$bundle"
tells 0 "$readable" 3
tells 0 "$shell" 3 --output-format=shell
bundle=-bundle
cp -R bundle ./-bundle
tells 0 "$readable" 3 --
bundle=$scratch/bundle
tells 0 "$readable" 3
bundle=bundle
if [ -e touched ]; then fail 'a name was run as a command'; else pass; fi
mounts_at "$scratch/mnt/" "$scratch/helpers"
tells 0 "$readable" 3
mounts_at "$scratch/no/such/folder" "$scratch/helpers"
tells 0 "$readable" 3
mounts_at '' "$scratch/helpers"
helper helpers/bundle-mount 'exit 5'
tells 1 'rauc: bundle mount failed: status 5' 2
if [ -e /usr/libexec/rauc/bundle-check ]; then
  echo "skipped: a configuration without helpers, since there is /usr/libexec/rauc/bundle-check here"
else
  conf "$scratch/b" > c
  tells 2 'rauc: outside fault: run' 0
fi
mounts_at "$scratch/mnt" "$scratch/helpers"

# ---- what a helper is given: the variables of rauc and no others, and no input
about='variables and input of helpers'
variables='tr "\0" "\n" < /proc/$$/environ | sort'
usual "$variables > \"\$0.variables\"" 'cat > "$0.input"'
as='env RAUC_SLOT_NAME=given'
$as sh -c "$variables" > given
: > none
tells 0 "$readable" 3 < c
as=''
for name in check mount umount; do
  same given "helpers/bundle-$name.variables"
  same none "helpers/bundle-$name.input"
done

# ---- a check that ends otherwise than with 0: nothing is mounted
about='a check that failed'
usual
echo '# changed' >> bundle/manifest.raucm
tells 1 'rauc: bundle is not trusted: status 1' 1
usual
rm bundle/manifest.sha256
tells 1 'rauc: bundle is not trusted: status 1' 1 --output-format=shell
bundle=no-bundle
tells 1 'rauc: bundle is not trusted: status 1' 1
bundle=bundle
usual
for ended in 2 127 255; do
  helper helpers/bundle-check "$check_bundle" "exit $ended"
  tells 1 "rauc: bundle is not trusted: status $ended" 1
done
for signal in KILL TERM; do
  helper helpers/bundle-check "$check_bundle" "kill -$signal \$\$"
  tells 1 'rauc: bundle is not trusted: signal' 1
done

# ---- a mount that ends otherwise than with 0: nothing is unmounted, even if it left something
about='a mount that failed'
usual
helper helpers/bundle-mount 'exit 5'
tells 1 'rauc: bundle mount failed: status 5' 2
helper helpers/bundle-umount 'exit 3'
tells 1 'rauc: bundle mount failed: status 5' 2 --output-format=shell
helper helpers/bundle-mount "$mount_bundle" 'exit 255'
tells 1 'rauc: bundle mount failed: status 255' 2
helper helpers/bundle-mount "$mount_bundle" 'kill -KILL $$'
tells 1 'rauc: bundle mount failed: signal' 2
# What is told is what was mounted.
usual
helper helpers/bundle-mount "$mount_bundle" 'printf "[update]\nversion=mounted\n" >> "$2/manifest.raucm"'
tells 0 "$(lines "$readable" | sed 's/^version: 2$/version: mounted/')" 3

# ---- an unmount that ends otherwise than with 0: a warning
about='an unmount that failed'
usual
helper helpers/bundle-umount 'exit 3'
warned 'status 3' 3
usual
helper helpers/bundle-umount 'kill -KILL $$'
warned signal 3

# ---- helpers that are missing or not executable
about='helpers that cannot be started'
for way in rm 'chmod 644'; do
  usual
  $way helpers/bundle-check
  tells 2 'rauc: outside fault: run' 0
  usual
  $way helpers/bundle-mount
  tells 2 'rauc: outside fault: run' 1
  usual
  $way helpers/bundle-umount
  warned run 2
done

# ---- helpers that print much
about='helpers that print much'
mebibyte='head -c 1048576 /dev/zero | tr "\0" x'
as='timeout 20'
usual "$mebibyte; $mebibyte >&2"
tells 0 "$readable" 3
tells 0 "$shell" 3 --output-format=shell
usual "$mebibyte >&2; $mebibyte"
tells 0 "$readable" 3
refused 'bad file name [image.rootfs]' 'filename=../x'
usual
helper helpers/bundle-check "$mebibyte; $mebibyte >&2; exit 7"
tells 1 'rauc: bundle is not trusted: status 7' 1

# ---- processes that helpers leave behind: who has the output open is waited for, and nobody else
about='processes left behind'
usual '(sleep 0.3; : > "$0.late") &'
helper helpers/bundle-mount 'test -e "${0%mount}check.late" || exit 8' "$mount_bundle"
tells 0 "$readable" 3
if [ -e helpers/bundle-umount.late ]; then pass; else fail 'it did not wait for the output of the unmount'; fi
usual 'sleep 60 > /dev/null 2>&1 &' 'echo $! > "$0.pid"'
tells 0 "$readable" 3
for name in check mount umount; do
  kill "$(cat "helpers/bundle-$name.pid")"
done
as=''

# ---- manifests that are missing, long, or no file
about='manifests that are missing, long, or no file'
usual
long_manifest 1048576
tells 0 "$readable" 3
tells 0 "$shell" 3 --output-format=shell
long_manifest 1048577
tells 1 'rauc: manifest: 1048577 bytes are too long' 3
manifest "$(images 63)"
tells 0 "$(lines "$readable" "$(told_images 63)" | sed 's/^images: 1$/images: 64/')" 3
refused 'too many images: 65' "$(images 64)"
helper helpers/bundle-check 'exit 0'
rm bundle/manifest.raucm
tells 1 'rauc: no manifest' 3
mkdir bundle/manifest.raucm
tells 2 'rauc: outside fault: read' 3
helper helpers/bundle-mount 'exit 0'
tells 1 'rauc: no manifest' 3

# ---- manifests that are refused
about='manifests that are refused'
usual
refused 'bad file name [image.rootfs]' 'filename=../x'
refused 'bad file name [hooks]' '[hooks]' 'filename=..'
refused '[image.rootfs] sise unknown' 'sise=3'
refused '[other] unknown' '[other]'
refused '[image.rootfs] type left out' 'type=ext4'
refused '[image.rootfs] size bad value' 'size=3K'
refused 'bad digest [image.rootfs]' 'sha256=ba78'
refused '[image.a] filename missing' '[image.a]'
refused '[hooks] filename missing' 'hooks=post-install'
refused 'line 9 is bad' 'no entry'
refused 'line 9 has a bad escape' 'filename=a\b'
refused "byte $(($(lines "$base" | wc -c) + 1)) is not UTF-8" "$(printf '#\377')"
whole=$base
base='[update]
compatible=Test'
refused 'no images'
base='[update]
version=2'
refused '[update] compatible missing'
base='compatible=Test'
refused 'line 1 stands before a group'
base=''
refused '[update] compatible missing'
base=$whole

# ---- an output that takes nothing
usual
if [ -w /dev/full ]; then
  : > ran
  "$program" info -c c bundle > /dev/full 2> said_err
  if [ $? = 2 ] && [ "$(($(wc -l < ran)))" = 3 ]; then pass; else fail "a full output: $(cat said_err ran)"; fi
else
  echo "skipped: a full output, since /dev/full is missing"
fi

# ---- the files that stand for the slots are as they were
same running a
same before b
same data d

printf '%s passed, %s failed\n' "$passed" "$failed"
[ "$failed" = 0 ]
