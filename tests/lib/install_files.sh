# Sourced after bundle_helpers.sh by what installs bundles: a bundle and its images, programs in POSIX sh that
# stand for hooks, handlers and the boot loader GRUB, and a configuration over ordinary files. All of it lies
# in the folder `scratch`, in which its functions are called. Each program puts its words into `ran` there.

# begin_bundle COMPATIBLE VERSION: the folder `bundle`, with a manifest that has no image yet.
begin_bundle() {
  rm -rf bundle
  mkdir bundle
  printf '[update]\ncompatible=%s\nversion=%s\n' "$1" "$2" > bundle/manifest.raucm
  seal bundle
}

# add_lines LINE..: the manifest has these lines too.
add_lines() {
  printf '%s\n' "$@" >> bundle/manifest.raucm
  seal bundle
}

# add_image CLASS FILE [LINE..]: the manifest has an image for this class, with this file of the bundle and
# these lines.
add_image() {
  image_class=$1
  image_file=$2
  shift 2
  add_lines '' "[image.$image_class]" "filename=$image_file" \
    "size=$(($(wc -c < "bundle/$image_file")))" \
    "sha256=$(sha256sum < "bundle/$image_file" | cut -c1-64)" "$@"
}

# child PATH LINE..: a program of these lines of sh, for a hook or a handler. It puts its name and its words
# into `ran`, and its variables of rauc, by their names, into a file in `given`, whose name is made of its
# own, its words and the slot that it is run for.
child() {
  child_path=$1
  shift
  mkdir -p given
  {
    echo '#!/bin/sh'
    echo "scratch='$scratch'"
    cat << 'CHILD'
echo "${0##*/}${*:+ $*}" >> "$scratch/ran"
env | grep '^RAUC_' | LC_ALL=C sort > "$scratch/given/${0##*/}${*:+-$*}${RAUC_SLOT_NAME:+-$RAUC_SLOT_NAME}"
CHILD
    printf '%s\n' "$@"
  } > "$child_path"
  chmod 755 "$child_path"
}

# add_hooks LINE..: the bundle has the file `hook`, of these lines of sh, with a group [hooks] that names it
# and may go on.
add_hooks() {
  child bundle/hook "$@"
  add_lines '' '[hooks]' filename=hook
}

# grub [LINE..]: makes grub-editenv in the folder `bin`, which puts its words into `ran`, does these lines of
# sh, and runs the program in `tools`. That is the real one where it is installed; else that of `plain_grub`. It
# has to be called before `bin` is looked into for programs.
grub() {
  mkdir -p bin tools
  if command -v grub-editenv > /dev/null; then
    ln -sf "$(command -v grub-editenv)" tools/grub-editenv
  else
    echo "grub-editenv is missing (Debian's package grub-common has it): a program in sh stands for it"
    plain_grub
  fi
  {
    echo '#!/bin/sh'
    echo "scratch='$scratch'"
    echo 'echo "grub-editenv${*:+ $*}" >> "$scratch/ran"'
    [ $# = 0 ] || printf '%s\n' "$@"
    echo 'exec "$scratch/tools/grub-editenv" "$@"'
  } > bin/grub-editenv
  chmod 755 bin/grub-editenv
}

# plain_grub: the program in `tools` is one of sh, which keeps the variables as lines of the file, and puts a
# whole new file in its place.
plain_grub() {
  mkdir -p tools
  rm -f tools/grub-editenv
  cat > tools/grub-editenv << 'PROGRAM'
#!/bin/sh
file=$1
case $2 in
  create) : > "$file" ;;
  list) cat "$file" ;;
  set)
    shift 2
    cat "$file" > "$file.new"
    for pair in "$@"; do
      sed -i "/^${pair%%=*}=/d" "$file.new"
      printf '%s\n' "$pair" >> "$file.new"
    done
    mv "$file.new" "$file"
    ;;
esac
PROGRAM
  chmod 755 tools/grub-editenv
}

# grub_has VARIABLE..: the block of GRUB has these variables and no others.
grub_has() {
  rm -f grubenv
  tools/grub-editenv grubenv create
  tools/grub-editenv grubenv set "$@"
}

# grub_vars: the variables of GRUB, by their names.
grub_vars() {
  tools/grub-editenv grubenv list | LC_ALL=C sort
}

# install_conf: the configuration c. The slot rootfs.0 is the file a, and rootfs.1 the file b. Its last
# group is that of the second slot. The status file is status/central.raucs, and bundles are mounted at
# mnt/bundle.
install_conf() {
  mkdir -p status
  cat > c << CONF
[system]
compatible=Test
bootloader=grub
grubenv=$scratch/grubenv
data-directory=$scratch/status
mountprefix=$scratch/mnt

[x-helpers]
bundle-check=$scratch/helpers/bundle-check
bundle-mount=$scratch/helpers/bundle-mount
bundle-umount=$scratch/helpers/bundle-umount

[slot.rootfs.0]
device=$scratch/a
bootname=A

[slot.rootfs.1]
device=$scratch/b
bootname=B
CONF
}
