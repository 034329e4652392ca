# Sourced by the checks that have bundles. A folder with the file manifest.raucm stands for a bundle, and
# helpers check, mount and unmount it. They copy and remove ordinary files, and mount nothing.

# What the three do. The check compares the manifest with its digest, the mount copies the folder to the
# mount point, the unmount removes the copy.
check_bundle='cd -- "$1" && sha256sum -c manifest.sha256 || exit 1'
mount_bundle='inside "$2" && mkdir -p "$2" && cp -R -- "$1/." "$2"'
umount_bundle='inside "$1" && rm -rf "$1"'

# helper PATH LINE..: makes a helper of these lines of sh. First it puts its name and its arguments, each
# in brackets, into the file `ran` beside its folder. `inside` ends it with 99 where a path does not lie
# below that place, so that a wrong mount point does no harm.
helper() {
  helper_path=$1
  shift
  cat > "$helper_path" << 'HELPER'
#!/bin/sh
scratch=${0%/*/*}
inside() {
  case $1 in
    */.. | */../*) exit 99 ;;
    "$scratch"/?*) ;;
    *) exit 99 ;;
  esac
}
{
  printf '%s' "${0##*/}"
  printf ' [%s]' "$@"
  echo
} >> "$scratch/ran"
HELPER
  printf '%s\n' "$@" >> "$helper_path"
  chmod 755 "$helper_path"
}

# helpers FOLDER LINE..: makes the three in this folder, each of which does these lines first.
helpers() {
  helper_folder=$1
  shift
  mkdir -p "$helper_folder"
  helper "$helper_folder/bundle-check" "$@" "$check_bundle"
  helper "$helper_folder/bundle-mount" "$@" "$mount_bundle"
  helper "$helper_folder/bundle-umount" "$@" "$umount_bundle"
}

# seal BUNDLE: puts the digest of the manifest beside it.
seal() {
  (cd -- "$1" && sha256sum manifest.raucm > manifest.sha256)
}
