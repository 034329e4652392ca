# Sourced after real_files.sh by the checks that run commands on boot loaders: small programs in POSIX sh
# that stand for those of boot loaders, over the file `vars` of lines NAME=VALUE in the scratch folder. They
# do what docs/boot says of these programs, and put their words into the file `ran`.

# boot_program NAME LINE..: makes the program of this name in the folder `bin`, of these lines. `value`,
# `set_to` and `unset_var` read and change a variable.
boot_program() {
  boot_path=bin/$1
  shift
  cat > "$boot_path" << 'PROGRAM'
#!/bin/sh
vars=${0%/*}/../vars
echo "${0##*/}${*:+ $*}" >> "${0%/*}/../ran"
value() {
  sed -n "s/^$1=//p" "$vars"
}
unset_var() {
  sed "/^$1=/d" "$vars" > "$vars.new" && mv "$vars.new" "$vars"
}
set_to() {
  unset_var "$1" && printf '%s=%s\n' "$1" "$2" >> "$vars"
}
PROGRAM
  printf '%s\n' "$@" >> "$boot_path"
  chmod 755 "$boot_path"
}

# boot_programs: makes all of them.
boot_programs() {
  mkdir -p bin
  boot_program grub-editenv 'case $2 in' \
    '  list) cat "$vars" ;;' \
    '  set) shift 2; for pair in "$@"; do set_to "${pair%%=*}" "${pair#*=}"; done ;;' \
    'esac'
  boot_program fw_printenv 'grep "^$1=" "$vars"'
  boot_program fw_setenv 'if [ -n "${2-}" ]; then set_to "$1" "$2"; else unset_var "$1"; fi'
  boot_program barebox-state 'while [ $# -gt 0 ]; do' \
    '  case $1 in' \
    '    -g) number=$(value "$2"); echo "${number:-0}" ;;' \
    '    -s) set_to "${2%%=*}" "${2#*=}" ;;' \
    '  esac' \
    '  shift 2' \
    'done'
  boot_program efibootmgr 'case ${1-} in' \
    "  '')" \
    '    sed -n "s/^BootNext=/BootNext: /p; s/^BootOrder=/BootOrder: /p" "$vars"' \
    '    sed -n "s/^\(Boot[0-9A-F]\{4\}\)=/\1* /p" "$vars"' \
    '    ;;' \
    '  -n) set_to BootNext "$2" ;;' \
    '  -N) unset_var BootNext ;;' \
    '  -o) set_to BootOrder "$2" ;;' \
    '  -O) unset_var BootOrder ;;' \
    'esac'
  boot_program backend 'case $1 in' \
    '  get-primary) value primary ;;' \
    '  get-state) state=$(value "state.$2"); echo "${state:-good}" ;;' \
    '  set-state) set_to "state.$2" "$3" ;;' \
    '  set-primary) set_to primary "$2" && set_to "state.$2" good ;;' \
    'esac'
}

# loader LINE..: the configuration c over two slots, with these lines in [system]; the status file is
# status/central.raucs.
loader() {
  mkdir -p status
  cat > c << CONF
[system]
compatible=Test
data-directory=$scratch/status
$(lines "$@")

[handlers]
bootloader-custom-backend=$scratch/bin/backend

[slot.rootfs.0]
device=$scratch/a
bootname=A

[slot.rootfs.1]
device=$scratch/b
bootname=B
CONF
}

# variables LINE..: the boot loader has these variables.
variables() {
  lines "$@" > vars
}
