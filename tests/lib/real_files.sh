# Sourced after program.sh by the checks that run the program on real files: makes a scratch folder and
# goes there, counts the cases, and has what they compare. The name of the check is in `check`.
scratch=$(mktemp -d "$PWD/build/$check.XXXXXX")
trap 'rm -rf "$scratch"' EXIT
cd "$scratch" || exit 2
passed=0
failed=0

pass() { passed=$((passed + 1)); }

fail() {
  failed=$((failed + 1))
  printf 'failed: %s\n' "$1"
}

digest() { sha256sum < "$1" | cut -c1-64; }

# same FILE FILE [COUNT]: the first COUNT bytes are the same.
same() {
  if [ $# = 3 ]; then
    head -c "$3" "$1" > first
    head -c "$3" "$2" > second
    set -- first second
  fi
  if [ "$(digest "$1")" = "$(digest "$2")" ]; then
    pass
  else
    fail "$1 and $2 differ"
  fi
}

# lines TEXT..: each text that is not empty, with a line feed behind it.
lines() {
  for text in "$@"; do
    [ -z "$text" ] || printf '%s\n' "$text"
  done
}

# holds FILE TEXT..: the file has these lines and nothing else.
holds() {
  file=$1
  shift
  [ "$(cat "$file" && echo .)" = "$(lines "$@" && echo .)" ]
}

# The words that the program is run by, if any.
as=''
# The warning that it prints, if any.
warning=''

# run STATUS LINE WORDS..: runs the program, and sets `wrong` to what is not as `expect` says, if anything.
run() {
  status=$1
  line=$2
  shift 2
  $as "$program" "$@" > said_out 2> said_err
  code=$?
  if [ "$status" = 0 ]; then
    holds said_out "$line" && holds said_err "$warning"
  else
    holds said_out && holds said_err "$warning" "$line"
  fi
  if [ $? = 0 ] && [ "$code" = "$status" ]; then
    wrong=''
  else
    wrong="
  wanted $status: $(lines "$warning" "$line")
  got    $code: $(cat said_out said_err)"
  fi
}

# judge NAME: counts the case of this name, by what is wrong.
judge() {
  if [ -z "$wrong" ]; then
    pass
  else
    fail "$1$wrong"
  fi
}

# expect STATUS LINE WORDS..: the run ends with the status, and LINE is all that it prints: on standard
# output where the status is 0, else on standard error. The warning, if any, stands on standard error,
# before such a line.
expect() {
  run "$@"
  shift 2
  judge "rauc $*"
}

# conf DEVICE: a configuration with the slots rootfs.0 on the file a, rootfs.1 on this device, and
# data.0 on the file d.
conf() {
  cat << CONF
[system]
compatible=Test
bootloader=grub

[slot.rootfs.0]
device=$scratch/a
bootname=A

[slot.rootfs.1]
device=$1
bootname=B

[slot.data.0]
device=$scratch/d
CONF
}

# slots SIZE: three devices of so many bytes, and the configuration over them.
slots() {
  head -c "$1" /dev/zero | tr '\0' 'a' > a
  head -c "$1" /dev/zero | tr '\0' 'b' > b
  head -c "$1" /dev/zero | tr '\0' 'd' > d
  cp a running
  cp b before
  conf "$scratch/b" > c
}

usage='rauc: bad usage, see rauc --help'
