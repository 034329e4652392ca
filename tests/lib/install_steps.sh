# Sourced after bundle_helpers.sh, install_files.sh and real_files.sh by the checks that stop an install at its
# points: what is installed, what stands after each of its steps, strace around it, and the same install once
# more. A is the name that is booted and good. B is the target, whose slots have old images, of which the status
# file knows. One step marks B bad; for each image one notes that it is begun, and one that it is installed; then
# one makes B primary, and one notes that it is activated.
book=$scratch/status/central.raucs
point=$scratch/mnt/bundle
bundle=$scratch/bundle
run=(env "PATH=$scratch/bin" "$program" install --override-boot-slot=A -c "$scratch/c" "$bundle")
slot_size=300000
old_times=(2024-05-01T12:00:00Z 2024-05-01T12:00:01Z)
# The calls that strace shows where nothing goes wrong.
calls=all

# The file of a slot, and the size of the image for the slot on a file.
declare -A device_of size_of

# link_tools: the folder `bin` has what the programs need, so that they are found in this folder alone.
link_tools() {
  for tool in cat cp mkdir mv rm sed sha256sum wc; do
    ln -sf "$(command -v "$tool")" bin/
  done
}

# slot_on FILE BYTE: this file is a slot that is full of this byte.
slot_on() {
  head -c "$slot_size" /dev/zero | tr '\0' "$2" > "was/$1"
}

# install_of ORDER CLASS:SIZE..: all of an install of images of these sizes, where ORDER of GRUB is this one at
# first. The first class is rootfs; the slots of the others hang on its slots, and their files have their names.
install_of() {
  local order=$1 class size target number length bad
  shift
  kept=(a)
  targets=(b)
  target_slots=(rootfs.1)
  image_sizes=()
  image_digests=()
  old_digests=()
  device_of=([rootfs.0]=a [rootfs.1]=b)
  rm -rf was want
  mkdir was want
  slot_on a a
  slot_on b b
  install_conf
  begin_bundle Test 2
  for class in "$@"; do
    size=${class#*:}
    class=${class%:*}
    if [ "$class" != rootfs ]; then
      for number in 0 1; do
        printf '\n[slot.%s]\ndevice=%s\nparent=rootfs.%s\n' "$class.$number" "$scratch/$class.$number" "$number" >> c
        slot_on "$class.$number" "$number"
        device_of[$class.$number]=$class.$number
      done
      kept+=("$class.0")
      targets+=("$class.1")
      target_slots+=("$class.1")
    fi
    head -c "$size" /dev/urandom > "bundle/$class.img"
    add_image "$class" "$class.img"
    target=${targets[-1]}
    image_sizes+=("$size")
    size_of[$target]=$size
    image_digests+=("$(digest "bundle/$class.img")")
    old_digests+=("$(digest "was/$target")")
    for length in $(seq 0 65536 "$((size - 1))") "$size"; do
      { head -c "$length" "bundle/$class.img"; tail -c +$((length + 1)) "was/$target"; } > "want/$target.$length"
    done
  done
  kept_digest=$(digest was/a)
  last=$((2 * $# + 3))
  first_vars=(A_OK=1 A_TRY=0 B_OK=1 B_TRY=0 "ORDER=$order")
  bad=$(lines A_OK=1 A_TRY=0 B_OK=0 B_TRY=0 "ORDER=$order")
  primary=$(lines A_OK=1 A_TRY=0 B_OK=1 B_TRY=0 'ORDER=B A')
  vars_after=("$(lines "${first_vars[@]}")")
  books_after=()
  for number in $(seq 0 "$last"); do
    [ "$number" = 0 ] || vars_after[number]=$bad
    [ "$number" -lt $((last - 1)) ] || vars_after[number]=$primary
    books_after+=("$(book_after "$number" 0)")
  done
}
# record VERSION STATUS DIGEST SIZE INSTALLED COUNT: these lines of a record.
record() {
  lines bundle.compatible=Test "bundle.version=$1" "status=$2" "sha256=$3" "size=$4" "installed.timestamp=$5" \
    "installed.count=$6"
}

# book_after STEP BEFORE: the status file after so many steps of an install, with T for each new time, where
# another one was stopped before after so many steps.
book_after() {
  local number noted status
  lines '[slot.rootfs.0]' status=ok "sha256=$kept_digest" "size=$slot_size"
  for number in "${!targets[@]}"; do
    noted=$((2 * number + 3))
    printf '\n[slot.%s]\n' "${target_slots[number]}"
    if [ "$1" -ge "$noted" ]; then
      record 2 ok "${image_digests[number]}" "${image_sizes[number]}" T $((42 + ($2 >= noted)))
    else
      status=ok
      [ "$1" != $((noted - 1)) ] || status=update
      record 1 "$status" "${old_digests[number]}" "$slot_size" "${old_times[0]}" 41
    fi
    if [ "$number" = 0 ] && [ "$1" = "$last" ]; then
      lines activated.timestamp=T "activated.count=$((8 + ($2 == last)))"
    elif [ "$number" = 0 ]; then
      lines "activated.timestamp=${old_times[1]}" activated.count=7
    fi
  done
}

# anew: all of it as it is at first.
anew() {
  rm -rf mnt/bundle status/* trip
  lines "${books_after[0]}" > "$book"
  cp was/* .
  grub_has "${first_vars[@]}"
}

# one_of FILE FILE..: the first of the other files that has the same bytes.
one_of() {
  local file=$1
  shift
  for name in "$@"; do
    if cmp -s "$file" "$name"; then
      echo "$name"
      return
    fi
  done
  return 1
}

# timeless: the status file with T in the place of each time that is none of the old ones.
timeless() {
  sed -E "/=(${old_times[0]}|${old_times[1]})\$/!s/^(installed|activated).timestamp=2.*Z\$/\1.timestamp=T/" "$book"
}

# look: sets `left` to what is left, and `state` to the number of steps after which it is so, or to nothing.
# The image that is begun then may be there in part, in whole pieces from the front.
look() {
  local step number files device vars_now book_now
  vars_now=$(grub_vars)
  book_now=$(timeless)
  state=''
  left="
$vars_now
$book_now"
  for step in $(seq 0 "$last"); do
    if [ "$vars_now" = "${vars_after[step]}" ] && [ "$book_now" = "${books_after[step]}" ]; then state=$step; fi
  done
  for number in "${!targets[@]}"; do
    device=${targets[number]}
    files=("want/$device".*)
    if [ -n "$state" ] && [ "$state" -lt $((2 * number + 2)) ]; then files=("want/$device.0"); fi
    if [ -n "$state" ] && [ "$state" -gt $((2 * number + 2)) ]; then files=("want/$device.${image_sizes[number]}"); fi
    if ! left="$left
$(one_of "$device" "${files[@]}")"; then
      left="$left$device has other bytes"
      state=''
    fi
  done
  for device in "${kept[@]}"; do
    if ! cmp -s "$device" "was/$device"; then
      left="$left
$device has other bytes"
      state=''
    fi
  done
}

# traced OPTION..: an install that strace runs with these options. Its outputs are said_out and said_err, its
# status is `code`. It is waited for all that it started, which may outlive it.
traced() {
  local held
  # Whoever is started has the descriptor 9, and the substitution ends when nobody has it any more.
  held=$(timeout 60 strace -y -o trace "$@" "${run[@]}" 9>&1 > said_out 2> said_err)
  code=$?
  [ -z "$held" ] || wrong="$wrong
  something wrote: $held"
}

# told CODE ERR: how the install ended and what it said on the error output.
told() {
  if [ "$code" != "$1" ] || [ "$(cat said_err)" != "$2" ]; then
    wrong="$wrong
  wanted $1 $2
  got    $code $(cat said_err)"
  fi
}

# goes_well: the traced install in which nothing goes wrong. Where it does, the check ends.
goes_well() {
  anew
  : > ran
  wrong=''
  traced -e "trace=$calls"
  told 0 ''
  look
  if [ "$state" != "$last" ] || [ -n "$wrong" ]; then
    printf 'failed: the install in which nothing goes wrong%s\n  left: %s\n%s\n%s passed, %s failed\n' \
      "$wrong" "$left" "$(cat said_out)" "$passed" "$((failed + 1))"
    exit 1
  fi
}

# since_conf: the lines of the trace from the call on that opens the configuration, each with the name of the
# call and its number among those of its name in front.
since_conf() {
  awk -F '(' -v conf="\"$scratch/c\"" '
    /^[a-z0-9_]+\(/ { numbers[$1]++ }
    /^openat/ && index($0, conf) { begun = 1 }
    begun && /^[a-z0-9_]+\(/ { print $1, numbers[$1], $0 }' trace
}

# again: the same install, which has to succeed, whatever was left after `state` steps.
again() {
  rm -f trip
  : > ran
  "${run[@]}" > said_out 2> said_err
  code=$?
  local before=$state
  look
  if [ "$code" != 0 ] || [ -s said_err ] || [ "$(tail -n 1 said_out)" != "Installing $bundle succeeded" ] ||
    [ "$(timeless)" != "$(book_after "$last" "${before:-0}")" ] || [ -e "$point" ] || ! all_there; then
    wrong="$wrong
  the same install then: status $code, $(cat said_out said_err)
$left"
  fi
}

# all_there: the slots and the variables of GRUB are as after an install.
all_there() {
  local number
  for number in "${!targets[@]}"; do
    cmp -s "${targets[number]}" "want/${targets[number]}.${image_sizes[number]}" || return 1
  done
  for device in "${kept[@]}"; do
    cmp -s "$device" "was/$device" || return 1
  done
  [ "$(grub_vars)" = "${vars_after[last]}" ]
}

# settle NAME: what was left is as after one of the steps, and the same install then succeeds; counts the case
# of this name, and the state.
declare -A seen
settle() {
  look
  if [ -z "$state" ]; then
    wrong="$wrong
  left: $left"
  else
    seen[$state]=$((${seen[$state]:-0} + 1))
  fi
  again
  judge "$1"
}

# each_seen WHAT STATE..: each of these states was left by some of the installs so far.
each_seen() {
  local what=$1 counted=''
  shift
  wrong=''
  for state in "$@"; do
    counted="$counted ${seen[$state]:-0}"
    [ "${seen[$state]:-0}" -gt 0 ] || wrong="$wrong
  none left the state $state"
  done
  echo "$what; what they left stands as after so many steps, from none to all:$counted"
  judge "$what"
  seen=()
}
