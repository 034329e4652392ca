#!/usr/bin/env bash
# How long a D-Bus message takes to be read and to be written: replies to `GetSlotStatus` of about 1 KiB,
# 32 KiB (64 slots) and 1 MiB, by this program's reader and writer and, where it and a C compiler are
# installed, by libdbus (bench/libdbus_messages.c). Prints the best of five runs, in microseconds a message.
# The status is 1 where a message of 64 slots takes a millisecond or more. Needs bash and coreutils.
# Use: bench/messages.sh [PROGRAM]
set -eu
source=$(realpath "$(dirname "$0")/libdbus_messages.c")
built=message_speed
. "$(dirname "$0")/lib/scratch.sh"
libdbus=''
if flags=$(pkg-config --cflags --libs dbus-1 2> /dev/null) && cc -O2 -o libdbus "$source" $flags 2> /dev/null; then
  libdbus=./libdbus
else
  echo "skipped: libdbus, since it or a C compiler is missing (Debian's package libdbus-1-dev has it)"
fi

now() { date +%s%N; }

# best COUNT COMMAND..: the least time of five runs, in ns, that do a message so many times.
best() {
  local count=$1 least='' start took
  shift
  for _ in 1 2 3 4 5; do
    start=$(now)
    "$@" "$count" message > /dev/null
    took=$(($(now) - start))
    if [ -z "$least" ] || [ "$took" -lt "$least" ]; then least=$took; fi
  done
  echo "$least"
}

# each COUNT COMMAND..: the time of one message, in tenths of a microsecond; what a run takes that does it
# once is taken off.
each() {
  local count=$1 one many
  shift
  one=$(best 1 "$@")
  many=$(best "$((count + 1))" "$@")
  echo $(((many - one) / count / 100))
}

tenths() { printf '%d.%d' "$(($1 / 10))" "$(($1 % 10))"; }

slow=0
echo '| slots | bytes | read, µs | written, µs | read by libdbus | written by libdbus |'
echo '|---|---|---|---|---|---|'
while read -r slots count; do
  "$program" make "$slots" > message
  read_one=$(each "$count" "$program" read)
  write_one=$(each "$count" "$program" write)
  others='- | -'
  if [ -n "$libdbus" ]; then
    others="$(tenths "$(each "$count" "$libdbus" read)") | $(tenths "$(each "$count" "$libdbus" write)")"
  fi
  echo "| $slots | $(($(wc -c < message))) | $(tenths "$read_one") | $(tenths "$write_one") | $others |"
  if [ "$slots" = 64 ] && { [ "$read_one" -ge 10000 ] || [ "$write_one" -ge 10000 ]; }; then slow=1; fi
done << SIZES
2 20000
64 1000
2048 20
SIZES
exit "$slow"
