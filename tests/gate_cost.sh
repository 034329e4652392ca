#!/usr/bin/env bash
# Prints what each crate costs the gate in processor seconds, for its proof, its tests and its edits,
# beside its lines (code, definitions and proofs), and names what is over the budget that
# docs/architecture.md gives. It proves from nothing, which takes most of an hour, so it is run by hand.
# Processes are looked at once a second, so each may have cost a second more.
# Use: tests/gate_cost.sh [CRATE..]. With crates it proves these and those below them.
set -u
cd "$(dirname "$0")/.." || exit 2
mkdir -p build
seen=build/gate_cost.seen
: > "$seen"

# For each prover that this process has begun: its number and start, its crate, what it is run for, and
# the ticks so far of it and of all that it has begun.
sample() {
  cat /proc/[0-9]*/stat 2> /dev/null | awk -v gate="$1" '
    {
      name = $0
      sub(/^[^(]*[(]/, "", name)
      sub(/[)][^)]*$/, "", name)
      rest = $0
      sub(/.*[)] /, "", rest)
      split(rest, field, " ")
      prover[$1] = name == "rattle"
      parent[$1] = field[2]
      start[$1] = field[20]
      ticks[$1] = field[12] + field[13] + field[14] + field[15]
    }
    END {
      for (process in parent) {
        first = ""
        inside = 0
        for (at = process; at in parent; at = parent[at]) {
          if (prover[at]) first = at
          if (at == gate) inside = 1
        }
        if (inside && first != "") sum[first] += ticks[process]
      }
      for (process in sum) print process, start[process], sum[process]
    }' | while read -r process start ticks; do
    { words=$(tr '\0' ' ' < "/proc/$process/cmdline"); } 2> /dev/null || continue
    crate=$(sed -n 's/.*--crate-name \([a-z0-9_]*\).*/\1/p' <<< "$words")
    [ -n "$crate" ] || continue
    case "$(readlink "/proc/$process/cwd") $words" in
      /tmp/rt-edit*) purpose=edits ;;
      *--test*) purpose=tests ;;
      *) purpose=proof ;;
    esac
    echo "$process.$start $crate $purpose $ticks"
  done
}

rt ci "$@" --anew > build/gate_cost.log 2>&1 &
gate=$!
while kill -0 "$gate" 2> /dev/null; do
  sample "$gate" >> "$seen"
  sleep 1
done
wait "$gate"
status=$?
tail -n 1 build/gate_cost.log

for crate in crates/*/; do
  lines=$(find "$crate"src "$crate"specs "$crate"proofs -type f -exec cat {} + 2> /dev/null | wc -l)
  echo "$(basename "$crate") $lines"
done | awk -v seen="$seen" -v ticks="$(getconf CLK_TCK)" '
  BEGIN {
    while ((getline line < seen) > 0) {
      split(line, word, " ")
      key = word[1] " " word[2] " " word[3]
      if (word[4] > most[key]) most[key] = word[4]
    }
    for (key in most) {
      split(key, word, " ")
      sum[word[2] " " word[3]] += most[key] / ticks
      all += most[key] / ticks
    }
    printf "%-16s %6s %7s %7s %7s\n", "crate", "lines", "proof", "tests", "edits"
  }
  {
    proof = sum[$1 " proof"]
    tests = sum[$1 " tests"]
    edits = sum[$1 " edits"]
    if (proof + tests + edits == 0) next
    lines += $2
    share = $2 > 1000 ? $2 / 1000 : 1
    over = (proof > 150 * share ? " proof" : "") (tests > 40 * share ? " tests" : "")
    over = over (edits > 125 * share ? " edits" : "")
    printf "%-16s %6d %7.0f %7.0f %7.0f%s\n", $1, $2, proof, tests, edits, over ? "  over:" over : ""
  }
  END { printf "%.1f processor minutes in all; %.1f are the budget\n", all / 60, 7.8 * lines / 1000 }'
exit "$status"
