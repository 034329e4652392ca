# Sourced by the benchmarks: sets `program` to the one that the first word names, or else to the one of the
# name in `built`, else rauc, in build/; makes a scratch folder, which goes away at the end, and goes there.
program=$(realpath "${1:-build/${built:-rauc}}")
scratch=$(mktemp -d)
trap 'rm -rf "$scratch"' EXIT
cd "$scratch"

# How often a command is run of which the median is told.
runs=21

# median FILE: the number in the middle of these lines.
median() { sort -n "$1" | sed -n "$(((runs + 1) / 2))p"; }
