# Sourced by the checks that run a program: goes to the top of the repository, and sets `program` to the
# one that the first word names, or else to the one of this name in build/, which make and rt build first:
# that in `built`, else rauc. Without rt the check, whose name is in `check`, is skipped.
built=${built:-rauc}
program=''
if [ $# -gt 0 ]; then program=$(realpath "$1") || exit 2; fi
cd "$(dirname "$0")/.." || exit 2
if [ -z "$program" ]; then
  if ! command -v rt > /dev/null; then
    echo "skipped: $check, since the toolchain's command rt is missing"
    exit 0
  fi
  make -s "build/$built" || exit 1
  program=$PWD/build/$built
fi
mkdir -p build
