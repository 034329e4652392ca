#!/bin/sh
# Sets the manual page, which has to give no warning. Needs groff. Its last line counts the cases.
set -u
cd "$(dirname "$0")/.." || exit 2
if ! command -v groff > /dev/null; then
  echo "skipped: manual, since groff is missing"
  exit 0
fi
warnings=$(groff -man -ww -Tutf8 man/rauc.1 2>&1 > /dev/null)
if [ $? = 0 ] && [ -z "$warnings" ]; then
  echo "1 passed, 0 failed"
else
  printf 'failed: man/rauc.1\n%s\n0 passed, 1 failed\n' "$warnings"
  exit 1
fi
