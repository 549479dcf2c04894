#!/usr/bin/env bash
# Tries the wrong bodies that the gate doesn't, crates/NAME/wrong-bodies/*.edit, of the crates named or of all:
#   bench/wrong_bodies.sh [--jobs N] [CRATE..]
# In a copy of the checkout they stand in the place of the gate's, and `rt ci` of these crates tries them, over
# what it had proved of the same sources on this machine; what it hadn't it proves first. It runs beside other
# work: what changes in the checkout meanwhile isn't read, N pieces are tried at a time (one, unless it is told
# otherwise), and their priority is low. What an edit came to is kept, so one that was tried isn't tried again
# until its crate or one below changes. It prints what the prover said of each, at the end. The status is 0 where
# each was refused.
set -u
top=$(cd "$(dirname "$0")/.." && pwd) || exit 1
cd "$top" || exit 1
jobs=1
if [ "${1:-}" = --jobs ]; then
  jobs=${2:?--jobs wants a number}
  shift 2
fi
copy=$(mktemp -d "${TMPDIR:-/tmp}/wrong-bodies-XXXXXX") || exit 1
trap 'rm -rf "$copy"' EXIT
if [ "$#" -eq 0 ]; then
  for folder in crates/*/wrong-bodies; do
    set -- "$@" "$(basename "$(dirname "$folder")")"
  done
fi
tar -c --exclude=out crates crates.txt HANDLES | tar -x -C "$copy" || exit 1
cd "$copy" && git init -q . || exit 1
rm -rf crates/*/must-fail
tried=0
for crate in "$@"; do
  if ! mv "crates/$crate/wrong-bodies" "crates/$crate/must-fail" 2> /dev/null; then
    echo "crates/$crate has no wrong-bodies/" >&2
    exit 1
  fi
  tried=$((tried + $(find "crates/$crate/must-fail" -name '*.edit' | wc -l)))
done
RT_JOBS=$jobs nice -n 10 rt ci "$@" > said 2>&1
grep "must-fail .*\.edit: " said || tail -20 said
refused=$(grep -c '\.edit: refused, as it must be' said)
echo "$refused of $tried refused"
[ "$refused" -eq "$tried" ]
