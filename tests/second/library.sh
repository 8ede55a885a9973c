#!/bin/sh
# Compares the C functions of the library with the second program over random inputs of each kind: read, write and analyse,
# with lent memory of right, short and long room.
#
#   library.sh [COUNT [SEED]]       COUNT inputs of each kind
#
# Needed: rustc, rt, and the library (make lib).
set -eu
here=$(CDPATH='' cd -- "$(dirname -- "$0")" && pwd -P)
root=$(dirname -- "$(dirname -- "$here")")
work=$(mktemp -d)
trap 'rm -rf "$work"' EXIT
trap 'exit 1' HUP INT TERM

"$root/tools/build-c" compile "$here/driver.c" "$work/driver.o" -Wconversion
"$root/tools/build-c" link "$work/driver" "$work/driver.o"
rustc -O --edition 2021 -o "$work/second" "$here/second.rs"
for kind in read write analyse; do
    SECOND=$work/second "$here/compare.sh" "'$root/bin/run-built' '$work/driver' $kind" $kind "${1:-5000}" "${2:-1}"
done
