#!/bin/sh
# Takes the two files of Rust from docs/RUST.md, builds the program with the library and compares it with the command. Where
# the processor is no x86-64 the library can't be linked to a program of this system: they are type-checked, and a line
# says that no more was done.
#
# Needed: rustc, the built program report, and the library (make lib).
set -eu
cd "$(dirname -- "$0")/.."
root=$(pwd -P)
library=crates/visnumar/out
test -f $library/libvisnumar.a || {
    echo "rust-page: $library/libvisnumar.a is missing: run 'make lib' in $root" >&2
    exit 1
}
work=$(mktemp -d)
trap 'rm -rf "$work"' EXIT
trap 'exit 1' HUP INT TERM

for file in visnumar.rs main.rs; do
    awk -v fence="\`\`\`rust file=$file" '/^```/ { inside = ($0 == fence); next } inside' docs/RUST.md >"$work/$file"
    test -s "$work/$file" || { echo "rust-page: docs/RUST.md has no $file"; exit 1; }
done
if test "$(uname -m)" != x86_64; then
    rustc --edition 2021 -D warnings --emit=metadata -L native=$library -o "$work/main.rmeta" "$work/main.rs"
    echo "rust-page: type-checked, not linked: the library is for x86-64"
    exit
fi
rustc -O --edition 2021 -D warnings -L native=$library -o "$work/judge" "$work/main.rs"

tests/same-verdicts.sh "rust-page" "$work/judge"
