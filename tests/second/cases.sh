#!/bin/sh
# Runs the cases of cases.txt (a to j of document 01 and its other small ones) and compares with the lines given there.
#
#   cases.sh [COMMAND]
#
# COMMAND reads a framed stream of inputs of the printing program and writes the outcomes; the second program by default.
set -eu
here=$(dirname "$0")
work=$(mktemp -d)
trap 'rm -rf "$work"' EXIT
trap 'exit 1' HUP INT TERM

rustc -O --edition 2021 -o "$work/second" "$here/second.rs"
"$work/second" cases in "$here/cases.txt" >"$work/stream"
"$work/second" cases out "$here/cases.txt" >"$work/want"
sh -c "${1:-"$work/second" batch}" <"$work/stream" >"$work/got"
"$work/second" differ "$work/stream" "$work/got" "$work/want" || { echo "the cases differ: got (one), wanted (other)"; exit 1; }
echo "$(grep -c '^case ' "$here/cases.txt") cases as the paper has them"
