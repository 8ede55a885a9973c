#!/bin/sh
# Compares a program with the second program, byte for byte, over random inputs, and shows the first difference.
#
#   compare.sh COMMAND [KIND [COUNT [SEED]]]
#
# COMMAND reads a framed stream and writes the outcomes; the head of second.rs says the form of both for each KIND: batch
# (the printing program's lines, the default), read, write or analyse. With COMMAND "second" the second program itself
# stands in. Then the comparison's own test: with each planted fault a difference must show within the same inputs
# (TEETH=no in the environment leaves that out). SECOND in the environment is a second program that is built already.
set -eu
here=$(dirname "$0")
command=${1:?usage: compare.sh COMMAND [KIND [COUNT [SEED]]]}
kind=${2:-batch}
count=${3:-20000}
seed=${4:-1}
work=$(mktemp -d)
trap 'rm -rf "$work"' EXIT
trap 'exit 1' HUP INT TERM
second=${SECOND:-$work/second}

progress() {
    if [ -t 2 ]; then printf '%s\n' "$*" >&2; fi
}

test -n "${SECOND:-}" || rustc -O --edition 2021 -o "$second" "$here/second.rs"
test "$command" != second || command="$second $kind"
echo "$kind: $count inputs from seed $seed"
progress "generating"
"$second" generate "$seed" "$count" "$kind" >"$work/stream"
progress "running the second program"
"$second" "$kind" <"$work/stream" >"$work/want"
progress "running $command"
sh -c "$command" <"$work/stream" >"$work/got" || { echo "the command failed"; exit 1; }
if ! "$second" differ "$work/stream" "$work/got" "$work/want"; then
    echo "the outcomes of the command (one) and of the second program (other) differ"
    exit 1
fi
echo "no difference"
test "${TEETH:-yes}" != no || exit 0

status=0
"$second" faults "$kind" >"$work/faults"
while read -r number what; do
    progress "fault $number"
    # The pipe ends at the first difference; an output that merely ends early is none.
    found=$("$second" "$kind" --fault "$number" <"$work/stream" 2>"$work/errors" | cmp - "$work/got" 2>"$work/errors" || true)
    if [ -n "$found" ]; then
        echo "fault $number found at input $(head -n "${found##* }" "$work/got" | grep -c '^\.$'): $what"
    else
        echo "fault $number NOT found: $what"
        status=1
    fi
done <"$work/faults"
exit $status
