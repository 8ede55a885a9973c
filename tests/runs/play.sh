#!/bin/sh
# Plays random legal runs of random accepted pairs and compares every response with the rows (demand 3).
#
#   play.sh [COMMAND [PAIRS [RUNS [SEED]]]]
#
# COMMAND is where the rows come from: it reads a framed stream of inputs of the printing program and writes their
# outcomes (the head of second/second.rs says the form); the second program by default. Then the test's own test: each
# wrong rule of release or schedule, and rows with a fault planted, must show violations.
set -eu
here=$(dirname "$0")
pairs=${2:-5000}
runs=${3:-50000}
seed=${4:-1}
work=$(mktemp -d)
trap 'rm -rf "$work"' EXIT
trap 'exit 1' HUP INT TERM

progress() {
    if [ -t 2 ]; then printf '%s\n' "$*" >&2; fi
}

# Plays with the rows of file $1 and wrong rule $2, if any; what was found goes to a file, the exit status to $found.
play() {
    found=0
    "$work/play" run "$seed" "$pairs" "$runs" "$@" >"$work/said" || found=$?
}

# Judges a play that had to find something; $1 says what was wrong.
expect() {
    if [ "$found" -eq 1 ]; then
        echo "found: $1"
    else
        echo "NOT found: $1"
        status=1
    fi
}

rustc -O --edition 2021 -o "$work/second" "$here/../second/second.rs"
rustc -O --edition 2021 -o "$work/play" "$here/play.rs"
echo "$pairs pairs from seed $seed"
"$work/play" pairs "$seed" "$pairs" >"$work/stream"
progress "working out the rows"
sh -c "${1:-"$work/second" batch}" <"$work/stream" >"$work/rows" || { echo "the command failed"; exit 1; }
progress "playing"
play "$work/rows"
cat "$work/said"
test "$found" -eq 0 || exit 1

status=0
"$work/play" rules >"$work/rules"
while read -r number what; do
    progress "wrong rule $number"
    play "$work/rows" "$number"
    expect "$what"
done <"$work/rules"
for number in 1 2 4 11 14 19 21 23 24; do
    progress "rows with fault $number"
    "$work/second" batch --fault "$number" <"$work/stream" >"$work/faulty"
    play "$work/faulty"
    expect "rows with fault $number"
done
exit $status
