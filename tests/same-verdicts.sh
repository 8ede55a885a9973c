#!/bin/sh
# same-verdicts.sh NAME COMMAND ..: runs COMMAND with each stored pair, as two files OLD and NEW, and compares what it prints
# and its status with those of the product's command. For programs over the library. NAME is how the last line calls it.
set -eu
cd "$(dirname -- "$0")/.."
work=$(mktemp -d)
trap 'rm -rf "$work"' EXIT
trap 'exit 1' HUP INT TERM
count=0
name=$1
shift

# $1 old file, $2 new file, the rest COMMAND.
same() {
    old=$1
    new=$2
    shift 2
    wanted=0
    bin/visnumar judge "$old" "$new" >"$work/wanted" || wanted=$?
    got=0
    "$@" "$old" "$new" >"$work/got" || got=$?
    diff "$work/got" "$work/wanted" || { echo "other lines (<) than the command's (>): $* $old $new"; exit 1; }
    test $got = $wanted || { echo "status $got, the command's is $wanted: $* $old $new"; exit 1; }
    count=$((count + 1))
}

for old in examples/*-old.blk; do
    same "$old" "${old%-old.blk}-new.blk" "$@"
done
for input in tests/command/*.blk; do
    head -c 512 "$input" >"$work/old"
    tail -c +513 "$input" >"$work/new"
    same "$work/old" "$work/new" "$@"
done
# An old file that is too long.
same tests/command/short-new.blk tests/command/only-old.blk "$@"
echo "$name: $count pairs judged as the command does"
