#!/bin/sh
# The stored inputs of the programs, crates/report/stdin and crates/batch/stdin, are what tests/program-inputs makes.
#
#   stored.sh             test
#   stored.sh rewrite     write every stored block and every expected file anew: inputs and outputs of the programs, the
#                         examples, the command's inputs and transcript, the picture
#
# What is written anew is what the programs print today, right or wrong: read all of `git diff` before it is committed.
# Needed: python3; for rewrite also the built programs (make stored builds them).
set -eu
cd "$(dirname -- "$0")/.."

if test "${1-}" = rewrite; then
    for name in report batch; do
        tests/program-inputs $name >crates/$name/stdin
    done
    tests/examples.sh rewrite
    tests/command.sh rewrite
    for name in report batch analysis_cases reader_cases writer_cases; do
        bin/run-built $name <crates/$name/stdin >crates/$name/stdout
    done
    tools/picture >docs/phases.svg
    git diff --stat
    exit
fi
for name in report batch; do
    tests/program-inputs $name | cmp - crates/$name/stdin ||
        { echo "crates/$name/stdin is not what tests/program-inputs makes: see 'stored.sh rewrite'"; exit 1; }
done
echo "stored: the inputs of the programs are as they are made"
