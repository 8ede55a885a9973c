#!/bin/sh
# Builds the examples in C with the kit's clang and linker, and runs them: check_pair on blocks, against what the command
# prints for them; write_block on the tasks of the examples' blocks, against these blocks. Then holds header
# and examples against the C and C++ compilers of this system, where there are any; where not, a line says so.
#
# Needed: rt, the built program report, and the library (make lib).
set -eu
here=$(CDPATH='' cd -- "$(dirname -- "$0")" && pwd -P)
root=$(dirname -- "$here")
cd "$root"
archive=crates/visnumar/out/libvisnumar.a
work=$(mktemp -d)
trap 'rm -rf "$work"' EXIT
trap 'exit 1' HUP INT TERM
strict="-std=c99 -Wall -Wextra -Wconversion -Werror"

for name in check_pair write_block; do
    tools/build-c compile examples/$name.c "$work/$name.o" -Wconversion
    tools/build-c link "$work/$name" "$work/$name.o"
done

tests/same-verdicts.sh "check_pair by the kit" bin/run-built "$work/check_pair"
if bin/run-built "$work/check_pair" examples/no-such-file.blk examples/pump-new.blk 2>"$work/said"; then exit 1; fi
echo "check_pair: examples/no-such-file.blk can't be read" | cmp - "$work/said"

count=0
for kept in examples/*.blk; do
    # shellcheck disable=SC2046 # words
    bin/run-built "$work/write_block" $(tools/blocks.py list "$kept") | cmp - "$kept"
    count=$((count + 1))
done
# Each refusal of the writer that these words can bring: 11, 4 twice, 5 and 6. The block's length is always right.
writer() {
    wanted=$1
    shift
    if bin/run-built "$work/write_block" "$@" >"$work/block" 2>"$work/said" || test -s "$work/block"; then
        echo "write_block $*: not refused"
        exit 1
    fi
    echo "write_block: refused $wanted" | cmp - "$work/said"
}
# A task of a list: kind, priority, number, T, D, C, Y.
entry() {
    echo "$@"
}
# shellcheck disable=SC2046 # words
{
    writer "11 2 0 0" 0 1 0 1
    writer "4 2 0 0" 2 1
    writer "4 1 0 0" 1 1 $(k=0; while test $k -lt 31; do entry 2 $k $k 1 1 1 0; k=$((k + 1)); done)
    writer "5 0 1 0" 0 1 $(entry 0 1 1 10 10 2 0) $(entry 0 2 2 10 11 2 0)
    writer "6 1 1 0" 1 1 $(entry 2 1 1 10 10 2 0) $(entry 2 1 2 10 10 2 0)
}
echo "write_block by the kit: $count blocks written anew, 5 refusals"

cat >"$work/header.cc" <<'END'
#include "visnumar.h"
int main() {
    uint32_t report[1] = {7};
    const uint8_t none[1] = {0};
    visnumar_answer answer = visnumar_analyse(none, 0, none, 0, report, 0);
    return !(answer.code == VISNUMAR_BAD_LENGTH && answer.side == VISNUMAR_OLD && report[0] == 7);
}
END
if command -v cc >/dev/null; then
    for name in check_pair write_block; do
        # shellcheck disable=SC2086 # words
        cc $strict -pedantic -Iinclude -O2 -c examples/$name.c -o "$work/$name.here.o"
    done
    if test "$(uname -m)" = x86_64; then
        cc -o "$work/check_pair.here" "$work/check_pair.here.o" $archive
        tests/same-verdicts.sh "check_pair by this system's cc" "$work/check_pair.here"
    else
        echo "c-example: compiled by this system's cc too, not linked: the library is for x86-64"
    fi
else
    echo "c-example: no cc on this system; header and examples not tried with it"
fi
if command -v c++ >/dev/null; then
    c++ -std=c++11 -Wall -Wextra -pedantic -Werror -Iinclude -c "$work/header.cc" -o "$work/header.o"
    if test "$(uname -m)" = x86_64; then
        c++ -o "$work/header" "$work/header.o" $archive
        "$work/header"
    fi
    echo "c-example: the header is C++ too"
else
    echo "c-example: no c++ on this system; header not tried with it"
fi
