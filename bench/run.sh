#!/bin/sh
# Times the proved library beside the plain C version, in several link layouts, and prints the best of each side over all of
# them, the ratio, and how many demands are worked out. docs/BENCH.md says what the columns mean.
#
# Needed: rt, and the library (make lib).
set -eu
here=$(CDPATH='' cd -- "$(dirname -- "$0")" && pwd -P)
cd "$(dirname -- "$here")"
work=$(mktemp -d)
trap 'rm -rf "$work"' EXIT
trap 'exit 1' HUP INT TERM

compile() {
    from=$1 to=$2
    shift 2
    tools/build-c compile "bench/$from.c" "$work/$to.o" "$@"
}
link() {
    to=$1
    shift
    tools/build-c link "$work/$to" "$@"
}

compile bench bench
compile plain plain
compile plain counted -DCOUNT
for pad in 16 272 1040 2000 3088; do
    if [ -t 2 ]; then echo "layout $pad" >&2; fi
    compile pad pad$pad "-DPAD=$pad"
    link bench$pad "$work/bench.o" "$work/pad$pad.o" "$work/plain.o"
    bin/run-built "$work/bench$pad" >>"$work/times"
done
link count "$work/bench.o" "$work/pad16.o" "$work/counted.o"
bin/run-built "$work/count" count >"$work/counts"

echo "A pair, or a block, in microseconds, the best over rounds and layouts; the ratio is proved / plain."
awk -F '\t' '
    BEGIN { printf "%-46s %5s %12s %12s %6s\n", "workload", "count", "plain C", "proved", "ratio" }
    !($1 in plain) { order[++n] = $1; pairs[$1] = $2; plain[$1] = $3; proved[$1] = $4 }
    { if ($3 < plain[$1]) plain[$1] = $3; if ($4 < proved[$1]) proved[$1] = $4 }
    END {
        for (j = 1; j <= n; j++) {
            name = order[j]
            printf "%-46s %5d %12.2f %12.2f %6.2f\n", name, pairs[name], plain[name] / 1000, proved[name] / 1000, proved[name] / plain[name]
        }
    }' "$work/times"
echo
echo "Demands worked out for a pair."
awk -F '\t' '
    BEGIN { printf "%-52s %5s %12s %12s\n", "workload", "pairs", "mean", "most" }
    { printf "%-52s %5d %12d %12d\n", $1, $2, $3, $4 }' "$work/counts"
