#!/bin/sh
# The committed picture is what its script makes, and its numbers are those of the logger's row. Needed: python3.
set -eu
cd "$(dirname -- "$0")/.."
work=$(mktemp -d)
trap 'rm -rf "$work"' EXIT
trap 'exit 1' HUP INT TERM

tools/picture >"$work/phases.svg"
cmp "$work/phases.svg" docs/phases.svg || { echo "docs/phases.svg is not what tools/picture makes: make it anew"; exit 1; }

# The logger is task 2 of the pump.
awk '$1 == "o" && $2 == 2 { print $3, $4, $5 }' examples/pump.rows >"$work/row"
read -r worst phase steady <"$work/row"
for words in "window of the logger: $worst ticks" "phase $phase<" "worst $worst, first at phase $phase;" "steady $steady<"; do
    grep -q "$words" docs/phases.svg || { echo "docs/phases.svg does not say '$words'"; exit 1; }
done
echo "picture: as its script makes it, with the numbers of the row"
