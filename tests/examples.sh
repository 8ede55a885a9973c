#!/bin/sh
# Makes the examples' blocks anew from their tables and compares them with the committed ones, and what the product prints
# for them with the committed rows. Then what make-block says to tables that it can't take.
#
#   examples.sh             test
#   examples.sh rewrite     write blocks and rows anew, to look at and to commit
#
# Needed: python3 and the built program (bin/run-built says what to do where it is missing).
set -eu
here=$(CDPATH='' cd -- "$(dirname -- "$0")" && pwd -P)
examples=$here/../examples
work=$(mktemp -d)
trap 'rm -rf "$work"' EXIT
trap 'exit 1' HUP INT TERM

for table in "$examples"/*.txt; do
    name=$(basename "$table" .txt)
    old=$work/$name-old.blk
    new=$work/$name-new.blk
    "$examples/make-block" "$table" old >"$old"
    "$examples/make-block" "$table" new >"$new"
    "$examples/make-block" "$table" >"$work/pair"
    cat "$old" "$new" | cmp - "$work/pair"
    # Status 1 is a refusal, which an example may be.
    "$here/../bin/visnumar" judge "$old" "$new" >"$work/$name.rows" || test $? = 1
done
rm -f "$work/pair"
if test "${1-}" = rewrite; then
    cp "$work"/*.blk "$work"/*.rows "$examples"
    echo "written: blocks and rows of the examples"
    exit
fi

status=0
for made in "$work"/*; do
    cmp "$made" "$examples/$(basename "$made")" || status=1
done
for kept in "$examples"/*.blk "$examples"/*.rows; do
    test -f "$work/$(basename "$kept")" || { echo "no table makes $kept"; status=1; }
done
test $status = 0 || { echo "the examples are not what their tables make: see 'examples.sh rewrite'"; exit 1; }

# The page on the avionics pair sets our rows beside published ones; they have to be the rows.
awk -F ' *[|] *' '/^[|] [oan] [|]/ { print $2, $3, $8, $9, $10 }' "$examples/avionics.md" >"$work/page"
grep '^[oan]' "$examples/avionics.rows" | diff "$work/page" - || { echo "avionics.md has other rows (<)"; exit 1; }

# A table that make-block can't take, and the line that it has to say.
refuse() {
    # shellcheck disable=SC2059 # the table is given as a format
    printf "$1" >"$work/table"
    if said=$("$examples/make-block" "$work/table" 2>&1 >"$work/out"); then
        echo "make-block took a table that it can't take: $1"
        status=1
    elif test "$said" != "make-block: $work/table: $2" || test -s "$work/out"; then
        printf 'make-block said: %s\nwanted: %s\n' "$said" "make-block: $work/table: $2"
        status=1
    fi
}
refuse '' "no line 'change OLD NEW'"
refuse '# only a comment\n' "no line 'change OLD NEW'"
refuse 'o 1 10 10 2 1 0\n' "line 1: the first line is not 'change OLD NEW'"
refuse 'change 1\n' "line 1: the first line is not 'change OLD NEW'"
refuse 'change 1 65536\n' "line 1: a mode number is 65536, above 65535"
refuse 'change 1 2\n\no 1 10 10 2 1\n' "line 3: not 'o', 'a' or 'n' and six numbers"
refuse 'change 1 2\nx 1 10 10 2 1 0\n' "line 2: not 'o', 'a' or 'n' and six numbers"
refuse 'change 1 2\nn 1 10 10 2 256 0\n' "line 2: priority is 256, above 255"
refuse 'change 1 2\nn 1 10 -10 2 1 0\n' "line 2: D is '-10', not a whole number"
refuse 'change 1 2\nn 1 10 10 2 1 65536\n' "line 2: Y is 65536, above 65535"
refuse 'change 1 2\nn 1 10 99999999999999999999 2 1 0\n' "line 2: D is 99999999999999999999, above 65535"
many=$(awk 'BEGIN { for (k = 1; k <= 31; k++) printf "o %d 1 1 1 %d 0\\n", k, k }')
refuse "change 1 2\\n$many" "line 32: a side has room for 30 tasks"
if "$examples/make-block" "$work/none" 2>/dev/null; then
    echo "make-block took a file that is not there"
    status=1
fi
if "$examples/make-block" "$examples/pump.txt" 2>/dev/null >/dev/full; then
    echo "make-block did not see that its output was lost"
    status=1
fi
test $status != 0 || echo "examples: every block, row and refusal as committed"
exit $status
