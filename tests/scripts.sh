#!/bin/sh
# Looks over the shell scripts: each parses, and none uses what only one shell has. Where shellcheck and checkbashisms (in
# Debian: packages shellcheck and devscripts) are installed, they look closer; where one is not, a line says so.
set -eu
cd "$(dirname -- "$0")/.."

scripts=$(git ls-files -c -o --exclude-standard | while read -r file; do
    if test -f "$file" && head -n 1 "$file" | grep -q '^#!/bin/sh'; then echo "$file"; fi
done)
status=0
for script in $scripts; do
    sh -n "$script" || status=1
done
for tool in "shellcheck" "checkbashisms -p"; do
    if command -v "${tool%% *}" >/dev/null; then
        # shellcheck disable=SC2086 # words
        $tool $scripts || status=1
    else
        echo "scripts: ${tool%% *} is not installed; not run"
    fi
done
# shellcheck disable=SC2086 # words
test $status != 0 || echo "scripts: $(printf '%s\n' $scripts | grep -c .) shell scripts looked over"
exit $status
