#!/bin/sh
# Compares the batch program with the second program over random inputs for some time, a new seed each round.
#
#   soak.sh SECONDS [FIRST-SEED]       the first seed is the date's by default; each is printed
set -eu
here=$(dirname "$0")
seconds=${1:?usage: soak.sh SECONDS [FIRST-SEED]}
seed=${2:-$(date +%s)}
end=$(($(date +%s) + seconds))
rounds=0
while [ "$(date +%s)" -lt "$end" ]; do
    TEETH=no "$here/second/compare.sh" "$here/../bin/run-built batch" batch 20000 "$seed"
    seed=$((seed + 1))
    rounds=$((rounds + 1))
done
echo "soak: $rounds rounds, no difference"
