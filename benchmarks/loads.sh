#!/usr/bin/env bash
# Counts the instructions and takes the time and the peak memory of `load N` by the built program, or by the one that is given, for
# N of 125, 250, 500 and 1,000: N moves and asks of a chain of N composites. Runs the largest twice and compares the bytes. It checks
# no other figure.
#
#   cd crates/desk && rt run -- run data/market.toml data/script     # builds the program
#   benchmarks/loads.sh
set -euo pipefail
desk=$(realpath "${1:-$(dirname "$0")/../crates/desk/out/desk}")
work=$(mktemp -d)
trap 'rm -rf "$work"' EXIT
cd "$work"
for n in 125 250 500 1000; do
    valgrind --tool=callgrind --callgrind-out-file=calls "$desk" load "$n" 2> log > out
    /usr/bin/time -f '%e s, %M KB' "$desk" load "$n" 2> used > again
    cmp -s out again || echo "load $n: two runs differ"
    printf 'load %d: %.1f million instructions, %s, %s\n' "$n" \
        "$(sed -n 's/.*Collected : \([0-9]*\).*/\1/p' log | awk '{ print $1 / 1e6 }')" "$(cat used)" "$(tail -n 1 out)"
done
