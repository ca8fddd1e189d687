#!/usr/bin/env bash
# Asks the example's market whole, 100,000 times or as often as is said, each time with one of its quotes moved: the book
# of five instruments, both curves beneath it and beside it, the implied curve and the offer. Prints how many computations
# were made, and the time. It checks no figure.
#
#   cd crates/desk && rt run -- run data/market.toml data/script     # builds the program
#   benchmarks/example_market.sh [TIMES]
set -euo pipefail
times=${1:-100000}
cd "$(dirname "$0")/.."
desk=$PWD/crates/desk/out/desk
work=$(mktemp -d)
trap 'rm -rf "$work"' EXIT
python3 - "$times" > "$work/script" <<'MAKE'
import sys

whole = "ask book\nask summer\nask rough\nask offer\n"
print(whole + "".join(f"set s5 0.025{k % 1_000_000:06}\n" + whole for k in range(int(sys.argv[1]))), end="")
MAKE
head -n 4 "$work/script" > "$work/once"

# The computations of a script's run, and its nanoseconds.
run() {
    local begun ended
    begun=$(date +%s%N)
    (cd examples/desk && "$desk" run market.toml "$work/$1") > "$work/out"
    ended=$(date +%s%N)
    echo "$(awk '{ n += $NF } END { print n }' "$work/out") $((ended - begun))"
}

read -r first_runs first_ns <<< "$(run once)"
read -r runs ns <<< "$(run script)"
awk -v first="$first_runs" -v first_ns="$first_ns" -v runs="$runs" -v ns="$ns" -v times="$times" 'BEGIN {
    printf "read and asked once: %d computations, %.1f ms\n", first, first_ns / 1e6
    printf "%d times moved and asked: %d computations, %.1f s, %.3f ms a time\n", times, runs - first, (ns - first_ns) / 1e9,
        (ns - first_ns) / times / 1e6
}'
