#!/usr/bin/env bash
# Times how curves are built from 20, 40 and 64 par swaps that end every eleven months, with coupons every 12, 3 and 1
# months: prints the milliseconds a curve, and whether each curve was the one that the few lines of Python below find.
#
#   cd crates/price_vectors && rt run      # builds the program
#   benchmarks/built_curves.sh
set -euo pipefail
crate=$(cd "$(dirname "$0")/.." && pwd)/crates/price_vectors
rows=$crate/out/price_vectors
work=$(mktemp -d)
trap 'rm -rf "$work"' EXIT
cd "$work"
cat > make.py <<'MAKE'
import datetime, sys

ONE, WHOLE = 10**12, 11_221_560 * 10**9
count, every, copies = map(int, sys.argv[1:])
start = datetime.date(2024, 1, 2)


def months(n):
    return datetime.date(2024 + n // 12, 1 + n % 12, 2)


def factor(nodes, day):
    a, A = start, ONE
    for b, B in nodes:
        if day <= b:
            n, d = A * (b - day).days + B * (day - a).days, (b - a).days
            return (2 * n + d) // (2 * d)
        a, A = b, B


nodes, helpers = [], []
for k in range(1, count + 1):
    rate = 20_000_000 + 200_000 * k
    ends = list(range(11 * k, 0, -every))[::-1]
    periods = [(b, (b - a) * 30 * 31171) for a, b in zip([0] + ends, ends)]
    settled = [(p, factor(nodes, months(m))) for m, p in periods if nodes and months(m) <= nodes[-1][0]]
    known = sum(p * f for p, f in settled)
    later = [(months(m), p) for m, p in periods[len(settled):]]
    low, high = 0, 4 * ONE
    while high - low > 1:
        x = (low + high) // 2
        tried = nodes[-1:] + [(months(11 * k), x)]
        a, A = (nodes[-1] if nodes else (start, ONE))
        b = months(11 * k)
        worth = known
        for day, p in later:
            n, d = A * (b - day).days + x * (day - a).days, (b - a).days
            worth += p * ((2 * n + d) // (2 * d))
        if x * WHOLE + rate * worth < ONE * WHOLE:
            low = x
        else:
            high = x
    nodes.append((months(11 * k), high))
    helpers.append(f"S:{11 * k}M:{every}M:F:0:thirtye360:{rate}")
heading = "market,today,cal,settlement,reference,helpers,ql_nodes,profile_nodes,why,greatest_gap"
row = ",".join(["b", str(start), "N", "0", str(start), ";".join(helpers), "error",
                ";".join(f"{day}:{x}" for day, x in nodes), "", ""])
print(heading)
for _ in range(copies):
    print(row)
MAKE
heading=market,today,cal,settlement,reference,helpers,ql_nodes,profile_nodes,why,greatest_gap
printf '%s\n' "$heading" > cases.csv
printf 'market,terms,ql,profile,gap,why\n' > values.csv
# the other tables of the program are empty, but for the markets on which it prices
for table in "$crate"/data/*; do
    [ -e "${table##*/}" ] || : > "${table##*/}"
done
cp "$crate/data/curves.csv" .
copies=200
for every in 12 3 1; do
    for count in 20 40 64; do
        python3 make.py "$count" "$every" "$copies" > helpers.csv
        begun=$(date +%s%N)
        "$rows" > out
        ended=$(date +%s%N)
        coupons=$((count * (count + 1) / 2 * 11 / every))
        awk -v ns=$((ended - begun)) -v n=$copies -v c="$count" -v e="$every" -v k="$coupons" \
            '/^curves:/ { printf "%2d helpers every %2d months, about %5d coupons: %.2f ms a curve, %s\n", c, e, k, ns / n / 1e6, $0 }' out
    done
done
