#!/usr/bin/env bash
# Times how a curve of 64 par swaps of 297 to 360 months is built on TARGET where the counter is Business/252, beside one
# of Actual/360, with coupons every 12 and 3 months: prints the milliseconds a curve, and whether each curve was the one
# that the few lines of Python below find.
#
#   cd crates/price_vectors && rt run      # builds the program
#   benchmarks/business_days.sh
set -euo pipefail
crate=$(cd "$(dirname "$0")/.." && pwd)/crates/price_vectors
rows=$crate/out/price_vectors
work=$(mktemp -d)
trap 'rm -rf "$work"' EXIT
cd "$work"
cat > make.py <<'MAKE'
import datetime, functools, sys

ONE, WHOLE = 10**12, 11_221_560 * 10**9
counter, every, copies = sys.argv[1], int(sys.argv[2]), int(sys.argv[3])
today, start = datetime.date(2024, 1, 2), datetime.date(2024, 1, 4)


@functools.cache
def easter(year):
    a, b, c = year % 19, year // 100, year % 100
    h = (19 * a + b - b // 4 - (b - (b + 8) // 25 + 1) // 3 + 15) % 30
    l = (32 + 2 * (b % 4) + 2 * (c // 4) - h - c % 4) % 7
    n = h + l - 7 * ((a + 11 * h + 22 * l) // 451) + 114
    return datetime.date(year, n // 31, n % 31 + 1)


@functools.cache
def is_open(day):
    return not (day.weekday() >= 5 or (day.month, day.day) in ((1, 1), (5, 1), (12, 25), (12, 26))
                or (day - easter(day.year)).days in (-2, 1))


@functools.cache
def months(n):
    day = datetime.date(2024 + n // 12, 1 + n % 12, 4)
    while not is_open(day):
        day += datetime.timedelta(1)
    return day


@functools.cache
def parts(a, b):
    days = (b - a).days
    if counter == "act360":
        return days * 31_171
    return sum(is_open(a + datetime.timedelta(n)) for n in range(days)) * 44_530


def factor(nodes, day):
    a, A = start, ONE
    for b, B in nodes:
        if day <= b:
            n, d = A * (b - day).days + B * (day - a).days, (b - a).days
            return (2 * n + d) // (2 * d)
        a, A = b, B


nodes, helpers = [], []
for tenor in range(297, 361):
    rate = 20_000_000 + 100_000 * (tenor - 297)
    days = [months(n) for n in ([0] + list(range(tenor, 0, -every))[::-1])]
    periods = [(b, parts(a, b)) for a, b in zip(days, days[1:])]
    low, high = 0, 4 * ONE
    last = nodes[-1][0] if nodes else start
    known = sum(p * factor(nodes, day) for day, p in periods if day <= last)
    while high - low > 1:
        x = (low + high) // 2
        tried = nodes + [(months(tenor), x)]
        worth = known + sum(p * factor(tried, day) for day, p in periods if day > last)
        if x * WHOLE + rate * worth < ONE * WHOLE:
            low = x
        else:
            high = x
    nodes.append((months(tenor), high))
    helpers.append(f"S:{tenor}M:{every}M:F:0:{counter}:{rate}")
heading = "market,today,cal,settlement,reference,helpers,ql_nodes,profile_nodes,why,greatest_gap"
row = ",".join(["b", str(today), "T", "2", str(start), ";".join(helpers), "error",
                ";".join(f"{day}:{x}" for day, x in nodes), "", ""])
print(heading)
for _ in range(copies):
    print(row)
MAKE
echo market,today,cal,settlement,reference,helpers,ql_nodes,profile_nodes,why,greatest_gap > cases.csv
printf 'market,terms,ql,profile,gap,why\n' > values.csv
# the other tables of the program are empty, but for the markets on which it prices
for table in "$crate"/data/*; do
    [ -e "${table##*/}" ] || : > "${table##*/}"
done
cp "$crate/data/curves.csv" .
copies=200
for every in 12 3; do
    for counter in act360 bus252; do
        python3 make.py "$counter" "$every" "$copies" > helpers.csv
        begun=$(date +%s%N)
        "$rows" > out
        ended=$(date +%s%N)
        awk -v ns=$((ended - begun)) -v n=$copies -v e="$every" -v c="$counter" \
            '/^curves:/ { printf "64 helpers every %2d months by %s: %.2f ms a curve, %s\n", e, c, ns / n / 1e6, $0 }' out
    done
done
