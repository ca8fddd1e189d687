#!/usr/bin/env bash
# What a grid of scenarios costs: instructions, seconds and the peak memory of the built `desk_grid` for 25, 50 and 100 scenarios over
# the example desk, and over a market of 1,000 instruments under a curve of 20 helpers, each scenario a move of all its rates. It says how
# far the cost is from a straight line in the scenarios, and checks no other figure.
#
#   (cd crates/desk_grid && rt run)     # builds the program
#   benchmarks/grid.sh
set -euo pipefail
cd "$(dirname "$0")/.."
grid=$(realpath "${1:-crates/desk_grid/out/desk_grid}")
work=$(mktemp -d)
trap 'rm -rf "$work"' EXIT
python3 - "$work" <<'MAKE'
import sys

work = sys.argv[1]
lines = ['version = 1', 'today = "2024-01-02"', f'quotes = "{work}/quotes.csv"', '', '[[calendar]]', 'kind = "target"', 'name = "t"']

def made(kind, name, **keys):
    lines.extend(["", "[[object]]", f'kind = "{kind}"', f'name = "{name}"'])
    for key, value in keys.items():
        lines.append(f"{key} = {value}" if not isinstance(value, str) or value.startswith(("[", "{")) else f'{key} = "{value}"')

deposits = [f'{{kind = "deposit", quote = "q{k}", tenor = "{k + 1}M", convention = "following", counter = "act360"}}' for k in range(10)]
swaps = [f'{{kind = "swap", quote = "q{k}", tenor = "{k - 8}Y", every = "1Y", convention = "following", counter = "thirty360"}}'
         for k in range(10, 20)]
made("curve", "c", calendar="t", settlement=2, helpers="[" + ", ".join(deposits + swaps) + "]")
made("index", "x", calendar="t", fixing_days=2, tenor="6M", convention="following", counter="act360", curve="c")
made("engine", "e", curve="c")
for k in range(1000):
    rate = {"coupon": "0.03"} if k % 2 == 0 else {"index": "x"}
    made("bond", f"bond{k}", notional="100", start="2024-02-01", end=f"{2025 + k % 10}-02-01", calendar="t", engine="e", **rate,
         every="1Y" if k % 2 == 0 else "6M", counter="act360")
for k in range(10):
    parts = ", ".join(f'{{part = "bond{n}", weight = 1}}' for n in range(100 * k, 100 * k + 100))
    made("composite", f"book{k}", parts="[" + parts + "]")
open(f"{work}/large.toml", "w").write("\n".join(lines) + "\n")
open(f"{work}/quotes.csv", "w").write("name,value\n" + "".join(f"q{k},0.03\n" for k in range(20)))

def script(path, scenarios, quotes, asks):
    with open(path, "w") as out:
        for n in range(scenarios):
            out.write(f"action s{n}\n" + "".join(f"set {q} {v + (n + 1) / 100000:.5f}\n" for q, v in quotes) + "end\n")
        out.write("".join(f"ask {a}\n" for a in asks))

desk = [line.strip().split(",") for line in open("examples/desk/quotes.csv")][1:15]
for n in (25, 50, 100):
    script(f"{work}/desk{n}", n, [(q, float(v)) for q, v in desk], ["book", "state", "payer", "share"])
    script(f"{work}/large{n}", n, [(f"q{k}", 0.03) for k in range(20)], [f"book{k}" for k in range(10)])
MAKE

# The millions of instructions of one grid.
count() {
    valgrind --tool=callgrind --callgrind-out-file="$work/calls" "$grid" "$1" "$2" 2> "$work/log" > "$work/out"
    sed -n 's/.*Collected : \([0-9]*\).*/\1/p' "$work/log" | awk '{ printf "%.1f", $1 / 1e6 }'
}

cd examples/desk
for market in desk large; do
    file=$work/large.toml
    [ "$market" = large ] || file=market.toml
    counts=()
    for n in 25 50 100; do
        used=$( { /usr/bin/time -f '%U s, %M KB' "$grid" "$file" "$work/$market$n" > "$work/out"; } 2>&1)
        counted=-
        [ "$market" = large ] && [ -z "${GRID_COUNT_ALL:-}" ] || counted=$(count "$file" "$work/$market$n")
        counts+=("$counted")
        echo "$market: $n scenarios: $counted million instructions, $used, $(wc -l < "$work/out") lines"
    done
    [ "${counts[0]}" = - ] || python3 -c '
import sys
few, some, many = map(float, sys.argv[1:])
print(f"    {(many - some) / 50:.2f} million each from 50 to 100, {(some - few) / 25:.2f} million each from 25 to 50")' "${counts[@]}"
done
