#!/usr/bin/env bash
# What an answer costs: instructions, seconds and the peak memory of `doqs why` for books of 10, 100 and 1,000 bonds in a market of
# 4,000 objects, beside an answer for a name that nothing has over the same market; and for chains of 500 and 1,000 composites, where
# nothing is held back, and where a quote that they do not rest on is. It checks that the products of each book add up, and no figure.
#
#   (cd crates/doqs && rt run)     # builds the program
#   benchmarks/answers.sh
set -euo pipefail
cd "$(dirname "$0")/.."
doqs=$(realpath "${1:-crates/doqs/out/doqs}")
work=$(mktemp -d)
trap 'rm -rf "$work"' EXIT
python3 - "$work" <<'MAKE'
import sys

work = sys.argv[1]
lines = ['version = 1', 'today = "2024-01-02"', f'quotes = "{work}/quotes.csv"', '', '[[calendar]]', 'kind = "target"', 'name = "t"']

def made(kind, name, **keys):
    lines.extend(["", "[[object]]", f'kind = "{kind}"', f'name = "{name}"'])
    for key, value in keys.items():
        lines.append(f"{key} = {value}" if not isinstance(value, str) or value.startswith(("[", "{")) else f'{key} = "{value}"')

deposits = [f'{{kind = "deposit", quote = "q{k}", tenor = "{k + 1}M", convention = "following", counter = "act360"}}' for k in range(10)]
swaps = [f'{{kind = "swap", quote = "q{k}", tenor = "{k - 8}Y", every = "1Y", convention = "following", counter = "thirty360"}}'
         for k in range(10, 20)]
made("curve", "c", calendar="t", settlement=2, helpers="[" + ", ".join(deposits + swaps) + "]")
made("index", "x", calendar="t", fixing_days=2, tenor="6M", convention="following", counter="act360", curve="c")
made("engine", "e", curve="c")
# 20 quotes, `today`, a curve, an index, an engine, three books: 4,000 objects
for k in range(3973):
    rate = {"coupon": "0.03"} if k % 2 == 0 else {"index": "x"}
    made("bond", f"bond{k}", notional="100", start="2024-02-01", end=f"{2025 + k % 10}-02-01", calendar="t", engine="e", **rate,
         every="1Y" if k % 2 == 0 else "6M", counter="act360")
for n in (10, 100, 1000):
    parts = ", ".join(f'{{part = "bond{k}", weight = 1}}' for k in range(n))
    made("composite", f"book{n}", parts="[" + parts + "]")
open(f"{work}/market.toml", "w").write("\n".join(lines) + "\n")
open(f"{work}/quotes.csv", "w").write("name,value\n" + "".join(f"q{k},0.03\n" for k in range(20)))
open(f"{work}/empty", "w").write("")
open(f"{work}/bare.toml", "w").write('version = 1\ntoday = "2024-01-02"\n')
for n in (500, 1000):
    chain = "quote q 1\nquote z 1\nstock c0 q\n" + "".join(f"composite c{k}\nmember c{k} c{k - 1} 1\n" for k in range(1, n + 1)) + f"ask c{n}\n"
    open(f"{work}/chain{n}", "w").write(chain)
    open(f"{work}/held{n}", "w").write(chain + "defer\nset z 2\n")
MAKE

# What an answer over a market and a script takes. Of a name that nothing has the exit code is 10.
measure() {
    local used counted=-
    /usr/bin/time -q -o "$work/used" -f '%U s, %M KB' "$doqs" why "$work/$1" "$work/$2" "$3" > "$work/$3" 2> "$work/said" || [ $? = 10 ]
    used=$(cat "$work/used")
    if [ -z "${ANSWERS_UNCOUNTED:-}" ]; then
        valgrind --tool=callgrind --callgrind-out-file="$work/calls" "$doqs" why "$work/$1" "$work/$2" "$3" 2> "$work/log" > "$work/out" || [ $? = 10 ]
        counted=$(sed -n 's/.*Collected : \([0-9]*\).*/\1/p' "$work/log" | awk '{ printf "%.1f", $1 / 1e6 }')
    fi
    echo "$2, $3: $counted million instructions, $used, $(wc -l < "$work/$3") lines, $(wc -c < "$work/$3") bytes"
}

for name in nothing book10 book100 book1000; do
    measure market.toml empty "$name"
done
for n in 500 1000; do
    for script in "chain$n" "held$n"; do
        measure bare.toml "$script" nothing
        measure bare.toml "$script" "c$n"
    done
done
python3 - "$work" <<'CHECK'
import sys
from decimal import Decimal

for n in (10, 100, 1000):
    shown, parts, sums = None, Decimal(0), {}
    for line in open(f"{sys.argv[1]}/book{n}"):
        words = line.split()
        if words[1] == "part":
            parts += Decimal(words[5])
        elif words[1:3] == ["composite", "fresh"]:
            shown = Decimal(words[3])
    assert shown == parts, n
print("each book is the sum of its parts")
CHECK
