#!/usr/bin/env bash
# A ladder over 200 quotes under a curve, an index and 100 bonds, half of them floating, all in one book: how long the
# built program takes, against pricing the whole book afresh 400 times, each time in a run of `desk` of its own with one of
# the quotes moved. Then the ladder of one bond, and that of a stock on one of the quotes. It checks that each move's line is
# the difference of what `desk` prices, and no other figure.
#
#   (cd crates/desk_bump && rt run)
#   (cd crates/desk && rt run -- run data/market.toml data/script)     # build the two programs
#   benchmarks/bumps.sh
set -euo pipefail
cd "$(dirname "$0")/.."
desk=$PWD/crates/desk/out/desk
bump=$PWD/crates/desk_bump/out/desk_bump
work=$(mktemp -d)
trap 'rm -rf "$work"' EXIT
cd "$work"
python3 - <<'MAKE'
# Helper k of 50 stands on the sum of four quotes.
lines = ['version = 1', 'today = "2024-01-02"', 'quotes = "quotes.csv"', '', '[[calendar]]', 'kind = "target"', 'name = "t"']

def made(kind, name, **keys):
    lines.extend(["", "[[object]]", f'kind = "{kind}"', f'name = "{name}"'])
    for key, value in keys.items():
        lines.append(f"{key} = {value}" if not isinstance(value, str) or value.startswith(("[", "{")) else f'{key} = "{value}"')

helpers = []
for k in range(50):
    made("sum", f"a{k}", first=f"q{4 * k}", second=f"q{4 * k + 1}")
    made("sum", f"b{k}", first=f"q{4 * k + 2}", second=f"q{4 * k + 3}")
    made("sum", f"r{k}", first=f"a{k}", second=f"b{k}")
    if k < 12:
        helpers.append(f'{{kind = "deposit", quote = "r{k}", tenor = "{k + 1}M", convention = "following", counter = "act360"}}')
    else:
        helpers.append(f'{{kind = "swap", quote = "r{k}", tenor = "{k - 10}Y", every = "1Y", convention = "following", counter = "thirty360"}}')
made("curve", "c", calendar="t", settlement=2, helpers="[" + ", ".join(helpers) + "]")
made("index", "x", calendar="t", fixing_days=2, tenor="6M", convention="following", counter="act360", curve="c")
made("engine", "e", curve="c")
for k in range(100):
    rate = {"coupon": "0.03"} if k % 2 == 0 else {"index": "x"}
    made("bond", f"bond{k}", notional="100", start="2024-02-01", end=f"{2026 + k % 30}-02-01", calendar="t", engine="e", **rate,
         every="1Y" if k % 2 == 0 else "6M", counter="act360")
made("composite", "book", parts="[" + ", ".join(f'{{part = "bond{k}", weight = 1}}' for k in range(100)) + "]")
made("stock", "stock", quote="q7")
open("market.toml", "w").write("\n".join(lines) + "\n")
open("quotes.csv", "w").write("name,value\n" + "".join(f"q{k},0.0075\n" for k in range(200)))
for k in range(200):
    for way, value in (("up", "0.0076"), ("down", "0.0074")):
        open(f"{way}{k}", "w").write(f"set q{k} {value}\nask book\n")
open("base", "w").write("ask book\n")
MAKE

# The nanoseconds of a command, whose output goes to a file.
time_of() {
    local begun
    begun=$(date +%s%N)
    "${@:2}" > "$1"
    echo $(($(date +%s%N) - begun))
}

ladder=$(time_of ladder "$bump" market.toml book)
base=$(time_of base.out "$desk" run market.toml base)
afresh=$base
for ((k = 0; k < 200; k++)); do
    for way in up down; do
        afresh=$((afresh + $(time_of "$way$k.out" "$desk" run market.toml "$way$k")))
    done
done
bond=$(time_of bond "$bump" market.toml bond0)
stock=$(time_of stock "$bump" market.toml stock)
python3 - "$ladder" "$base" "$afresh" "$bond" "$stock" <<'SHOW'
import sys
from decimal import Decimal

ladder, base, afresh, bond, stock = (int(word) / 1e6 for word in sys.argv[1:])
runs = {name: open(name).read().split()[-1] for name in ("ladder", "bond", "stock")}
worth = lambda name: Decimal(open(name).read().split()[1])
lines = open("ladder").read().split("\n")
wrong = 0
for k in range(200):
    words = lines[k + 1].split()
    shown = [Decimal(words[2]), Decimal(words[4])]
    wrong += shown != [worth(f"{way}{k}.out") - worth("base.out") for way in ("up", "down")]
print(f"the ladder of the book: {ladder:.0f} ms, {runs['ladder']} computations; its lines differ from desk's prices in {wrong} of 200")
print(f"the book 401 times afresh: {afresh:.0f} ms, once {base:.1f} ms")
print(f"the ladder of one bond: {bond:.0f} ms, {runs['bond']} computations")
print(f"the ladder of one stock: {stock:.1f} ms, {runs['stock']} computations")
SHOW
