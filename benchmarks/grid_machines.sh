#!/usr/bin/env bash
# One grid of 1,000 scenarios over the example desk by examples/grid_over_machines, with 1, 2 and 4 processes, in parts of 1, 7 and 100
# blocks: the seconds of each, and whether the joined bytes are those of one run. Then one part is killed in its middle: no joined file
# may be there. And how many scenarios a second one process does over 10, 100 and 1,000 instruments, and the millions of instructions of
# each, counted from 10 to 20 scenarios. No line of these may say `refused`: each book is priced, and its bonds end within the curve.
#
#   (cd crates/desk_grid && rt run)     # builds the program
#   apt-get install parallel
#   benchmarks/grid_machines.sh
set -euo pipefail
cd "$(dirname "$0")/.."
export DESK_GRID=$(realpath "${1:-crates/desk_grid/out/desk_grid}")
over=$PWD/examples/grid_over_machines
work=$(mktemp -d)
trap 'rm -rf "$work"' EXIT
python3 - "$work" <<'MAKE'
import sys

work = sys.argv[1]
desk = [line.strip().split(",") for line in open("examples/desk/quotes.csv")][1:15]
with open(f"{work}/script", "w") as out:
    for n in range(1000):
        out.write(f"action s{n}\n" + "".join(f"set {q} {float(v) + (n % 500 - 250) / 100000:.5f}\n" for q, v in desk) + "end\n")
    out.write("ask book\nask state\nask payer\nask share\n")
for size in (10, 100, 1000):
    swaps = [f'{{kind = "swap", quote = "q{k}", tenor = "{k + 1}Y", every = "1Y", convention = "following", counter = "thirty360"}}'
             for k in range(10)]
    lines = ['version = 1', 'today = "2024-01-02"', f'quotes = "{work}/quotes.csv"', '', '[[calendar]]', 'kind = "target"', 'name = "t"',
             '', '[[object]]', 'kind = "curve"', 'name = "c"', 'calendar = "t"', 'settlement = 2', 'helpers = [' + ", ".join(swaps) + ']',
             '', '[[object]]', 'kind = "engine"', 'name = "e"', 'curve = "c"']
    for k in range(size):
        lines += ['', '[[object]]', 'kind = "bond"', f'name = "b{k}"', 'notional = "100"', 'start = "2024-02-01"',
                  f'end = "{2025 + k % 9}-02-01"', 'calendar = "t"', 'engine = "e"', 'coupon = "0.03"', 'every = "1Y"',
                  'counter = "act360"']
    lines += ['', '[[object]]', 'kind = "composite"', 'name = "book"',
              'parts = [' + ", ".join(f'{{part = "b{k}", weight = 1}}' for k in range(size)) + ']']
    open(f"{work}/market{size}.toml", "w").write("\n".join(lines) + "\n")
open(f"{work}/quotes.csv", "w").write("name,value\n" + "".join(f"q{k},0.03\n" for k in range(10)))
for scenarios in (10, 20, 100):
    with open(f"{work}/{scenarios}", "w") as out:
        for n in range(scenarios):
            out.write(f"action s{n}\n" + "".join(f"set q{k} {0.03 + n / 100000:.5f}\n" for k in range(10)) + "end\n")
        out.write("ask book\n")
MAKE
# Ends the script where a value of a grid is refused.
priced() { if grep -m 1 refused "$1"; then echo "not priced" >&2; exit 1; fi; }
# The instructions of one grid.
count() {
    valgrind --tool=callgrind --callgrind-out-file="$work/calls" "$DESK_GRID" "$1" "$2" 2> "$work/log" > "$work/out"
    priced "$work/out"
    sed -n 's/.*Collected : \([0-9]*\).*/\1/p' "$work/log"
}
seconds() { local begun; begun=$(date +%s%N); "$@"; echo "$(( ($(date +%s%N) - begun) / 1000000 ))"; }

cd examples/desk
one() { "$DESK_GRID" market.toml "$work/script" > "$work/whole"; }
echo "one run: $(seconds one) ms, $(wc -c < "$work/whole") bytes"
priced "$work/whole"
for blocks in 1 7 100; do
    for processes in 1 2 4; do
        took=$(seconds "$over/grid.sh" market.toml "$work/script" "$blocks" "$work/joined" "$processes")
        cmp -s "$work/whole" "$work/joined" && same=same || same=OTHER
        echo "parts of $blocks, $processes at a time: $took ms, $same bytes"
    done
done

# A part that ends in its middle.
cat > "$work/cut_short" <<CUT
#!/usr/bin/env bash
"$DESK_GRID" "\$@" | head -c 300
[ "\${2##*/}" != 0003.txt ] || kill -9 \$\$
CUT
chmod +x "$work/cut_short"
if DESK_GRID="$work/cut_short" "$over/grid.sh" market.toml "$work/script" 100 "$work/joined" 2 2> "$work/told"; then
    echo "a killed part: JOINED"
else
    [ ! -e "$work/joined" ] && echo "a killed part: no joined file; $(grep -c 'was not done' "$work/told") named"
fi
for size in 10 100 1000; do
    each() { "$DESK_GRID" "$work/market$size.toml" "$work/100" > "$work/out"; }
    took=$(seconds each)
    priced "$work/out"
    few=$(count "$work/market$size.toml" "$work/10")
    some=$(count "$work/market$size.toml" "$work/20")
    echo "$size instruments: 101 scenarios in $took ms, $((101000 / took)) a second, $(((some - few) / 10000)) thousand instructions each"
done
