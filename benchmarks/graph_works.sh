#!/usr/bin/env bash
# Counts the instructions of works that lie in the graph of observers, by the built program (or by the one named in DESK), in a
# folder of its own. It checks no figure; docs/internals/decisions.md has the counts, by 'edge_lists'.
#
#   chain built     4,000 composites are made, each on the one before: all of the script's run
#   reversed built  the same chain, each composite made before the one that it holds: all of the script's run
#   link            a handle under 1,000 current stocks gets another target: whom it reaches is told
#   relinked asks   each of these stocks is asked after that
#   wave            a handle under 4,000 current stocks gets another target: all are told
#   wave of one     after that the quote under one stock more moves, and this stock is asked
#   chain moved     the quote under the chain moves, and the last composite is asked
#   pair            the quote under one stock moves, and the stock is asked
#   rows            8 rows of 40 composites, each over all of the row below: all of the script's run
#
#   cd crates/desk && rt run -- run data/market.toml data/script     # builds the program
#   benchmarks/graph_works.sh
set -euo pipefail
desk=${DESK:-$(cd "$(dirname "$0")/.." && pwd)/crates/desk/out/desk}
work=$(mktemp -d)
trap 'rm -rf "$work"' EXIT
cd "$work"
printf 'version = 1\ntoday = "2024-01-02"\n' > market.toml
python3 - <<'MAKE'
built = "quote q 1\nstock c0 q\n" + "".join(f"composite c{k}\nmember c{k} c{k - 1} 1\n" for k in range(1, 4001))
reversed_built = "quote q 1\n" + "".join(f"composite c{k}\n" for k in range(4000, 0, -1)) + "stock c0 q\n" + "".join(
    f"member c{k} c{k - 1} 1\n" for k in range(1, 4001))
asks = "".join(f"ask s{k}\n" for k in range(1000))
stocks = "quote a 1\nquote b 2\nhandle h quote\n" + "".join(f"stock s{k} h\n" for k in range(1000)) + "link h a\n" + asks
many = "quote a 1\nquote b 2\nhandle h quote\n" + "".join(f"stock s{k} h\n" for k in range(4000)) + "link h a\n" + "".join(
    f"ask s{k}\n" for k in range(4000)) + "quote q 1\nstock t q\nask t\n"
pair = "quote q 1\nstock s q\nask s\n"
rows = "quote q 1\n" + "".join(f"stock r0c{k} q\n" for k in range(40)) + "".join(
    f"composite r{row}c{k}\n" + "".join(f"member r{row}c{k} r{row - 1}c{under} 1\n" for under in range(40))
    for row in range(1, 9) for k in range(40))
scripts = {
    "built": built, "reversed": reversed_built, "rows": rows,
    "chain_asked": built + "ask c4000\n", "chain_moved": built + "ask c4000\nset q 2\nask c4000\n",
    "stocks": stocks, "linked": stocks + "link h b\n", "relinked": stocks + "link h b\n" + asks,
    "many": many, "wave": many + "link h b\n",
    "one": many + "link h b\n" + "".join(f"set q {k + 2}\nask t\n" for k in range(2_000)),
    "pair_made": pair, "pair": pair + "".join(f"set q {k + 2}\nask s\n" for k in range(2_000)),
}
for name, text in scripts.items():
    open(name, "w").write(text)
MAKE

# The instructions of a script's run.
count() {
    valgrind --tool=callgrind --callgrind-out-file=/dev/null "$desk" run market.toml "$1" 2> "$1.log" > /dev/null
    sed -n 's/.*Collected : \([0-9]*\).*/\1/p' "$1.log"
}

stocks=$(count stocks) linked=$(count linked)
echo "chain built     $(count built)"
echo "reversed built  $(count reversed)"
echo "link            $((linked - stocks))"
echo "relinked asks   $(( ($(count relinked) - linked) / 1000 )) an ask"
many=$(count many) wave=$(count wave)
echo "wave            $((wave - many))"
echo "wave of one     $(( ($(count one) - wave) / 2000 ))"
echo "chain moved     $(( $(count chain_moved) - $(count chain_asked) ))"
echo "pair            $(( ($(count pair) - $(count pair_made)) / 2000 ))"
echo "rows            $(count rows)"
