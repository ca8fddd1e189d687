#!/usr/bin/env bash
# Counts the instructions of the built program on five scripts, in a folder of its own. It checks no figure.
#
#   one stock    200,000 times its quote moves and it is asked: instructions of a pair, and the dearest functions
#   many stocks  20,000 times one quote moves and its stock is asked, with 2 stocks and with 2,000, each on its own quote:
#                instructions of a pair with many over one with two (a session has at most 4,096 objects)
#   a chain      4,000 composites, each on the one before: asked, its quote moved, asked
#   reversed     the same chain, each composite made before the one that it holds: its quote moved, asked
#   a wide one   a thousand stocks under one composite: 20 times their quote moves and it is asked
#
# The instructions of making the objects are counted apart, and taken off.
#
#   cd crates/desk && rt run -- run data/market.toml data/script     # builds the program
#   benchmarks/moves.sh
set -euo pipefail
desk=$(cd "$(dirname "$0")/.." && pwd)/crates/desk/out/desk
work=$(mktemp -d)
trap 'rm -rf "$work"' EXIT
cd "$work"
printf 'version = 1\ntoday = "2024-01-02"\n' > market.toml
python3 - <<'MAKE'
def stocks(n):
    return "".join(f"quote q{k} 1\nstock s{k} q{k}\nask s{k}\n" for k in range(n))

def moves(n):
    return "".join(f"set q0 {k + 2}\nask s0\n" for k in range(n))

chain = "quote q 1\nstock c0 q\n" + "".join(
    f"composite c{k}\nmember c{k} c{k - 1} 1\n" for k in range(1, 4001))
reversed_chain = "quote q 1\n" + "".join(f"composite c{k}\n" for k in range(4000, 0, -1)) + "stock c0 q\n" + "".join(
    f"member c{k} c{k - 1} 1\n" for k in range(1, 4001))
wide = "quote q 1\n" + "".join(f"stock s{k} q\n" for k in range(1000)) + "composite c\n" + "".join(
    f"member c s{k} 1\n" for k in range(1000)) + "ask c\n"
scripts = {
    "reversed_made": reversed_chain + "ask c4000\n",
    "reversed": reversed_chain + "ask c4000\nset q 2\nask c4000\n",
    "wide_made": wide, "wide": wide + "".join(f"set q {k + 2}\nask c\n" for k in range(20)),
    "one_made": stocks(1), "one": stocks(1) + moves(200_000),
    "two_made": stocks(2), "two": stocks(2) + moves(20_000),
    "many_made": stocks(2_000), "many": stocks(2_000) + moves(20_000),
    "chain_made": chain, "chain_asked": chain + "ask c4000\n",
    "chain": chain + "ask c4000\nset q 2\nask c4000\n",
}
for name, text in scripts.items():
    open(name, "w").write(text)
MAKE

# The instructions of a script's run.
count() {
    valgrind --tool=callgrind --callgrind-out-file="$1.calls" "$desk" run market.toml "$1" 2> "$1.log" > "$1.out"
    sed -n 's/.*Collected : \([0-9]*\).*/\1/p' "$1.log"
}

one=$(( ($(count one) - $(count one_made)) / 200000 ))
echo "one stock: $one instructions a pair"
callgrind_annotate one.calls 2> /dev/null | sed -n '/file:function/,$p' | head -12
two=$(( ($(count two) - $(count two_made)) / 20000 ))
many=$(( ($(count many) - $(count many_made)) / 20000 ))
echo "many stocks: $two instructions a pair with 2 stocks, $many with 2,000"
made=$(count chain_made) asked=$(count chain_asked) moved=$(count chain)
echo "a chain of 4,000: first ask $((asked - made)) instructions, move and second ask $((moved - asked))"
tail -n 1 chain.out
echo "the chain reversed: move and ask $(( $(count reversed) - $(count reversed_made) ))"
echo "a thousand stocks under one composite: $(( ($(count wide) - $(count wide_made)) / 20 )) instructions a move and ask"
