#!/usr/bin/env bash
# Counts the instructions of single works of a session, by the built program (or by the one named in DESK), in a folder of its own:
# what a script with the work takes more than the same script without it. It checks no figure; docs/internals/decisions.md has the counts.
#
#   cd crates/desk && rt run -- run data/market.toml data/script     # builds the program
#   benchmarks/speed.sh [WORK..]                                     # the works whose names begin so; all where none is named
set -euo pipefail
export DESK=${DESK:-$(cd "$(dirname "$0")/.." && pwd)/crates/desk/out/desk}
work=$(mktemp -d)
trap 'rm -rf "$work"' EXIT
cd "$work"
python3 - "$@" <<'COUNT'
import os
import re
import subprocess
import sys

cache = {}


def run(*words):
    done = subprocess.run(["valgrind", "--tool=callgrind", "--callgrind-out-file=/dev/null", os.environ["DESK"], *words],
                          stdout=subprocess.DEVNULL, stderr=subprocess.PIPE, text=True)
    return int(re.search(r"Collected : (\d+)", done.stderr).group(1))


def count(script, market="market"):
    """The instructions of a script's run over a market of two lines, or over another that is named."""
    if (script, market) not in cache:
        open("script", "w").write(script)
        cache[script, market] = run("run", market, "script")
    return cache[script, market]


def more(begun, behind, times, market="market"):
    return (count(begun + behind, market) - count(begun, market)) / times


def entry(kind, **keys):
    """One object of a market; numbers and arrays stand as they are, and anything else is a text."""
    lines = ["[[object]]", f'kind = "{kind}"'] + [
        f"{key} = {value}" if isinstance(value, int) or value[0] == "[" else f'{key} = "{value}"' for key, value in keys.items()]
    return "\n".join(lines) + "\n\n"


def bond_market():
    """A curve of 6 deposits and 14 swaps over the TARGET calendar, and 100 bonds of 2 to 11 years over it."""
    deposits = [f'{{kind = "deposit", quote = "q{k}", tenor = "{k + 1}M", convention = "following", counter = "act360"}}' for k in range(6)]
    swaps = [f'{{kind = "swap", quote = "q{k}", tenor = "{k - 5}Y", every = "1Y", convention = "following", counter = "thirty360"}}'
             for k in range(6, 20)]
    head = 'version = 1\ntoday = "2024-01-02"\nquotes = "rates.csv"\n\n[[calendar]]\nkind = "target"\nname = "t"\n\n'
    curve = entry("curve", name="c", calendar="t", settlement=2, helpers="[" + ", ".join(deposits + swaps) + "]")
    bonds = "".join(entry(
        "bond", name=f"b{k}", notional="100", start="2024-02-01", end=f"{2026 + k % 10}-02-01", calendar="t", engine="e", coupon="0.03",
        every="1Y", rule="backward", convention="following", end_convention="following", counter="thirty360") for k in range(100))
    return head + curve + entry("engine", name="e", curve="c") + bonds


open("market", "w").write('version = 1\ntoday = "2024-01-02"\n')
open("rates.csv", "w").write("name,value\n" + "".join(f"q{k},0.03\n" for k in range(20)))
open("bonds", "w").write(bond_market())
bond_asks = "".join(f"ask b{k}\n" for k in range(100))
stock = "quote q 1\nstock s q\nask s\n"
asks = "".join(f"ask s{k}\n" for k in range(1000))
stocks = "quote a 1\nquote b 2\nhandle h quote\n" + "".join(f"stock s{k} h\n" for k in range(1000)) + "link h a\n" + asks
chain = "quote q 1\nstock c0 q\n" + "".join(f"composite c{k}\nmember c{k} c{k - 1} 1\n" for k in range(1, 4001))
asked = chain + "ask c4000\n"
members = "composite c\n" + "".join(f"member c s{k} 1\n" for k in range(1000)) + "ask c\n"
wide = "".join(f"quote q{k} 1\nstock s{k} q{k}\n" for k in range(1000)) + members
rows = "quote q 1\n" + "".join(f"stock r0c{k} q\n" for k in range(100)) + "".join(
    f"composite r{row}c{k}\n" + "".join(f"member r{row}c{k} r{row - 1}c{under} 1\n" for under in range(100))
    for row in range(1, 30) for k in range(100))
works = {
    "a set and an ask of one stock": lambda: more(stock, "".join(f"set q {k + 2}\nask s\n" for k in range(2000)), 2000),
    "an ask of a current stock": lambda: more(stock, "ask s\n" * 4000, 4000),
    "a set alone": lambda: more(stock, "".join(f"set q {k + 2}\n" for k in range(4000)), 4000),
    "a stock under a relinked handle, asked": lambda: (count(stocks + "link h b\n" + asks) - count(stocks + "link h b\n")) / 1000,
    "a link that tells 1,000 stocks": lambda: more(stocks, "link h b\n", 1),
    "a level of a chain of 4,000, moved and asked": lambda: more(asked, "set q 2\nask c4000\n", 4000),
    "the same chain, built, asked, moved, asked": lambda: count(asked + "set q 2\nask c4000\n"),
    "a member of a composite of 1,000, one of them moved": lambda: more(
        wide, "".join(f"set q{k} {k + 2}\nask c\n" for k in range(20)), 20_000),
    "30 rows of 100 composites, 290,000 members": lambda: count(rows),
    "a move of a 20-helper curve, 100 bonds asked": lambda: more(
        bond_asks, "".join(f"set q10 0.03{k}\n{bond_asks}" for k in range(1, 21)), 20, "bonds"),
    "65,000 names": lambda: count("".join(f"quote n{k} 1\n" for k in range(65_000))),
    "a load of 500": lambda: run("load", "500"),
    "a load of 1,000": lambda: run("load", "1000"),
}
for name, counted in works.items():
    if not sys.argv[1:] or any(name.startswith(it) for it in sys.argv[1:]):
        print(f"{name:52}{counted():>14,.0f}", flush=True)
COUNT
