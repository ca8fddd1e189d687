#!/usr/bin/env bash
# Counts the computations, and takes the time, of changes after which all above them is asked. It runs the built program in
# a folder of its own, and checks no figure.
#
#   relinks   100 times a handle gets another target, and each of 1,000 stocks on it is asked
#   moves     100 times a quote under a curve of 20 helpers moves, and each of 100 bonds on its engine is asked
#   stands    the same bonds are asked 100 times more, and nothing moves
#
# What making the objects and the first asks take is timed apart, and taken off.
#
#   cd crates/desk && rt run -- run data/market.toml data/script     # builds the program
#   benchmarks/desk_changes.sh
set -euo pipefail
desk=$(cd "$(dirname "$0")/.." && pwd)/crates/desk/out/desk
work=$(mktemp -d)
trap 'rm -rf "$work"' EXIT
cd "$work"
python3 - "$desk" <<'RUN'
import subprocess, sys, time

desk, TIMES = sys.argv[1], 100
TOP = 'version = 1\ntoday = "2024-01-02"\n'


def table(**fields):
    return "\n[[object]]\n" + "".join(f"{key} = {value}\n" for key, value in fields.items())


def text(word):
    return f'"{word}"'


helpers = ",\n".join(
    f'  {{ kind = "deposit", quote = "q{k}", tenor = "{k + 1}M", convention = "modified_following", counter = "act360" }}'
    for k in range(20))
bonds = (TOP + 'quotes = "quotes"\n\n[[calendar]]\nkind = "target"\nname = "T"\n'
         + table(kind=text("curve"), name=text("c"), calendar=text("T"), settlement=2, helpers=f"[\n{helpers}\n]")
         + table(kind=text("engine"), name=text("e"), curve=text("c"))
         + "".join(table(kind=text("bond"), name=text(f"b{k}"), notional=text("1000000"), start=text("2024-01-04"),
                         end=text(f"2025-0{1 + k % 8}-10"), calendar=text("T"), coupon=text("0.04"), every=text("3M"),
                         convention=text("modified_following"), counter=text("thirty360"), engine=text("e"))
                   for k in range(100)))
open("quotes", "w").write("name,value\n" + "".join(f"q{k},0.0{30 + k}\n" for k in range(20)))
ask_stocks = [f"ask s{k}" for k in range(1000)]
ask_bonds = [f"ask b{k}" for k in range(100)]
stocks = ["quote a 1", "quote b 2", "handle h quote"] + [f"stock s{k} h" for k in range(1000)] + ["link h a"]


def run(market, script):
    open("market", "w").write(market)
    open("script", "w").write("\n".join(script) + "\n")
    begun = time.time()
    out = subprocess.run([desk, "run", "market", "script"], check=True, capture_output=True, text=True).stdout
    return time.time() - begun, sum(int(line.split()[-1]) for line in out.splitlines())


def case(name, market, first, changes):
    alone, calls = run(market, first)
    whole, all_calls = run(market, first + changes)
    print(f"{name:8} {all_calls - calls:8} computations, {1000 * (whole - alone) / TIMES:.3f} ms a change with its asks")


case("relinks", TOP, stocks + ask_stocks, [c for k in range(TIMES) for c in [f"link h {'ba'[k % 2]}"] + ask_stocks])
case("moves", bonds, ask_bonds, [c for k in range(TIMES) for c in [f"set q7 0.0{31 + k % 7}"] + ask_bonds])
case("stands", bonds, ask_bonds, ask_bonds * TIMES)
RUN
