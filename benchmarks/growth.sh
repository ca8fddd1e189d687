#!/usr/bin/env bash
# How works grow, and what the dearest single works cost, by the built programs (or by those named in DESK and DESK_GRID), in a folder of its
# own: instructions by callgrind, or seconds of processor. Each line is a row of one table: the work, what this program takes, what a plain
# Rust program of the same job takes, and what is wanted. It checks no figure; all of it takes some minutes.
#
#   tools/install                                     # builds the programs
#   benchmarks/growth.sh [WORK..]                     # all where none is named:
#       curves grid watchers closures counts engineless registers weights pair
set -euo pipefail
top=$(cd "$(dirname "$0")/.." && pwd)
export DESK=${DESK:-$top/crates/desk/out/desk} DESK_GRID=${DESK_GRID:-$top/crates/desk_grid/out/desk_grid}
for program in "$DESK" "$DESK_GRID"; do
    [ -x "$program" ] || { echo "growth.sh: $program is not built: tools/install proves and builds it" >&2; exit 2; }
done
DESK=$(realpath -s "$DESK") DESK_GRID=$(realpath -s "$DESK_GRID")
work=$(mktemp -d)
trap 'rm -rf "$work"' EXIT
cd "$work"
python3 - "$@" <<'COUNT'
import datetime
import os
import re
import resource
import subprocess
import sys

DESK, DESK_GRID = os.environ["DESK"], os.environ["DESK_GRID"]


def written(name, text):
    with open(name, "w") as out:
        out.write(text)
    return name


def counted(*words):
    """The instructions of a run."""
    done = subprocess.run(["valgrind", "--tool=callgrind", "--callgrind-out-file=/dev/null", *words],
                          stdout=subprocess.DEVNULL, stderr=subprocess.PIPE, text=True)
    return int(re.search(r"Collected : (\d+)", done.stderr).group(1))


def instructions(market, script):
    return counted(DESK, "run", market, written("script", script))


def seconds(*words):
    """The seconds of processor of a run, the least of three."""
    def once():
        begun = resource.getrusage(resource.RUSAGE_CHILDREN)
        subprocess.run(words, stdout=subprocess.DEVNULL, check=True)
        ended = resource.getrusage(resource.RUSAGE_CHILDREN)
        return ended.ru_utime + ended.ru_stime - begun.ru_utime - begun.ru_stime
    least = once()
    return min(least, once(), once()) if least < 2 else least


def of_script(script, market="empty"):
    return seconds(DESK, "run", market, written("script", script))


def row(work, takes, plain, wanted="-"):
    print(f"{work:66} {takes:>18}  {plain:>12}  {wanted}", flush=True)


def thousands(number):
    return f"{number / 1000:,.1f} K"


def entry(kind, **keys):
    return "\n".join(["[[object]]", f'kind = "{kind}"'] + [
        f"{key} = {value}" if isinstance(value, int) or value[0] == "[" else f'{key} = "{value}"' for key, value in keys.items()]) + "\n\n"


def bespoke(first, days):
    listed = ", ".join(f'"{first + datetime.timedelta(k)}"' for k in range(days))
    return f'[[calendar]]\nkind = "bespoke"\nname = "k"\nweekend = ["sat", "sun"]\nholidays = [{listed}]\n\n'


def swap(quote, tenor, every, counter):
    return f'{{kind = "swap", quote = "{quote}", tenor = "{tenor}", every = "{every}", convention = "following", counter = "{counter}"}}'


def curve(calendar, helpers):
    return entry("curve", name="c", calendar=calendar, settlement=2, helpers="[" + ", ".join(helpers) + "]")


def deposit(quote, tenor):
    return f'{{kind = "deposit", quote = "{quote}", tenor = "{tenor}", convention = "following", counter = "act360"}}'


def bond(name, end, calendar="t", every="1Y", counter="thirty360", **more):
    return entry("bond", name=name, notional="100", start="2024-02-01", end=end, calendar=calendar, **more, coupon="0.03", every=every,
                 rule="backward", convention="following", end_convention="following", counter=counter)


HEAD = 'version = 1\ntoday = "2024-01-02"\nquotes = "rates.csv"\n\n'
TARGET = '[[calendar]]\nkind = "target"\nname = "t"\n\n'
ENGINE = entry("engine", name="e", curve="c")
written("rates.csv", "name,value\n" + "".join(f"q{k},0.03\n" for k in range(20)))
written("empty", 'version = 1\ntoday = "2024-01-02"\n')


def curves():
    helpers = [deposit(f"q{k}", f"{k + 1}M") for k in range(6)] + [swap(f"q{k}", f"{k - 5}Y", "1Y", "thirty360") for k in range(6, 20)]
    bonds = "".join(bond(f"b{k}", f"{2026 + k % 10}-02-01", engine="e") for k in range(100))
    written("market", HEAD + TARGET + curve("t", helpers) + ENGINE + bonds)
    every = "".join(f"ask b{k}\n" for k in range(100))
    for name, asks, figures in (
        ("alone", "ask c\n", ("126 K", "65 K (floor 23 K)")),
        ("and 100 bonds over it", every, ("423 K", "300 K (floor 178 K)")),
    ):
        moves = "".join(f"set q10 0.03{k}\n{asks}" for k in range(1, 11))
        took = (instructions("market", asks + moves) - instructions("market", asks)) / 10
        row(f"A. a curve of 20 helpers, a rate moved, asked, {name}", thousands(took), *figures)


def grid():
    for size in (100, 1_000, 4_000):
        bonds = "".join(bond(f"b{k}", f"{2025 + k % 9}-02-01", engine="e", counter="act360") for k in range(size))
        parts = ", ".join(f'{{part = "b{k}", weight = 1}}' for k in range(size))
        written("market", HEAD + TARGET + curve("t", [swap(f"q{k}", f"{k + 1}Y", "1Y", "thirty360") for k in range(10)]) + ENGINE + bonds
                + entry("composite", name="book", parts=f"[{parts}]"))

        def moves(n):
            return "".join(f"set q{k} {0.03 + n / 100000:.5f}\n" for k in range(10))

        def of_blocks(n):
            blocks = "".join(f"action s{k}\n{moves(k)}end\n" for k in range(1, n + 1))
            return counted(DESK_GRID, "market", written("script", blocks + "ask book\n"))

        def of_session(n):
            return instructions("market", "ask book\n" + "".join(moves(k) + "ask book\n" for k in range(1, n + 1)))

        if b"refused" in subprocess.run([DESK_GRID, "market", written("script", "ask book\n")], stdout=subprocess.PIPE).stdout:
            sys.exit("the book is not priced")
        scenario, floor = (of_blocks(12) - of_blocks(2)) / 10, (of_session(12) - of_session(2)) / 10
        row(f"B. a scenario over {size:,} bonds", thousands(scenario), "-", f"{thousands(3 * floor)}, 3 times those moves in one session; it is {scenario / floor:.2f} times")


def watchers():
    def script(n, actions):
        return "quote q 1\nstock s q\n" + "".join(f"action a{k}\n{actions(k)}end\nwatch w{k} a{k}\nregister w{k} q\n" for k in range(n)) + "set q 5\n"
    works = [
        ("sets the quote twice", lambda k: "set q 2\nset q 3\n", {500: "0.06", 1_000: "0.20"}, {}),
        ("sets the quote once", lambda k: f"set q {k + 10}\n", {500: "0.02", 1_000: "0.08", 2_000: "0.23", 4_000: "0.79"}, {}),
        ("does 100 resumes", lambda k: "resume\n" * 100, {4_000: "0.016"}, {4_000: "0.03 s"}),
    ]
    for name, actions, sizes, wanted in works:
        for n, plain in sizes.items():
            took = of_script(script(n, actions)) - of_script(script(n, actions).replace("set q 5\n", ""))
            row(f"C. {n:,} watchers on one quote, each {name}", f"{took:.3f} s", f"{plain} s", wanted.get(n, f"{2 * float(plain):.2f} s, twice that"))
    for n in (1_000, 4_000):
        begun = script(n, lambda k: "ask s\n")
        took = (instructions("empty", begun) - instructions("empty", begun.replace("set q 5\n", ""))) / n
        row(f"C. a watcher of {n:,} that are due at once, each asks", thousands(took), "0.5 K", "1.5 K")


def closures():
    for days in (0, 15_000, 30_000, 60_000):
        held = HEAD + TARGET + bespoke(datetime.date(2026, 1, 1), days) + curve("t", [swap("q0", "9Y", "1Y", "thirty360")]) + ENGINE
        took = seconds(DESK, "check", written("market", held + bond("b", "2084-02-01", calendar="k", every="1M", engine="e")))
        row(f"D. a monthly bond of 60 years under a closure of {days:,} days, checked", f"{took:.3f} s", "below 0.05 s" if days else "-")
    for days in (0, 16_000):
        written("market", HEAD + bespoke(datetime.date(2025, 1, 1), days) + curve("k", [swap("q0", "60Y", "1M", "thirty360")]))
        moves = "".join(f"set q0 0.03{k:03}\nask c\n" for k in range(1, 101))
        took = (of_script("ask c\n" + moves, "market") - of_script("ask c\n", "market")) * 10
        row(f"D. a monthly helper of 60 years over {days:,} listed days, a move", f"{took:.2f} ms", "1.4 ms" if days else "-", "2 ms" if days else "-")


def counts():
    for counter in ("act360", "bus252"):
        written("market", HEAD + TARGET + curve("t", [swap(f"q{k}", f"{k + 1}Y", "1Y", counter) for k in range(20)]))
        moves = "".join(f"set q3 0.03{k:03}\nask c\n" for k in range(1, 101))
        took = (of_script("ask c\n" + moves, "market") - of_script("ask c\n", "market")) * 10
        row(f"D. 20 helpers by {counter}, a move", f"{took:.2f} ms", "-", "below 0.1 ms" if counter == "bus252" else "-")


def engineless():
    for size in (1_000, 4_000):
        took = seconds(DESK, "check", written("market", HEAD + TARGET + "".join(bond(f"b{k}", f"{2025 + k % 30}-02-01") for k in range(size))))
        row(f"E. {size:,} bonds without an engine, made", f"{1000 * took:.0f} ms", "96 ms" if size == 4_000 else "-")


def registers():
    for stocks, watching in ((500, 50), (2_000, 200)):
        begun = "quote q 1\naction a\nend\n" + "".join(f"stock s{k} q\n" for k in range(stocks)) + "".join(f"watch w{k} a\n" for k in range(watching))
        pairs = "".join(f"register w{w} s{s}\n" for w in range(watching) for s in range(stocks))
        took = of_script(begun + pairs) - of_script(begun)
        used = subprocess.run(["/usr/bin/time", "-f", "%M", DESK, "run", "empty", written("script", begun + pairs)], stderr=subprocess.PIPE, text=True).stderr
        whole = stocks == 2_000
        row(f"F. {watching} watchers, each registered with {stocks:,} stocks", f"{took:.2f} s, {int(used) / 1000:.0f} MB", "0.17 s, 19 MB" if whole else "-",
            "0.3 s" if whole else "-")


def weights():
    for members in (1_000, 4_000):
        begun = "quote q 1\ncomposite k\n" + "".join(f"stock s{k} q\nmember k s{k} 1\n" for k in range(members)) + "ask k\n"
        changes = "".join(f"member k s{k} 2\n" for k in range(members))
        took = of_script(begun + changes + "ask k\n") - of_script(begun)
        row(f"G. {members:,} weights of one composite changed", f"{1000 * took:.1f} ms", "7 ms" if members == 4_000 else "-", "10 ms" if members == 4_000 else "-")


def pair():
    begun = "quote q 1\nstock s q\nask s\n"
    took = (instructions("empty", begun + "".join(f"set q {k + 2}\nask s\n" for k in range(2_000))) - instructions("empty", begun)) / 2_000
    row("H. a set and an ask of one stock", f"{took:,.0f}", "2,992", "1,700 (floor 1,109)")


works = {it.__name__: it for it in (curves, grid, watchers, closures, counts, engineless, registers, weights, pair)}
unknown = [it for it in sys.argv[1:] if it not in works]
if unknown:
    sys.exit(f"growth.sh: no work {unknown[0]}: there are {' '.join(works)}")
row("the work", "this program", "plain", "wanted")
for name in sys.argv[1:] or works:
    works[name]()
COUNT
