#!/usr/bin/env python3
"""The output of `doqs risk` beside QuantLib 1.29: values, deltas, gammas, parallel shifts and thetas of a bond, a floater, a swap, an agreement, a
share and the book of them, in six markets, by 0.0001 and by 0.001 each.

    (cd crates/doqs && rt run)     # builds doqs
    g++ -O2 -std=c++17 -o /tmp/risk_quantlib benchmarks/risk_quantlib.cpp -lQuantLib     # Debian's libquantlib0-dev
    benchmarks/risk_quantlib.py [FOLDER]     # FOLDER has the output of `doqs risk` as NUMBER.csv, and it is not run

It writes for each measure and size how many rows there are, the largest of them, and the largest difference, in units of money. The first
market is that of examples/desk on its day; the others have other days, levels and slopes.
"""
import subprocess
import sys
import tempfile
from collections import defaultdict
from pathlib import Path

TOP = Path(__file__).resolve().parent.parent
DEPOSITS = [("d1w", "1W"), ("d1m", "1M"), ("d2m", "2M"), ("d3m", "3M"), ("d6m", "6M"), ("d9m", "9M")]
SWAPS = [("s1", "1Y"), ("s2", "2Y"), ("s3", "3Y"), ("s5", "5Y"), ("s7", "7Y"), ("s10", "10Y"), ("s15", "15Y"), ("s20", "20Y")]
DESK = ["0.0387", "0.03865", "0.03895", "0.03925", "0.0386", "0.0373", "0.0344", "0.0283", "0.0263", "0.0252", "0.0251", "0.02575", "0.0264", "0.0261"]
# A day, the rates of the helpers, and the dates, rates and fixings of the instruments.
MARKETS = [
    ("2024-01-15", DESK, ("2021-02-15", "2031-02-15", "0.025"), ("2023-07-04", "2026-07-04"), ("2023-10-16", "2028-10-16", "0.0265", "pay"),
     ("2024-05-15", "0.0355"), ["2023-06-30", "2023-10-12", "2024-01-02"]),
    ("2024-03-20", [f"{0.01 + 0.001 * k:.4f}" for k in range(14)], ("2022-09-01", "2037-09-01", "0.0175"), ("2023-11-09", "2029-11-09"),
     ("2024-06-03", "2034-06-05", "0.0200", "receive"), ("2024-09-16", "0.0150"), ["2023-11-07"]),
    ("2025-07-01", [f"{0.05 - 0.0015 * k:.4f}" for k in range(14)], ("2025-01-10", "2033-01-10", "0.0500"), ("2025-02-27", "2032-02-27"),
     ("2025-04-16", "2040-04-16", "0.0400", "pay"), ("2026-01-20", "0.0450"), ["2025-02-25", "2025-04-14"]),
    ("2023-10-05", [f"{-0.005 + 0.0008 * k:.4f}" for k in range(14)], ("2023-03-15", "2030-03-15", "0.0010"), ("2023-08-21", "2028-08-21"),
     ("2023-12-01", "2030-12-02", "0.0015", "pay"), ("2024-02-12", "0.0005"), ["2023-08-17"]),
    ("2026-02-10", [f"{0.031 + 0.0004 * (k % 3):.4f}" for k in range(14)], ("2020-05-20", "2044-05-20", "0.0325"), ("2025-12-17", "2035-12-17"),
     ("2026-02-18", "2041-02-18", "0.0310", "receive"), ("2026-04-07", "0.0300"), ["2025-12-15"]),
    # By the next business day the coupon of 15 February has left the price.
    ("2024-02-12", DESK, ("2021-02-15", "2031-02-15", "0.025"), ("2023-07-04", "2026-07-04"), ("2023-10-16", "2028-10-16", "0.0265", "pay"),
     ("2024-05-15", "0.0355"), ["2023-06-30", "2023-10-12", "2024-01-02"]),
]
PARTS = [("state", 3), ("floater", 2), ("payer", 1), ("spring", -1), ("share", 10000)]


def market_of(folder, case):
    day, rates, bond, floater, swap, agreement, fixings = case
    given = list(zip(DEPOSITS + SWAPS, rates))
    lines = ["version = 1", f'today = "{day}"', f'quotes = "{folder}/quotes.csv"', f'fixings = "{folder}/fixings.csv"',
             '[[calendar]]', 'kind = "target"', 'name = "t"']

    def made(kind, name, **keys):
        lines.extend(["[[object]]", f'kind = "{kind}"', f'name = "{name}"'])
        lines.extend(f"{key} = {value}" if value[0] == "[" else f'{key} = "{value}"' if not value.isdigit() or key == "notional" else f"{key} = {value}"
                     for key, value in keys.items())

    helpers = [f'{{kind = "deposit", quote = "{name}", tenor = "{tenor}", convention = "modified_following", counter = "act360"}}'
               if (name, tenor) in DEPOSITS else
               f'{{kind = "swap", quote = "{name}", tenor = "{tenor}", every = "1Y", convention = "modified_following", counter = "thirty360"}}'
               for (name, tenor), _ in given]
    made("curve", "c", calendar="t", settlement="2", helpers="[" + ", ".join(helpers) + "]")
    made("index", "x", calendar="t", fixing_days="2", tenor="6M", convention="modified_following", counter="act360", curve="c")
    lines.append("month_end = true")
    made("engine", "e", curve="c")
    made("bond", "state", notional="1000000", start=bond[0], end=bond[1], calendar="t", engine="e", coupon=bond[2], every="1Y",
         convention="unadjusted", counter="actact")
    made("bond", "floater", notional="1000000", start=floater[0], end=floater[1], calendar="t", engine="e", index="x", spread="0.0015", every="6M",
         counter="act360")
    made("swap", "payer", notional="5000000", side=swap[3], start=swap[0], end=swap[1], calendar="t", engine="e", fixed_rate=swap[2], fixed_every="1Y",
         fixed_counter="thirty360", index="x", float_every="6M", float_counter="act360")
    made("fra", "spring", notional="10000000", side="long", index="x", start=agreement[0], strike=agreement[1], engine="e")
    made("stock", "share", quote="acme")
    made("composite", "book", parts="[" + ", ".join(f'{{part = "{name}", weight = {weight}}}' for name, weight in PARTS) + "]")
    (folder / "market.toml").write_text("\n".join(lines) + "\n")
    (folder / "quotes.csv").write_text("name,value\n" + "".join(f"{name},{rate}\n" for (name, _), rate in given) + "acme,41.5\n")
    (folder / "fixings.csv").write_text("index,day,rate\n" + "".join(f"x,{it},0.0390\n" for it in fixings))


def plan_of(file, case, size):
    day, rates, bond, floater, swap, agreement, fixings = case
    date = lambda text: " ".join(str(int(it)) for it in reversed(text.split("-")))
    lines = [f"today {date(day)}", f"size {size}"]
    lines += [f"{'deposit' if (name, tenor) in DEPOSITS else 'par'} {name} {tenor} {rate}" for (name, tenor), rate in zip(DEPOSITS + SWAPS, rates)]
    lines += ["curve", *(f"fixing {date(it)} 0.0390" for it in fixings)]
    lines += [f"bond state 1000000 {date(bond[0])} {date(bond[1])} {bond[2]}", f"floater floater 1000000 {date(floater[0])} {date(floater[1])} 0.0015",
              f"swap payer 5000000 {swap[3]} {date(swap[0])} {date(swap[1])} {swap[2]}", f"fra spring 10000000 long {date(agreement[0])} {agreement[1]}",
              "share share acme 41.5", *(f"part {name} {weight}" for name, weight in PARTS)]
    file.write_text("\n".join(lines) + "\n")


def rows_of(text):
    return {tuple(line.split(",")[:3]): line.split(",")[3] for line in text.split("\n")[1 if text.startswith("name,") else 0:] if line}


def main(given):
    found, number = defaultdict(list), 0
    with tempfile.TemporaryDirectory(prefix="risk-") as folder:
        folder = Path(folder)
        for case in MARKETS:
            for size in ("0.0001", "0.001"):
                number += 1
                market_of(folder, case)
                plan_of(folder / "plan", case, size)
                theirs = rows_of(subprocess.run(["/tmp/risk_quantlib", folder / "plan"], capture_output=True, text=True, check=True).stdout)
                names = [name for name, _ in PARTS] + ["book"]
                ours = rows_of(Path(given[0], f"{number}.csv").read_text() if given else subprocess.run(
                    [TOP / "crates/doqs/out/doqs", "risk", folder / "market.toml", size, *names], capture_output=True, text=True, check=True).stdout)
                for key, value in ours.items():
                    # A quote that the instrument does not stand on has no row.
                    found[key[1], size].append((abs(float(value)), abs(float(value) - float(theirs[key])), number, key))
    for (measure, size), rows in sorted(found.items()):
        worst = max(rows, key=lambda it: it[1])
        print(f"{measure} by {size}: {len(rows)} rows up to {max(rows)[0]:.6f}, at most {worst[1]:.6f} apart, in market {(worst[2] + 1) // 2} {worst[3][0]} {worst[3][2]}")


if __name__ == "__main__":
    main(sys.argv[1:])
