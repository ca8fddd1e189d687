#!/usr/bin/env python3
"""An example, outside the proofs: writes moves of a market's quotes, one a line.

    examples/live/ticks.py QUOTES NUMBER [SECONDS]

QUOTES is the table of a market. Each quote with a value walks about it, by at most three units behind its last place at
a time, in the same way at each call. SECONDS is the pause behind each line, 0 where none is given.
"""
import csv
import random
import sys
import time
from decimal import Decimal


def main(table, number, seconds="0"):
    with open(table, newline="") as rows:
        values = {row["name"]: Decimal(row["value"]) for row in csv.DictReader(rows) if row["value"]}
    steps = dict.fromkeys(values, 0)
    pick = random.Random(83)
    for _ in range(int(number)):
        name = pick.choice(list(values))
        steps[name] = max(-50, min(50, steps[name] + pick.choice([-3, -2, -1, 1, 2, 3])))
        value = values[name]
        moved = value + Decimal(steps[name]).scaleb(value.as_tuple().exponent - 1)
        print(f"set {name} {moved:f}", flush=float(seconds) > 0)
        time.sleep(float(seconds))


if __name__ == "__main__":
    main(*sys.argv[1:])
