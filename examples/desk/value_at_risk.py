"""The historical value at risk of the book: what it would lose today by the moves of each day of history.csv."""
import csv
from concurrent.futures import ThreadPoolExecutor
from decimal import Decimal

from doqsheley import Price, Session

with Session("market.toml") as desk:
    now, base = dict(desk.quotes()), desk.ask("book").value
scenarios, days = {}, list(csv.DictReader(open("history.csv")))
for old, new in zip(days, days[1:]):
    moved = {it: now[it] + Decimal(new[it]) - Decimal(old[it]) for it in new if it not in ("day", "acme")}
    moved["acme"] = now["acme"] * Decimal(new["acme"]) / Decimal(old["acme"])
    scenarios["d" + new["day"].replace("-", "")] = [f"set {it} {value:.9f}" for it, value in moved.items()]

def gains(names):  # in a program of its own
    with Session("market.toml") as desk:
        found = desk.grid({it: scenarios[it] for it in names}, ask=["book"]).scenarios
    return [(found[it][-1].value - base, it) for it in names if isinstance(found[it][-1], Price)]

names = list(scenarios)
with ThreadPoolExecutor(4) as pool:
    worst = sorted(it for part in pool.map(gains, [names[at : at + 50] for at in range(0, len(names), 50)]) for it in part)
print(f"value {base}, days {len(names)}, of these with a price {len(worst)}")
for share in (100, 20):
    gain, name = worst[len(worst) // share]
    print(f"one day in {share} loses more than {-gain} ({name})")
