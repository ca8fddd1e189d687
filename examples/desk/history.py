"""Writes history.csv, a made-up year of the desk's quotes: history.py > history.csv. The last day has the values of quotes.csv."""
import csv
import random
from datetime import date, timedelta
from decimal import Decimal

pick = random.Random(83)
names = {row["name"]: Decimal(row["value"]) for row in csv.DictReader(open("quotes.csv")) if row["name"] != "premium"}
days, day = [], date(2024, 1, 15)
while len(days) < 251:
    days, day = days + [day] * (day.weekday() < 5), day - timedelta(1)
rows = [dict(names)]
for _ in days[1:]:
    level = pick.randint(-6, 6) + pick.randint(-6, 6)  # what all rates move by, in units of a fifth of a basis point
    step = {name: Decimal(level + pick.randint(-2, 2)) / 50000 for name in names}
    step["acme"] = Decimal(pick.randint(-9, 9)) / 10
    rows.append({name: value - step[name] for name, value in rows[-1].items()})
print("day", *names, sep=",")
for day, row in reversed(list(zip(days, rows))):
    print(day, *(f"{value.normalize():f}" for value in row.values()), sep=",")
