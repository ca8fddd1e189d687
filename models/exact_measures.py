#!/usr/bin/env python3
"""Yields and measures of bonds by an exact price and by QuantLib, beside those of a plain model of whole numbers, and how far apart they may be.

    models/exact_measures.py MODEL derivatives < CASES
    models/exact_measures.py MODEL ask < CASES
    models/exact_measures.py MODEL prices FIGURES < CASES
    models/exact_measures.py MODEL formulas FIGURES < CASES

MODEL is the folder of an independent model of schedules, a package of Python that this repository does not have. CASES are the columns
`market,terms,after,yield` of crates/price_vectors/data/derivatives.csv, over the calendars of its curves.csv. Each mode but `ask` writes the rows of its file
there: of the yield at the whole part of the price and of each measure the figure of the plain model, another, and the bound of the gap, as docs/reference/measure.md
derives it. The other is by derivatives (`derivatives`), by QuantLib's prices a basis point apart (`prices`), or by its own duration and convexity
(`formulas`). `ask` writes what benchmarks/measures_quantlib.cpp reads, and FIGURES is what that writes. All but FIGURES is in fifty digits.
"""

import csv
import decimal
import importlib
import pathlib
import sys
import types

import bond_measures

D = decimal.Decimal
decimal.getcontext().prec = 50
STEP = D(bond_measures.STEP) / 10**9
CURVES = pathlib.Path(__file__).parent.parent / "crates/price_vectors/data/curves.csv"
CONVENTIONS = {"F": "following", "P": "preceding", "MF": "modified_following"}


def inverse(year, y):
    """The factor of a gap as a series in the yield: its value and its first four derivatives, each over its factorial."""
    factor = 1 / (1 + year * y)
    return [(-year) ** order * factor ** (order + 1) for order in range(5)]


def product(left, right):
    return [sum(left[at] * right[order - at] for at in range(order + 1)) for order in range(5)]


def price(flows, settle, y):
    """The series of the exact price, and the sum of the amounts times the number of payment days up to each, times 10^-12."""
    day, count, lost = settle, 0, D(0)
    factor, total = [D(1)] + [D(0)] * 4, [D(0)] * 5
    for flow in flows:
        if flow.paid > settle:
            if flow.paid > day:
                factor = product(factor, inverse(D(flow.paid - day) / 365, y))
                day, count = flow.paid, count + 1
            amount = D(flow.amount) / 10**6
            total = [total[order] + amount * factor[order] for order in range(5)]
            lost += amount * count / 10**12
    return total, lost


class Bond:
    """The remaining flows of a bond at a yield: its exact price and derivatives, and what roundings may cost. All in money and years."""

    def __init__(self, flows, settle, yield_units):
        self.flows, self.settle, self.units = [flow for flow in flows if flow.paid > settle], settle, yield_units
        self.y = D(yield_units) / 10**9
        self.series, lost = price(flows, settle, self.y)
        self.value, self.slope, self.bend = self.series[0], self.series[1], 2 * self.series[2]
        # a price is off by its rounding and by its factors, each rounded down; a difference of two prices by two roundings
        self.one, self.pair = D(1) / 2 / 10**6 + lost, D(1) / 10**6 + lost
        self.here, self.down, self.up = (
            bond_measures.price(flows, settle, yield_units + move) for move in (0, -bond_measures.STEP, bond_measures.STEP)
        )
        self.shown = D(self.here) / 10**6
        # a yield is asked for at the whole part of the price, so that it lies between two units of a yield
        self.asked = self.here // 10**6 * 10**6
        self.root = self.root_of()
        # QuantLib's coupons are not rounded, and lie 10^-9 off as 1 + x - 1; its doubles lose these parts of a price
        coupon = D("0.501e-6")
        times = [D(flow.paid - settle) / 365 for flow in self.flows if flow.period]
        days = len({flow.paid for flow in self.flows})
        self.coupons = [coupon * sum(time**power for time in times) for power in range(3)]
        self.doubles = (6 * days + len(self.flows) + 10) * D(2) ** -53 * self.value

    def root_of(self):
        """The yield at which the exact price is the one asked."""
        root = self.y
        for _ in range(12):
            series = price(self.flows, self.settle, root)[0]
            root -= (series[0] - D(self.asked) / 10**6) / series[1]
        return root

    def least(self):
        """The least yield at which the price of the plain model is not above the one asked."""
        low, high = self.units, bond_measures.MOST
        assert bond_measures.price(self.flows, self.settle, high) <= self.asked
        while low < high:
            middle = (low + high) // 2
            if bond_measures.price(self.flows, self.settle, middle) <= self.asked:
                high = middle
            else:
                low = middle + 1
        return low

    def shown_measures(self):
        """The units of the plain model's figures, with their places."""
        return [
            (self.least(), 9),
            (self.up - self.here, 6),
            (bond_measures.nearest((self.down - self.up) * 10**13, 2 * self.here), 9),
            (bond_measures.nearest((self.down + self.up - 2 * self.here) * 10**8, self.here), 0),
        ]

    def by_derivatives(self):
        """The root, and the measures by derivatives, each with its bound."""
        third = abs(6 * self.series[3])
        lower = price(self.flows, self.settle, self.y - STEP)[0]
        duration, convexity = -self.slope / self.value, self.bend / self.value
        fall = -price(self.flows, self.settle, self.root)[0][1]
        return [
            (self.root, max(D("1e-9"), self.one / fall)),
            (self.slope * STEP + self.bend * STEP**2 / 2, self.pair + STEP**3 * third / 6),
            (duration, (STEP**2 * abs(6 * lower[3]) / 6 + self.pair / (2 * STEP) + duration * self.one) / self.shown + D("0.5e-9")),
            (convexity, (STEP**2 * 24 * lower[4] / 12 + 2 * self.pair / STEP**2 + convexity * self.one) / self.shown + D("0.5")),
        ]

    def root_bound(self, accuracy):
        """How far the plain model's yield may lie from QuantLib's: within a basis point of the root the price falls by `fall` or more for each 1."""
        fall = -price(self.flows, self.settle, self.root + STEP)[0][1]
        own = self.coupons[0] + self.doubles
        assert STEP * fall > self.one + own
        return max(D("1e-9") + own / fall, (self.one + own) / fall) + accuracy

    def beside_prices(self, figures):
        """QuantLib's yield and the steps of its prices, each with its bound."""
        none, first, second = self.coupons
        duration, convexity = figures[3], figures[4]
        off = self.one + none + self.doubles
        step = self.pair + STEP * first + 2 * self.doubles
        steps = 2 * STEP * first + self.pair + 2 * self.doubles
        bends = 2 * self.pair + 2 * STEP**2 * second + 4 * self.doubles
        return [
            (figures[0], self.root_bound(D("1e-13"))),
            (figures[2], step),
            (duration, (steps / (2 * STEP) + duration * off) / self.shown + D("0.5e-9")),
            (convexity, (bends / STEP**2 + convexity * off) / self.shown + D("0.5")),
        ]

    def formulas(self):
        """QuantLib's basisPointValue, duration (Modified) and convexity for a simple rate: each flow at once over its whole time."""
        worth, slope, bend = D(0), D(0), D(0)
        for flow in self.flows:
            time, amount = D(flow.paid - self.settle) / 365, D(flow.amount) / 10**6
            factor = 1 / (1 + self.y * time)
            worth += amount * factor
            slope += amount * factor**2 * time
            bend += 2 * amount * factor**3 * time**2
        duration, convexity = slope / worth, bend / worth
        return [-duration * self.value * STEP + convexity / 100 * self.value * STEP**2 / 2, duration, convexity], worth

    def beside_formulas(self, figures):
        """QuantLib's yield by its default accuracy and its own measures. They are their formulas in fifty digits, but for its coupons and doubles; the bound of
        the gap is that of the derivatives, the distance of the formula from these, and what coupons and doubles may cost."""
        found, worth = self.formulas()
        none, first, second = self.coupons
        gain, duration, convexity = found
        parts = 4 * self.doubles / self.value
        years = (first + duration * none) / worth + duration * parts
        squares = (2 * second + convexity * none) / worth + convexity * parts
        gains = STEP * (years * self.value + duration * (none + self.doubles)) + STEP**2 / 200 * (squares * self.value + convexity * (none + self.doubles))
        costs = [gains, years, squares]
        rows = [(figures[1], self.root_bound(D("1e-10")))]
        for (derivative, bound), formula, cost, figure in zip(self.by_derivatives()[1:], found, costs, figures[5:]):
            assert abs(figure - formula) <= cost, (figure, formula, cost)
            rows.append((figure, bound + abs(formula - derivative) + cost))
        return rows


def flows_of(model, calendar, terms):
    """The flows of a bond on 1,000,000, its amounts rounded."""
    _, start, end, coupon, every, convention, counter = terms.split(":")
    convention = CONVENTIONS[convention]
    start, end = (model.days.read_day(day.encode()) for day in (start, end))
    tenor = model.days.read_tenor(every.encode())
    days = model.schedules.schedule(start, end, tenor, calendar, convention, convention, "backward", False)
    legs = model.pricing.fixed_leg(days, calendar, 0, 10**12, int(coupon), counter)
    return legs + model.pricing.redemption(calendar, end, 0, 10**12)


def fixed(value, rounding):
    return f"{value.quantize(D('1e-12'), rounding=rounding):f}"


def row(case, bond, beside):
    words = list(case)
    for (units, places), (figure, bound) in zip(bond.shown_measures(), beside):
        gap = abs(D(units) / 10**places - figure)
        assert gap <= bound, (case, units, figure, bound)
        most = fixed(bound + D("1e-12"), decimal.ROUND_UP)
        words += [bond_measures.decimal(units, places) if places else str(units), fixed(figure, decimal.ROUND_DOWN), most]
    return ",".join(words)


def main():
    folder, mode = pathlib.Path(sys.argv[1]).resolve(), sys.argv[2]
    sys.path.insert(0, str(folder.parent))
    model = types.SimpleNamespace()
    for name in ("calendars", "config", "days", "pricing", "schedules"):
        setattr(model, name, importlib.import_module(f"{folder.name}.{name}"))
    model.config.set_stage(20)
    bases = {"N": "null", "W": "weekends", "T": "target"}
    with CURVES.open() as curves:
        calendars = {line["market"]: line["cal"] for line in csv.DictReader(curves)}
    figures = iter(pathlib.Path(sys.argv[3]).read_text().splitlines()) if mode in ("prices", "formulas") else None
    if mode != "ask":
        print("market,terms,after,yield" + "".join(f",{word},beside,bound" for word in ("least", "bpv", "duration", "convexity")))
    for line in sys.stdin.read().splitlines()[1:]:
        case = line.split(",")[:4]
        base = calendars[case[0]]
        flows = flows_of(model, model.calendars.one(model.calendars.Base(bases[base])), case[1])
        bond = Bond(flows, model.days.read_day(case[2].encode()), int(case[3]))
        if mode == "ask":
            print(f"{base}:{case[1].partition(':')[2]},{case[2]},{case[3]},{bond_measures.decimal(bond.asked, 6)}")
        elif mode == "derivatives":
            print(row(case, bond, bond.by_derivatives()))
        else:
            found = [D(word) for word in next(figures).split(",")]
            print(row(case, bond, bond.beside_prices(found) if mode == "prices" else bond.beside_formulas(found)))


if __name__ == "__main__":
    main()
