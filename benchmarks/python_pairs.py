#!/usr/bin/env python3
"""Times the Python package beside QuantLib-Python: an import, and pairs of setting a quote and asking for a price.

    apt-get install quantlib-python                              # QuantLib 1.29 on Debian 12, for /usr/bin/python3
    checks/python_package --wheel DIR                            # builds the package over the proved library
    /usr/bin/python3 -m venv --system-site-packages ENV && ENV/bin/pip install --no-index DIR/*.whl
    ENV/bin/python benchmarks/python_pairs.py

Each pair is timed in turns with QuantLib's, and the least of nine turns counts, in microseconds of processor. It prints the package's figure,
QuantLib's, and the ratio. It ends with 1 where the import takes more than 60 milliseconds, a pair of whole numbers or of the book more than
QuantLib's, a pair with a Decimal more than 2.5 microseconds, or where the two books differ by more than a ten-thousandth: their curves are of two sorts.
"""
import os
import platform
import subprocess
import sys
import time
from datetime import date
from decimal import Decimal
from pathlib import Path

TOP = Path(__file__).resolve().parent.parent
TURNS = 9


def imported(module):
    """The least of the milliseconds of an import, in a process of its own each."""
    code = f"import time; began = time.perf_counter(); import {module}; print(time.perf_counter() - began)"
    took = [float(subprocess.run([sys.executable, "-c", code], stdout=subprocess.PIPE, check=True).stdout) for _ in range(2 * TURNS)]
    return min(took) * 1e3, sorted(took)[TURNS] * 1e3


def timed(ours, theirs, count):
    """The least of the microseconds of each, in turns."""
    def once(pairs):
        began = time.process_time()
        pairs(count)
        return (time.process_time() - began) / count * 1e6

    took = [(once(ours), once(theirs)) for _ in range(TURNS)]
    return min(it[0] for it in took), min(it[1] for it in took)


def quantlib_book(ql):
    """The quotes, the share and the book of examples/desk in QuantLib. Its module for Python has no curve with straight lines between the
    discount factors, so there are straight lines between their logarithms."""
    ql.Settings.instance().evaluationDate = ql.Date(15, 1, 2024)
    ql.IborCoupon.createIndexedCoupons()
    target, modified = ql.TARGET(), ql.ModifiedFollowing
    rates = dict(line.split(",") for line in (TOP / "examples/desk/quotes.csv").read_text().split()[1:])
    quotes = {name: ql.SimpleQuote(float(value)) for name, value in rates.items()}
    helpers = [
        ql.DepositRateHelper(ql.QuoteHandle(quotes[name]), ql.Period(tenor), 2, target, ql.Following if tenor == "1W" else modified, False, ql.Actual360())
        for name, tenor in [("d1w", "1W"), ("d1m", "1M"), ("d2m", "2M"), ("d3m", "3M"), ("d6m", "6M"), ("d9m", "9M")]
    ]
    inner = ql.IborIndex("y", ql.Period("6M"), 2, ql.EURCurrency(), target, modified, False, ql.Actual360())
    for name in ("s1", "s2", "s3", "s5", "s7", "s10", "s15", "s20"):
        helpers.append(ql.SwapRateHelper(
            ql.QuoteHandle(quotes[name]), ql.Period(name[1:] + "Y"), target, ql.Annual, modified, ql.Thirty360(ql.Thirty360.BondBasis), inner,
            ql.QuoteHandle(), ql.Period(0, ql.Days), ql.YieldTermStructureHandle(), 2, ql.Pillar.MaturityDate, ql.Date(), False, False,
        ))
    handle = ql.YieldTermStructureHandle(ql.PiecewiseLogLinearDiscount(2, target, helpers, ql.Actual365Fixed()))
    index = ql.IborIndex("x", ql.Period("6M"), 2, ql.EURCurrency(), target, modified, True, ql.Actual360(), handle)
    for line in (TOP / "examples/desk/fixings.csv").read_text().split()[1:]:
        _, day, rate = line.split(",")
        index.addFixing(ql.DateParser.parseISO(day), float(rate))

    def schedule(start, end, every, convention):
        return ql.Schedule(ql.DateParser.parseISO(start), ql.DateParser.parseISO(end), ql.Period(every), target, convention, convention,
                           ql.DateGeneration.Backward, False)

    state = ql.FixedRateBond(2, 1e6, schedule("2021-02-15", "2031-02-15", "1Y", ql.Unadjusted), [0.025], ql.ActualActual(ql.ActualActual.ISDA))
    floater = ql.FloatingRateBond(2, 1e6, schedule("2023-07-04", "2026-07-04", "6M", modified), index, ql.Actual360(), modified, 2, [1.0], [0.0015])
    payer = ql.VanillaSwap(ql.VanillaSwap.Payer, 5e6, schedule("2023-10-16", "2028-10-16", "1Y", modified), 0.0265,
                           ql.Thirty360(ql.Thirty360.BondBasis), schedule("2023-10-16", "2028-10-16", "6M", modified), index, 0.0, ql.Actual360())
    spring = ql.ForwardRateAgreement(ql.Date(15, 5, 2024), ql.Position.Long, 0.0355, 1e7, index, handle)
    for it in (state, floater):
        it.setPricingEngine(ql.DiscountingBondEngine(handle))
    payer.setPricingEngine(ql.DiscountingSwapEngine(handle))
    book = ql.CompositeInstrument()
    share = ql.Stock(ql.QuoteHandle(quotes["acme"]))
    parts = [(state, 3), (floater, 2), (payer, 1), (spring, -1), (share, 10000)]
    for it, weight in parts:
        book.add(it, weight)
    return quotes, share, book


def main():
    machine = next((line.split(":")[1].strip() for line in open("/proc/cpuinfo") if line.startswith("model name")), platform.machine())
    print(f"{machine}, {os.cpu_count()} processors, {date.today()}, Python {platform.python_version()}")
    least, middle = imported("doqsheley")
    theirs, their_middle = imported("QuantLib")
    print(f"import: {least:.1f} ms (median {middle:.1f}), QuantLib {theirs:.1f} ms (median {their_middle:.1f}), ratio {least / theirs:.2f}")
    failed = least > 60

    import doqsheley
    import QuantLib as ql

    print(f"doqsheley {doqsheley.__version__}, {doqsheley.build()}; QuantLib {ql.__version__}")
    os.chdir(TOP / "examples/desk")
    quotes, share, book = quantlib_book(ql)
    acme, five = quotes["acme"], quotes["s5"]
    floats = [41 + number / 8 for number in range(64)]
    decimals, texts = [Decimal(it) for it in floats], [str(it) for it in floats]
    rates = [0.025 + number / 2**20 for number in range(64)]
    rates = [float(f"{it:.6f}") for it in rates]
    with doqsheley.Session("market.toml") as desk:
        ours = float(desk.ask("book").value)
        print(f"the book: {ours:.2f}, QuantLib {book.NPV():.2f}")
        failed |= abs(book.NPV() / ours - 1) > 1e-4

        def pairs_of(values):
            def run(count):
                for number in range(count):
                    desk.set("acme", values[number & 63])
                    desk.ask("share")
            return run

        def their_pairs(count):
            for number in range(count):
                acme.setValue(floats[number & 63])
                share.NPV()

        def whole_pairs(count):
            for number in range(count):
                desk.set("acme", number & 63)
                desk.ask_units("share")

        ours, theirs = timed(whole_pairs, their_pairs, 20000)
        print(f"a pair of a share, whole numbers: {ours:.2f} microseconds, QuantLib {theirs:.2f}, ratio {ours / theirs:.2f}")
        failed |= ours > theirs
        for name, values in (("floats", floats), ("integers", list(range(64))), ("Decimals", decimals), ("texts", texts)):
            ours, theirs = timed(pairs_of(values), their_pairs, 20000)
            print(f"a pair of a share with a Decimal, from {name}: {ours:.2f} microseconds, QuantLib {theirs:.2f}, ratio {ours / theirs:.2f}")
            failed |= ours > 2.5

        def book_pairs(count):
            for number in range(count):
                desk.set("s5", rates[number & 63])
                desk.ask("book")

        def their_book_pairs(count):
            for number in range(count):
                five.setValue(rates[number & 63])
                book.NPV()

        ours, theirs = timed(book_pairs, their_book_pairs, 100)
        print(f"a pair of a book over a curve: {ours:.1f} microseconds, QuantLib {theirs:.1f}, ratio {ours / theirs:.4f}")
        failed |= ours > theirs
    return 1 if failed else 0


if __name__ == "__main__":
    sys.exit(main())
