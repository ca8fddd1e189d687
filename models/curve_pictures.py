#!/usr/bin/env python3
"""A plain model of the texts of `doqs curve`, written beside the definitions and not after the code.

    models/curve_pictures.py [--csv] [--zero | --forward | --par] DAY < TRANSCRIPT

DAY is the market's day. TRANSCRIPT has the line of an ask for each curve, as `NAME curve DAY FACTOR DAY FACTOR .. MARK N` or
`NAME refused CAUSE N`. For --par it has a line `NAME helper RATE DAY PARTS DAY PARTS ..` for each helper of a curve, in order: its quote, and the day and
the parts of a year (of 11,221,560) of each coupon. Writes the picture (or with --csv the table); or to standard error the lines of the curves that are refused and
that of the status, and ends with 10.
"""

import datetime
import sys
from decimal import Decimal

COLOURS = "1f77b4 d62728 2ca02c ff7f0e 9467bd 8c564b e377c2 17becf".split()


def day(text):
    return datetime.date.fromisoformat(text)


def hundredths(n):
    return f"{n // 100}.{n % 100:02d}"


def read(lines):
    """The curves of a transcript, the helpers of each by its name, and the lines of the curves that are refused."""
    curves, helpers, refused = [], {}, []
    for line in lines:
        words = line.split()
        if words[1] == "refused":
            refused.append(" ".join(words[:-1]))
        elif words[1] == "helper":
            coupons = [(day(d), int(p)) for d, p in zip(words[3::2], words[4::2])]
            helpers.setdefault(words[0], []).append((int(Decimal(words[2]) * 10**9), coupons))
        else:
            pairs = words[2:-2]
            points = [(day(d), int(Decimal(f) * 10**12)) for d, f in zip(pairs[::2], pairs[1::2])]
            curves.append((words[0], points))
    return curves, helpers, refused


def decimal(units, places):
    sign = "-" if units < 0 else ""
    whole, rest = divmod(abs(units), 10**places)
    return f"{sign}{whole}" + (f".{rest:0{places}d}" if places else "")


# ---- rates


def nearest(top, bottom):
    """The quotient, rounded to the nearest, a half away from zero."""
    size = (2 * abs(top) + bottom) // (2 * bottom)
    return -size if top < 0 else size


def later(day, months):
    """The day so many months later: the same day of that month, or its last one where it is shorter."""
    years, month = divmod(day.month - 1 + months, 12)
    for last in range(day.day, 0, -1):
        try:
            return datetime.date(day.year + years, month + 1, last)
        except ValueError:
            pass


def discount(points, day):
    for (a, first), (b, last) in zip(points, points[1:]):
        if a <= day <= b:
            return nearest(first * (b - day).days + last * (day - a).days, (b - a).days)


def rate(points, a, b):
    first, last = discount(points, a), discount(points, b)
    return nearest((first - last) * 10**9 * 11_221_560, last * 30_744 * (b - a).days)


def rates(points, plot):
    """The rates of a curve with the days from which and until which they are; None where one is beyond 10 either way."""
    begin, end = points[0][0], points[-1][0]
    found, last, months = [], begin, 0
    while last < end:
        months += 1 if plot == "zero" else 3
        until = min(later(begin, months), end)
        start = begin if plot == "zero" else last
        units = rate(points, start, until)
        if abs(units) > 10**10:
            return None
        found.append((start, until, units))
        last = until
    return found


def pars(points, helpers):
    """The par rates of helpers with their ends and quotes; None where one, or a quote, is beyond 10 either way."""
    found = []
    for quote, coupons in helpers:
        end = coupons[-1][0]
        worth = sum(parts * discount(points, day) for day, parts in coupons)
        units = nearest((10**12 - discount(points, end)) * 10**9 * 11_221_560, worth) if worth else None
        if worth == 0 or abs(units) > 10**10 or abs(quote) > 10**10:
            return None
        found.append((end, quote, units))
    return found


# ---- the texts

HEADINGS = {"factor": "curve,day,discount", "zero": "curve,day,zero", "forward": "curve,from,until,forward", "par": "curve,day,quoted,par,residual"}
TITLES = {"factor": "Discount factors", "zero": "Simple zero rates", "forward": "Simple forward rates over three months", "par": "Par rates of the helpers"}


def lines_of(curves, helpers, plot):
    """The points of each curve as the days from which and until which their values are, and these; of a par rate its quote and not a first day."""
    if plot == "factor":
        return [(name, [(d, d, f) for d, f in points]) for name, points in curves]
    if plot == "par":
        lines = [(name, pars(points, helpers.get(name, []))) for name, points in curves]
        return [(name, line and [(quote, end, units) for end, quote, units in line]) for name, line in lines]
    return [(name, rates(points, plot)) for name, points in curves]


def said(plot, point, separator):
    start, until, units = point
    if plot == "par":
        return separator.join([until.isoformat(), decimal(start, 9), decimal(units, 9), decimal(units - start, 9)])
    days = [start.isoformat()] if plot == "forward" else []
    return separator.join(days + [until.isoformat(), decimal(units, 12 if plot == "factor" else 9)])


def table(lines, plot):
    rows = [HEADINGS[plot]]
    for name, points in lines:
        rows += [name + "," + said(plot, point, ",") for point in points]
    return "".join(row + "\n" for row in rows)


def picture(today, lines, plot):
    corners = []
    for _, points in lines:
        for start, until, units in points:
            corners += [(start, units)] if plot == "forward" else []
            corners.append((until, units))
    first = min([today] + [d for d, _ in corners])
    span = max([1] + [abs((d - first).days) for d, _ in corners])
    reached = [10**12] if plot == "factor" else [] if corners else [0]
    lowest = min(reached + [f for _, f in corners])
    highest = max(reached + [f for _, f in corners])
    # the least step of 1, 2 or 5 times a power of ten of which ten reach from the lowest to the highest
    units = 12 if plot == "factor" else 9
    steps = [(m * 10**e, max(0, units - e)) for e in range(5, 12) for m in (1, 2, 5)]
    step, places = next(s for s in steps if 10 * s[0] >= highest - lowest or s == steps[-1])
    low = lowest // step * step
    top = max(-(-highest // step) * step, low + step)
    rise = top - low
    # days where ten steps of a hundred reach the end, else years; the length of one in hundredths of a day
    unit, of = (100, "days") if span <= 1000 else (36525, "years of 365.25 days")
    stride = next(n for n in (1, 2, 5, 10, 20, 50, 100) if 10 * n * unit >= 100 * span)

    def x(d):
        return 7000 + 70000 * abs((d - first).days) // span

    def y(f):
        return 40000 - 35000 * max(0, f - low) // rise

    out = [
        "<svg xmlns='http://www.w3.org/2000/svg' width='800' height='520' viewBox='0 0 800 520' font-family='sans-serif' font-size='12'>",
        "<rect width='800' height='520' fill='white'/>",
        f"<text x='70' y='32' font-size='18'>{TITLES[plot]} on {today}</text>",
        f"<text x='420' y='436' text-anchor='middle'>{of} from {first}</text>",
    ]
    for count in range(0, 11 * stride, stride):
        if count * unit > span * 100:
            break
        at = hundredths(7000 + 70000 * count * unit // (span * 100))
        out.append(f"<path d='M{at} 50V400' stroke='#dddddd'/>")
        out.append(f"<text x='{at}' y='418' text-anchor='middle'>{count}</text>")
    for value in range(low, top + 1, step):
        at = hundredths(40000 - 35000 * (value - low) // rise)
        label = decimal(value // 10 ** (units - places), places)
        out.append(f"<path d='M70 {at}H770' stroke='#dddddd'/>")
        out.append(f"<text x='64' y='{at}' dy='4' text-anchor='end'>{label}</text>")
    out.append("<rect x='70' y='50' width='700' height='350' fill='none' stroke='#666666'/>")
    for k, (name, points) in enumerate(lines):
        colour = "#" + COLOURS[k % 8]
        out.append(f"<g stroke='{colour}' fill='{colour}'>")
        line = ""
        for start, until, value in points:
            for d in [start, until] if plot == "forward" else [until]:
                line += f" {hundredths(x(d))},{hundredths(y(value))}"
        out.append(f"<polyline fill='none' stroke-width='2' points='{line}'/>")
        for point in points:
            a, b = hundredths(x(point[0] if plot == "forward" else point[1])), hundredths(y(point[2]))
            radius = "1.5" if plot in ("zero", "forward") else "3"
            out.append(f"<circle cx='{a}' cy='{b}' r='{radius}'><title>{said(plot, point, ' ')}</title></circle>")
        left, foot = 7000 + 35000 * (k % 2), 45600 + 1600 * (k // 2)
        out.append(f"<path stroke-width='2' d='M{hundredths(left)} {hundredths(foot)}h24'/>")
        out.append(f"<text stroke='none' fill='black' dy='4' x='{hundredths(left + 3200)}' y='{hundredths(foot)}'>{name}</text>")
        out.append("</g>")
    out.append("</svg>")
    return "".join(line + "\n" for line in out)


def shown(today, curves, helpers, plot, as_table):
    """The text of curves, or the lines of those of which a rate is refused."""
    lines = lines_of(curves, helpers, plot)
    refused = [f"{name} refused raterange {name}" for name, points in lines if points is None]
    return "" if refused else table(lines, plot) if as_table else picture(today, lines, plot), refused


def main():
    words = sys.argv[1:]
    as_table = words[:1] == ["--csv"]
    plot = {"--zero": "zero", "--forward": "forward", "--par": "par"}.get(words[as_table], "factor")
    today = day(words[-1])
    curves, helpers, refused = read(line for line in sys.stdin if line.strip())
    text, refused = ("", refused) if refused else shown(today, curves, helpers, plot, as_table)
    sys.stdout.write(text)
    if refused:
        sys.stderr.write("".join(line + "\n" for line in [*refused, "doqs curve: refused"]))
        sys.exit(10)


if __name__ == "__main__":
    main()
