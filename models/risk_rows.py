#!/usr/bin/env python3
"""A plain model of the rows of `doqs risk` in whole numbers, written beside its manual and not after the code.

    models/risk_rows.py MODEL [--write] [FILE..]
    models/risk_rows.py MODEL --rows MARKET SIZE NAME..

MODEL is the folder of an independent model of the session, a package of Python that this repository does not have: it reads the
markets and computes each price from scratch. Compares the cases of the files, those of crates/script_vectors if none is named,
prints each that differs and how many agree, and ends with 1 if any differs. With `--write` the files get the model's rows. With
`--rows` it writes the rows of one run.
"""

import importlib
import pathlib
import sys

TOP = pathlib.Path(__file__).resolve().parent.parent
LIMIT, MOST_SIZE, MOST_PRICE, LAST_DAY = 10**18, 10**18, 10**24, 84_005


class Model:
    """The modules of the independent model."""

    def __init__(self, folder):
        folder = pathlib.Path(folder).resolve()
        sys.path.insert(0, str(folder.parent))
        for name in ("calendars", "cli", "config", "curves", "days", "fixed", "market", "outside", "pricing", "report", "session"):
            setattr(self, name, importlib.import_module(f"{folder.name}.{name}"))
        # the last of the formats that it knows
        self.config.set_stage(20)


def decimal(units):
    return f"{'-' if units < 0 else ''}{abs(units) // 10**6}.{abs(units) % 10**6:06d}"


def half(units):
    """Half of a whole number; of two nearest the one farther from 0."""
    size = (abs(units) + 1) // 2
    return -size if units < 0 else size


class Risk:
    """The rows of one run: a value is a whole number, or the words in its place."""

    def __init__(self, model, market, size):
        self.model, self.market, self.size = model, market, size
        self.state = model.session.State(market)
        self.first = {q: it.value for q, it in self.state.objs.items() if it.kind == "quote"}

    def cause(self, cause):
        return "refused " + self.model.report.cause_text(self.state, cause).decode()

    def fresh(self, o):
        self.state.changed_state()
        return self.state.fresh(o)

    def moved(self, o, quotes, shift):
        """The price where these quotes are moved."""
        if any(abs(self.first[q] + shift) > LIMIT for q in quotes):
            return "limit"
        for q in quotes:
            self.state.objs[q].value = self.first[q] + shift
        kind, found = self.fresh(o)
        for q in quotes:
            self.state.objs[q].value = self.first[q]
        return found if kind == "value" else self.cause(found)

    def figures(self, o, base, quotes):
        up, down = self.moved(o, quotes, self.size), self.moved(o, quotes, -self.size)
        if isinstance(up, str):
            return ("up " + up,) * 2
        if isinstance(down, str):
            return ("down " + down,) * 2
        return half(up - down), up + down - 2 * base

    # --- theta

    def tomorrow(self, o):
        it = self.state.objs[o]
        top = it.engine if it.kind in self.model.market.FLOWS and it.engine is not None else o
        curves = sorted(x for x in self.state.beneath(top) if self.state.objs[x].kind == "curve")
        day = self.state.today + 1
        while curves and day <= LAST_DAY and not self.state.objs[curves[0]].terms.cal.is_business(day):
            day += 1
        return day if day <= LAST_DAY else None

    def given(self, x):
        """The curve that an engine or an index gives, or none."""
        it = self.state.objs[x]
        kind, found = self.state.read_curve(it.curve if it.kind == "engine" else it.terms.curve)
        kind, found = self.fresh(found) if kind == "object" else (kind, found)
        return found if kind == "value" else None

    def paid(self, o, later):
        """What an instrument pays until a day: units, or the cause."""
        it, today = self.state.objs[o], self.state.today
        if it.kind == "composite":
            total = 0
            for member, weight in it.parts:
                due = self.paid(member, later)
                if isinstance(due, tuple):
                    return due
                total += weight * due
            return total if abs(total) <= MOST_PRICE else ("toolarge", o)
        if it.kind not in self.model.market.FLOWS or it.engine is None or all(flow.paid <= today for flow in it.flows):
            return 0
        curve = self.given(it.engine)
        if curve is None:
            return "unpriced", o
        self.state.today = later
        then = self.given(it.engine)
        self.state.today = today
        until = later if then is None else max(later, then.reference)
        index = forecast = None
        if it.index is not None:
            x = self.state.objs[it.index]
            index, forecast = self.model.pricing.IndexUse(it.index, x.terms, x.fixings), self.given(it.index)
            if forecast is None and self.model.pricing.needs_forecast(it.flows, x.fixings, today):
                return "unpriced", o
        try:
            flows = self.model.pricing.flow_amounts(it.flows, today, curve.reference, index, forecast, o)
        except self.model.curves.Refused as refused:
            return refused.cause
        total = sum(amount for day, amount in flows if day <= until)
        return total if abs(total) <= MOST_PRICE else ("toolarge", o)

    def theta(self, o, base):
        """The measure, the day, and the gain."""
        day = self.tomorrow(o)
        if day is None:
            return "theta", "", "limit"
        today, self.state.today = self.state.today, day
        kind, found = self.fresh(o)
        self.state.today = today
        label = self.model.days.text(day)
        if kind != "value":
            return "theta", label, "tomorrow " + self.cause(found)
        due = self.paid(o, day)
        return "theta", label, "paid " + self.cause(due) if isinstance(due, tuple) else found - base + due

    # --- rows

    def block(self, name):
        """The rows of a name: measure, quote, and value."""
        if name.encode() not in self.market.by_name:
            return [("value", "", "refused unknown")]
        o = self.market.by_name[name.encode()]
        if self.state.objs[o].kind not in self.model.market.INSTRUMENTS:
            return [("value", "", "refused kind")]
        kind, base = self.fresh(o)
        if kind != "value":
            return [("value", "", self.cause(base))]
        rows, deltas, below = [("value", "", base)], {}, self.state.beneath(o)
        label = lambda it: self.state.objs[it].name.decode()
        quotes = [q for q in sorted(self.first) if q in below]
        for q in quotes:
            deltas[q], gamma = ("unset",) * 2 if self.first[q] is None else self.figures(o, base, [q])
            rows += [("delta", label(q), deltas[q]), ("gamma", label(q), gamma)]
        for curve in sorted(x for x in below if self.state.objs[x].kind == "curve"):
            under = self.state.beneath(curve)
            group = [q for q in quotes if q in under]
            delta, gamma = self.figures(o, base, [q for q in group if self.first[q] is not None])
            parts = [deltas[q] for q in group if deltas[q] != "unset"]
            total = next((it for it in parts if isinstance(it, str)), None) or sum(parts)
            cross = delta if isinstance(delta, str) else total if isinstance(total, str) else delta - total
            rows += [("delta", label(curve), delta), ("gamma", label(curve), gamma), ("sum", label(curve), total), ("cross", label(curve), cross)]
        return rows + [self.theta(o, base)]

    def text(self, names):
        rows = [(name, *row) for name in names for row in self.block(name)]
        show = lambda value: value if isinstance(value, str) else decimal(value)
        return "name,measure,quote,value\n" + "".join(f"{name},{measure},{quote},{show(value)}\n" for name, measure, quote, value in rows)


def rows_of(model, shelf, words):
    """What a terminal shows of a run."""
    size = model.fixed.read_decimal(words[1].encode(), 9)[0] if len(words) > 2 else None
    if size is None or not 1 <= size <= MOST_SIZE or not model.cli.plain(words[0]) or not all(model.fixed.is_name(it.encode()) for it in words[2:]):
        return "doqs risk: usage\nusage: doqs risk MARKET SIZE NAME..\nexit 2\n"
    try:
        market = model.cli.load_market(shelf, words[0], "doqs risk")
    except model.cli.Status as status:
        help = f"desk_fault {words[0]} says in which line, and what would be taken\n" if status.code == 3 else ""
        return f"{status.line}\n{help}exit {status.code}\n"
    risk = Risk(model, market, size)
    # a name that stands for no instrument has its row, and its exit code
    wrong = any(risk.block(name)[0][2] in ("refused unknown", "refused kind") for name in words[2:])
    return risk.text(words[2:]) + ("doqs risk: refused\nexit 10\n" if wrong else "")


def case_of(model, given):
    words, files = given.split("\n")[1].split(" "), []
    for part in given.split("-- ")[1:]:
        path, _, text = part.partition("\n")
        files.append((path, text.encode()))
    return rows_of(model, model.outside.MemoryShelf(files, 4096), words)


def main(given):
    model, given = Model(given[0]), given[1:]
    if given[:1] == ["--rows"]:
        sys.stdout.write(rows_of(model, model.outside.FileShelf(), given[1:]))
        return 0
    write, files = "--write" in given, [it for it in given if it != "--write"]
    files = files or [TOP / "crates/script_vectors/data" / it for it in ("risk_by_hand", "risk_markets", "risk_faults")]
    wrong = 0
    for file in map(pathlib.Path, files):
        out, right = [], 0
        cases = file.read_text().split("==\n")
        for case in cases:
            before, line, shown = case.partition("-- shown\n")
            rows = case_of(model, before)
            right += rows == shown
            if rows != shown and not write:
                print(f"{file.name}: differs\n{before.splitlines()[0]}\n{rows}")
            out.append(before + line + rows)
        print(f"{file.name}: {right} of {len(cases)} agree")
        wrong += len(cases) - right
        if write:
            file.write_text("==\n".join(out))
    return 1 if wrong and not write else 0


if __name__ == "__main__":
    sys.exit(main(sys.argv[1:]))
