#!/usr/bin/env python3
"""A plain model of the lines of `doqs measure`, written beside the definitions and not after the code.

    models/bond_measures.py MODEL < CASES

MODEL is the folder of an independent model of markets and yields, a package of Python that this repository does not have. CASES are those of
crates/script_vectors of `doqs yield`; writes them with the lines of `doqs measure`.
"""

import importlib
import pathlib
import re
import sys
import types

STEP = 10**5
MOST = 10**10
LARGEST = 10**22


def nearest(top, bottom):
    size = (2 * abs(top) + bottom) // (2 * bottom)
    return -size if top < 0 else size


def price(flows, settle, y):
    """The full price in units: each flow over what 1 has grown to, from one payment to the next, rounded down, and the sum once."""
    day, factor, total = settle, 10**12, 0
    for flow in flows:
        if flow.paid > settle:
            whole = 10**9 * 11_221_560
            factor = factor * whole // (whole + y * (flow.paid - day) * 30_744)
            total += flow.amount * factor
            day = flow.paid
    return nearest(total, 10**12)


def measures(name, flows, settle, y):
    here = price(flows, settle, y)
    high = y + STEP > MOST
    fault = "worthless" if here <= 0 else "low" if y < STEP else "high" if high else None
    lines = [f"{name} refused bpv high" if high else f"{name} bpv {decimal(price(flows, settle, y + STEP) - here, 6)}"]
    for word in ("duration", "convexity"):
        if fault:
            lines.append(f"{name} refused {word} {fault}")
            continue
        below, above = price(flows, settle, y - STEP), price(flows, settle, y + STEP)
        if word == "duration":
            lines.append(f"{name} duration {decimal(nearest((below - above) * 10**13, 2 * here), 9)}")
        else:
            lines.append(f"{name} convexity {nearest((below + above - 2 * here) * 10**8, here)}")
    return "".join(line + "\n" for line in lines)


def discounted(model, flows, settle, curve):
    """The flows by the curve alone: what is paid after the day, each amount times its factor, divided by that of the day and rounded once."""
    base = model.curves.disc(curve, settle)
    out = []
    for flow in flows:
        if flow.paid > settle:
            amount = nearest(flow.amount * model.curves.disc(curve, flow.paid), base)
            if amount > LARGEST:
                return None
            out.append(types.SimpleNamespace(paid=flow.paid, amount=amount))
    return out


def spread(model, market, bond, settle, full):
    """What is written of the spread behind the name: the least that meets the full price, over the curve of the bond's engine in a market priced afresh."""
    state = model.session.State(market)
    if bond.engine is None:
        return "refused spread noengine"
    kind, found = state.read_curve(state.objs[bond.engine].curve)
    if kind == "object":
        kind, found = state.fresh(found)
    if kind != "value":
        return "refused spread " + model.report.cause_text(state, found).decode()
    try:
        flows = discounted(model, bond.flows, settle, found)
    except model.curves.Refused as refused:
        return "refused spread " + model.report.cause_text(state, refused.cause).decode()
    if flows is None:
        return "refused spread toolarge"
    low, high = 0, MOST
    if full > price(flows, settle, low):
        return f"refused spread above {decimal(price(flows, settle, low), 6)}"
    if full < price(flows, settle, high):
        return f"refused spread below {decimal(price(flows, settle, high), 6)}"
    while low < high:
        middle = (low + high) // 2
        if price(flows, settle, middle) <= full:
            high = middle
        else:
            low = middle + 1
    return f"spread {decimal(high, 9)}"


def decimal(units, places):
    sign = "-" if units < 0 else ""
    return f"{sign}{abs(units) // 10**places}.{abs(units) % 10**places:0{places}d}"


def refused(status, words):
    """The lines on standard error of a status, with what helps, and its exit code."""
    helps = {2: "usage: doqs measure MARKET NAME DAY PRICE\n"}
    helps[3] = f"desk_fault {''.join(words[:1])} says in which line, and what would be taken\n"
    return f"{status.line.replace('desk_yield', 'doqs measure')}\n{helps.get(status.code, '')}exit {status.code}\n"


def shown(model, given):
    """What a terminal shows of a case: the words and the files, by the model, with the measures behind a yield."""
    words = given.split("\n")[1].split(" ")
    files = []
    for part in given.split("-- ")[1:]:
        path, _, text = part.partition("\n")
        filled = re.search(r"\\\+(\d+)\s*$", text)
        if filled:
            front = text[: filled.start()]
            text = front + "\n" * (int(filled[1]) - len(front.encode()))
        files.append((path, text.encode()))
    shelf, sink = model.outside.MemoryShelf(files, 4096), model.outside.MemorySink(10**6, 4096)
    try:
        model.tools.yield_tool(words, shelf, sink)
    except model.cli.Status as status:
        return refused(status, words)
    text = bytes(sink.bytes).decode().replace("refused yield ", "refused measure ")
    found = re.search(r"^(\w+) yield (\d+)\.(\d{9})\n", text, re.M)
    if not found:
        return text
    market = model.cli.load_market(model.outside.MemoryShelf(files, 4096), words[0], "doqs measure")
    bond = market.made[market.by_name[words[1].encode()]]
    settle = model.days.read_day(words[2].encode())
    full = int(re.search(r"^\w+ full (-?\d+\.\d{6})\n", text, re.M)[1].replace(".", ""))
    text += measures(found[1], bond.flows, settle, int(found[2] + found[3]))
    return f"{text}{found[1]} {spread(model, market, bond, settle, full)}\n"


class Model:
    """The modules of the independent model."""

    def __init__(self, folder):
        folder = pathlib.Path(folder).resolve()
        sys.path.insert(0, str(folder.parent))
        for name in ("cli", "config", "curves", "days", "outside", "report", "session", "tools"):
            setattr(self, name, importlib.import_module(f"{folder.name}.{name}"))
        # the last of the formats that it knows
        self.config.set_stage(20)


def main():
    model = Model(sys.argv[1])
    out = []
    for case in sys.stdin.read().split("==\n"):
        given = case.partition("-- shown\n")[0]
        out.append(given + "-- shown\n" + shown(model, given))
    sys.stdout.write("==\n".join(out))


if __name__ == "__main__":
    main()
