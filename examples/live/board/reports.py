"""What the commands of `doqs` write about a session, read for the page: why, curve, grid, explain."""

import subprocess
import tempfile
from decimal import Decimal
from pathlib import Path

from doqsheley import DeskError, Factor, Over, Price, ProgramFailed, Rejected, read
from doqsheley.faults.toml_text import read as read_toml
from doqsheley.programs import program

SECONDS = 30
PICTURES = {"discount": [], "zero": ["--zero"], "forward": ["--forward"], "par": ["--par"]}


def run(words, files, seconds=SECONDS):
    """What a command of `doqs` writes. `files` are texts by a name with an `@`, each put into a file of its own: such a name among the
    words becomes the file's path."""
    with tempfile.TemporaryDirectory(prefix="doqs-board-") as room:
        paths = {name: Path(room, name[1:]) for name in files}
        for name, text in files.items():
            made = text(room) if callable(text) else text
            paths[name].write_bytes(made if isinstance(made, bytes) else made.encode())
        call = [program(), *(str(paths.get(it, it)) for it in words)]
        pipe = subprocess.PIPE
        try:
            ran = subprocess.run(call, stdin=subprocess.DEVNULL, stdout=pipe, stderr=pipe, timeout=seconds)
        except FileNotFoundError:
            raise ProgramFailed(127, f"there is no program {call[0]}: DOQS names one") from None
        except subprocess.TimeoutExpired:
            raise ProgramFailed(124, f"doqs {words[0]} was stopped after {seconds} seconds") from None
    if ran.returncode:
        said = ran.stderr.decode(errors="replace").strip()
        raise ProgramFailed(ran.returncode, "; ".join(in_words(it) for it in said.splitlines()) or f"doqs ended with {ran.returncode}")
    return ran.stdout.decode()


def plain(value):
    """A decimal without zeros at its end."""
    text = f"{value:f}"
    return text.rstrip("0").rstrip(".") if "." in text else text


def in_words(line):
    """A line of a session for a reader: the amount with commas, the mark and the computations, or the reason in words."""
    try:
        return told(read(line))
    except (ValueError, IndexError, ArithmeticError):
        return line


def told(event):
    """What a session wrote, for a reader."""
    if isinstance(event, DeskError):
        return str(event)
    if isinstance(event, Over):
        return f"{event.name} has run eight times, and runs no more for this command"
    counted = f"{event.mark}, {event.runs} computed"
    if isinstance(event, Price):
        return f"{event.name} {event.value:,f} {counted}"
    if isinstance(event, Factor):
        return f"{event.name} {event.day} {event.value:f} {counted}"
    return f"{event.name} has {len(event.nodes)} nodes to {event.nodes[-1].day}, {counted}"


# why.


def read_why(text):
    """The objects of a `why`, each with its kind, mark, value and workings, in the order in which they are written."""
    first, *lines = text.splitlines()
    objects = {}
    for line in lines:
        name, word, *rest = line.split(" ")
        it = objects.get(name)
        if it is None:
            it = objects[name] = {"name": name, "kind": word}
            if word in ("quote", "today"):
                it["value"] = rest[-1]
            elif word in ("stock", "composite", "curve", "implied", "flows"):
                it["mark"] = rest[0]
                it["value"] = in_words(f"{name} {' '.join(rest[1:])} 0") if rest[1] == "refused" else rest[1]
                it["is_refused"] = rest[1] == "refused"
            elif word == "day":
                it.update(kind="today", value=rest[0])
            else:
                it["sees"] = rest
        elif word == "part":
            it.setdefault("parts", []).append(dict(zip(("weight", "member", "value", "product"), rest)))
        elif word == "node":
            it.setdefault("nodes", []).append(dict(zip(("day", "discount", "quote", "rate"), rest)))
        elif word == "flow":
            flow = dict(zip(("paid", "amount", "discount", "product"), rest))
            if rest[4:5] == ["fixing"]:
                flow["fixing"] = {"day": rest[5], "rate": rest[6]}
            it.setdefault("flows", []).append(flow)
        elif word in ("sum", "source"):
            it[word] = rest[0]
    return {"asked": in_words(first), "objects": list(objects.values())}


# What was paid between two scripts.


def explain_script(before, now, names):
    """The script of an `explain` with a step `before` and a step `now`, of these moves each."""
    blocks = [("before", before), ("now", now)]
    script = "".join(f"action {name}\n" + "".join(f"{it}\n" for it in lines) + "end\n" for name, lines in blocks)
    return script + "".join(f"ask {it}\n" for it in names)


def read_paid(text):
    """The payments of the step `now` by name, where the lines of an `explain` have them."""
    found = {}
    for line in text.splitlines():
        words = line.split(" ")
        if len(words) == 7 and words[0] == "explain" and words[2:4] == ["now", "gain"] and words[5] == "paid":
            found[words[1]] = None if words[6] == "limit" else Decimal(words[6])
    return found


def all_script(script, names, kinds):
    """A script with a composite of all the names at its end, and the composite's name."""
    made = next(it for it in (f"all_{number}" for number in range(1 << 20)) if it not in kinds)
    lines = [*(f"ask {it}" for it in names), f"composite {made}", *(f"member {made} {it} 1" for it in names)]
    return script + "".join(f"{it}\n" for it in lines), made


def paid_by_flows(before, now, name, today):
    """What was paid to an object between two states of `why`, or None where its workings are not known.

    The flows that counted then and do not count now, at the amounts of then, less those that came back, at the amounts of now.
    """
    then = before.get(name)
    if then is None or then.get("is_refused") or then.get("mark") in ("frozen", "late"):
        return None
    if then["kind"] == "stock":
        return Decimal(0)
    if then["kind"] == "composite":
        paid = Decimal(0)
        for part in then.get("parts", ()):
            of_member = paid_by_flows(before, now, part["member"], today)
            if of_member is None:
                return None
            paid += Decimal(part["weight"]) * of_member
        return paid
    after = now.get(name)
    if after is not None and after.get("mark") in ("frozen", "late"):
        return None
    flows = then.get("flows", [])
    if after is None or after.get("is_refused"):
        return sum((Decimal(it["amount"]) for it in flows if it["paid"] <= today), Decimal(0))
    back = after.get("flows", [])
    days_then, days_now = {it["paid"] for it in flows}, {it["paid"] for it in back}
    left = sum((Decimal(it["amount"]) for it in flows if it["paid"] not in days_now), Decimal(0))
    return left - sum((Decimal(it["amount"]) for it in back if it["paid"] not in days_then), Decimal(0))


# Pictures of curves over the market of now.


def market_of_now(text, quotes_path, day, links):
    """The text of a market with this day, this table of quotes and these targets of handles."""
    root = read_toml(text)
    places = [(root.value["today"].value, f'"{day}"')]
    if "quotes" in root.value:
        places.append((root.value["quotes"].value, f'"{quotes_path}"'))
    tables = root.value["object"].value.value if "object" in root.value else []
    for table in tables:
        keys = {key: entry.value for key, entry in table.value.items()}
        if keys["kind"].value == "handle" and keys["name"].value in links and "to" in keys:
            places.append((keys["to"], f'"{links[keys["name"].value]}"'))
    for value, new in sorted(places, key=lambda it: it[0].start, reverse=True):
        text = text[: value.start] + new + text[value.end :]
    return text


def table_of_quotes(quotes):
    rows = [f"{name},{'' if value is None else format(value, 'f')}" for name, value in quotes.items()]
    return "\n".join(["name,value", *rows, ""])


# Grids.


def grid_script(moves, script):
    """The script of a grid whose scenarios begin with the moves of now, and whose first one, `now`, has these moves alone."""
    lines = ["action now", *moves, "end"]
    for line in script.splitlines():
        lines.append(line)
        if line.partition("#")[0].split()[:1] == ["action"]:
            lines += moves
    return "".join(f"{it}\n" for it in lines)


def asked_in(script):
    """The names that a script of a grid asks for."""
    words = [line.partition("#")[0].split() for line in script.splitlines()]
    return [it[1] for it in words if len(it) == 2 and it[0] == "ask"]


def read_grid(text, names):
    """The scenarios of a grid with a cell for each name, the moves that were refused, and where each name is worst.

    The scenario `base`, the market as its file has it, is left out, of the worst too: `now` takes its place.
    """
    scenarios = []
    for line in text.splitlines():
        words = line.split(" ")
        if words[0] == "scenario" and len(words) == 2:
            scenarios.append({"name": words[1], "cells": [], "refused": []})
            continue
        last = scenarios[-1]
        if len(last["cells"]) == len(names):
            break  # the lines of the worst follow, over `base` too
        event = read(line)
        if isinstance(event, Rejected) and event.word != "ask":
            last["refused"].append(str(event))
        elif isinstance(event, Price):
            last["cells"].append({"value": f"{event.value:f}", "mark": event.mark})
        elif isinstance(event, DeskError):
            last["cells"].append({"why": str(event).partition(": ")[2]})
        else:
            last["cells"].append({"why": "a curve"})
    scenarios = [it for it in scenarios if it["name"] != "base"]
    worst = []
    for at in range(len(names)):
        money = [(Decimal(it["cells"][at]["value"]), number) for number, it in enumerate(scenarios) if "value" in it["cells"][at]]
        worst.append(min(money)[1] if money else None)
    return {"names": names, "scenarios": scenarios, "worst": worst}


def proposed(rates, quotes, names):
    """Scenarios over these quotes: rates up, down and steeper, and the other quotes up and down by a tenth."""
    rates = [it for it in quotes if it in rates and quotes[it] is not None]
    others = [it for it in quotes if it not in rates and quotes[it] is not None]
    lines = []

    def block(name, moved):
        if moved:
            lines.extend(["", f"action {name}", *(f"set {it} {plain(value)}" for it, value in moved), "end"])

    for name, points in (("rates_up", 10), ("rates_down", -10)):
        block(name, [(it, quotes[it] + Decimal(points).scaleb(-4)) for it in rates])
    steps = [Decimal(round(20 * at / max(1, len(rates) - 1)) - 10).scaleb(-4) for at in range(len(rates))]
    block("steeper", [(it, quotes[it] + step) for it, step in zip(rates, steps)])
    for name, factor in (("others_up", "1.1"), ("others_down", "0.9")):
        block(name, [(it, (quotes[it] * Decimal(factor)).quantize(Decimal("1e-9"))) for it in others])
    head = "# Each action is a scenario over the market of now, and each ask a column. Change them as you like."
    return "\n".join([head, *lines, "", *(f"ask {it}" for it in names[:8]), ""])
