"""Where a fault of a market or of a script is, and what would be taken there. Of a market it is the first one; of a script it is
each, and each name in it that no run takes.

It reads the files itself, and needs no program and no extension.
"""

from __future__ import annotations

import os
import re
from typing import Optional

from ..errors import MarketFault, OpenFault, ScriptFault
from .market_text import MOST_BYTES, Fault, Market
from .names import Names
from .script_text import Script
from .shapes import shape_faults


# How many faults are told beside the first, and how many names.
MOST_TOLD = 100


class End(Exception):
    """How the reading ended: the status, the line on standard error, and what is said of it. `more` is what is said of
    the faults behind the first, and `names` what is said of names that no run takes, each a list of lines."""

    def __init__(self, status, line, said=(), key="", more=(), names=()):
        super().__init__(line)
        self.status, self.line, self.said, self.key = status, line, list(said), key
        self.more, self.names = list(more), list(names)

    def told(self):
        """The line on standard error, the status, and the text on standard output. Names alone end with 10."""
        text = "\n\n".join("\n".join(it) for it in (self.said, *self.more, *self.names))
        if not self.status and self.names:
            return "desk_fault: refused", 10, text
        return self.line, self.status, text


def read_file(path, role, why):
    """The bytes of a file, of which no more are read than show that it is too long."""
    shown = os.fsdecode(path)
    try:
        with open(path, "rb") as file:
            return file.read(MOST_BYTES + 1)
    except FileNotFoundError:
        said = [f"{shown}: there is no file with that path", *why]
        if not os.path.isabs(path):
            said.append(f"looked for from the folder {os.getcwd()}")
        raise End(8, f"desk: no file {role}", said) from None
    except (OSError, ValueError) as error:
        why = why + [f"what was answered: {getattr(error, 'strerror', None) or error}"]
        raise End(5, "desk: read fault", [f"{shown}: cannot be opened or read", *why]) from None


class Text:
    """A file as lines, for the words on a place in it. Places are characters of the market, and bytes of the other
    files."""

    def __init__(self, path, data, is_market):
        self.path = os.fsdecode(path)
        self.text = data.decode("utf-8", "replace") if is_market else data.decode("latin-1")
        self.is_market = is_market

    def marked(self, start, end):
        """The line and the column of a place, and the line with the place marked, a long one cut around it."""
        ends = [it.end() for it in re.finditer(r"\n" if self.is_market else r"\r\n|\r|\n", self.text[:start])]
        begins = ends[-1] if ends else 0
        line = re.split(r"[\r\n]", self.text[begins:], maxsplit=1)[0]
        if not self.is_market:
            line = re.sub(r"[^\t\x20-\x7e]", "?", line)
        column = start - begins
        width = max(1, min(end or start + 1, begins + len(line)) - start)
        cut = max(0, column - 60)
        shown = line[cut : cut + 110].replace("\t", " ").rstrip()
        marks = " " * (column - cut) + "^" * min(width, 110 - (column - cut))
        return len(ends) + 1, column + 1, [f"    {shown}", f"    {marks}"]


def told_of(fault, text, manual):
    """What is said of a fault after the line of the program."""
    said = [text.path]
    if fault.span:
        number, column, marked = text.marked(*fault.span)
        said = [f"{text.path}:{number}:{column}" + (f": {fault.where}" if fault.where else ""), *marked]
    word = f"{fault.word}: " if fault.word else ""
    said.append(f"found: {word}{fault.found}")
    return said + [f"taken: {fault.taken}", f'manual: {manual}, "{fault.manual}"']


def read_market(path):
    """Returns what was made of a market and the line of a check of it; else raises how it ended."""
    texts = {"market": (path, read_file(path, "market", []))}
    market = Market()
    try:
        data = {}
        for role, entry in zip(("quotes", "fixings"), market.top(texts["market"][1])):
            data[role] = None
            if entry:
                line = texts["market"][1].decode("utf-8").count("\n", 0, entry.start) + 1
                why = [f"named by `{role}` in line {line} of {os.fsdecode(path)}: a path is used as it is written"]
                table = entry.value.value.encode()
                data[role] = read_file(table, role, why)
                texts[role] = table, data[role]
                if len(data[role]) > MOST_BYTES:
                    raise market.whole(
                        role, role, "toolong", f"more than {MOST_BYTES:,} bytes",
                        f"a file of at most {MOST_BYTES:,} bytes",
                    )
        objects, fixings = market.rest(data["quotes"], data["fixings"])
        return market, f"market ok objects {objects} fixings {fixings}"
    except Fault as fault:
        text = Text(*texts[fault.file], fault.file == "market")
        said = told_of(fault, text, "docs/reference/market.md")
        raise End(3, f"desk: market {fault.section} {fault.entry} {fault.kind}", said, fault.word) from None


def told_all(faults, text, manual):
    """What is said of several faults, at most a hundred."""
    told = [told_of(it, text, manual) for it in faults[:MOST_TOLD]]
    return told + ([[f"and {len(faults) - MOST_TOLD} more"]] if len(faults) > MOST_TOLD else [])


def read_script(path, market, blocks):
    """How the reading of a script ended: with the line that it has this many commands, and what is said of its names.
    Else it raises. `blocks` says for which command it has a shape, if for one."""
    data = read_file(path, "script", [])
    text, manual = Text(path, data, False), "docs/reference/script.md"
    script = Script(market.things)
    try:
        count = script.read(data)
    except Fault as fault:
        more = told_all(script.faults[1:], text, manual)
        said = told_of(fault, text, manual)
        raise End(
            4, f"desk: script {fault.entry} {fault.kind}", said, more=more,
            names=told_all(Names(market, script.commands, script.wild).wrong, text, manual),
        ) from None
    if blocks:
        faults = shape_faults(blocks, script)
        if faults:
            first, *more = told_all(faults, text, "docs/reference/grid.md")
            raise End(9, f"doqs {blocks}: shape {faults[0].shape}", first, more=more)
    return f"script ok commands {count}", told_all(Names(market, script.commands, script.wild).wrong, text, manual)


def read(market_path, script_path=None, blocks=None):
    """Returns how the reading of the files ended. `blocks` is `grid` or `explain` where the script is one for these."""
    try:
        market, line = read_market(market_path)
        if script_path is None:
            return End(0, "", [line])
        said, names = read_script(script_path, market, blocks)
        return End(0, "", [line, said], names=names)
    except End as end:
        return end


def tables_of(text: bytes) -> "tuple[Optional[str], Optional[str]]":
    """The paths of the tables of quotes and of fixings that a market's text names."""
    quotes, fixings = (it.value.value if it else None for it in Market().top(text))
    return quotes, fixings


def located(fault: OpenFault, market: str, script: Optional[str] = None) -> OpenFault:
    """A fault with its file, its line and its key, where this reader finds the same one."""
    end = read(market, script)
    if end.line != f"desk: {fault.said}":
        return fault
    detail = "\n".join([fault.said, *end.said])
    place = re.match(r"(.+):(\d+):\d+(?:: .*)?\Z", end.said[0]) if end.said else None
    file, line = (place[1], int(place[2])) if place else (end.said[0] if end.said else None, None)
    if isinstance(fault, MarketFault):
        key = re.fullmatch(r"the key `(.+)`", end.key)
        return MarketFault(fault.section, fault.entry, fault.kind, detail, file, line, key[1] if key else None)
    if isinstance(fault, ScriptFault):
        return ScriptFault(fault.line, fault.kind, detail, file)
    return fault
