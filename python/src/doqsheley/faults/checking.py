"""Compares the reader of faults with rows: its own, of what is said whole, and those of the gate's programs, of the
first fault."""
import os
import re
import sys
import tempfile
from pathlib import Path

from .csv_text import records
from .market_text import CALENDARS, MOST_BYTES, OBJECTS, Fault, Market
from .script_text import COMMAND, Script

MARKETS = ["top", "lengths", "calendars", "quotes", "objects", "curves", "instruments", "fixings", "versions"]
ONE_VERSION = ("top", "lengths", "versions")
SCRIPTS = ["faults", "scripts", "refused", "unset", "graphs", "handles"]
TWO_LINES = b'version = 1\ntoday = "2024-01-02"\n'
FAULT = re.compile(r"(?:top|calendars|quotes|objects|fixings) \d+ [a-z]+")


def decoded(text):
    """The bytes of a row's text, in which `\\x` and two digits are a byte, `\\+N` newlines up to N bytes, `\\=N;` N
    records of quotes."""
    front, *parts = text.split("\\")
    out = bytearray(front.encode())
    for part in parts:
        if part[0] == "x":
            out += bytes([int(part[1:3], 16)]) + part[3:].encode()
        elif part[0] == "+":
            out += b"\n" * (int(re.match(r"\d+", part[1:])[0]) - len(out))
        else:
            count, rest = part[1:].split(";", 1)
            out += b"".join(b"q%d,\n" % it for it in range(1, int(count) + 1)) + rest.encode()
    return bytes(out)


def lines_of(path):
    return path.read_bytes().decode()


def market_fault(market, quotes, fixings):
    """The first fault of a market, or `ok`."""
    reader = Market()
    try:
        paths = reader.top(market)
        tables = [data if path else None for data, path in zip((quotes, fixings), paths)]
        for section, data in zip(("quotes", "fixings"), tables):
            if data is not None and len(data) > MOST_BYTES:
                return f"{section} 0 toolong"
        reader.rest(*tables)
    except Fault as fault:
        return f"{fault.section} {fault.entry} {fault.kind}"
    return "ok"


def gate_markets(top):
    """The market files of price_vectors: what each shows, the first fault that is wanted, and the files."""
    data = top / "crates" / "price_vectors" / "data" / "market_files"
    for file in MARKETS:
        for case in lines_of(data / file).split("==\n"):
            title, case = case.split("\n", 1)
            *texts, answer = case.split("--\n", 3)
            last = answer.rstrip("\n").split("\n")[-1]
            wanted = last if FAULT.fullmatch(last) else "ok"
            for later in (False,) if file in ONE_VERSION else (False, True):
                market = texts[0].replace("version = 1\n", "version = 2\n", 1) if later else texts[0]
                yield f"{file}: {title}", wanted, decoded(market), decoded(texts[1]), decoded(texts[2])
    whole = lines_of(data / "whole").encode()
    for cut, answer in enumerate(lines_of(data / "cuts").splitlines()):
        wanted = answer if FAULT.fullmatch(answer) else "ok"
        yield f"cut after {cut}", wanted, whole[:cut], b"name,value\nr,0.036\n", b""


def gate_scripts(top):
    """The scripts over the market of two lines: what is wanted of each, `ok` or its fault, and the script."""
    for file in SCRIPTS:
        text = lines_of(top / "crates" / "script_vectors" / "data" / file)
        for number, case in enumerate(text.split("==\n"), 1):
            script, shown = case.split("--\n", 1)
            wanted = shown.strip("\n") if shown.startswith("desk: script ") else "ok"
            yield f"{file} {number}", wanted, script.encode()


def whole_markets(top):
    """The faulty markets of script_vectors: the line that is wanted and the files by name."""
    text = lines_of(top / "crates" / "script_vectors" / "data" / "market_faults")
    for case in text.split("==\n"):
        given, shown = case.split("-- shown\n")
        parts = re.split(r"(?m)^-- (\S+)\n", given)
        yield parts[0].split("\n")[0], shown.strip("\n"), dict(zip(parts[1::2], parts[2::2]))


def compare_gate(top):
    """Compares the first fault in each row of the gate; returns how many rows agree, and those that differ."""
    agree, differ = 0, []
    for title, wanted, *files in gate_markets(top):
        got = market_fault(*files)
        agree, differ = (agree + 1, differ) if got == wanted else (
            agree, differ + [f"{title}: {got}, and not {wanted}"]
        )
    for title, wanted, script in gate_scripts(top):
        reader = Market()
        reader.top(TWO_LINES)
        reader.rest(None, None)
        try:
            Script(reader.things).read(script)
            got = "ok"
        except Fault as fault:
            got = f"desk: script {fault.entry} {fault.kind}"
        agree, differ = (agree + 1, differ) if got == wanted else (
            agree, differ + [f"{title}: {got}, and not {wanted}"]
        )
    return agree, differ


def said_of(read, files, blocks=None):
    """What is said of files, which stand in a folder of their own: the line, the status, and what follows."""
    here = os.getcwd()
    with tempfile.TemporaryDirectory(prefix="desk-fault-") as room:
        os.chdir(room)
        try:
            for name, data in files.items():
                Path(name).write_bytes(data)
            line, status, text = read("m", *(["s"] if "s" in files or "t" in files else []), blocks=blocks).told()
        finally:
            os.chdir(here)
    said = "\n".join([f"{line} {status}".lstrip(), text, ""])
    return said.replace(os.path.realpath(room), "ROOM").replace(room, "ROOM")


def own_rows(top):
    text = lines_of(top / "tools" / "desk_fault_rows" / "rows")
    for case in text.split("==\n"):
        given, said = case.split("-- said\n")
        parts = re.split(r"(?m)^-- (\S+)\n", given)
        yield parts[0].strip("# \n"), {name: decoded(data) for name, data in zip(parts[1::2], parts[2::2])}, said


def compare_own(read, top):
    agree, differ = 0, []
    for title, files, wanted in own_rows(top):
        blocks = title.partition(":")[0]
        got = said_of(read, files, blocks if blocks in ("grid", "explain") else None)
        agree, differ = (agree + 1, differ) if got == wanted else (agree, differ + [f"{title}: this differs:\n{got}"])
    for title, wanted, files in whole_markets(top):
        got = said_of(read, {name: data.encode() for name, data in files.items() if name != "s"}).split("\n")[0]
        agree, differ = (agree + 1, differ) if got == f"{wanted} 3" else (
            agree, differ + [f"{title}: {got}, and not {wanted}"]
        )
    return agree, differ


def kinds_without_row(top):
    """Each section and kind of fault that a row of the gate has and none of the own rows."""
    gate = {tuple(it[1].split()[::2]) for it in gate_markets(top) if it[1] != "ok"}
    gate |= {("script", it[1].split()[-1]) for it in gate_scripts(top) if it[1] != "ok"}
    said = [said.split("\n")[0].split() for _, _, said in own_rows(top)]
    own = {(it[-4], it[-2]) if it[1] == "market" else (it[1], it[-2]) for it in said if len(it) > 4 and it[0] == "desk:"}
    return [f"no row of desk_fault_rows has {' '.join(it)}" for it in sorted(gate - own)]


def manual_sections(top):
    """The sections of the manuals that a row names and that have no such heading; and words of the tables that no
    manual has."""
    lost = []
    manuals = {it: (top / "docs" / it).read_text() for it in ("reference/market.md", "reference/script.md", "reference/grid.md")}
    headings = {it: re.findall(r"(?m)^#+ (.*)$", text) for it, text in manuals.items()}
    for file, section in set(
        re.findall(r'manual: docs/(\S+), "(.*)"', lines_of(top / "tools" / "desk_fault_rows" / "rows"))
    ):
        if section not in headings[file]:
            lost.append(f'docs/{file} has no section "{section}"')
    for word in {*CALENDARS, *OBJECTS, *(key for keys in (*CALENDARS.values(), *OBJECTS.values()) for key in keys)}:
        if not re.search(rf"\b{word}\b", manuals["reference/market.md"]):
            lost.append(f"docs/reference/market.md does not name `{word}`")
    lost += [
        f"docs/reference/script.md does not name `{it}`" for it in COMMAND if not re.search(rf"\b{it}\b", manuals["reference/script.md"])
    ]
    return lost


def check(read, top):
    own, own_lost = compare_own(read, top)
    gate, gate_lost = compare_gate(top)
    lost = own_lost + gate_lost + kinds_without_row(top) + manual_sections(top)
    for it in lost:
        print(f"desk_fault: {it}", file=sys.stderr)
    print(f"desk_fault: {own + gate} rows agree, {len(own_lost) + len(gate_lost)} differ")
    return 1 if lost else 0
