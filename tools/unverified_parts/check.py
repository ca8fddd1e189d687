#!/usr/bin/env python3
"""Compares what a build of the programs writes with the bytes of the independent model that the repository's stored cases hold.

    check.py FOLDER          # FOLDER has doqs and desk, and may have desk_bump, desk_grid, desk_yield; QUICK=1: one order a case
    check.py FOLDER FILE..   # these files of crates/script_vectors/data alone

It runs each case of crates/script_vectors/data that is a run of a program over files, and compares its output, its lines on standard
error and its exit code. Cases of calls that fail, of sessions that are asked by number and of scripts that are printed are left to that
crate. It prints how many cases of each file agree, and ends with 1 where one differs.
"""
import concurrent.futures
import os
import re
import subprocess
import sys
import tempfile
import threading
from pathlib import Path

TOP = Path(__file__).resolve().parent.parent.parent
DATA = TOP / "crates" / "script_vectors" / "data"
TWO = b'version = 1\ntoday = "2024-01-02"\n'
# The files of scripts that `desk` runs, those of the commands of `doqs`, and live sessions.
RUNS = ("scripts refused faults unset graphs handles examples markets desk market_faults market_files freezing deferral frozen_markets month_ends "
        "version_two words loads rounds watchers watched_markets hostile hostile_files large").split()
COMMANDS = ("bump_by_hand bump_markets bump_faults curve_by_hand curve_markets curve_version_two curve_faults curve_pars explain_by_hand "
            "explain_markets explain_faults graph_by_hand graph_sessions grid_by_hand grid_markets grid_version_two grid_faults risk_by_hand "
            "risk_markets risk_faults why_by_hand why_sessions measure_by_hand measure_bonds measure_spreads yield_by_hand yield_bonds front").split()
LIVES = "live_by_hand live_sessions live_markets".split()
# The exit code of a line of `desk` on standard error.
CODES = {b"usage": 2, b"market": 3, b"script": 4, b"read fault": 5, b"write fault": 6, b"no memory": 7, b"no file": 8}
DESK_LINE = re.compile(rb"(?:\A|\n)desk: (usage|market|script|read fault|write fault|no memory|no file)[^\n]*\n\Z")
EXIT = re.compile(rb"exit (\d+)\n\Z")
BUILD = re.search(rb'(?m)^pub const BUILD: &str = "([^"]*)";', (TOP / "crates/tool_front/src/version.rt").read_bytes())[1]
own = threading.local()


def repeated(line):
    """What `\\*` and this line stand for: a line for each number, with the number filled in."""
    low, high, pattern = line.split(b" ", 2)
    return b"".join(pattern.replace(b"@", b"%d" % at).replace(b"<", b"%d" % max(at - 1, 0)).replace(b";", b"\n") + b"\n" for at in range(int(low), int(high) + 1))


def expanded(text):
    """A text, in which `\\*` stands for repeated lines."""
    first, *parts = text.split(b"\\*")
    return first + b"".join(repeated(line) + rest for line, _, rest in (part.partition(b"\n") for part in parts))


def contents(text):
    """A file's bytes: at its end `\\+` and a number stand for newlines up to that length."""
    front, _, length = text.partition(b"\\+")
    out = expanded(front)
    return out + b"\n" * (int(length.strip() or 0) - len(out))


def typed(text):
    """The bytes of an input, in which `\\=`, a number, a byte's number and `;` stand for that byte so often, too."""
    first, *marks = text.split(b"\\")
    for mark in marks:
        if mark[:1] == b"*":
            line, _, rest = mark[1:].partition(b"\n")
            first += repeated(line) + rest
        elif mark[:1] == b"=":
            numbers, _, rest = mark[1:].partition(b";")
            count, byte = numbers.split(b" ")
            first += bytes([int(byte)]) * int(count) + rest
        else:
            first += mark
    return first


def files_of(text):
    return {path: contents(body) for path, _, body in (part.partition(b"\n") for part in text.split(b"-- ") if part)}


class Run:
    """A run that a case asks for: the program and its words, the files and the input, what a terminal shows, and the exit code."""

    def __init__(self, program, words, files, shown, code, lines=b""):
        self.program, self.words, self.files, self.shown, self.code, self.lines = program, words, files, shown, code, lines

    def agrees(self, folder):
        if not hasattr(own, "room"):
            own.room, own.held = Path(tempfile.mkdtemp(dir=ROOM)), []
        for path in own.held:
            path.unlink()
        own.held = []
        for path, body in self.files.items():
            file = own.room / os.fsdecode(path)
            if path and not file.exists():
                file.parent.mkdir(parents=True, exist_ok=True)
                file.write_bytes(body)
                own.held.append(file)
        ran = subprocess.run([folder / self.program, *self.words], cwd=own.room, input=self.lines, capture_output=True)
        return ran.returncode == self.code and ran.stdout + ran.stderr == self.shown


def of_desk(words, files, shown):
    """A run of `desk`, whose line on standard error says the exit code."""
    found = DESK_LINE.search(shown)
    return Run("desk", words, files, shown, CODES[found[1]] if found else 0)


def of_doqs(words, files, text, lines=b""):
    """A run of `doqs`: the exit code stands in a last line, where it is not 0."""
    found = EXIT.search(text)
    return Run("doqs", words, files, text[:found.start()] if found else text, int(found[1]) if found else 0, lines)


def of_paper(command, words, files, text):
    """The same run of a program of its own, whose line names that program, and which adds no lines to it."""
    run = of_doqs(words, files, text)
    shown = run.shown if run.code == 0 else re.search(rb"(?m)^doqs [a-z]+(: [^\n]*\n)", run.shown)[1]
    return Run(f"desk_{command}", words, files, shown if run.code == 0 else f"desk_{command}".encode() + shown, run.code)


def words_of(line):
    return line.split(b" ")


def runs(name, is_quick, is_unverified, others):
    """The runs of each case of a file, with the case."""
    common = {}
    for case in (DATA / name).read_bytes().split(b"==\n"):
        if name in LIVES:
            given, _, text = case.partition(b"-- shown\n")
            files, _, lines = given.partition(b"-- lines\n")
            head, _, parts = files.partition(b"-- ")
            yield case, [of_doqs([b"live", *words_of(head.split(b"\n")[1])], files_of(parts), text, typed(lines))]
        elif name in COMMANDS:
            given, _, text = case.partition(b"-- shown\n")
            head, _, parts = given.partition(b"-- ")
            words, files, command = words_of(head.split(b"\n")[1]), files_of(parts), name.split("_")[0]
            if is_unverified:
                text = text.replace(b"\n" + BUILD + b"\n", b"\nunverified build\n")
            group = [of_doqs(words if name == "front" else [command.encode(), *words], files, text)]
            yield case, group + ([of_paper(command, words, files, text)] if f"desk_{command}" in others and not is_quick else [])
        elif case.startswith(b"-- "):
            common = files_of(case[3:])
        elif b"-- shown" in case:
            given, *answers = case.split(b"-- shown")
            head, _, parts = given.partition(b"\n-- ")
            files = {**common, **files_of(parts)}
            lines = head.partition(b"\n")[2].splitlines()
            group = []
            for answer in answers:
                orders, _, text = answer.partition(b"\n")
                for order in orders.strip().split(b" ")[:1 if is_quick else None]:
                    group += [of_desk([*words_of(line), *([b"--order", order] if order else [])], files, expanded(text)) for line in lines]
            yield case, group
        else:
            script, _, text = case.partition(b"--\n")
            yield case, [of_desk([b"run", b"m", b"s"], {b"m": TWO, b"s": script}, text)]


def cut_markets():
    """A market that is cut after each number of its bytes, and what `desk check` shows of it."""
    market, quotes, rows = (DATA / "cuts").read_bytes().split(b"==\n")
    for row in rows.splitlines():
        low, high, line = row.split(b" ", 2)
        for cut in range(int(low), int(high) + 1):
            yield row, [of_desk([b"check", b"m"], {b"m": market[:cut], b"quotes.csv": quotes}, line + b"\n")]


def main(words):
    global ROOM
    folder = Path(words[0]).resolve()
    is_quick = bool(os.environ.get("QUICK"))
    is_unverified = subprocess.run([folder / "doqs", "--version"], capture_output=True).stdout.endswith(b"\nunverified build\n")
    others = [it.name for it in folder.iterdir()]
    bad = 0
    with tempfile.TemporaryDirectory() as ROOM, concurrent.futures.ThreadPoolExecutor(os.cpu_count()) as pool:
        for name in words[1:] or [*RUNS, "cuts", *COMMANDS, *LIVES]:
            cases = list(cut_markets() if name == "cuts" else runs(name, is_quick, is_unverified, others))
            agree = list(pool.map(lambda it: bool(it[1]) and all(run.agrees(folder) for run in it[1]), cases))
            for case, _ in [it for it, good in zip(cases, agree) if not good][:2]:
                print(f"{name}: this differs: {case[:600].decode(errors='replace')}")
            print(f"{name}: {agree.count(True)} agree, {agree.count(False)} differ", flush=True)
            bad += agree.count(False)
    print("all agree" if bad == 0 else f"{bad} differ")
    return int(bad > 0)


if __name__ == "__main__":
    if len(sys.argv) < 2:
        sys.exit(__doc__)
    sys.exit(main(sys.argv[1:]))
