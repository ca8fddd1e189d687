#!/usr/bin/env python3
"""Traces the way of a command through the sources by a debugger: which files, crates and functions it passes, and in which order.

    benchmarks/lab/trace.py                     an ask of a current object, one that computes, a set whose due watcher asks
    benchmarks/lab/trace.py MARKET SCRIPT       the last command of a small script
    benchmarks/lab/trace.py --calls [..]        also each call, as a tree

It builds the lab without optimization (rust/trace/debug/desk; half a minute at first) and runs it in gdb, some five seconds a
script. It needs python3, cargo, nm and gdb, and nothing from a network.

A breakpoint stands on the first instruction of each function of the repository's crates. What is traced is the command's `step`. Std
and the kit's crates are left out, and so is what a derive writes. A closure belongs to the function that it stands in.

A move is a call or a return that leads from one function to another, what lies between in std left out. It changes file where these
stand in different ones, and comes back where the file that it enters was entered before: `back` counts that. `again` counts it over the
functions in the order in which they are called, without the returns, as somebody sees it who stops at each function.
"""
import os
import re
import subprocess
import sys
import tempfile
from collections import Counter

MARKET = 'version = 1\ntoday = "2024-01-02"\n'
BOOK = "quote q 1\nstock s q\ncomposite k\nmember k s 1\n"
WORKS = {
    "'ask k', k being current": BOOK + "ask k\nask k\n",
    "'ask k', to be computed": BOOK + "ask k\nset q 2\nask k\n",
    "'set q 2', whose due watcher does 'ask k'": BOOK + "action look\nask k\nend\nwatch w look\nregister w k\nask k\nset q 2\n",
}
BEGIN = "session_rounds/src/session.rs", "step"


def lines_of(path):
    """The functions of a source, each with its line."""
    text = open(path).read().split("\n")
    return [(at + 1, found.group(1)) for at, line in enumerate(text)
            for found in [re.match(r"\s*(?:pub(?:\([a-z]+\))? )?(?:const )?(?:unsafe )?fn (\w+)", line)] if found]


class Sources:
    """Which function of the repository a line of the lab's Rust belongs to."""

    def __init__(self, lab, top):
        self.rust, self.crates, self.known = f"{lab}/rust/", f"{top}/crates/", {}

    def function(self, path, line, is_closure):
        """(file, line, name) in the repository's sources; none where the line is a derive's, or in no crate of the repository."""
        # Where the folder was copied, what cargo did not build anew still names the place that it was copied from.
        file = path.split("/rust/")[-1]
        made, source = f"{self.rust}{file}", f"{self.crates}{file[:-3]}.rt"
        if not (os.path.exists(made) and os.path.exists(source)):
            return None
        if file not in self.known:
            self.known[file] = lines_of(made), lines_of(source)
        made, written = self.known[file]
        at = max((at for at, (begun, _) in enumerate(made) if begun <= line), default=None)
        if at is None or (made[at][0] != line and not is_closure):
            return None
        name = made[at][1]
        # The lab leaves out whole blocks of a source (`impl Model`, `impl Drop`): the functions of one name keep their order.
        nth = sum(it == name for _, it in made[:at])
        found = [begun for begun, it in written if it == name]
        # What the conversion adds, as the `main` that hands on to the program's, stands in no source.
        return (file, found[nth], name) if nth < len(found) else None


def traced():
    """Within gdb: writes the calls of the last `step`, each with its depth."""
    import gdb
    lab, top, out = os.environ["TRACE_LAB"], os.environ["TRACE_TOP"], os.environ["TRACE_OUT"]
    sources = Sources(lab, top)
    for word in ("pagination off", "confirm off", "breakpoint always-inserted on", "print thread-events off", "style enabled off", "language c"):
        gdb.execute(f"set {word}")
    gdb.execute("starti", to_string=True)
    program = gdb.objfiles()[0].filename
    symbols = {int(at, 16): name for at, kind, name in (
        line.split(" ", 2) for line in subprocess.run(["nm", "-C", "--defined-only", program], capture_output=True, text=True).stdout.splitlines())
        if kind in "tTwW"}
    main = next(at for at, name in symbols.items() if name == "main")
    moved = int(gdb.parse_and_eval("(unsigned long) &main")) - main
    functions = {}
    for at, name in symbols.items():
        place = gdb.find_pc_line(at + moved)
        if place.symtab:
            function = sources.function(place.symtab.fullname(), place.line, "{{closure}}" in name)
            if function:
                functions[at + moved] = function
    for at in functions:
        gdb.Breakpoint(f"*{at:#x}", internal=True).silent = True
    calls, stack = [], []
    while True:
        gdb.execute("continue", to_string=True)
        if not gdb.selected_thread():
            break
        pc, sp = (int(gdb.parse_and_eval(f"(unsigned long) ${it}")) for it in ("pc", "sp"))
        if pc not in functions:
            break
        # Who lies no higher than this one has returned.
        while stack and stack[-1] <= sp:
            stack.pop()
        file, _, name = functions[pc]
        if (file, name) == BEGIN:
            calls, stack = [], []
        elif not stack:
            continue
        stack.append(sp)
        calls.append((len(stack), *functions[pc]))
    with open(out, "w") as file:
        for call in calls:
            print(*call, file=file)


def calls_and_returns(calls):
    """The functions that are entered, in order, by a call or a return."""
    moves, stack = [], []
    for depth, *function in calls:
        while len(stack) >= depth:
            stack.pop()
            moves.append(stack[-1])
        stack.append(tuple(function))
        moves.append(stack[-1])
    return moves + stack[-2::-1]


def times_back(functions):
    """How often each file is entered that was entered before, and how many changes of file there are."""
    back, seen, changes = Counter(), {functions[0][0]}, 0
    for (front, *_), (file, *_) in zip(functions, functions[1:]):
        if file != front:
            changes += 1
            back[file] += file in seen
            seen.add(file)
    return back, changes


def shown(title, calls, is_whole):
    moves = calls_and_returns(calls)
    files = list(dict.fromkeys(file for file, *_ in moves))
    functions = {file: list(dict.fromkeys(it for it in moves if it[0] == file)) for file in files}
    back, changes = times_back(moves)
    again, called = times_back([function for _, *function in calls])
    crates = {file.split("/")[0] for file in files}
    print(f"{title}\n{len(files)} files in {len(crates)} crates, {sum(map(len, functions.values()))} functions, {len(calls)} calls")
    for name, counts, count in ("by calls and returns", back, changes), ("by calls alone", again, called):
        often = sum(it > 2 for it in counts.values())
        print(f"{name}: {count} changes of file, {sum(counts.values())} times back into a file, into {often} of them more than twice")
    print("\nback again  file: functions, each with its line")
    for file in files:
        names = " ".join(f"{name}:{line}" for _, line, name in functions[file])
        print(f"{back[file]:4} {again[file]:5}  crates/{file[:-3]}.rt: {names}")
    print()
    if is_whole:
        for depth, file, line, name in calls:
            print(f"{'  ' * (depth - 1)}{name}  {file[:-3]}.rt:{line}")
        print()


def main():
    lab = os.path.dirname(os.path.abspath(__file__))
    words = [word for word in sys.argv[1:] if word != "--calls"]
    if len(words) not in (0, 2):
        sys.exit(__doc__)
    top = os.path.dirname(os.path.dirname(lab))
    subprocess.run([sys.executable, f"{top}/tools/unverified_parts/convert.py", top, f"{lab}/rust"], check=True)
    # No pass of the compiler's back end runs, so that what is marked `inline(always)` is a call as any other.
    built = subprocess.run(["cargo", "build", "--offline", "-q", "-pdesk"], cwd=f"{lab}/rust", capture_output=True, text=True, env={
        **os.environ, "RUSTFLAGS": "-Cno-prepopulate-passes -Awarnings", "CARGO_TARGET_DIR": "trace"})
    if built.returncode:
        sys.exit(built.stderr)
    with tempfile.TemporaryDirectory() as work:
        def trace(title, market, script):
            out = f"{work}/trace"
            ran = subprocess.run(
                ["gdb", "-nx", "-q", "-batch", "-x", os.path.abspath(__file__), "--args", f"{lab}/rust/trace/debug/desk", "run", market, script],
                capture_output=True, text=True, env={**os.environ, "TRACE_LAB": lab, "TRACE_TOP": top, "TRACE_OUT": out})
            if not os.path.exists(out):
                sys.exit(ran.stdout + ran.stderr)
            calls = [line.split() for line in open(out)]
            os.remove(out)
            shown(title, [(int(depth), file, int(line), name) for depth, file, line, name in calls], "--calls" in sys.argv)
        if words:
            return trace(f"the last command of {words[1]}", *words)
        open(f"{work}/market", "w").write(MARKET)
        for title, script in WORKS.items():
            open(f"{work}/script", "w").write(script)
            trace(title, f"{work}/market", f"{work}/script")


if "TRACE_OUT" in os.environ:
    traced()
else:
    main()
