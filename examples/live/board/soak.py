#!/usr/bin/env python3
"""Ten minutes of the board at 20 ticks a second, and what its server, its session and its page take. Outside the full check.

    examples/live/board/soak.py [--seconds 600] [--ticks 20]

A page in headless Chromium shows the example desk. A watcher writes at each move of the book, a command is typed each second, and a
`why` and a picture are opened each half minute. The lists of the page are full before the first line is measured. Each half minute a
line tells the resident memory of the server, of its `doqs` and of the page's process, the page's heap after a collection, its nodes, the
journal, and how many ticks came. It ends with 1 where one of the four grows by more than a tenth and a MiB from the second fifth of the
time to the last.
"""

import argparse
import os
import sys
import threading
import time
import unittest
from pathlib import Path

HERE = Path(__file__).resolve().parent
sys.path.insert(0, str(HERE))
import test_board  # noqa: E402
from test_board import Board, Browser  # noqa: E402

sys.path.insert(0, str(HERE.parent))
EVERY = 30


def resident(process):
    """The resident memory of a process in KiB."""
    return int(next(it for it in Path(f"/proc/{process}/status").read_text().splitlines() if it.startswith("VmRSS")).split()[1])


def children(process):
    return [int(it) for task in Path(f"/proc/{process}/task").iterdir() for it in (task / "children").read_text().split()]


def below(process):
    return [it for child in children(process) for it in (child, *below(child))]


def renderer(browser):
    """The process of Chromium that draws the page: the largest of its kind."""
    found = [it for it in below(browser.driver.pid) if b"--type=renderer" in Path(f"/proc/{it}/cmdline").read_bytes()]
    return max(found, key=resident)


def moves():
    """Moves of the quotes of the example desk, without an end."""
    import csv
    import random
    from decimal import Decimal

    with open("quotes.csv", newline="") as table:
        values = {row["name"]: Decimal(row["value"]) for row in csv.DictReader(table) if row["value"]}
    steps, pick = dict.fromkeys(values, 0), random.Random(83)
    while True:
        name = pick.choice(list(values))
        steps[name] = max(-50, min(50, steps[name] + pick.choice([-3, -2, -1, 1, 2, 3])))
        yield f"set {name} {values[name] + Decimal(steps[name]).scaleb(values[name].as_tuple().exponent - 1):f}"


class Soak(unittest.TestCase):
    def runTest(self):
        test_board.setUpModule()
        board, page, stop = Board(self), Browser(1440, 900, False), threading.Event()
        self.addCleanup(page.close)
        page.open(board.page)
        board.do("action look", "ask book", "end", "watch limit look", "register limit book")
        for number in range(1100):
            board.do(f"set acme {40 + number / 100:.2f}")
        ticks = [0]

        def feed():
            began = time.monotonic()
            for line in moves():
                ticks[0] += 1
                if stop.wait(max(0, began + ticks[0] / WORDS.ticks - time.monotonic())):
                    return
                board.tick(line)

        def use():
            number = 0
            while not stop.wait(1):
                number += 1
                board.do("ask book" if number % 2 else f"set premium {number % 90 / 1000 + 0.01:.3f}")

        threads = [threading.Thread(target=it) for it in (feed, use)]
        for it in threads:
            it.start()
        rows, began = [], time.monotonic()
        try:
            print("seconds    ticks  server KiB  doqs KiB  page KiB  heap KiB   nodes  journal KiB", flush=True)
            while time.monotonic() - began < WORDS.seconds:
                time.sleep(EVERY / 2)
                page.click("#row-book .link")
                time.sleep(EVERY / 4)
                page.click("#close")
                page.click("#row-euro .link")
                time.sleep(EVERY / 4)
                page.click("#close")
                page.cdp("HeapProfiler.collectGarbage", {})
                heap = page.cdp("Runtime.getHeapUsage", {})["usedSize"] // 1024
                nodes = page.run("document.getElementsByTagName('*').length")
                doqs = max((it for it in children(board.process.pid)), key=resident)
                row = [resident(board.process.pid), resident(doqs), resident(renderer(page)), heap]
                shown = [round(time.monotonic() - began), ticks[0], *row, nodes, os.path.getsize(board.log) // 1024]
                print("{:7}  {:7}  {:10}  {:8}  {:8}  {:8}  {:6}  {:11}".format(*shown), flush=True)
                rows.append(row)
            self.assertEqual(page.texts("#status"), ["live"])
            self.assertEqual(page.faults(), [])
            done = board.state()["feed"]
            self.assertLess(ticks[0] - done["lines"], 3 * WORDS.ticks, "the desk is behind its feed")
        finally:
            stop.set()
            for it in threads:
                it.join()
        fifth = max(1, len(rows) // 5)
        for name, early, late in zip(("server", "doqs", "page", "heap"), *(map(sum, zip(*it)) for it in (rows[fifth : 2 * fifth], rows[-fifth:]))):
            print(f"{name}: {early // fifth} KiB in the second fifth, {late // fifth} in the last")
            self.assertLess(late, early * 1.1 + 1024 * fifth, f"{name} grows")


if __name__ == "__main__":
    words = argparse.ArgumentParser(usage=__doc__.split("\n\n")[1].strip())
    words.add_argument("--seconds", type=int, default=600)
    words.add_argument("--ticks", type=int, default=20)
    WORDS = words.parse_args()
    ran = unittest.TextTestRunner().run(Soak())
    sys.exit(not ran.wasSuccessful())
