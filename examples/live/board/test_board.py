#!/usr/bin/env python3
"""Tests of the board: its requests, and its page in headless Chromium.

    examples/live/board/test_board.py            # from anywhere; PICTURES=1 renews the pictures
    python3 -m unittest discover examples/live/board

The program is the one of DOQS, else of crates/doqs/out, else of the path. Without chromium and chromedriver the page is not tried,
which the last line says. What was paid is compared with figures of an independent model, prices with `doqs run`.
"""

import base64
import http.client
import http.server
import json
import os
import re
import shutil
import signal
import struct
import subprocess
import sys
import tempfile
import threading
import time
import unittest
import urllib.parse
import zlib
from collections import Counter
from decimal import Decimal
from pathlib import Path

HERE = Path(__file__).resolve().parent
TOP = HERE.parents[2]
sys.path[:0] = [str(HERE), *([] if "doqsheley" in sys.modules else [str(TOP / "python" / "src")])]
import live_desk  # noqa: E402
import reports  # noqa: E402
import tracked  # noqa: E402

MARKET = "market.toml"
PRICED = ["book", "state", "floater", "payer", "spring", "share", "offer", "euro", "rough", "summer"]
BROWSERS = [shutil.which("chromedriver"), shutil.which("chromium") or shutil.which("google-chrome")]
SECONDS = 60
ENTER, UP, DOWN, ESCAPE, TAB = "\ue007", "\ue013", "\ue015", "\ue00c", "\ue004"


def setUpModule():
    os.chdir(TOP / "examples/desk")
    os.environ["PATH"] = f"{TOP / 'crates/doqs/out'}:{os.environ['PATH']}"


def doqs(*words, script=None):
    """What a command of `doqs` writes, where `SCRIPT` among the words is a file of these lines."""
    with tempfile.NamedTemporaryFile("w") as file:
        file.write("".join(f"{it}\n" for it in script or []))
        file.flush()
        call = [os.environ.get("DOQS") or "doqs", *(file.name if it == "SCRIPT" else it for it in words)]
        return subprocess.run(call, stdout=subprocess.PIPE, check=True, text=True).stdout


def asked(*lines):
    """The words of the last line that `doqs run` writes for these."""
    return doqs("run", MARKET, "SCRIPT", script=lines).splitlines()[-1].split()


def money(text):
    return text.replace(",", "")


class Board:
    """A board with a feed, and requests to it."""

    def __init__(self, test, *words, market=MARKET):
        room = tempfile.TemporaryDirectory()
        test.addCleanup(room.cleanup)
        self.log = f"{room.name}/day"
        call = [sys.executable, HERE / "board.py", market, "--port", "0", "--log", self.log, *words]
        self.process = subprocess.Popen(call, stdin=subprocess.PIPE, stdout=subprocess.PIPE, text=True)
        test.addCleanup(self.stop)
        said = self.process.stdout.readline()
        test.assertTrue(said, "the board did not start")
        self.page = said.split()[-1]
        self.at = urllib.parse.urlsplit(self.page)
        self.home = f"http://{self.at.netloc}"

    def stop(self):
        if self.process.poll() is None:
            self.process.send_signal(signal.SIGINT)
        self.process.communicate()

    def kill_session(self):
        """Ends the program of the session, by its id."""
        tasks = Path(f"/proc/{self.process.pid}/task").iterdir()
        children = [int(it) for task in tasks for it in (task / "children").read_text().split()]
        for it in children:
            os.kill(it, signal.SIGKILL)

    def tick(self, *lines):
        self.process.stdin.write("".join(f"{it}\n" for it in lines))
        self.process.stdin.flush()

    def request(self, path, body=None, method=None, **headers):
        """Status and text of a request, by default one of the page itself."""
        method = method or ("GET" if body is None else "POST")
        given = {"Host": self.at.netloc, **({"Origin": self.home} if method == "POST" else {})}
        given.update({name.replace("_", "-"): it for name, it in headers.items()})
        line = http.client.HTTPConnection(self.at.hostname, self.at.port, timeout=SECONDS)
        line.putrequest(method, path, skip_host=True)
        for name, value in given.items():
            if value is not None:
                line.putheader(name, value)
        data = json.dumps(body).encode() if body is not None and not isinstance(body, bytes) else body
        if data is not None:
            line.putheader("Content-Length", str(len(data)))
        line.endheaders(data)
        answer = line.getresponse()
        found = answer.status, answer.read().decode()
        line.close()
        return found

    def get(self, path):
        status, text = self.request(self.at.path + path)
        assert status == 200, (status, text)
        return json.loads(text)

    def do(self, *lines, key=None):
        """The entry of these lines, as a page sends them."""
        Board.keys = getattr(Board, "keys", 0) + 1
        status, text = self.request(self.at.path + "do", {"lines": lines, "key": key or f"the-key-{Board.keys}"})
        assert status == 200, (status, text)
        return json.loads(text)

    def state(self):
        """The first message of the events: all that a page shows."""
        line = http.client.HTTPConnection(self.at.hostname, self.at.port, timeout=SECONDS)
        line.request("GET", self.at.path + "events")
        answer = line.getresponse()
        while not (found := answer.readline()).startswith(b"data: "):
            assert found, "no message came"
        line.close()
        return json.loads(found[6:])

    def row(self, name):
        return next((it for it in self.state()["rows"] if it["name"] == name), {})

    def journal(self):
        status, text = self.request(self.at.path + "journal")
        assert status == 200
        return text


class Requests(unittest.TestCase):
    def test_only_its_own_page_is_let_in(self):
        board, top = Board(self), None
        top = board.at.path
        lines = {"lines": ["set s5 0.03"], "key": "12345678"}
        refused = [
            (403, "/", {}), (403, "/wrong/", {}), (403, f"{top[:-2]}/", {}), (403, f"/wrong{top}", {}), (403, "/events", {}),
            (403, top, {"Host": "evil.example"}), (403, top, {"Host": None}), (403, top, {"Host": "127.0.0.1"}),
            (403, top, {"Origin": "http://evil.example"}), (403, top, {"Origin": "null"}), (403, top, {"Sec_Fetch_Site": "cross-site"}),
            (403, top, {"Sec_Fetch_Site": "same-site"}), (404, top[:-1], {}),
            (404, f"{top}board.py", {}), (404, f"{top}../board.py", {}), (404, f"{top}../../../../etc/passwd", {}),
            (404, f"{top}..%2f..%2fetc%2fpasswd", {}), (404, f"{top}why/../../x", {}), (404, f"{top}/etc/passwd", {}),
            (404, f"{top}why?name=../../../etc/passwd", {}), (404, f"{top}why?name=/etc/passwd", {}), (404, f"{top}why?name=--help", {}),
            (404, f"{top}curve?name=/etc/passwd", {}), (404, f"{top}curve?name=book", {}), (404, f"{top}curve?name=euro&of=/etc/passwd", {}),
            (404, f"{top}curve?name=euro&of=--csv", {}), (404, f"{top}why", {}), (404, "http://127.0.0.1/", {}),
        ]  # fmt: skip
        for status, path, headers in refused:
            with self.subTest(path=path, headers=headers):
                got, text = board.request(path, **headers)
                self.assertEqual(got, status, text)
                self.assertNotIn("root:", text)
        for headers in ({"Origin": "http://evil.example"}, {"Origin": None}, {"Host": "evil.example"}, {"Sec_Fetch_Site": "cross-site"}):
            with self.subTest(headers=headers):
                self.assertEqual(board.request(f"{top}do", lines, **headers)[0], 403)
        self.assertEqual(board.request("/wrong/do", lines)[0], 403)
        self.assertEqual(board.request(f"{top}do", method="DELETE")[0], 501)
        bad = [b"no json", [], {}, {"lines": ["ask book"]}, {**lines, "lines": ["ask book\nask book"]}, {**lines, "lines": [1]}, {**lines, "key": "1"}]
        for body in bad:
            with self.subTest(body=body):
                self.assertEqual(board.request(f"{top}do", body)[0], 400)
        self.assertEqual(board.request(f"{top}do", b" " * ((1 << 20) + 1))[0], 413)
        self.assertNotIn("0.03", board.journal())
        # The same requests, from the page itself, are done.
        self.assertEqual(board.request(top)[0], 200)
        self.assertEqual(board.request(f"{top}do", lines)[0], 200)
        self.assertIn("set s5 0.03\n", board.journal())
        # No other address of this machine has it.
        with self.assertRaises(OSError):
            http.client.HTTPConnection("127.0.0.2", board.at.port, timeout=2).request("GET", "/")

    def test_the_page_needs_no_other_host(self):
        text = (HERE / "board.html").read_text()
        self.assertEqual(re.findall(r"(?:src|href)=(?![\"'](?:journal|data:))\S+|@import|url\(", text), [])
        self.assertEqual(set(re.findall(r"https?://[^\s\"']+", text)), {"http://www.w3.org/2000/svg"})

    def test_a_key_is_done_once(self):
        board = Board(self)
        for _ in range(3):
            self.assertEqual(board.do("set acme 43", key="once-and-only")["good"], True)
        board.do("set acme 44", key="another-one")
        self.assertEqual(board.journal().count("set acme 43\n"), 1)
        self.assertEqual([it["lines"] for it in board.state()["typed"]], [["set acme 43"], ["set acme 44"]])

    def test_the_open_and_what_changed(self):
        board = Board(self)
        first = Decimal(asked("ask book")[1])
        self.assertEqual((board.state()["day"], money(board.row("book")["value"])), ("2024-01-15", str(first)))
        board.do("set s5 0.0253", "set acme 42")
        now = Decimal(asked("set s5 0.0253", "set acme 42", "ask book")[1])
        row = board.row("book")
        self.assertEqual((money(row["value"]), money(row["change"])), (str(now), f"{now - first:+f}"))
        quotes = {it["name"]: it for it in board.state()["quotes"]}
        self.assertEqual((quotes["acme"]["value"], quotes["acme"]["change"], quotes["s5"]["change"]), ("42", "0.5", "0.0001"))
        self.assertNotIn("paid", row)

    # The figures are those of the independent model of `explain`.

    def test_what_a_day_paid(self):
        board = Board(self)
        board.do("set s5 0.0253", "set s5 0.0252")
        board.do("today 2024-02-15")
        wanted = {"book": "74974.736133", "state": "24991.578711", "payer": "0.000000", "floater": "0.000000", "share": "0.000000"}
        gains = {"book": "-65695.614260", "state": "-22606.356618", "payer": "7450.733978", "floater": "3450.722102", "share": "0"}
        rows = {it["name"]: it for it in board.state()["rows"]}
        for name, paid in wanted.items():
            self.assertEqual(money(rows[name]["paid"]), paid, name)
            self.assertEqual(Decimal(money(rows[name]["change"])), Decimal(gains[name]), name)
            self.assertEqual(Decimal(money(rows[name]["result"])), Decimal(gains[name]) + Decimal(paid), name)
        self.assertNotIn("paid", rows["euro"])
        # The day before takes it back.
        board.do("today 2024-01-15")
        self.assertEqual(Decimal(money(board.row("state")["paid"])), 0)

    def test_what_was_paid_waits_for_a_price(self):
        board = Board(self)
        board.tick("today 2024-04-15")
        self.wait(lambda: board.state()["day"] == "2024-04-15" and board.row("book")["mark"] == "refused")
        rows = {it["name"]: it for it in board.state()["rows"]}
        self.assertEqual((rows["book"]["paid"], rows["payer"]["paid"], money(rows["state"]["paid"])), ("waits", "waits", "24991.578711"))
        self.assertEqual(rows["book"]["why"], "the index euribor has no rate for 2024-04-12")
        board.do("fixing euribor 2024-04-12 0.03853")
        rows = {it["name"]: it for it in board.state()["rows"]}
        self.assertEqual([money(rows[it]["paid"]) for it in ("book", "payer", "state")], ["179564.319466", "104589.583333", "24991.578711"])

    def test_what_was_paid_over_a_frozen_bond_is_not_known(self):
        board = Board(self)
        board.do("freeze state")
        board.do("today 2024-02-15")
        rows = {it["name"]: it for it in board.state()["rows"]}
        self.assertEqual((rows["state"]["paid"], rows["book"]["paid"], money(rows["payer"]["paid"])), ("unknown", "unknown", "0.000000"))
        self.assertNotIn("result", rows["book"])

    def test_payments_of_explain_are_taken(self):
        """Where `explain` writes what was paid, that is taken, and no flows are read."""
        wrote = "explain book base value 5.000000\nexplain book before gain 1.000000 paid 2.000000\n"
        wrote += "explain book now gain -1.500000 paid 7.250000\nexplain cash now gain 0.000000 paid limit\nexplain book total 1.000000 paid 9.250000\n"
        self.assertEqual(reports.read_paid(wrote), {"book": Decimal("7.25"), "cash": None})
        calls = []

        def run(words, files, seconds=0):
            calls.append((words[0], files["@script"]))
            return wrote

        class Snapshot:
            can_be_explained, moves, day, kinds = True, ["set s5 0.0253"], "2024-02-15", {}

        was, reports.run = reports.run, run
        try:
            desk = live_desk.LiveDesk(None, MARKET, "", "", [], 1)
            self.assertEqual(desk.payments(Snapshot, Snapshot, ["book", "cash"]), {"book": Decimal("7.25"), "cash": None})
        finally:
            reports.run = was
        script = "action before\nset s5 0.0253\nend\naction now\nset s5 0.0253\nend\nask book\nask cash\n"
        self.assertEqual(calls, [("explain", script)])

    def test_the_short_script_makes_the_same_session(self):
        """`why` and `graph` over the short script write what they write over all the lines."""
        board = Board(self)
        lines = [f"set {name} {value / 10000:.4f}" for value in range(250, 290, 4) for name in ("s5", "s7", "s10")]
        lines += ["today 2024-01-18", "set acme 40", "unset acme", "fixing euribor 2024-01-11 0.039", "link rates rough", "stock new acme"]
        lines += ["set acme 39.5", "member book new 10", "engine state none", "engine state discounting", "drop nobody", "quote more 1.5"]
        board.tick(*lines)
        self.wait(lambda: board.state()["feed"]["lines"] == len(lines) and board.row("new").get("value") == "39.500000")
        every = board.journal().splitlines()
        self.assertGreater(len(every), len(lines))
        for name in ("book", "rough"):
            wanted = reports.read_why(doqs("why", MARKET, "SCRIPT", name, script=every))
            found = board.get(f"why?name={name}")
            self.assertEqual(found["objects"], wanted["objects"])
        self.assertEqual(board.get("graph")["nodes"], tracked.read_graph(doqs("graph", MARKET, "SCRIPT", script=every))["nodes"])
        # After a freeze all lines are used.
        board.do("freeze state", "set s5 0.031", "set s5 0.032")
        every = board.journal().splitlines()
        self.assertIn("frozen", [it.get("mark") for it in board.get("why?name=book")["objects"]])
        self.assertEqual(board.get("why?name=book")["objects"], reports.read_why(doqs("why", MARKET, "SCRIPT", "book", script=every))["objects"])
        self.assertEqual(board.get("graph")["nodes"], tracked.read_graph(doqs("graph", MARKET, "SCRIPT", script=every))["nodes"])

    def test_quotes_that_an_action_moves(self):
        board = Board(self)
        board.do("action follow", "set premium 0.07", "end", "watch w follow", "register w share")
        board.do("set acme 43")
        self.wait(lambda: {it["name"]: it["value"] for it in board.state()["quotes"]}["premium"] == "0.07")
        self.assertEqual(money(board.row("offer")["value"]), "43.070000")

    def test_an_action_of_the_feed_holds_no_ask(self):
        board = Board(self)
        board.tick("action look")
        time.sleep(0.5)
        board.do("set acme 43")
        board.tick("ask share", "end", "watch w look", "register w share", "set acme 44")
        self.wait(lambda: any(it["lines"] == ["set acme 44"] for it in board.state()["notes"]))
        lines = board.journal().splitlines()
        at = lines.index("action look")
        self.assertEqual(lines[at : at + 3], ["action look", "ask share", "end"])
        # A faulty beginning of an action holds no tick.
        faulty = ["action", "action 1", "action look", "action none", "action a b"]
        board.tick(*faulty, "set acme 45")
        self.wait(lambda: board.row("share")["value"] == "45.000000")
        self.assertEqual([it["lines"] for it in board.state()["notes"][-6:]], [*([it] for it in faulty), ["set acme 45"]])
        self.assertEqual(board.state()["feed"]["faults"], 5)
        self.assertEqual(board.do("action half", "ask share")["good"], False)
        self.assertNotIn("action half", board.journal())
        self.assertEqual(board.do("action look", "ask share", "set acme 1", "end")["good"], False)
        self.assertNotIn("set acme 1\n", board.journal())

    def test_a_picture_is_of_the_market_of_now(self):
        board = Board(self)
        board.do("set s5 0.0263", "today 2024-01-17", "unset acme", "quote more 1")
        with tempfile.TemporaryDirectory() as room:
            quotes = Path("quotes.csv").read_text().replace("s5,0.0252", "s5,0.0263").replace("acme,41.5", "acme,")
            Path(room, "quotes.csv").write_text(quotes)
            market = Path(MARKET).read_text().replace('today = "2024-01-15"', 'today = "2024-01-17"')
            Path(room, MARKET).write_text(market.replace('"quotes.csv"', f'"{room}/quotes.csv"'))
            for of, flags in reports.PICTURES.items():
                self.assertEqual(board.get(f"curve?name=euro&of={of}")["svg"], doqs("curve", *flags, f"{room}/{MARKET}", "euro"))

    def test_scenarios_begin_with_the_market_of_now(self):
        board = Board(self)
        board.do("set s5 0.0263", "today 2024-01-17", "link rates rough")
        script = ["action up", "set s5 0.0363", "end", "ask book", "action lost", "unset s5", "set nobody 1", "end", "ask share", "ask euro"]
        status, text = board.request(f"{board.at.path}grid", {"script": "\n".join(script)})
        self.assertEqual(status, 200, text)
        found, moves = json.loads(text), ["set s5 0.0263", "today 2024-01-17", "link rates rough"]
        now, up, lost = found["scenarios"]
        self.assertEqual([it["name"] for it in found["scenarios"]], ["now", "up", "lost"])
        self.assertEqual(now["cells"][0]["value"], asked(*moves, "ask book")[1])
        self.assertEqual(up["cells"][0]["value"], asked(*moves, "set s5 0.0363", "ask book")[1])
        self.assertEqual(lost["cells"], [{"why": "the quote s5 has no value"}, now["cells"][1], {"why": "the quote s5 has no value"}])
        self.assertEqual((lost["refused"], now["cells"][2]), (["set: no object has the name nobody"], {"why": "a curve"}))
        worst = 0 if Decimal(now["cells"][0]["value"]) <= Decimal(up["cells"][0]["value"]) else 1
        self.assertEqual(found["worst"], [worst, 0, None])
        for bad in ("action up\nask book\nend\nask book", "ask book\nfreeze book", "action up\nend"):
            status, text = board.request(f"{board.at.path}grid", {"script": bad})
            self.assertEqual(status, 409, text)
        # The proposal runs as it is.
        proposed = board.get("grid")["script"]
        status, text = board.request(f"{board.at.path}grid", {"script": proposed})
        self.assertEqual((status, len(json.loads(text)["scenarios"])), (200, 6))

    def test_the_journal_is_the_session(self):
        board = Board(self)
        board.do("set s5 0.0253", "freeze state", "set s5 0.0251", "sell book", "unset premium")
        played = [it.split() for it in doqs("run", MARKET, "SCRIPT", script=board.journal().splitlines()).splitlines()]
        last = {it[0]: it for it in played[-len(PRICED) :]}
        self.assertEqual(list(last), PRICED)
        for row in board.state()["rows"]:
            if "value" in row:
                self.assertEqual([money(row["value"]), row["mark"]], last[row["name"]][1:3])
        self.assertEqual(last["offer"][1:4], ["refused", "unset", "premium"])
        self.assertEqual(board.row("offer")["why"], "the quote premium has no value")
        self.assertEqual(board.journal(), Path(board.log).read_text())

    def test_a_session_that_ends(self):
        board = Board(self, "--via", "pipe")
        board.do("set s5 0.0253")
        board.kill_session()
        self.wait(lambda: board.state()["ended"])
        self.assertEqual(board.row("book")["mark"], "ended")
        status, text = board.request(f"{board.at.path}do", {"lines": ["set s5 0.0254"], "key": "too-late"})
        self.assertEqual((status, text[:21]), (409, "the session has ended"))
        self.assertIn("set s5 0.0253\n", board.journal())
        self.assertEqual(board.get("why?name=share")["objects"][0]["name"], "share")
        board.tick("set s5 0.0255")
        self.wait(lambda: board.state()["feed"]["lost"] == 1)

    def test_words_of_the_command_line(self):
        for words, wanted in ((["--show", "nobody"], "nobody is no instrument"), (["no_script"], "no_script"), (["--port", "x"], "usage")):
            call = [sys.executable, HERE / "board.py", MARKET, "--port", "0", *words]
            ran = subprocess.run(call, stdin=subprocess.DEVNULL, stdout=subprocess.PIPE, stderr=subprocess.PIPE, text=True, timeout=SECONDS)
            self.assertNotEqual(ran.returncode, 0)
            self.assertIn(wanted, ran.stderr)
            self.assertNotIn("Traceback", ran.stderr)
        board = Board(self, "--show", "share,book")
        self.assertEqual([board.state()["orders"]["names"], board.state()["hidden"]], [["share", "book"], 0])

    def wait(self, is_so):
        till = time.monotonic() + SECONDS
        while not is_so():
            self.assertLess(time.monotonic(), till)
            time.sleep(0.05)


def small_picture(png):
    """A screenshot with at most 256 colours, as a PNG with a palette."""
    width, height, _, kind = struct.unpack(">IIBB", png[16:26])
    size, at, data = {2: 3, 6: 4}[kind], 8, b""
    while at < len(png):
        length = int.from_bytes(png[at : at + 4], "big")
        data += png[at + 8 : at + 8 + length] if png[at + 4 : at + 8] == b"IDAT" else b""
        at += length + 12
    raw, lines, above = zlib.decompress(data), [], bytes(width * size)
    for y in range(height):
        line = bytearray(raw[y * (width * size + 1) + 1 : (y + 1) * (width * size + 1)])
        how = raw[y * (width * size + 1)]
        for x in range(width * size if how else 0):
            left, up, corner = (line[x - size] if x >= size else 0), above[x], (above[x - size] if x >= size else 0)
            near = min((abs(up - corner), 0, left), (abs(left - corner), 1, up), (abs(left + up - 2 * corner), 2, corner))[2]
            line[x] = (line[x] + (0, left, up, (left + up) // 2, near)[how]) & 255
        above = bytes(line)
        lines.append([above[x : x + 3] for x in range(0, width * size, size)])
    often = Counter(pixel for line in lines for pixel in line).most_common()
    colours = [it for it, _ in often[:256]]
    of = {it: place for place, it in enumerate(colours)}
    for it, _ in often[256:]:
        of[it] = min(range(256), key=lambda place: sum((one - other) ** 2 for one, other in zip(it, colours[place])))
    body = b"".join(b"\0" + bytes(map(of.__getitem__, line)) for line in lines)

    def chunk(name, inside):
        return struct.pack(">I", len(inside)) + name + inside + struct.pack(">I", zlib.crc32(name + inside))

    head = struct.pack(">IIBBBBB", width, height, 8, 3, 0, 0, 0)
    return png[:8] + chunk(b"IHDR", head) + chunk(b"PLTE", b"".join(colours)) + chunk(b"IDAT", zlib.compress(body, 9)) + chunk(b"IEND", b"")


class Browser:
    """Chromium with a window of this size, by the protocol of WebDriver."""

    def __init__(self, width, height, phone):
        self.driver = subprocess.Popen(["chromedriver", "--port=0"], stdout=subprocess.PIPE, text=True)
        for line in self.driver.stdout:
            if found := re.search(r"started successfully on port (\d+)", line):
                break
        self.at = f"http://127.0.0.1:{found[1]}/session"
        options = {"args": ["--headless=new", "--disable-dev-shm-usage", "--hide-scrollbars", "--force-color-profile=srgb"]}
        options["args"] += ["--no-sandbox"] if os.geteuid() == 0 else []
        if phone:
            options["mobileEmulation"] = {"deviceMetrics": {"width": width, "height": height, "pixelRatio": 1}}
        wanted = {"goog:chromeOptions": options, "goog:loggingPrefs": {"browser": "ALL"}, "timeouts": {"script": 100000}}
        wanted = {"capabilities": {"alwaysMatch": wanted}}
        self.at += "/" + self.call("POST", "", wanted)["sessionId"]
        if not phone:
            self.cdp("Emulation.setDeviceMetricsOverride", {"width": width, "height": height, "deviceScaleFactor": 1, "mobile": False})

    def call(self, method, path, body=None):
        line = urllib.parse.urlsplit(self.at)
        to = http.client.HTTPConnection(line.hostname, line.port, timeout=120)
        to.request(method, line.path + path, None if body is None else json.dumps(body), {"Content-Type": "application/json"})
        answer = to.getresponse()
        value = json.load(answer)["value"]
        to.close()
        if answer.status != 200:
            raise AssertionError(f"{path} {body}: {value['message']}")
        return value

    def cdp(self, command, words):
        return self.call("POST", "/goog/cdp/execute", {"cmd": command, "params": words})

    def run(self, script, *words):
        return self.call("POST", "/execute/sync", {"script": f"return {script}", "args": words})

    def wait_for(self, script):
        """The result of an async function of the page."""
        whole = f"const done = arguments[arguments.length - 1]; ({script})().then(done, error => done(String(error)))"
        return self.call("POST", "/execute/async", {"script": whole, "args": []})

    def texts(self, where):
        return self.run("[...document.querySelectorAll(arguments[0])].map(it => it.innerText)", where)

    def open(self, page):
        self.call("POST", "/url", {"url": page})

    def press(self, text):
        """Keys, as a keyboard gives them to what has the focus."""
        keys = [{"type": kind, "value": it} for it in text for kind in ("keyDown", "keyUp")]
        self.call("POST", "/actions", {"actions": [{"type": "key", "id": "keys", "actions": keys}]})

    def focus(self, where):
        self.run("document.querySelector(arguments[0]).focus()", where)

    def click(self, where):
        self.run("document.querySelector(arguments[0]).click()", where)

    def faults(self):
        """What the page's console has of faults, without those of the network."""
        return [it["message"] for it in self.call("POST", "/se/log", {"type": "browser"}) if it["source"] != "network"]

    def picture(self, path):
        path.write_bytes(small_picture(base64.b64decode(self.call("GET", "/screenshot"))))

    def close(self):
        self.call("DELETE", "")
        self.driver.terminate()
        self.driver.communicate()


# The contrast of each text that is seen with what is behind it, where it is below 4.5.
CONTRAST = """(() => {
  const parse = text => (text.match(/[\\d.]+/g) ?? [0, 0, 0, 0]).map(Number)
  const light = ([r, g, b]) => [r, g, b].map(it => it / 255).map(it => it <= 0.04045 ? it / 12.92 : ((it + 0.055) / 1.055) ** 2.4)
    .reduce((sum, it, place) => sum + it * [0.2126, 0.7152, 0.0722][place], 0)
  const over = (top, low) => { const a = top[3] ?? 1; return [0, 1, 2].map(place => top[place] * a + low[place] * (1 - a)) }
  const behind = it => {
    const seen = []
    for (let node = it; node; node = node.parentElement) seen.push(parse(getComputedStyle(node).backgroundColor))
    return seen.reverse().reduce((low, top) => over(top, low), [255, 255, 255])
  }
  const poor = []
  for (const it of document.querySelectorAll("body *")) {
    if (it.closest("svg, script, style") || !it.offsetParent && it.tagName !== "DIALOG" || !it.checkVisibility()) continue
    const isText = it.matches("input, textarea") || [...it.childNodes].some(node => node.nodeType === 3 && node.data.trim())
    if (!isText || it.disabled) continue
    const back = behind(it), ink = over(parse(getComputedStyle(it).color), back)
    const [low, high] = [light(ink), light(back)].sort((a, b) => a - b), ratio = (high + 0.05) / (low + 0.05)
    if (ratio < 4.5) poor.push(`${it.tagName} ${it.className} ${it.textContent.slice(0, 20)} ${ratio.toFixed(2)}`)
  }
  return poor
})()"""


@unittest.skipUnless(all(BROWSERS), "NOT TRIED: there is no chromium, or no chromedriver")
class Pages(unittest.TestCase):
    @classmethod
    def setUpClass(cls):
        cls.wide, cls.phone = Browser(1440, 900, False), Browser(390, 844, True)
        cls.addClassCleanup(cls.wide.close)
        cls.addClassCleanup(cls.phone.close)

    def board(self, *words, pages=("wide",)):
        board = Board(self, *words)
        for it in pages:
            page = getattr(self, it)
            page.open(board.page)
            self.wait(lambda: page.texts("#status") == ["live"] and page.texts("#row-book .mark") == ["fresh"])
        return board

    def wait(self, is_so, shown=lambda: ""):
        till = time.monotonic() + SECONDS
        while not is_so():
            self.assertLess(time.monotonic(), till, shown())
            time.sleep(0.05)

    def await_row(self, page, name, price, mark):
        """Waits until the row's price and mark are these."""
        row = lambda: page.texts(f"#row-{name} td.value, #row-{name} .mark")  # noqa: E731
        self.wait(lambda: [money(it) for it in row()] == [price, mark], lambda: f"{name} is {row()}, and not {price} {mark}")

    def await_typed(self, page, line, wrote):
        last = lambda: page.texts("#typed li:first-child > span")  # noqa: E731
        self.wait(lambda: last() == [f"{line}\n{wrote}"], lambda: f"the page has {last()}, and not {line}, {wrote}")

    def type(self, page, *lines):
        page.focus("#line")
        for it in lines:
            page.press(it + ENTER)

    def test_prices_marks_and_commands(self):
        board = self.board(pages=("wide", "phone"))
        wide, phone = self.wide, self.phone
        for page in (wide, phone):
            self.await_row(page, "book", asked("ask book")[1], "fresh")
            self.assertEqual(page.run("document.getElementById('day').value"), "2024-01-15")
            self.assertEqual(page.texts("#row-book .change"), ["0.000000"])
            self.assertEqual(page.texts("#part-books tr.row th"), ["book composite"])
            self.assertEqual(page.run("document.getElementById('quote-s5').value"), "0.02520")
        # A tick: the price on both pages is that of `doqs run`.
        board.tick("set s5 0.0253")
        moved, first = asked("set s5 0.0253", "ask book")[1], asked("ask book")[1]
        for page in (wide, phone):
            self.await_row(page, "book", moved, "fresh")
            self.assertEqual(money(page.texts("#row-book .change")[0]), f"{Decimal(moved) - Decimal(first):+f}")
            self.assertEqual(page.run("document.getElementById('quote-s5').value"), "0.02530")
            self.assertEqual(page.texts("tr:has(#quote-s5) .change"), ["+0.00010"])
        # A frozen object keeps its price, and what is computed over it is held.
        self.type(wide, "freeze state")
        frozen = asked("set s5 0.0253", "ask state")[1]
        self.await_row(wide, "state", frozen, "frozen")
        board.tick("set s5 0.0251")
        self.await_row(phone, "book", asked("set s5 0.0253", "ask state", "freeze state", "set s5 0.0251", "ask book")[1], "held")
        self.await_row(phone, "state", frozen, "frozen")
        # No price, a faulty command, a refused one, in words.
        board.tick("unset premium")
        for page in (wide, phone):
            self.await_row(page, "offer", "the quote premium has no value", "refused")
        self.type(wide, "ask nobody")
        self.await_typed(wide, "ask nobody", "ask: no object has the name nobody")
        self.type(phone, "sell book")
        for page in (wide, phone):
            self.await_typed(page, "sell book", "its first word is no command")
            self.assertEqual(page.run("document.querySelector('#typed li .wrote').className"), "wrote bad")
        self.type(wide, "ask share")
        self.await_typed(wide, "ask share", "share 41.500000 fresh, 0 computed")
        # Side by side on a wide screen, one below the other on a phone, and no page is wider than its screen.
        tops = "['prices', 'quotes', 'commands'].map(it => document.getElementById(it).getBoundingClientRect().top)"
        self.assertEqual(len(set(wide.run(tops))), 1)
        self.assertEqual(phone.run(tops), sorted(set(phone.run(tops))))
        for page, width in ((wide, 1440), (phone, 390)):
            self.assertEqual(page.run("document.documentElement.scrollWidth"), width)
            self.assertEqual(page.faults(), [])

    def test_what_is_typed_stays_while_ticks_come(self):
        board = self.board()
        self.type(self.wide, "ask book", "action look", "ask share", "end", "watch w look", "register w share", "ask share")
        self.await_typed(self.wide, "ask share", "share 41.500000 fresh, 0 computed")
        typed = self.wide.texts("#typed .said")
        self.assertEqual(typed, ["ask share", "register w share", "watch w look", "action look\nask share\nend", "ask book"])
        board.tick(*(f"set acme {40 + it / 100:.2f}" for it in range(700)))
        self.wait(lambda: self.wide.texts("#feed-state") == ["700 lines"], lambda: self.wide.texts("#feed-state"))
        self.await_row(self.wide, "share", "46.990000", "fresh")
        self.assertEqual(self.wide.texts("#typed .said"), typed)
        self.wait(lambda: self.wide.texts("#notes li:first-child .said") == ["set acme 46.99"])
        self.assertLessEqual(self.wide.run("document.querySelectorAll('#notes li').length"), 300)
        self.assertEqual(self.wide.texts("#notes li:first-child .wrote"), ["share 46.990000 fresh, 1 computed"])
        # The keys up and down bring earlier commands back.
        self.wide.focus("#line")
        self.wide.press(UP + UP)
        self.assertEqual(self.wide.run("document.getElementById('line').value"), "register w share")
        self.wide.press(UP + UP)
        self.assertEqual(self.wide.run("document.getElementById('line').value"), "action look\nask share\nend")
        self.wide.press(DOWN * 4)
        self.assertEqual(self.wide.run("document.getElementById('line').value"), "")

    def test_a_quote_is_edited_in_place(self):
        board = self.board()
        page, value = self.wide, lambda name: self.wide.run(f"document.getElementById('quote-{name}').value")
        page.focus("#quote-s5")
        page.press("0.0253" + ENTER)
        self.await_row(page, "book", asked("set s5 0.0253", "ask book")[1], "fresh")
        self.wait(lambda: value("s5") == "0.02530")
        self.assertIn("set s5 0.0253\n", board.journal())
        # A refused value says why at the field, which keeps what was typed, and the quote its value.
        for text, why in (("2,5", "a number is not in its form"), ("1e3", "a number is not in its form"), ("9999999999", "a number is not in its form"), ("1 2", "one word"), ("", "empty")):
            page.focus("#quote-s7")
            page.press(ESCAPE)
            page.run("document.getElementById('quote-s7').select()")
            page.press((text or "\ue003") + ENTER)
            self.wait(lambda: (page.texts("#hint-s7") or [""])[0].startswith(why), lambda: page.texts("#hint-s7"))
            self.assertEqual((value("s7"), page.run("document.getElementById('quote-s7').getAttribute('aria-invalid')")), (text, "true"))
            self.assertEqual(page.run("document.getElementById('quote-s7').getAttribute('aria-describedby')"), "hint-s7")
        self.assertEqual({it["name"]: it["value"] for it in board.state()["quotes"]}["s7"], "0.0251")
        # A tick moves the field's value below what is typed, and Escape takes it back.
        page.press(ESCAPE)
        self.assertEqual((value("s7"), page.texts("#hint-s7")), ("0.02510", [""]))
        page.press("0.03")
        board.tick("set s7 0.0255")
        self.wait(lambda: page.texts("#hint-s7") == ["now 0.02550: Enter sets, Esc takes back"], lambda: page.texts("#hint-s7"))
        self.assertEqual(value("s7"), "0.03")
        page.press(ESCAPE)
        self.assertEqual(value("s7"), "0.02550")
        # The arrows step the last place; unset takes the value away.
        page.press(UP + UP + UP + DOWN)
        self.assertEqual(value("s7"), "0.02552")
        page.press(ENTER)
        self.await_row(page, "book", asked("set s5 0.0253", "set s7 0.02552", "ask book")[1], "fresh")
        page.focus("#quote-premium")
        page.press("unset" + ENTER)
        self.await_row(page, "offer", "the quote premium has no value", "refused")
        self.wait(lambda: value("premium") == "")
        page.press("0.06" + ENTER)
        self.await_row(page, "offer", "41.560000", "fresh")

    def test_a_day_moves_and_pays(self):
        self.board(pages=("wide", "phone"))
        page = self.wide
        page.focus("#day")
        page.press("2024-02-30" + ENTER)
        self.wait(lambda: page.texts("#day-hint")[0].startswith("a day is not in its form"))
        page.press(ESCAPE + "2024-02-14" + UP + ENTER)
        self.wait(lambda: page.texts("#row-state .paid") == ["24,991.578711"], lambda: page.texts("#row-state td"))
        self.assertEqual(page.run("document.getElementById('day').value"), "2024-02-15")
        self.assertEqual(page.texts("#row-book td.num"), ["5,429,557.161903", "-65,695.614260", "74,974.736133", "+9,279.121873"])
        self.wait(lambda: self.phone.texts("#row-book .result") == ["+9,279.121873"], lambda: self.phone.texts("#row-book .result"))
        for it, width in ((self.wide, 1440), (self.phone, 390)):
            self.assertEqual(it.run("document.documentElement.scrollWidth"), width)

    def test_why_of_a_price(self):
        self.board()
        page = self.wide
        page.press("p" + DOWN + ENTER)
        self.wait(lambda: page.run("document.getElementById('panel').open") and page.texts("#body tfoot"))
        wanted = [it.split() for it in doqs("why", MARKET, "SCRIPT", "state", script=["ask book"]).splitlines() if it.startswith("state flow ")]
        rows = page.run("[...document.querySelectorAll('#body tbody tr')].map(row => [...row.cells].map(it => it.innerText))")
        self.assertEqual([[money(it) for it in row] for row in rows], [it[2:6] for it in wanted])
        self.assertEqual(page.texts("#body tfoot td")[-1].replace(",", ""), "1022130.378949258338457259")
        self.assertEqual(page.texts("#panel-head"), ["state"])
        page.press(ESCAPE)
        self.wait(lambda: not page.run("document.getElementById('panel').open"))
        # A click on the book leads to its members, and back.
        page.click("#row-book .link")
        self.wait(lambda: page.texts("#body tfoot td")[-1:] == ["5,495,252.776163"])
        page.run("[...document.querySelectorAll('#body tbody .link')].find(it => it.innerText === 'payer').click()")
        self.wait(lambda: page.texts("#panel-head") == ["payer"] and page.texts("#body tfoot"))
        self.assertIn("swap -5,302.896200 fresh", page.texts("#body p")[0])
        page.click("#back")
        self.wait(lambda: page.texts("#panel-head") == ["book"])
        page.click("#close")

    def test_pictures_of_a_curve(self):
        self.board()
        page = self.wide
        page.click("#row-euro .link")
        titles = {"discount": "Discount factors", "zero": "Simple zero rates", "forward": "Simple forward rates", "par": "Par rates"}
        for at, (of, title) in enumerate(titles.items()):
            self.wait(lambda: page.texts("#body .chips button"))
            page.run("document.querySelectorAll('#body .chips button')[arguments[0]].click()", at)
            shown = lambda: page.run("document.querySelector('#body svg text')?.textContent ?? ''")  # noqa: E731
            self.wait(lambda: shown().startswith(title), shown)
            self.assertEqual(page.run("document.querySelector('#body [aria-pressed=true]').innerText"), of)
            self.assertGreater(page.run("document.querySelector('#body svg').getBoundingClientRect().width"), 600)
        page.click("#close")
        self.assertEqual(page.faults(), [])

    def test_the_graph(self):
        self.board()
        page = self.wide
        page.click("#title")
        self.wait(lambda: page.run("document.querySelectorAll('#body .graph g').length") > 0)
        drawn = tracked.read_graph(doqs("graph", MARKET, "SCRIPT", script=[f"ask {it}" for it in PRICED]))
        names = page.run("[...document.querySelectorAll('#body .graph g')].map(it => it.dataset.name)")
        self.assertEqual(names, [it["name"] for it in drawn["nodes"] if it["name"] != "today"])
        arrows = [it for it in drawn["arrows"] if it["to"] != "today"]
        self.assertEqual(page.run("document.querySelectorAll('#body .graph path').length"), len(arrows))
        # No box lies over another.
        boxes = page.run("[...document.querySelectorAll('#body .graph rect')].map(it => { const at = it.getBoundingClientRect(); return [at.x, at.y, at.right, at.bottom] })")
        for at, (x, y, right, bottom) in enumerate(boxes):
            self.assertFalse(any(x < u and o < right and y < w and v < bottom for o, v, u, w in boxes[:at]), names[at])
        page.run("document.querySelector('#body g[data-name=book]').focus()")
        self.assertEqual(page.run("document.querySelectorAll('#body path.lit').length"), 5)
        page.press(ENTER)
        self.wait(lambda: page.texts("#panel-head") == ["book"] and page.texts("#body .chips"))
        # The graph around one object: what it depends on, and what depends on it.
        page.click("#back")
        self.wait(lambda: page.run("document.querySelector('#body select') !== null"))
        page.run("(it => { it.value = 'asked'; it.onchange() })(document.querySelector('#body select'))")
        names = lambda: page.run("[...document.querySelectorAll('#body .graph g')].map(it => it.dataset.name)")  # noqa: E731
        self.wait(lambda: names() == ["acme", "premium", "asked", "offer"], names)
        page.click("#close")

    def test_scenarios(self):
        self.board()
        page = self.wide
        page.click("#run")
        self.wait(lambda: page.texts("#grid tbody tr"))
        self.assertEqual(page.texts("#grid tbody th"), ["now", "rates_up", "rates_down", "steeper", "others_up", "others_down"])
        script = page.run("document.getElementById('script').value")
        wanted = doqs("grid", MARKET, "SCRIPT", script=script.splitlines()).splitlines()
        worst = {it[1]: it[2].replace("base", "now") for it in (line.split() for line in wanted if line.startswith("worst "))}
        heads = page.texts("#grid thead th")[1:]
        for column, name in enumerate(heads):
            marked = page.run(f"[...document.querySelectorAll('#grid tbody tr')].filter(row => row.cells[{column + 1}].classList.contains('worst')).map(row => row.cells[0].innerText)")
            self.assertEqual(marked, [worst[name]])
        page.run("document.getElementById('script').value = 'ask book\\nfreeze book'")
        page.click("#run")
        self.wait(lambda: "ended with 9" in page.texts("#grid-note")[0] or "shape" in page.texts("#grid-note")[0], lambda: page.texts("#grid-note"))
        self.assertEqual(page.texts("#grid tbody tr"), [])

    def test_a_reload_in_the_middle(self):
        """No line is lost and none is done or shown twice, over reloads while lines are typed and ticks come."""
        board = self.board()
        page, stop = self.wide, threading.Event()

        def ticks():
            number = 0
            while not stop.wait(0.05):
                number += 1
                board.tick(f"set acme {40 + number % 100 / 100:.2f}")

        feed = threading.Thread(target=ticks)
        feed.start()
        try:
            sent = []
            for part in range(4):
                lines = [f"quote n{part}_{it} {it}" for it in range(8)]
                sent += lines
                # The last of these are on their way as the page goes.
                page.run("(arguments[0].forEach(it => send([it])), location.reload())", lines)
                self.wait(lambda: page.run("typeof outbox !== 'undefined' && document.readyState === 'complete'"))
            shown = "[...document.querySelectorAll('#typed .said')].map(it => it.textContent)"
            done = lambda: [it for it in page.run(shown) if it.startswith("quote n")]  # noqa: E731
            self.wait(lambda: len(done()) >= len(sent), lambda: f"{len(done())} of {len(sent)}")
        finally:
            stop.set()
            feed.join()
        self.assertEqual(sorted(done()), sorted(sent))
        journal = [it for it in board.journal().splitlines() if it.startswith("quote n")]
        self.assertEqual(sorted(journal), sorted(sent))
        self.assertEqual(page.run("sessionStorage.getItem('outbox')"), "[]")
        self.assertEqual(page.texts("#typed .wrote.bad"), [])

    def test_a_session_that_ends_and_a_board_that_goes(self):
        board = self.board("--via", "pipe")
        page = self.wide
        board.do("set s5 0.0253")
        board.kill_session()
        self.wait(lambda: page.texts("#status") == ["the session has ended"])
        self.assertIn("The journal has each line that was done", page.texts("#banner")[0])
        self.assertEqual((page.texts("#row-book .mark"), page.run("document.getElementById('quote-s5').disabled")), (["ended"], True))
        saved = page.wait_for("async () => (await fetch(document.getElementById('journal').href)).text()")
        self.assertEqual(saved, Path(board.log).read_text())
        self.assertIn("set s5 0.0253\n", saved)
        board.stop()
        self.wait(lambda: page.texts("#status") == ["connection lost"])
        self.assertIn("The board does not answer", page.texts("#banner")[0])

    def test_a_page_of_another_site(self):
        board = self.board()
        log = Path(board.log).read_text

        class Foreign(http.server.BaseHTTPRequestHandler):
            def do_GET(self):
                self.send_response(200)
                self.send_header("Content-Type", "text/html")
                self.end_headers()

            def log_message(self, *_):
                pass

        foreign = http.server.ThreadingHTTPServer(("127.0.0.1", 0), Foreign)
        threading.Thread(target=foreign.serve_forever, daemon=True).start()
        self.addCleanup(foreign.server_close)
        self.addCleanup(foreign.shutdown)
        for host in ("127.0.0.1", "localhost"):
            self.wide.open(f"http://{host}:{foreign.server_port}/")
            send = f"fetch('{board.page}do', {{ method: 'POST', mode: 'MODE', body: JSON.stringify({{ lines: ['set acme 1'], key: 'of-another-site' }}) }})"
            for mode in ("cors", "no-cors"):
                self.wide.wait_for(f"async () => String(await {send.replace('MODE', mode)})")
            got = self.wide.wait_for(f"async () => (await fetch('{board.page}journal')).text()")
            self.assertIn("Failed to fetch", got)
            self.wide.open(f"data:text/html,<iframe src='{board.page}'></iframe>")
            self.assertEqual(self.wide.run("document.querySelector('iframe').contentDocument"), None)
        self.assertNotIn("set acme 1\n", log())
        self.wide.open(board.page.replace(board.at.path, "/wrong/"))
        self.assertEqual(self.wide.run("document.body.textContent.trim()"), "wrong token")
        self.wide.faults()

    def test_keys_and_contrast(self):
        board = self.board(pages=("wide", "phone"))
        board.do("freeze state", "unset premium", "sell book", "ask book", "today 2024-02-15")
        page = self.wide
        self.wait(lambda: page.texts("#row-offer .mark") == ["refused"] and page.texts("#row-state .mark") == ["frozen"])
        focused = lambda: page.run("document.activeElement.id")  # noqa: E731
        page.run("document.activeElement.blur()")
        for key, where in (("/", "line"), ("d", "day"), ("q", "quote-d1w")):
            page.press(key)
            self.assertEqual(focused(), where)
            page.run("document.activeElement.blur()")
        page.press("q" + TAB)
        self.assertEqual(focused(), "quote-d1m")
        page.run("document.activeElement.blur()")
        for key, head in (("?", "Keys"), ("g", "What depends on what")):
            page.press(key)
            self.wait(lambda: page.texts("#panel-head") == [head])
            page.press(ESCAPE)
            self.wait(lambda: not page.run("document.getElementById('panel').open"))
        # Each control is reached by the key Tab, and has a name.
        nameless = "[...document.querySelectorAll('button, input, textarea, a')].filter(it => it.tabIndex < 0 || !(it.innerText || it.getAttribute('aria-label') || it.labels?.length)).map(it => it.outerHTML)"
        self.assertEqual(page.run(nameless), [])
        page.click("#run")
        self.wait(lambda: page.texts("#grid .worst"))
        for scheme in ("light", "dark"):
            for it in (page, self.phone):
                it.cdp("Emulation.setEmulatedMedia", {"features": [{"name": "prefers-color-scheme", "value": scheme}]})
                self.wait(lambda: it.run("getComputedStyle(document.body).backgroundColor") == {"light": "rgb(255, 255, 255)", "dark": "rgb(20, 22, 26)"}[scheme])
                self.wait(lambda: it.run("document.getAnimations().length") == 0)
                self.assertEqual(it.run(CONTRAST), [], scheme)
        for it in (page, self.phone):
            it.cdp("Emulation.setEmulatedMedia", {"features": [{"name": "prefers-color-scheme", "value": "light"}]})
        # The page asks nobody else.
        hosts = page.run("[...new Set(performance.getEntriesByType('resource').map(it => new URL(it.name).host))]")
        self.assertEqual(hosts, [board.at.netloc])
        self.assertEqual(page.faults(), [])

    @unittest.skipUnless(os.environ.get("PICTURES"), "PICTURES=1 renews the pictures")
    def test_pictures(self):
        board, wide = self.board(pages=("wide", "phone")), self.wide
        self.type(wide, "action look", "ask book", "end", "watch limit look", "register limit book")
        for it in ("set s5 0.0253", "set acme 42.1", "sell book", "set s7 0.0252"):
            board.tick(it)
            time.sleep(0.5)
        self.type(wide, "ask book", "unset premium", "ask nobody")
        self.await_typed(wide, "ask nobody", "ask: no object has the name nobody")
        board.do("freeze payer", "set s5 0.0254")
        wide.focus("#quote-s10")
        wide.press("2,5" + ENTER)
        self.wait(lambda: wide.texts("#hint-s10")[0])
        time.sleep(2)
        wide.picture(HERE / "wide.png")
        self.phone.picture(HERE / "phone.png")
        board = self.board()
        board.do("set s5 0.0253")
        board.do("today 2024-02-15")
        wide.click("#run")
        self.wait(lambda: wide.texts("#grid .worst"))
        wide.run("document.getElementById('script').hidden = true")
        wide.cdp("Emulation.setDeviceMetricsOverride", {"width": 1440, "height": 1240, "deviceScaleFactor": 1, "mobile": False})
        time.sleep(2)
        wide.picture(HERE / "day.png")
        wide.cdp("Emulation.setDeviceMetricsOverride", {"width": 1440, "height": 900, "deviceScaleFactor": 1, "mobile": False})
        wide.click("#title")
        self.wait(lambda: wide.run("document.querySelectorAll('#body .graph g').length"))
        wide.run("document.querySelector('#body g[data-name=book]').focus()")
        wide.picture(HERE / "graph.png")
        wide.click("#close")
        wide.click("#row-state .link")
        self.wait(lambda: wide.texts("#body tfoot"))
        wide.picture(HERE / "why.png")
        wide.click("#close")


def main():
    tests = unittest.defaultTestLoader.loadTestsFromModule(sys.modules[__name__])
    ran = unittest.TextTestRunner(verbosity=int(os.environ.get("VERBOSITY", "1"))).run(tests)
    page = "and of the page in Chromium" if all(BROWSERS) else "and the page is NOT TRIED: there is no chromium, or no chromedriver"
    print(f"{ran.testsRun} tests of the board's requests {page}", flush=True)
    return 0 if ran.wasSuccessful() else 1


if __name__ == "__main__":
    sys.exit(main())
