#!/usr/bin/env python3
"""A page for a live desk: its prices, quotes and commands in a browser on this machine.

    TICKS | examples/live/board/board.py MARKET [SCRIPT] [--show NAME,NAME..] [--port PORT] [--log FILE] [--every SECONDS]

Lines of standard input are lines of the session, as `doqs live` takes them. The page shows the objects of --show, or all
that have a price. They are asked after each command of a page, and at most each SECONDS (0.2) while ticks come. The port is
8083, or a free one where it is 0. The address has a token: only who knows it reaches the page, from this machine alone.
--log keeps the session's journal in a new file, which is a script for `doqs run`. An interrupt ends the board, the end of the
input does not.
"""

import argparse
import hmac
import json
import os
import secrets
import select
import sys
import tempfile
import threading
import time
import urllib.parse
from http.server import BaseHTTPRequestHandler, ThreadingHTTPServer
from pathlib import Path

HERE = Path(__file__).resolve().parent
try:
    import doqsheley
except ImportError:
    sys.path.insert(0, str(HERE.parents[2] / "python" / "src"))
    import doqsheley
from doqsheley import DeskError, Session  # noqa: E402
from live_desk import LiveDesk  # noqa: E402
from reports import PICTURES  # noqa: E402

HOST = "127.0.0.1"
MOST_BYTES = 1 << 20
MOST_PAGES = 16
BEAT_SECONDS = 15
PAUSE_SECONDS = 0.1
QUIET_SECONDS = 30


class Refused(Exception):
    """A request that is not done: its status, and why."""

    def __init__(self, status, why):
        super().__init__(why)
        self.status = status


class Page(BaseHTTPRequestHandler):
    desk: LiveDesk
    token: str
    pages = threading.Semaphore(MOST_PAGES)
    reports = threading.Semaphore(2)
    timeout = QUIET_SECONDS
    has_read = False
    server_version, sys_version = "board", ""

    def do_GET(self):
        self.answered(
            {"": self.page, "events": self.events, "why": self.why, "curve": self.curve, "graph": self.graph, "grid": self.scenarios,
             "journal": self.journal}
        )  # fmt: skip

    def do_POST(self):
        self.answered({"do": self.do, "grid": self.grid})

    def answered(self, calls):
        """Does a request of this machine's own page. Any other is refused before anything of it is used."""
        try:
            self.let_in()
            _, token, *rest = self.path.partition("?")[0].split("/")
            if not hmac.compare_digest(token.encode(), self.token.encode()):
                raise Refused(403, "wrong token")
            if len(rest) != 1 or rest[0] not in calls:
                raise Refused(404, "no such page")
            self.query = dict(urllib.parse.parse_qsl(self.path.partition("?")[2]))
            calls[rest[0]]()
        except Refused as why:
            self.leave_body()
            self.send(why.status, "text/plain; charset=utf-8", f"{why}\n".encode())
        except DeskError as error:
            self.send(409, "text/plain; charset=utf-8", f"{error}\n".encode())
        except OSError:
            raise
        except Exception:
            self.send(500, "text/plain; charset=utf-8", b"the board has a fault, which is on its standard error\n")
            raise

    def let_in(self):
        """Refuses a request that does not come from this page: by its host, its origin, or what the browser says of it."""
        hosts = [f"{it}:{self.server.server_port}" for it in (HOST, "localhost")]
        if self.headers.get_all("Host") not in [[it] for it in hosts]:
            raise Refused(403, "wrong host")
        origins = self.headers.get_all("Origin")
        if origins is None and self.command == "POST" or origins is not None and origins not in [[f"http://{it}"] for it in hosts]:
            raise Refused(403, "wrong origin")
        if self.headers.get("Sec-Fetch-Site", "none") not in ("none", "same-origin"):
            raise Refused(403, "wrong site")
        if not self.path.startswith("/"):
            raise Refused(404, "no such page")

    def leave_body(self):
        """Reads what is left of a request that is refused, so that its sender sees why."""
        length = self.headers.get("Content-Length", "")
        if self.command == "POST" and not self.has_read and length.isascii() and length.isdigit():
            self.rfile.read(min(int(length), MOST_BYTES))

    def body(self):
        length = self.headers.get("Content-Length", "")
        if not length.isascii() or not length.isdigit() or int(length) > MOST_BYTES:
            raise Refused(413, f"a request has a length of at most {MOST_BYTES:,} bytes")
        self.has_read = True
        try:
            return json.loads(self.rfile.read(int(length)))
        except ValueError:
            raise Refused(400, "the request is no JSON") from None

    def send(self, status, kind, body, **headers):
        self.send_response(status)
        headers = {
            "Content-Type": kind, "Content-Length": None if body is None else str(len(body)), "Cache-Control": "no-store",
            "Referrer-Policy": "no-referrer", "X-Content-Type-Options": "nosniff", "Cross-Origin-Resource-Policy": "same-origin", **headers,
        }  # fmt: skip
        for name, value in headers.items():
            if value is not None:
                self.send_header(name.replace("_", "-"), value)
        self.end_headers()
        if body is not None:
            self.wfile.write(body)

    def json(self, made):
        self.send(200, "application/json", json.dumps(made).encode())

    # What the page asks for.

    def page(self):
        nonce = secrets.token_urlsafe(16)
        text = (HERE / "board.html").read_text().replace("NONCE", nonce)
        policy = f"default-src 'none'; style-src 'nonce-{nonce}'; script-src 'nonce-{nonce}'; connect-src 'self'; img-src data:; "
        policy += "base-uri 'none'; form-action 'none'; frame-ancestors 'none'"
        self.send(200, "text/html; charset=utf-8", text.encode(), Content_Security_Policy=policy)

    def events(self):
        # A page that is reloaded gives its place back as soon as its connection is seen to be closed.
        if not self.pages.acquire(timeout=5):
            raise Refused(503, f"{MOST_PAGES} pages are open already")
        try:
            last = self.headers.get("Last-Event-ID", "")
            version, entry = -1, int(last) if last.isascii() and last.isdigit() and len(last) < 16 else 0
            self.send(200, "text/event-stream", None)
            quiet = 0
            while not select.select([self.connection], [], [], 0)[0]:
                made = self.desk.since(version, entry, 1)
                quiet = quiet + 1 if made is None else 0
                if made is not None:
                    version, entry = made["version"], made["entry"]
                    self.wfile.write(f"id: {entry}\ndata: {json.dumps(made)}\n\n".encode())
                    time.sleep(PAUSE_SECONDS)
                elif quiet % BEAT_SECONDS == 0:
                    self.wfile.write(b": \n\n")
        finally:
            self.pages.release()

    def do(self):
        made = self.body()
        lines, key = (made.get("lines"), made.get("key")) if isinstance(made, dict) else (None, None)
        if not isinstance(key, str) or not 8 <= len(key) <= 64 or not isinstance(lines, list) or not lines:
            raise Refused(400, "lines and a key are wanted")
        if not all(isinstance(it, str) and "\n" not in it for it in lines):
            raise Refused(400, "a line has a newline")
        lines = [it.encode(errors="replace").decode() for it in lines]
        self.json(self.desk.call(self.desk.typed_lines, lines, key))

    def report(self, make, *words):
        """A report of `doqs`, at most two at a time."""
        with self.reports:
            try:
                made = make(*words)
            except KeyError as name:
                raise Refused(404, f"there is no {name} of that kind") from None
        self.json(made)

    def why(self):
        self.report(self.desk.why, self.query.get("name", ""))

    def curve(self):
        of = self.query.get("of", "discount")
        if of not in PICTURES:
            raise Refused(404, "no such picture")
        self.report(self.desk.curve, self.query.get("name", ""), of)

    def graph(self):
        self.report(self.desk.graph)

    def scenarios(self):
        self.report(lambda: {"script": self.desk.scenarios()})

    def grid(self):
        made = self.body()
        script = made.get("script") if isinstance(made, dict) else None
        if not isinstance(script, str):
            raise Refused(400, "a script is wanted")
        self.report(self.desk.grid, script)

    def journal(self):
        with open(self.desk.journal, "rb") as file:
            left = os.fstat(file.fileno()).st_size
            self.send(200, "text/plain; charset=utf-8", None, Content_Disposition='attachment; filename="journal.txt"', Content_Length=str(left))
            while left and (piece := file.read(min(left, 1 << 16))):
                self.wfile.write(piece)
                left -= len(piece)

    def log_message(self, *_):
        pass


class Server(ThreadingHTTPServer):
    daemon_threads = True
    request_queue_size = 64

    def handle_error(self, request, address):
        """A page that goes away, or that reads no more, is no error."""
        if not isinstance(sys.exc_info()[1], OSError):
            super().handle_error(request, address)


def feed(desk):
    """Hands the lines of standard input to the desk, as they come."""
    held = b""
    while piece := os.read(0, 65536):
        *lines, held = (held + piece).split(b"\n")
        for it in lines:
            desk.put(it.decode(errors="replace"))
    if held:
        desk.put(held.decode(errors="replace"))
    desk.call(desk.feed_ended)


def main():
    words = argparse.ArgumentParser(usage=__doc__.split("\n\n")[1].strip())
    words.add_argument("market")
    words.add_argument("script", nargs="?")
    words.add_argument("--show", default="")
    words.add_argument("--port", type=int, default=8083)
    words.add_argument("--log")
    words.add_argument("--every", type=float, default=0.2)
    words.add_argument("--via", choices=["library", "pipe"])
    given = words.parse_args()
    try:
        import doqsheley._desk  # noqa: F401
    except ImportError:
        given.via = given.via or "pipe"
    with tempfile.TemporaryDirectory(prefix="doqs-board-") as room:
        journal = given.log or str(Path(room, "journal.txt"))
        script = Path(given.script).read_text() if given.script else ""

        def opened():
            return Session(given.market, given.script, via=given.via or "library", journal=journal)

        desk = LiveDesk(opened, given.market, script, journal, [it for it in given.show.split(",") if it], given.every)
        desk.start()
        desk.began.result()
        Page.desk, Page.token = desk, secrets.token_urlsafe(24)
        server = Server((HOST, given.port), Page)
        threading.Thread(target=server.serve_forever, daemon=True).start()
        print(f"the board is at http://{HOST}:{server.server_port}/{Page.token}/", flush=True)
        try:
            if not sys.stdin.isatty():
                feed(desk)
            threading.Event().wait()
        finally:
            with desk.wake:
                desk.is_closing = True
                desk.wake.notify_all()
            desk.join(timeout=5)


if __name__ == "__main__":
    try:
        main()
    except (DeskError, OSError, UnicodeDecodeError) as error:
        sys.exit(f"board.py: {error}")
    except KeyboardInterrupt:
        sys.exit(130)
