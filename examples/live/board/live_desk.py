"""A desk that one thread owns, and what pages show of it. The calls of `LiveDesk` may come from any thread."""

import os
import threading
import time
from collections import OrderedDict, deque
from concurrent.futures import Future
from concurrent.futures import TimeoutError as FutureTimeout
from contextlib import suppress
from decimal import Decimal
from pathlib import Path

import reports
from doqsheley import Curve, DeskError, Ended, Fault, Price, ProgramFailed
from reports import plain
from tracked import BOOKS, CURVES, INSTRUMENTS, Tracked, read_graph, words_of

MOST_SHOWN = 200
MOST_ENTRIES = 300
MOST_WRITTEN, MOST_LETTERS = 100, 1000
MOST_WAITING = 10000
MOST_BLOCK = 10000
MOST_IDS = 1024
IDLE_SECONDS = 1.0
DESK_SECONDS = 10  # for a command of doqs that the desk's thread waits for
SYNC_SECONDS = 2.0


class Snapshot:
    """The lines that make the session of a moment: a short script with its moves, or how much of the journal."""

    def __init__(self, tracked, journal):
        self.day, self.made = tracked.day, tracked.made
        self.kinds = dict(tracked.kinds)
        self.journal = journal
        self.is_short = tracked.is_short
        self.script = tracked.script() if tracked.is_short else None
        self.moves = tracked.moves()
        self.length = os.path.getsize(journal)
        self.can_be_explained = tracked.is_short and not tracked.made

    def text(self):
        if self.script is not None:
            return self.script
        with open(self.journal, "rb") as file:
            return file.read(self.length).decode()


def grouped(value):
    return f"{value:,.6f}"


class LiveDesk(threading.Thread):
    """A session and its pages. `opened` makes the session, in this thread. `show` are the names of the rows, or none for all."""

    def __init__(self, opened, market, script, journal, show, every):
        super().__init__(daemon=True, name="desk")
        self.opened, self.market, self.opening, self.journal = opened, market, script, journal
        self.show, self.every = show, every
        self.began = Future()
        self.wake = threading.Condition()
        self.jobs, self.feed, self.is_closing = deque(), deque(), False
        self.is_stale, self.due, self.synced, self.is_unsynced = False, 0.0, 0.0, False
        self.feed_block = None
        # What pages show. Each has the version at which it changed last. Guarded by `changed`.
        self.changed = threading.Condition()
        self.version, self.entry = 0, 0
        self.rows, self.quotes, self.orders = {}, {}, {"names": (0, []), "quotes": (0, [])}
        self.typed, self.notes = deque(maxlen=MOST_ENTRIES), deque(maxlen=MOST_ENTRIES)
        self.ended, self.feed_state = None, {"lines": 0, "faults": 0, "ended": False, "lost": 0}
        self.lines, self.day, self.hidden, self.is_deferred = 0, "", 0, False
        self.is_paying, self.unread, self.shown_unread = False, None, None
        # Of the desk's thread alone.
        self.opens, self.open_quotes, self.last_money, self.pending, self.paid = {}, {}, {}, {}, {}
        self.ids = OrderedDict()

    # The desk's thread.

    def run(self):
        try:
            with self.opened() as self.session:
                graph = reports.run(["graph", self.market, "@script"], {"@script": self.opening})
                self.tracked = Tracked(graph, self.opening)
                priced = {name for kinds in (BOOKS, INSTRUMENTS, CURVES) for name in self.tracked.named(kinds)}
                for name in self.show:
                    if name not in priced:
                        raise DeskError(f"--show: {name} is no instrument, composite or curve of the market")
                self.look()
                self.began.set_result(None)
                self.work()
        except BaseException as error:
            if not self.began.done():
                self.began.set_exception(error)
            else:
                self.end(str(error))

    def work(self):
        while True:
            with self.wake:
                while not (self.jobs or self.feed or self.is_closing):
                    wait = self.due - time.monotonic() if self.is_stale else IDLE_SECONDS
                    if wait <= 0 or not self.wake.wait(wait):
                        break
                jobs = [self.jobs.popleft() for _ in range(len(self.jobs))]
                lines = [self.feed.popleft() for _ in range(min(500, len(self.feed)))]
                self.wake.notify_all()
            for call, future in jobs:
                try:
                    future.set_result(call())
                except BaseException as error:
                    future.set_exception(error)
            for line in lines:
                self.fed(line)
            if self.is_closing and not (self.jobs or self.feed):
                return
            if self.is_stale and time.monotonic() >= self.due:
                self.look()
            if not (jobs or lines):
                self.is_there()

    def is_there(self):
        """Notices a program of the session that is gone while no line comes."""
        process = getattr(self.session._back, "process", None)
        if process is not None and not self.ended and process.poll() is not None:
            with suppress(DeskError):
                self.session.send("")
            self.end(str(self.session.ended or f"the program ended with {process.returncode}"))

    def end(self, why):
        with self.changed:
            if not self.ended:
                self.ended = why
                self.version += 1
                for row in self.rows.values():
                    row.update(mark="ended", v=self.version)
                self.changed.notify_all()

    def say(self, line):
        """Does a line, and returns what it wrote, for readers, and whether it was done."""
        words = words_of(line)
        if words[:1] == ["today"]:
            self.look()
        try:
            events = self.session.send(line)
            self.tracked.done(line)
            if words[:1] == ["today"]:
                for name, snapshot in self.last_money.items():
                    self.pending.setdefault(name, snapshot)
            is_done = True
        except Ended as error:
            self.end(str(error))
            raise
        except Fault as error:
            # The number of the line is the session's own, which pages do not show.
            events, is_done = [DeskError(str(error).partition(": ")[2])], False
        except DeskError as error:
            events, is_done = [error], False
        self.is_stale, self.is_unsynced = True, self.is_unsynced or self.tracked.is_moved_by_actions
        with self.changed:
            self.lines += 1
        return [[reports.told(it)[:MOST_LETTERS], isinstance(it, DeskError)] for it in events], is_done

    def say_all(self, lines):
        """Does lines one after the other. Where the block of an action cannot begin, its lines are left out."""
        wrote, good, skips = [], True, False
        for line in lines:
            words = words_of(line)
            if skips:
                skips = words[:1] != ["end"]
                continue
            said, is_done = self.say(line)
            wrote += said
            good &= is_done
            if words[:1] == ["action"] and not is_done:
                wrote.append(["the lines of this action are not done", True])
                skips = True
        if len(wrote) > MOST_WRITTEN:
            wrote[MOST_WRITTEN:] = [[f"and {len(wrote) - MOST_WRITTEN} lines more, which are not kept here", False]]
        return wrote, good

    def add(self, where, lines, wrote, good, key=""):
        with self.changed:
            self.entry += 1
            shown = lines if len(lines) <= MOST_WRITTEN else [*lines[:MOST_WRITTEN], "..."]
            made = {"n": self.entry, "time": time.strftime("%H:%M:%S"), "lines": [it[:MOST_LETTERS] for it in shown], "wrote": wrote}
            made.update(good=good, key=key)
            where.append(made)
            self.changed.notify_all()
            return made

    def fed(self, line):
        """Does a line of the feed. The lines of an action are done together, so that no ask falls into its block."""
        words = words_of(line)
        with self.changed:
            self.feed_state["lines"] += 1
            if self.ended:
                self.feed_state["lost"] += 1
                return
        if self.feed_block is None and self.tracked.begins(words):
            self.feed_block = []
        if self.feed_block is not None:
            self.feed_block.append(line)
            if words[:1] != ["end"] and len(self.feed_block) < MOST_BLOCK:
                return
            lines, self.feed_block = self.feed_block, None
            if words[:1] != ["end"]:
                lines = [*lines, "end"]
        else:
            lines = [line]
        try:
            wrote, good = self.say_all(lines)
        except Ended:
            return
        if wrote:
            self.add(self.notes, lines, wrote, good)
        if not good:
            with self.changed:
                self.feed_state["faults"] += 1

    def feed_ended(self):
        if self.feed_block:
            self.add(self.notes, self.feed_block, [["the feed ended inside this action: it is not done", True]], False)
            self.feed_block = None
        with self.changed:
            self.feed_state["ended"] = True
            self.version += 1
            self.changed.notify_all()

    def typed_lines(self, lines, key):
        """Does the lines of a page. A key that was there before is done no second time."""
        if key in self.ids:
            return self.ids[key]
        if self.ended:
            raise Ended(0, f"the session has ended: {self.ended}")
        opens = 0
        for line in lines:
            word = (words_of(line) or [""])[0]
            opens = 1 if word == "action" else 0 if word == "end" else opens
        if opens:
            wrote, good = [["an action has no end: none of these lines is done", True]], False
        else:
            wrote, good = self.say_all(lines)
        made = self.add(self.typed, lines, wrote, good, key)
        self.ids[key] = {"n": made["n"], "good": good, "wrote": wrote[:5]}
        while len(self.ids) > MOST_IDS:
            self.ids.popitem(last=False)
        if self.is_stale:
            self.look()
        return made

    # What the pages show.

    def names(self):
        if self.show:
            return [it for it in self.show if it in self.tracked.kinds], 0
        every = [it for kinds in (BOOKS, INSTRUMENTS, CURVES) for it in self.tracked.named(kinds)]
        return every[:MOST_SHOWN], max(0, len(every) - MOST_SHOWN)

    def row(self, name):
        kind = self.tracked.kinds[name]
        part = "books" if kind in BOOKS else "curves" if kind in CURVES else "instruments"
        row = {"name": name, "kind": kind, "part": part}
        try:
            found = self.session.send(f"ask {name}")[0]
        except Ended as error:
            self.end(str(error))
            raise
        except DeskError as error:
            return {**row, "why": str(error).partition(": ")[2], "mark": "none", "runs": 0}
        self.tracked.asked[name] = True
        with self.changed:
            self.lines += 1
        if isinstance(found, Curve):
            last = found.nodes[-1]
            return {**row, "nodes": len(found.nodes), "until": str(last.day), "last": f"{last.value:f}", "mark": found.mark, "runs": found.runs}
        if not isinstance(found, Price):
            return {**row, "why": str(found).partition(": ")[2], "mark": "refused", "runs": found.runs}
        self.opens.setdefault(name, found.value)
        row.update(value=grouped(found.value), mark=found.mark, runs=found.runs, money=found.value)
        row.update(open=grouped(self.opens[name]), change=f"{found.value - self.opens[name]:+,.6f}")
        return row

    def look(self):
        """Asks for what is shown, and tells the pages what differs."""
        if self.ended:
            return
        self.is_stale, self.due = False, time.monotonic() + self.every
        self.sync()
        names, hidden = self.names()
        try:
            rows = {name: self.row(name) for name in names}
        except Ended:
            return
        with_money = [name for name, row in rows.items() if "money" in row]
        if with_money:
            snapshot = Snapshot(self.tracked, self.journal)
            if self.pending:
                self.settle([it for it in with_money if it in self.pending], snapshot)
            self.last_money.update(dict.fromkeys(with_money, snapshot))
        for name, row in rows.items():
            self.pay(name, row)
        quotes = {name: self.quote(name, value) for name, value in self.tracked.quotes.items()}
        with self.changed:
            before = (self.day, self.hidden, self.is_deferred, self.is_paying, self.shown_unread)
            self.day, self.hidden, self.is_deferred = self.tracked.day, hidden, self.tracked.is_deferred
            self.is_paying = bool(self.paid or self.pending)
            version = self.version + 1
            self.shown_unread = self.unread
            is_new = before != (self.day, self.hidden, self.is_deferred, self.is_paying, self.shown_unread)
            for key, old, new in (("names", self.rows, rows), ("quotes", self.quotes, quotes)):
                if list(old) != list(new):
                    self.orders[key], is_new = (version, list(new)), True
                for name, it in new.items():
                    was = old.get(name)
                    is_same = was is not None and {**was, "v": 0} == {**it, "v": 0}
                    it["v"] = was["v"] if is_same else version
                    is_new |= not is_same
            self.rows, self.quotes = rows, quotes
            if is_new:
                self.version = version
            self.changed.notify_all()

    def quote(self, name, value):
        if value is not None:
            self.open_quotes.setdefault(name, value)
        base = self.open_quotes.get(name)
        change = value - base if value is not None and base is not None else None
        return {"name": name, "value": None if value is None else plain(value), "change": None if change is None else plain(change)}

    def sync(self):
        """Reads the market from `doqs graph` where actions have moved it, since nothing else shows that."""
        if self.is_unsynced and time.monotonic() - self.synced >= SYNC_SECONDS:
            self.is_unsynced, self.synced = False, time.monotonic()
            try:
                text = Snapshot(self.tracked, self.journal).text()
                self.tracked.read(reports.run(["graph", self.market, "@script"], {"@script": text}, DESK_SECONDS))
                self.unread = None
            except ProgramFailed as error:
                self.unread = str(error)
        elif self.is_unsynced:
            self.is_stale = True

    # What was paid over a day's move.

    def settle(self, names, now):
        """Works out what was paid to these names since they last showed money before the day moved."""
        groups = {}
        for name in names:
            groups.setdefault(id(self.pending[name]), (self.pending.pop(name), []))[1].append(name)
        for before, group in groups.values():
            for name, amount in self.payments(before, now, group).items():
                was = self.paid.get(name, Decimal(0))
                self.paid[name] = None if amount is None or was is None else was + amount

    def payments(self, before, now, names):
        """What was paid to each name between two snapshots, None where that is not known."""
        found = {}
        # A report that fails, or that has another form, tells nothing.
        with suppress(ProgramFailed, ValueError, LookupError, ArithmeticError):
            if before.can_be_explained and now.can_be_explained:
                script = reports.explain_script(before.moves, now.moves, names)
                found = reports.read_paid(reports.run(["explain", self.market, "@script"], {"@script": script}, DESK_SECONDS))
            if all(it in found for it in names):
                return found
            states = []
            for it in (before, now):
                script, every = reports.all_script(it.text(), names, it.kinds)
                states.append(reports.run(["why", self.market, "@script", every], {"@script": script}, DESK_SECONDS))
            then, after = ({it["name"]: it for it in reports.read_why(text)["objects"]} for text in states)
            return {it: reports.paid_by_flows(then, after, it, now.day) for it in names}
        return dict.fromkeys(names)

    def pay(self, name, row):
        money = row.pop("money", None)
        if row["part"] == "curves" or not (self.paid or self.pending):
            return
        if name in self.pending:
            row["paid"] = "waits"
        elif self.paid.get(name, Decimal(0)) is None:
            row["paid"] = "unknown"
        else:
            paid = self.paid.get(name, Decimal(0))
            row["paid"] = grouped(paid)
            if money is not None:
                row["result"] = f"{money - self.opens[name] + paid:+,.6f}"

    # Calls of other threads.

    def call(self, function, *arguments):
        """Does a call in the desk's thread, and returns its result."""
        future = Future()
        with self.wake:
            if not self.is_alive():
                raise Ended(0, "the desk has ended")
            self.jobs.append((lambda: function(*arguments), future))
            self.wake.notify_all()
        try:
            return future.result(timeout=60)
        except FutureTimeout:
            raise Ended(0, "the desk has not answered for a minute") from None

    def put(self, line):
        """Takes a line of the feed, once there is room for it."""
        with self.wake:
            self.wake.wait_for(lambda: len(self.feed) < MOST_WAITING)
            self.feed.append(line)
            if len(self.feed) == 1:
                self.wake.notify_all()

    def snapshot(self):
        return self.call(lambda: (Snapshot(self.tracked, self.journal), dict(self.tracked.quotes), self.lines, self.links()))

    def links(self):
        links = {}
        for line in self.tracked.moves():
            word, *rest = line.split()
            if word == "link":
                links[rest[0]] = rest[1]
        return links

    def since(self, version, entry, wait):
        """What changed after a version and an entry, or none where nothing has in these seconds."""
        with self.changed:
            if not self.changed.wait_for(lambda: self.version != version or self.entry != entry, timeout=wait):
                return None
            orders = {key: order for key, (at, order) in self.orders.items() if at > version}
            rows = [it for it in self.rows.values() if it["v"] > version]
            quotes = [it for it in self.quotes.values() if it["v"] > version]
            return {
                "version": self.version, "entry": self.entry, "market": Path(self.market).name, "day": self.day, "lines": self.lines,
                "ended": self.ended, "feed": dict(self.feed_state), "hidden": self.hidden, "deferred": self.is_deferred,
                "paying": self.is_paying, "unread": self.shown_unread, "orders": orders, "rows": rows, "quotes": quotes,
                "typed": [it for it in self.typed if it["n"] > entry], "notes": [it for it in self.notes if it["n"] > entry],
            }  # fmt: skip

    # Reports, in the caller's thread.

    def why(self, name):
        snapshot, _, lines, _ = self.snapshot()
        if name not in snapshot.kinds:
            raise KeyError(name)
        text = reports.run(["why", self.market, "@script", name], {"@script": snapshot.text()})
        return {"name": name, "kind": snapshot.kinds[name], "day": snapshot.day, "lines": lines, **reports.read_why(text)}

    def curve(self, name, of):
        snapshot, quotes, lines, links = self.snapshot()
        if snapshot.kinds.get(name) not in CURVES:
            raise KeyError(name)
        text = Path(self.market).read_text()
        table = reports.table_of_quotes(quotes)
        files = {"@quotes": table, "@market": lambda room: reports.market_of_now(text, f"{room}/quotes", snapshot.day, links)}
        drawn = reports.run(["curve", *reports.PICTURES[of], "@market", name], files)
        return {"name": name, "of": of, "day": snapshot.day, "lines": lines, "svg": drawn}

    def graph(self):
        snapshot, _, lines, _ = self.snapshot()
        drawn = read_graph(reports.run(["graph", self.market, "@script"], {"@script": snapshot.text()}))
        return {"day": snapshot.day, "lines": lines, **drawn}

    def scenarios(self):
        """A script of scenarios over the quotes of now, to begin with."""
        snapshot, quotes, _, _ = self.snapshot()
        arrows = self.graph()["arrows"]
        rates = {it["to"] for it in arrows if snapshot.kinds.get(it["from"]) in CURVES} & set(quotes)
        names = [it for it in self.rows if self.rows[it]["part"] != "curves"]
        return reports.proposed(rates, quotes, names)

    def grid(self, script):
        snapshot, _, lines, _ = self.snapshot()
        names = reports.asked_in(script)
        if not names:
            raise DeskError("no line asks for anything: `ask book`")
        text = reports.run(["grid", self.market, "@script"], {"@script": reports.grid_script(snapshot.moves, script)})
        left_out = [] if snapshot.is_short else ["freezes, deferrals and watchers"]
        left_out += ["objects that were made since the market was opened"] if snapshot.made else []
        return {"day": snapshot.day, "lines": lines, "left_out": left_out, **reports.read_grid(text, names)}

