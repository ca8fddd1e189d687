"""A pricing session: commands as methods, and what they write as values."""

from __future__ import annotations

import os
from decimal import Decimal
from datetime import date
from typing import TYPE_CHECKING, Iterable, List, Mapping, NoReturn, Optional, Sequence, Tuple, Type, TypeVar, Union

from . import programs
from .backends import CLOSED, KINDS, MARKS, NO_MEMORY, STOPPED, Files, PathLike, Pipe, Texts, fault_of, order_of, read_file, read_texts
from .errors import DeskError, Ended, Fault, JournalError, MarketFault, OpenFault, ProgramFailed, Rejected, ScriptFault, Unpriced, UsageFault
from .events import Curve, Event, Factor, Graph, Grid, Node, Object, Picture, Price, Quote, Report, Table, read
from .journal import Journal, Transcript, as_script, first_word, head_of, with_newline
from .values import Day, Number, day_text, number_text

if TYPE_CHECKING:
    from tempfile import SpooledTemporaryFile

    from ._desk import Desk
else:
    try:
        from . import _desk
        from ._desk import Desk
    except ImportError:
        from ._no_desk import Desk
    else:
        _desk.set_up(Price, Factor, Decimal, date, JournalError, MARKS)

S = TypeVar("S", bound="Session")
Blocks = Union[str, Mapping[str, Iterable[str]]]

# The number of the header where a call is carried out.
DONE = 0


class Session(Desk):
    """A session over the market at a path, after the commands of a script where one is given.

    The market's own paths are as seen from the working folder. `order` is that of watchers: `first`, `last` or a number. `via` is
    `library`, a session in this process, or `pipe`, one in a program, which is `doqs live` or what `command` has.

    `journal` is the path of a new file that takes each accepted line before its result is handed on; with `sync` it is on the disk
    then. `transcript` is the path of a file that takes what the lines write.

    Raises FileMissing, MarketFault, ScriptFault or UsageFault, and JournalError where the journal is there already.
    """

    opening: List[Event]
    # The program of a session over a pipe.
    _back: Optional[Pipe]
    _texts: Texts
    _paths: Optional[List[str]]
    _files: Optional[Files]
    _journal: Optional[Journal]
    _transcript: Optional[Transcript]
    # The lines of a session over a pipe that has no journal.
    _lines: Optional[SpooledTemporaryFile[bytes]]
    _order: Optional[str]
    _is_closed: bool

    def __init__(
        self,
        market: PathLike,
        script: Optional[PathLike] = None,
        *,
        order: Union[str, int, None] = None,
        via: str = "library",
        command: Optional[Sequence[str]] = None,
        journal: Optional[PathLike] = None,
        sync: bool = False,
        transcript: Optional[PathLike] = None,
    ) -> None:
        self._begin(order, [os.fspath(market)] + ([] if script is None else [os.fspath(script)]))
        try:
            if _is_pipe(via):
                self._start(self._words(command, self._paths or []))
                said = b"" if script is None else read_file("script", script)
            else:
                texts = read_texts(market, script)
                said = texts.script
                self._open(texts)
        except (MarketFault, ScriptFault) as fault:
            raise self._located(fault) from None
        self._keep(said, journal, sync, transcript)

    @classmethod
    def from_texts(
        cls: Type[S],
        market: Union[str, bytes],
        quotes: Union[str, bytes] = b"",
        fixings: Union[str, bytes] = b"",
        script: Union[str, bytes] = b"",
        *,
        order: Union[str, int, None] = None,
        via: str = "library",
        command: Optional[Sequence[str]] = None,
        journal: Optional[PathLike] = None,
        sync: bool = False,
        transcript: Optional[PathLike] = None,
    ) -> S:
        """A session over texts in the place of files. A table that the market does not name is not read."""
        texts = Texts(*(it.encode() if isinstance(it, str) else it for it in (market, quotes, fixings, script)))
        self = cls.__new__(cls)
        self._begin(order, None)
        self._texts = texts
        if _is_pipe(via):
            files = self._written()
            words = ["market.toml"] + ([files.script] if files.script else [])
            self._start(self._words(command, words), files.folder)
        else:
            self._open(texts)
        self._keep(texts.script, journal, sync, transcript)
        return self

    @classmethod
    def recover(
        cls: Type[S],
        market: PathLike,
        journal: PathLike,
        *,
        via: str = "library",
        command: Optional[Sequence[str]] = None,
        sync: bool = False,
        transcript: Optional[PathLike] = None,
    ) -> S:
        """A session over the market, in which the lines of a journal are done again in silence, and which goes on with the journal.

        A last line that was not written whole is cut off. `transcript` may have the first part of what the lines write, as the session
        left it that began the journal: what is missing is written, and nothing twice.

        Raises JournalError where there is no such journal, another session has it, or the transcript is not its own."""
        self = cls.__new__(cls)
        self._begin(None, [os.fspath(market)])
        held = Journal(journal, False, sync)
        try:
            self._order, script, lines = held.read()
            record = None if transcript is None else Transcript(transcript, False)
            try:
                self._replay(via, command, script, lines, record)
                if record is not None:
                    record.end()
            except BaseException:
                if record is not None:
                    record.close()
                raise
        except (MarketFault, ScriptFault) as fault:
            held.close()
            raise self._located(fault) from None
        except BaseException:
            held.close()
            raise
        self._go_on(held, record, b"")
        return self

    def __enter__(self: S) -> S:
        return self

    def __exit__(self, kind: object, *_: object) -> None:
        try:
            self.close()
        except DeskError:
            if kind is None:
                raise

    @property
    def ended(self) -> Optional[Ended]:
        """How the session ended, once it has."""
        if self._back is not None:
            return self._back.ended
        return Ended(0, "the session is closed") if self._is_closed else None

    @property
    def count(self) -> int:
        """How many lines the session has taken, the faulty ones among them, and those of a journal that was recovered from."""
        return self._count

    # Any line.

    def send(self, line: str) -> List[Event]:
        """Says one line, and returns all that it wrote, in order: its own result and then what watchers' runs wrote.

        A refusal of a value, or of a command in a watcher's run, is among these. Raises Fault for a faulty line, and Rejected where all
        that is written is the refusal of a command of this line's word. Raises Ended where the session has ended.
        """
        if "\n" in line:
            raise ValueError("one line at a time")
        events = self._said(line.encode())
        if len(events) == 1 and isinstance(events[0], Rejected) and line.split()[:1] == [events[0].word]:
            raise events[0]
        return events

    # Prices.

    def curve(self, name: str) -> Curve:
        """The curve's nodes. Raises Unpriced where it has none, Rejected where nothing that is priced has the name, and TypeError for
        an instrument."""
        event = self._one("ask", name)
        if not isinstance(event, Curve):
            raise TypeError(f"{name} is no curve")
        return event

    def nodes(self, curve: str) -> List[Node]:
        """The nodes of the curve's last value. Nothing is computed."""
        self._is_library("nodes")
        name, found = _line("ask", [curve])[4:], []
        for at in range(1 << 16):
            status, day, value = self._node_at(name, at)
            if status != DONE:
                break
            found.append(Node(day, value))
        return found

    # Changes.

    def unset(self, quote: str) -> List[Event]:
        """Takes the quote's value away."""
        return self._do("unset", quote)

    def link(self, handle: str, target: str) -> List[Event]:
        """Lets the handle stand for the target."""
        return self._do("link", handle, target)

    def unlink(self, handle: str) -> List[Event]:
        """Lets the handle stand for nothing."""
        return self._do("unlink", handle)

    def engine(self, instrument: str, engine: Optional[str]) -> List[Event]:
        """Lets the instrument be priced by the engine, or by none."""
        return self._do("engine", instrument, engine or "none")

    def today(self, day: Day) -> List[Event]:
        """Moves the evaluation date."""
        return self._do("today", day_text(day))

    def fixing(self, index: str, day: Day, rate: Number) -> List[Event]:
        """Stores the rate of the index for a day."""
        return self._do("fixing", index, day_text(day), number_text(rate))

    def member(self, composite: str, instrument: str, weight: int) -> List[Event]:
        """Gives the instrument the weight in the composite; 0 takes it out."""
        return self._do("member", composite, instrument, str(weight))

    # Objects.

    def quote(self, name: str, value: Optional[Number] = None) -> List[Event]:
        """Makes a quote with the value, or without one."""
        return self._do("quote", name, "unset" if value is None else number_text(value))

    def sum(self, name: str, first: str, second: str) -> List[Event]:
        """Makes a quote that is the sum of two."""
        return self._do("sum", name, first, second)

    def difference(self, name: str, first: str, second: str) -> List[Event]:
        """Makes a quote that is the first less the second."""
        return self._do("difference", name, first, second)

    def handle(self, name: str, of: str) -> List[Event]:
        """Makes a handle `of` quotes (`quote`) or of curves (`curve`), which stands for nothing yet."""
        return self._do("handle", name, of)

    def stock(self, name: str, quote: str) -> List[Event]:
        """Makes a stock whose price is the quote."""
        return self._do("stock", name, quote)

    def composite(self, name: str) -> List[Event]:
        """Makes a composite without members."""
        return self._do("composite", name)

    def drop(self, name: str) -> List[Event]:
        """Drops the object."""
        return self._do("drop", name)

    # Laziness and notifications.

    def freeze(self, name: str) -> List[Event]:
        """Lets the object keep its last value."""
        return self._do("freeze", name)

    def thaw(self, name: str) -> List[Event]:
        """Lets a frozen object be computed again."""
        return self._do("thaw", name)

    def recalc(self, name: str) -> List[Event]:
        """Computes the object now, frozen or not, and notifies what depends on it. Its price or curve comes first."""
        return self._do("recalc", name)

    def forward(self, name: str, on: bool) -> List[Event]:
        """Lets the object pass each notification on, also where it is out of date, or only where it is current."""
        return self._do("forward", name, "on" if on else "off")

    def defer(self) -> List[Event]:
        """Holds all notifications back."""
        return self._do("defer")

    def resume(self) -> List[Event]:
        """Lets the notifications go that were held back."""
        return self._do("resume")

    # Watchers.

    def action(self, name: str, lines: Iterable[str]) -> None:
        """Makes an action of these commands. A faulty line raises Fault, and the lines before it are in the action."""
        self._do("action", name)
        try:
            for line in lines:
                self.send(line)
        finally:
            self.send("end")

    def watch(self, name: str, action: Union[str, Iterable[str]], on: Iterable[str] = ()) -> List[Event]:
        """Makes a watcher that does the action whenever one of the objects `on` is notified of a change: the action of a name, or these
        commands, in an action of the watcher's name, or of that with a number where there is one of that name."""
        if not isinstance(action, str):
            lines, made, number = action, name, 1
            while True:
                try:
                    self._do("action", made)
                    break
                except Fault as fault:
                    if fault.kind != "twice":
                        raise
                    number += 1
                    made = f"{name}_{number}"
            try:
                for line in lines:
                    self.send(line)
            finally:
                self.send("end")
            action = made
        events = self._do("watch", name, action)
        for it in on:
            events += self.register(name, it)
        return events

    def register(self, watcher: str, name: str) -> List[Event]:
        """Lets the watcher be notified of the object's changes."""
        return self._do("register", watcher, name)

    def unregister(self, watcher: str, name: str) -> List[Event]:
        """Lets the watcher be notified of them no longer."""
        return self._do("unregister", watcher, name)

    # What there is.

    def objects(self) -> Table:
        """The live objects by number, each with its name and its kind, one of KINDS."""
        return Table((Object(number, name, kind) for number, name, kind, _ in self._objects("objects")), Object._fields)

    def quotes(self) -> Table:
        """The quotes by number, each with its value, and none where it has none."""
        return Table((Quote(name, value) for _, name, kind, value in self._objects("quotes") if kind == "quote"), Quote._fields)

    def _objects(self, call: str) -> Iterable[Tuple[int, str, str, Optional[Decimal]]]:
        self._is_library(call)
        for number in range(self._number_count()[1]):
            status, name, kind, value = self._object_at(number)
            if status == DONE:
                yield number, name, KINDS[kind], value

    # Commands of doqs, over the market and the lines of this session.

    def why(self, name: str) -> Report:
        """What the object's value was computed from, down to the quotes: `doqs why`."""
        return Report(self._run(["why"], [name]))

    def explain(self, steps: Blocks, ask: Iterable[str] = ()) -> Report:
        """The gain of each step, done one after the other in the market as the session was opened: `doqs explain`. The steps are a
        script, or the commands of each step by its name, with the objects to `ask` for."""
        return Report(self._run(["explain"], script=_blocks(steps, ask)))

    def risk(self, *names: str, size: Number = "0.0001") -> Report:
        """Delta, gamma, cross gamma and theta of prices in the market as the session was opened: `doqs risk`. Each quote moves by `size`,
        in the units of the quote: 0.0001 is a basis point of a rate, and a hundredth of a cent of a share in euro."""
        return Report(self._run(["risk"], [number_text(size), *names], with_script=False))

    def grid(self, scenarios: Blocks, ask: Iterable[str] = ()) -> Grid:
        """The prices of scenarios, each done in the market as the session was opened: `doqs grid`. They are a script, or the commands
        of each scenario by its name, with the objects to `ask` for."""
        return Grid(self._run(["grid"], script=_blocks(scenarios, ask)))

    def measure(self, name: str, day: Day, price: Number) -> Report:
        """Yield, duration, convexity and spread of a bond at a clean price: `doqs measure`."""
        return Report(self._run(["measure"], [name, day_text(day), number_text(price)], with_script=False))

    def graph(self) -> Graph:
        """What depends on what after the session's lines, as a text for Graphviz: `doqs graph`."""
        return Graph(self._run(["graph"]))

    def picture(self, curve: str, *others: str, of: str = "zero") -> Picture:
        """A picture of curves of the market as the session was opened: of their `zero`, `forward` or `par` rates, or of their
        `discount` factors: `doqs curve`."""
        flags = [] if of == "discount" else [f"--{of}"]
        return Picture(self._run(["curve", *flags], [curve, *others], with_script=False))

    # The session's own lines.

    def script(self) -> bytes:
        """The session's lines so far, those of its script first, without the faulty ones: a script that `doqs run` takes. An action that
        is open is ended."""
        if self._journal is not None:
            text = read_file("journal", self._journal.path)
        elif self._back is None:
            text = self._kept_lines()
        elif self._lines is None or self._lines.closed:
            raise Ended(0, "the session is closed")
        else:
            self._lines.seek(0)
            text = self._lines.read()
            self._lines.seek(0, os.SEEK_END)
        return text + (b"end\n" if self._action else b"")

    def close(self) -> None:
        """Ends the session. Raises Ended where its program fails, and Fault where an action was left open, which is ended."""
        if self._is_closed:
            return
        line = self._action
        try:
            if self._action and self._back is None:
                self._say(b"end")
            elif self._action and self._back is not None and self._back.ended is None:
                self._keep_line(b"end", b"")
                self._action = 0
            if self._back is not None:
                self._back.close()
            if line:
                raise Fault(line, "unclosed")
        finally:
            self._release()

    def _release(self) -> None:
        """Frees the session in this process, and closes its files."""
        self._is_closed = True
        self._close_desk()
        for it in (self._journal, self._transcript, self._files, self._lines):
            if it is not None:
                it.close()

    # How lines are taken.

    def _begin(self, order: Union[str, int, None], paths: Optional[List[str]]) -> None:
        self._order = None if order is None else str(order)
        self._paths = paths
        self._is_closed = False
        self._back = self._files = self._journal = self._transcript = self._lines = None
        self.opening = []

    def _open(self, texts: Texts) -> bytes:
        """Opens the session in this process. The result is what the script wrote."""
        number, seed = order_of(self._order)
        status, said, *_ = self._open_desk(texts.market, texts.quotes, texts.fixings, texts.script, number, seed)
        if status == NO_MEMORY:
            raise MemoryError
        if status != DONE:
            raise fault_of(status, said)
        self._has_watchers = b"watch" in texts.script
        return self._last_text()

    def _start(self, words: List[str], folder: Optional[str] = None) -> bytes:
        """Opens the session in a program. The result is what the script wrote."""
        self._back = Pipe(words, folder)
        return self._back.opening

    def _keep(self, script: bytes, journal: Optional[PathLike], sync: bool, transcript: Optional[PathLike]) -> None:
        """Keeps the lines of a session that is open."""
        said = self._last_text() if self._back is None else self._back.opening
        held = record = None
        try:
            if journal is not None:
                held = Journal(journal, True, sync)
                held.begin(head_of(self._order, script))
            if transcript is not None:
                record = Transcript(transcript, True)
                record.write(said)
        except BaseException:
            self._is_closed = True
            for it in (held, record):
                if it is not None:
                    it.close()
            if self._back is not None:
                self._back.kill()
            self._close_desk()
            raise
        self._go_on(held, record, script)
        self.opening = [read(it) for it in said.decode().split("\n")[:-1]]

    def _go_on(self, journal: Optional[Journal], transcript: Optional[Transcript], script: bytes) -> None:
        self._journal, self._transcript = journal, transcript
        if self._back is None:
            files = [-1 if it is None else it.file for it in (journal, transcript)]
            self._keep_lines(b"" if journal else with_newline(script), files[0], journal is not None and journal.sync, files[1])
        elif journal is None:
            from tempfile import SpooledTemporaryFile

            self._lines = SpooledTemporaryFile(1 << 20)
            self._lines.write(with_newline(script))

    def _replay(
        self, via: str, command: Optional[Sequence[str]], script: bytes, lines: bytes, transcript: Optional[Transcript]
    ) -> None:
        """Opens the session, and does the lines of a journal, whose texts the transcript takes."""
        assert self._paths is not None
        if not _is_pipe(via):
            said = self._open(read_texts(self._paths[0], None)._replace(script=script))
        else:
            from tempfile import TemporaryDirectory

            with TemporaryDirectory(prefix="doqsheley") as room:
                # A program that has --quiet takes them as its script, and says nothing of them.
                quiet, left = (b"", lines) if transcript is not None else as_script(script, lines)
                path = os.path.join(room, "script.txt")
                files = [self._paths[0], path]
                try:
                    if not quiet:
                        raise UsageFault
                    _write(path, quiet)
                    said = self._start([*self._words(command, files), "--quiet"])
                    self._count, lines = lines.count(b"\n") - left.count(b"\n"), left
                except UsageFault:
                    _write(path, script)
                    said = self._start(self._words(command, files if script else files[:1]))
        if transcript is not None:
            transcript.write(said)
        for line in lines.split(b"\n")[:-1]:
            said = self._say(line)
            if transcript is not None:
                transcript.write(said)

    def _say(self, line: bytes) -> bytes:
        """What a line writes, which is kept where it has no fault."""
        if self._is_closed:
            raise Ended(0, "the session is closed")
        if line.endswith(b"\r"):
            line = line[:-1]
        if self._back is None:
            status, written = self._say_line(line)
            if status == NO_MEMORY:
                raise MemoryError
            if status == CLOSED:
                self._release()
                raise Ended(0, "the session is closed")
            if status:
                raise Ended(STOPPED, "the session takes no line any more")
            return written
        try:
            written = self._back.say(line)
            self._count += 1
            if not (written.startswith(b"fault ") and written.count(b" ") == 2):
                self._keep_line(line, written)
                word = first_word(line)
                if word in (b"action", b"end"):
                    self._action = self._count if word == b"action" else 0
        except BaseException:
            # A line that was done and may not be kept ends the session.
            if self._back.ended is None:
                self._back.kill()
            raise
        return written

    def _keep_line(self, line: bytes, written: bytes) -> None:
        """Keeps a line of a session over a pipe."""
        place = "journal"
        try:
            if self._journal is not None:
                self._journal.write(line + b"\n")
            elif self._lines is not None:
                self._lines.write(line + b"\n")
            place = "transcript"
            if self._transcript is not None:
                self._transcript.write(written)
        except OSError as error:
            raise JournalError(f"the session ended: a line was done and cannot be kept in the {place}: {error.strerror}") from None

    def _said(self, line: bytes) -> List[Event]:
        written = self._say(line)
        events = [read(it) for it in written.decode().split("\n")[:-1]]
        if events and isinstance(events[0], Fault):
            raise Fault(self._count, events[0].kind)
        return events

    def _told(self, text: bytes, name: str) -> NoReturn:
        """Raises what an ask wrote that has no value of its sort."""
        event = read(text.decode().rstrip("\n"))
        if isinstance(event, (Unpriced, Rejected)):
            raise event
        raise TypeError(f"{name} is a curve")

    # What `ask`, `ask_units`, `df` and `set` of the base do where they are not quick.

    def _ask(self, name: str) -> Price:
        event = self._one("ask", name)
        if not isinstance(event, Price):
            raise TypeError(f"{name} is a curve")
        return event

    def _ask_units(self, name: str) -> int:
        digits = str(self._ask(name).value).replace(".", "")
        return int(digits)

    def _df(self, curve: str, day: Day) -> Factor:
        event = self._one("df", curve, day_text(day))
        assert isinstance(event, Factor)
        return event

    def _set(self, quote: str, value: Number) -> List[Event]:
        return self._do("set", quote, number_text(value))

    def _one(self, word: str, *words: str) -> Event:
        if self._action:
            raise DeskError(f"{word} has no result in the action that line {self._action} begins: send adds it to the action")
        event = self._said(_line(word, words))[0]
        if isinstance(event, (Unpriced, Rejected)):
            raise event
        return event

    def _do(self, word: str, *words: str) -> List[Event]:
        events = self._said(_line(word, words))
        if len(events) == 1 and isinstance(events[0], Rejected) and events[0].word == word:
            raise events[0]
        return events

    def _is_library(self, call: str) -> None:
        if self._is_closed:
            raise Ended(0, "the session is closed")
        if self._back is not None:
            raise TypeError(f"{call} needs a session in this process: via='library'")

    # Files and programs.

    def _words(self, command: Optional[Sequence[str]], files: List[str]) -> List[str]:
        live = list(command) if command else [programs.program(), "live"]
        return [*live, *files, "--ready", *([] if self._order is None else [f"--order={self._order}"])]

    def _written(self) -> Files:
        """The texts of this session as files."""
        if self._files is None:
            from .faults.reader import tables_of

            self._files = Files(self._texts, *tables_of(self._texts.market))
        return self._files

    def _run(self, words: List[str], more: Sequence[str] = (), *, with_script: bool = True, script: Optional[bytes] = None) -> str:
        from tempfile import TemporaryDirectory

        folder = None
        market = self._paths[0] if self._paths else ""
        if self._paths is None:
            folder, market = self._written().folder, "market.toml"
        with TemporaryDirectory(prefix="doqsheley") as room:
            files = [market]
            if with_script:
                files.append(os.path.join(room, "script.txt"))
                _write(files[1], self.script() if script is None else script)
            return programs.run([*words, *files, *more], folder=folder)

    def _located(self, fault: OpenFault) -> OpenFault:
        """The fault with its file, line and key, as the reader of faults finds them."""
        from .faults import reader

        assert self._paths is not None
        return reader.located(fault, *self._paths)


def _blocks(blocks: Blocks, ask: Iterable[str]) -> bytes:
    lines = [] if isinstance(blocks, str) else [it for name in blocks for it in (f"action {name}", *blocks[name], "end")]
    front = blocks + "\n" if isinstance(blocks, str) else ""
    return (front + "".join(f"{it}\n" for it in [*lines, *(f"ask {it}" for it in ask)])).encode()


def _is_pipe(via: str) -> bool:
    if via not in ("library", "pipe"):
        raise UsageFault(f"via is library or pipe, and not {via!r}")
    return via == "pipe"


def _write(path: str, text: bytes) -> None:
    with open(path, "wb") as file:
        file.write(text)


def _line(word: str, words: Sequence[str]) -> bytes:
    for it in words:
        if not it or any(byte in " \t\r\n#" for byte in it):
            raise ValueError(f"{it!r} is no word of a line")
    return " ".join([word, *words]).encode()


__all__ = ["Session", "ProgramFailed"]
