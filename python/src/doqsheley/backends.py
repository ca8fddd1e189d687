"""Where a session runs: in this process, over the library, or in a program, over its pipes."""

from __future__ import annotations

import os
from typing import IO, List, NamedTuple, Optional, Tuple, Union

from .errors import Ended, FileMissing, MarketFault, OpenFault, ScriptFault, UsageFault

PathLike = Union[str, "os.PathLike[str]"]

# The numbers of the header.
DONE, USAGE, MARKET, SCRIPT, NO_MEMORY, CLOSED, STOPPED = 0, 2, 3, 4, 7, 10, 11
NAMES_QUOTES, NAMES_FIXINGS = 1, 2
MARKS = ("fresh", "frozen", "late", "held", "recalc")
KINDS = (
    "today", "quote", "derived", "quote_handle", "curve_handle", "index", "engine", "curve", "implied", "stock", "composite", "flows",
    "watcher",
)  # fmt: skip
ORDERS = {"first": 0, "last": 1}


class Texts(NamedTuple):
    """What a session is opened with: a market, its tables, and a script."""

    market: bytes
    quotes: bytes = b""
    fixings: bytes = b""
    script: bytes = b""


def order_of(order: Optional[str]) -> Tuple[int, int]:
    """The number of an order of watchers, and its seed."""
    if order is None:
        return 0, 0
    if order in ORDERS:
        return ORDERS[order], 0
    if order.isascii() and order.isdigit() and int(order) < 1 << 64:
        return 2, int(order)
    raise UsageFault(f"the order {order!r} is not first, last or a number below 2^64")


def read_file(role: str, path: PathLike) -> bytes:
    """The bytes of a file."""
    try:
        with open(path, "rb") as file:
            return file.read()
    except (FileNotFoundError, IsADirectoryError):
        raise FileMissing(role, f"no file {role}: there is no {os.fspath(path)} below {os.getcwd()}") from None


def read_texts(market: PathLike, script: Optional[PathLike]) -> Texts:
    """The texts of a market at a path, of the tables that it names, as seen from the working folder, and of a script."""
    from . import _desk

    text = read_file("market", market)
    status, named, quotes, fixings, said, *_ = _desk.tables(text)
    if status == NO_MEMORY:
        raise MemoryError
    if status != DONE:
        raise fault_of(status, said)
    return Texts(
        text,
        read_file("quotes", os.fsdecode(quotes)) if named & NAMES_QUOTES else b"",
        read_file("fixings", os.fsdecode(fixings)) if named & NAMES_FIXINGS else b"",
        b"" if script is None else read_file("script", script),
    )


def fault_of(status: int, said: str) -> OpenFault:
    """Why a session does not open, from what the library or the program says after its name."""
    words = said.split()
    if status == MARKET and len(words) == 4:
        return MarketFault(words[1], int(words[2]), words[3])
    if status == SCRIPT and len(words) == 3:
        return ScriptFault(int(words[1]), words[2])
    if status == 8 and words:
        return FileMissing(words[-1])
    if status == USAGE:
        return UsageFault()
    return OpenFault(status, said)


class Pipe:
    """A session in a program that answers line by line. An interrupted call ends the program, whose answer would be lost."""

    def __init__(self, words: List[str], folder: Optional[str] = None) -> None:
        import subprocess

        pipe = subprocess.PIPE
        try:
            self.process = subprocess.Popen(words, stdin=pipe, stdout=pipe, stderr=pipe, cwd=folder)
        except FileNotFoundError:
            raise OpenFault(127, f"no program {words[0]}") from None
        self.ended: Optional[Ended] = None
        self.count = 0
        try:
            self.opening = self.say(b"")
        except Ended as end:
            said = end.said.splitlines()[0] if end.said else ""
            raise fault_of(end.status, said.partition(": ")[2].partition("live: ")[2] or said.partition(": ")[2]) from None

    def say(self, line: bytes) -> bytes:
        """What a line writes."""
        if self.ended:
            raise self.ended
        self.count += 1
        ready = b"ready %d\n" % self.count
        lines: List[bytes] = []
        try:
            self._in.write(line + b"\n")
            self._in.flush()
            for it in self._out:
                if it == ready:
                    return b"".join(lines)
                lines.append(it)
        except BrokenPipeError:
            pass
        except BaseException:
            self.kill()
            raise
        raise self._end()

    def kill(self) -> None:
        """Ends the program at once."""
        self.process.kill()
        self._end()

    def close(self) -> None:
        """Ends the program."""
        if self.ended:
            return
        _close(self._in)
        self._out.read()
        end = self._end()
        if end.status:
            raise end

    @property
    def is_open(self) -> bool:
        return self.ended is None

    @property
    def _in(self) -> IO[bytes]:
        assert self.process.stdin is not None
        return self.process.stdin

    @property
    def _out(self) -> IO[bytes]:
        assert self.process.stdout is not None
        return self.process.stdout

    def _end(self) -> Ended:
        assert self.process.stderr is not None
        if self.ended is None:
            said = self.process.stderr.read().decode(errors="replace").strip()
            self.ended = Ended(self.process.wait(), said)
            for it in (self._in, self._out, self.process.stderr):
                _close(it)
        return self.ended


def _close(file: IO[bytes]) -> None:
    try:
        file.close()
    except OSError:
        pass


class Files:
    """Texts as files in a folder of their own, for a program that reads files."""

    def __init__(self, texts: Texts, quotes: Optional[str], fixings: Optional[str]) -> None:
        import tempfile

        self._folder = tempfile.TemporaryDirectory(prefix="doqsheley")
        self.folder = self._folder.name
        self.put("market.toml", texts.market)
        for path, text in ((quotes, texts.quotes), (fixings, texts.fixings)):
            if path is not None:
                self.put(path, text)
        self.script = self.put("script.txt", texts.script) if texts.script else None

    def put(self, path: str, text: bytes) -> str:
        place = os.path.join(self.folder, path)
        if os.path.isabs(path) or ".." in path.split("/"):
            raise UsageFault(f"the market names {path}, which lies outside of a folder of its own")
        os.makedirs(os.path.dirname(place), exist_ok=True)
        with open(place, "wb") as file:
            file.write(text)
        return path

    def close(self) -> None:
        self._folder.cleanup()
