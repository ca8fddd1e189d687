"""The lines of a session in a file, as they are accepted, and what they wrote."""

from __future__ import annotations

import os
from typing import Optional, Tuple, Union

from .errors import JournalError

HEAD = b"# doqsheley journal 1 "
# The most bytes of a script.
MOST_BYTES = 8_388_608


class Journal:
    """A file to which each accepted line is appended before its result is handed on. It is a script that `doqs run` takes. Its first
    line is a comment: the order of watchers, and how many bytes after it are the script that the session was opened with.

    One session at a time has it: the file is locked until it is closed, or the process ends."""

    def __init__(self, path: Union[str, "os.PathLike[str]"], is_new: bool, sync: bool) -> None:
        self.path, self.sync = os.fspath(path), sync
        flags = os.O_RDWR | os.O_APPEND | os.O_CLOEXEC | (os.O_CREAT | os.O_EXCL if is_new else 0)
        try:
            self._file: Optional[int] = os.open(path, flags, 0o666)
        except FileExistsError:
            raise JournalError(f"there is a journal {self.path} already: Session.recover goes on with it") from None
        except FileNotFoundError:
            raise JournalError(f"there is no journal {self.path}" + (", and no folder for it" if is_new else "")) from None
        try:
            self._lock()
        except BaseException:
            self.close()
            raise

    def _lock(self) -> None:
        import fcntl

        try:
            fcntl.flock(self.file, fcntl.LOCK_EX | fcntl.LOCK_NB)
        except BlockingIOError:
            raise JournalError(f"another session has the journal {self.path}") from None
        except OSError:
            pass  # (a file system without locks)

    @property
    def file(self) -> int:
        """The descriptor."""
        assert self._file is not None
        return self._file

    def begin(self, head: bytes) -> None:
        """Writes the first bytes."""
        self.write(head)
        if self.sync:
            folder = os.open(os.path.dirname(self.path) or ".", os.O_RDONLY | os.O_DIRECTORY | os.O_CLOEXEC)
            try:
                os.fsync(folder)
            finally:
                os.close(folder)

    def write(self, lines: bytes) -> None:
        """Appends whole lines, to the disk where `sync` is set. Where that fails, no part of them is left, if the file can be cut."""
        whole = os.lseek(self.file, 0, os.SEEK_END)
        try:
            while lines:
                lines = lines[os.write(self.file, lines) :]
            if self.sync:
                os.fdatasync(self.file)
        except OSError:
            os.ftruncate(self.file, whole)
            raise

    def read(self) -> Tuple[str, bytes, bytes]:
        """The order, the script and the lines. A last line without its newline, which was not written whole, is cut off."""
        with open(self.path, "rb") as file:
            text = file.read()
        first, newline, rest = text.partition(b"\n")
        words = first[len(HEAD) :].split()
        order, length = (words[0].partition(b"=")[2], words[1].partition(b"=")[2]) if len(words) == 2 else (b"", b"")
        at = int(length) if newline and length.isdigit() else 0
        if text[: len(HEAD)] == HEAD[: len(text)] and (not newline or len(rest) < at):
            raise JournalError(f"{self.path} was not begun whole, so it has no line: remove it, and open the session as before")
        if not text.startswith(HEAD) or not order or not length.isdigit():
            raise JournalError(f"{self.path} is no journal")
        whole = rest.rfind(b"\n") + 1
        if whole < len(rest):
            os.ftruncate(self.file, len(first) + 1 + whole)
        return order.decode(), rest[:at], rest[at:whole]

    def close(self) -> None:
        if self._file is not None:
            os.close(self._file)
            self._file = None


def head_of(order: Optional[str], script: bytes) -> bytes:
    """The first bytes of a journal: its first line, and the script."""
    script = with_newline(script)
    return HEAD + b"order=%s script=%d\n" % ((order or "first").encode(), len(script)) + script


def with_newline(script: bytes) -> bytes:
    return script + (b"\n" if script and not script.endswith(b"\n") else b"")


def as_script(script: bytes, lines: bytes) -> Tuple[bytes, bytes]:
    """The longest part of the lines that is a script after `script`, with it, and what is left: of an open action, or too long."""
    end = at = 0
    is_open = False
    size = len(script)
    while at < len(lines):
        to = lines.index(b"\n", at) + 1
        if size + to > MOST_BYTES:
            break
        word = first_word(lines[at:to])
        is_open = word == b"action" or (is_open and word != b"end")
        at = to
        end = end if is_open else at
    return script + lines[:end], lines[end:]


def first_word(line: bytes) -> bytes:
    """The first word of a line, without its comment, or nothing."""
    words = line.partition(b"#")[0].split(None, 1)
    return words[0] if words else b""


class Transcript:
    """A file with what all lines of a session wrote. Of a session that is recovered it may have the first part already."""

    def __init__(self, path: Union[str, "os.PathLike[str]"], is_new: bool) -> None:
        self.path, self._is_whole = os.fspath(path), is_new
        flags = os.O_RDWR | os.O_CREAT | os.O_CLOEXEC | (os.O_TRUNC if is_new else 0)
        self._file: Optional[int] = os.open(path, flags, 0o666)

    @property
    def file(self) -> int:
        """The descriptor."""
        assert self._file is not None
        return self._file

    def write(self, text: bytes) -> None:
        """Writes this, but for what is there."""
        while text:
            had = b"" if self._is_whole else os.read(self.file, len(text))
            if not text.startswith(had):
                raise JournalError(f"{self.path} has another text than the journal's lines write")
            text = text[len(had) :]
            if not had:
                text = text[os.write(self.file, text) :]

    def end(self) -> None:
        """All that is there was written by the lines before."""
        if not self._is_whole and os.read(self.file, 1):
            raise JournalError(f"{self.path} has more than the journal's lines write")
        self._is_whole = True

    def close(self) -> None:
        if self._file is not None:
            os.close(self._file)
            self._file = None
