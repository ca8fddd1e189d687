"""What a session raises: one tree of exceptions, with a class for each cause, each refusal and each sort of end."""

from __future__ import annotations

from decimal import Decimal
from typing import Optional, Tuple, Type


__all__ = [
    "DeskError", "Unpriced", "QuoteUnset", "HandleEmpty", "EngineMissing", "FixingMissing", "BeforeCurve",
    "PastCurve", "PillarOrder", "DiscountMissing", "RateTooNegative", "RateOutOfRange", "DayOutOfRange",
    "ValueTooLarge", "NeverPriced", "Rejected", "NameTaken", "NameUnknown", "WrongKind", "Cycle", "InUse",
    "FixingExists", "AlreadyRegistered", "NotRegistered", "Deferred", "TooManyObjects", "Fault", "OpenFault",
    "FileMissing", "MarketFault", "ScriptFault", "UsageFault", "Ended", "ProgramFailed", "InexactValue",
    "JournalError",
]  # fmt: skip


class DeskError(Exception):
    """What a session did not do, in words."""


# Why an object has no value.


class Unpriced(DeskError):
    """An object has no value: its name, the cause, whom the cause is about and, where it names one, the day or the number, and how
    many computations were made."""

    cause = ""
    words = "{}"

    def __init__(self, name: str, about: Tuple[str, ...], runs: int) -> None:
        super().__init__(f"{name}: {self.words.format(*about)}")
        self.name, self.about, self.runs = name, about, runs


class QuoteUnset(Unpriced):
    """A quote has no value."""

    cause, words = "unset", "the quote {} has no value"


class HandleEmpty(Unpriced):
    """A handle stands for nothing."""

    cause, words = "empty", "the handle {} stands for nothing"


class EngineMissing(Unpriced):
    """An instrument has no engine."""

    cause, words = "noengine", "{} has no engine"


class FixingMissing(Unpriced):
    """An index has no rate for a past day."""

    cause, words = "nofixing", "the index {} has no rate for {}"


class BeforeCurve(Unpriced):
    """A day lies before the reference day of a curve."""

    cause, words = "before", "the curve {} begins after {}"


class PastCurve(Unpriced):
    """A day lies after the last node of a curve."""

    cause, words = "past", "the curve {} ends before {}"


class PillarOrder(Unpriced):
    """Two helpers of a curve end on one day."""

    cause, words = "pillar", "the curve {} has a helper {} that does not end after the one before it"


class DiscountMissing(Unpriced):
    """No discount factor fits a helper of a curve."""

    cause, words = "discount", "the curve {} has no discount factor for number {}"


class RateTooNegative(Unpriced):
    """A helper of a curve has a rate too far below zero."""

    cause, words = "negative", "the curve {} has a rate too far below zero in helper {}"


class RateOutOfRange(Unpriced):
    """A rate is beyond 10 either way."""

    cause, words = "raterange", "a rate of {} is beyond 10 either way"


class DayOutOfRange(Unpriced):
    """A day leaves the range of days."""

    cause, words = "daterange", "a day of {} leaves the range of days"


class ValueTooLarge(Unpriced):
    """A value is beyond its limit."""

    cause, words = "toolarge", "{} is too large"


class NeverPriced(Unpriced):
    """A frozen or late object never had a value."""

    cause, words = "unpriced", "{} is frozen or late, and never had a value"


# Why a command is refused.


class Rejected(DeskError):
    """A command was refused and changed nothing: its first word, the refusal, and the name or the rate that it is about."""

    refusal = ""
    words = "{}"

    def __init__(self, word: str, about: Tuple[str, ...]) -> None:
        super().__init__(f"{word}: {self.words.format(*about)}")
        self.word, self.about = word, about


class NameTaken(Rejected):
    """An object has the name already."""

    refusal, words = "taken", "an object has the name {} already"


class NameUnknown(Rejected):
    """No object has the name."""

    refusal, words = "unknown", "no object has the name {}"


class WrongKind(Rejected):
    """The object is of another kind than is taken there."""

    refusal, words = "kind", "{} is of another kind than is taken there"


class Cycle(Rejected):
    """The object would depend on itself."""

    refusal, words = "cycle", "it would depend on itself"


class InUse(Rejected):
    """Another object names it."""

    refusal, words = "inuse", "{} names it"


class FixingExists(Rejected):
    """A rate is stored for that day already."""

    refusal, words = "exists", "the rate {} is stored for that day"


class AlreadyRegistered(Rejected):
    """The watcher is registered there already."""

    refusal, words = "registered", "the watcher is registered there already"


class NotRegistered(Rejected):
    """The watcher is not registered there."""

    refusal, words = "notregistered", "the watcher is not registered there"


class Deferred(Rejected):
    """A notification is held back."""

    refusal, words = "deferred", "a notification of {} is held back"


class TooManyObjects(Rejected):
    """There are as many objects as there may be."""

    refusal, words = "toomany", "there are too many objects"


# What is wrong with a line, a market or a script.


class Fault(DeskError):
    """A line is none of the language and changed nothing: its number, from 1, and the kind of fault."""

    WORDS = {
        "toolong": "it has more than 65,536 bytes",
        "byte": "a byte has no place in a script",
        "word": "its first word is no command",
        "count": "it has too few words, or too many",
        "nested": "an action begins inside an action",
        "end": "it ends an action where none is open",
        "name": "a word in the place of a name is none",
        "twice": "there is an action of that name",
        "number": "a number is not in its form or beyond its limit",
        "date": "a day is not in its form or beyond its range",
        "choice": "a word is not one of the two that are taken",
        "names": "there are too many names",
        "unclosed": "an action that it begins has no end",
        "noaction": "it names an action that no line begins",
        "unended": "it lacks its newline",
    }

    def __init__(self, line: int, kind: str) -> None:
        super().__init__(f"line {line}: {self.WORDS.get(kind, kind)}")
        self.line, self.kind = line, kind


class OpenFault(DeskError):
    """A session does not open. `status` is the exit status that the programs have for it, and `said` their line on standard error."""

    def __init__(self, status: int, said: str, detail: str = "") -> None:
        super().__init__(detail or said)
        self.status, self.said, self.detail = status, said, detail


class FileMissing(OpenFault):
    """There is no such file: `role` is `market`, `quotes`, `fixings` or `script`."""

    def __init__(self, role: str, detail: str = "") -> None:
        super().__init__(8, f"no file {role}", detail)
        self.role = role


class MarketFault(OpenFault):
    """A market is refused for its first fault: section, entry and kind; and where the reader of faults finds it, its file, its line
    and its key, or the field's number of a table."""

    def __init__(
        self,
        section: str,
        entry: int,
        kind: str,
        detail: str = "",
        file: Optional[str] = None,
        line: Optional[int] = None,
        key: Optional[str] = None,
    ) -> None:
        super().__init__(3, f"market {section} {entry} {kind}", detail)
        self.section, self.entry, self.kind = section, entry, kind
        self.file, self.line, self.key = file, line, key


class ScriptFault(OpenFault):
    """A script is refused for its first fault: its line and kind."""

    def __init__(self, line: int, kind: str, detail: str = "", file: Optional[str] = None) -> None:
        super().__init__(4, f"script {line} {kind}", detail)
        self.line, self.kind, self.file = line, kind, file


class UsageFault(OpenFault):
    """The arguments are none that a session opens with."""

    def __init__(self, detail: str = "") -> None:
        super().__init__(2, "usage", detail)


# What else ends a call.


class Ended(DeskError):
    """The session takes no line any more: it is closed, or its program ended, with this exit status (with a minus, this signal) and this
    on standard error."""

    def __init__(self, status: int, said: str) -> None:
        super().__init__(said or f"the program ended with {status}")
        self.status, self.said = status, said


class ProgramFailed(DeskError):
    """A command of `doqs` failed: its exit status and what it wrote on standard error."""

    def __init__(self, status: int, said: str) -> None:
        super().__init__(said or f"doqs ended with {status}")
        self.status, self.said = status, said


class InexactValue(DeskError, ValueError):
    """A float is no decimal of nine places: `value` is the number that it is."""

    def __init__(self, value: Decimal) -> None:
        super().__init__(f"the float is {value}, which has more than nine places: give a str, an int or a Decimal")
        self.value = value


class JournalError(DeskError):
    """A journal cannot be begun or recovered from."""


UNPRICED: "dict[str, Type[Unpriced]]" = {it.cause: it for it in Unpriced.__subclasses__()}
REJECTED: "dict[str, Type[Rejected]]" = {it.refusal: it for it in Rejected.__subclasses__()}
