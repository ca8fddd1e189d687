"""The base of Session where there is no extension: sessions over pipes alone."""

from __future__ import annotations

from typing import TYPE_CHECKING, Any

if TYPE_CHECKING:
    from .events import Event, Factor, Price
    from .values import Day, Number


class Desk:
    _count = 0
    _action = 0
    _is_quick = False
    _has_watchers = False

    def set(self: Any, quote: str, value: Number) -> list[Event]:
        """Gives the quote a value of at most nine places, within 1,000,000,000 either way, and returns what watchers' runs wrote. A float
        is taken where it is the nearest one to a decimal of nine places, else InexactValue is raised."""
        return self._set(quote, value)  # type: ignore[no-any-return]

    def ask(self: Any, name: str) -> Price:
        """The instrument's price. Raises Unpriced where it has none, Rejected where nothing that is priced has the name, and TypeError
        for a curve."""
        return self._ask(name)  # type: ignore[no-any-return]

    def ask_units(self: Any, name: str) -> int:
        """The instrument's price as a whole number of units of 10^-6. It raises what `ask` raises."""
        return self._ask_units(name)  # type: ignore[no-any-return]

    def df(self: Any, curve: str, day: Day) -> Factor:
        """The curve's discount factor at a day. Raises Unpriced where there is none, and Rejected where no curve has the name."""
        return self._df(curve, day)  # type: ignore[no-any-return]

    def _open_desk(self, *_: object) -> Any:
        raise ImportError("the package has no extension here: via='pipe' needs the program doqs alone")

    def _close_desk(self) -> None:
        pass
