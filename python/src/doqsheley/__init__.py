"""A proved pricing session: a market of quotes, curves and instruments, asked for while quotes move.

>>> from doqsheley import Session
>>> with Session("market.toml") as desk:
...     desk.set("s5", "0.0253")
...     desk.ask("book")
[]
Price(name='book', value=Decimal('5497271.244744'), mark='fresh', runs=7)
"""

from . import errors
from .backends import KINDS, MARKS
from .errors import *  # noqa: F403
from .events import Curve, Event, Factor, Graph, Grid, Node, Object, Over, Picture, Price, Quote, Report, Table, read
from .session import Session

__version__ = "0.18"


def build() -> str:
    """What the extension was built from: `logic` and the first digits of the logic that proved it, or `unverified build`. Without an
    extension it is empty."""
    try:
        from . import _desk
    except ImportError:
        return ""
    return _desk.build()


__all__ = [
    *errors.__all__,
    "KINDS", "MARKS", "Curve", "Event", "Factor", "Graph", "Grid", "Node", "Object", "Over", "Picture", "Price", "Quote",
    "Report", "Session", "Table", "build", "errors", "read",
]  # fmt: skip
