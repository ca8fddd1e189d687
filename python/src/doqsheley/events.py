"""What a session writes, as values: prices, curves, discount factors, and what went wrong in a watcher's run."""

from __future__ import annotations

from datetime import date
from decimal import Decimal
from typing import Any, Dict, Iterable, Iterator, List, NamedTuple, Tuple, Union

from .errors import REJECTED, UNPRICED, Fault, Rejected, Unpriced


def escape(text: str) -> str:
    """A text as it stands in HTML."""
    return text.replace("&", "&amp;").replace("<", "&lt;").replace(">", "&gt;")


class Price(NamedTuple):
    """An instrument's price: an amount of the market's money, with six places; its mark, `fresh`, `late`, `frozen`, `held` or `recalc`;
    and how many computations were made for it."""

    name: str
    value: Decimal
    mark: str
    runs: int

    def _repr_html_(self) -> str:
        return f"<code>{escape(self.name)}</code> <b>{self.value:,}</b> <small>{self.mark}</small>"


class Node(NamedTuple):
    """A day of a curve, and the discount factor there, with twelve places."""

    day: date
    value: Decimal


class Curve(NamedTuple):
    """A curve's nodes, the reference day first; mark and runs as of a Price."""

    name: str
    nodes: Tuple[Node, ...]
    mark: str
    runs: int

    def to_pandas(self) -> Any:
        """The discount factors as a pandas Series of floats by day."""
        import pandas

        index = pandas.DatetimeIndex([it.day for it in self.nodes], name="day")
        return pandas.Series([float(it.value) for it in self.nodes], index=index, name=self.name)

    def _repr_html_(self) -> str:
        return rows_html(("day", "factor"), self.nodes, f"{self.name}, {self.mark}")

    def _repr_svg_(self) -> str:
        return line_svg([(it.day.toordinal(), float(it.value)) for it in self.nodes])


class Factor(NamedTuple):
    """A curve's discount factor at a day, with twelve places; mark and runs as of a Price."""

    name: str
    day: date
    value: Decimal
    mark: str
    runs: int

    def _repr_html_(self) -> str:
        return f"<code>{escape(self.name)}</code> {self.day} <b>{self.value}</b> <small>{self.mark}</small>"


class Over(NamedTuple):
    """A watcher's name has run eight times, and runs no more for this command."""

    name: str


Event = Union[Price, Curve, Factor, Over, Unpriced, Rejected, Fault]


def read(line: str) -> Event:
    """What a line of a session says, for any name that an object may have.

    >>> read("book 5495252.776163 fresh 7")
    Price(name='book', value=Decimal('5495252.776163'), mark='fresh', runs=7)
    >>> read("book refused nofixing euribor 2024-04-12 4").cause
    'nofixing'
    """
    words = line.split(" ")
    first, second = words[0], words[1]
    if first == "over" and len(words) == 2:
        return Over(second)
    if first == "fault" and len(words) == 3:
        return Fault(int(second), words[2])
    if first == "refused" and second.isalpha() and second not in ("refused", "curve"):
        return REJECTED.get(words[2], Rejected)(second, tuple(words[3:]))
    mark, runs = words[-2], int(words[-1])
    if second == "refused":
        return UNPRICED.get(words[2], Unpriced)(first, tuple(words[3:-1]), runs)
    if second == "curve":
        pairs = zip(words[2:-2:2], words[3:-2:2])
        return Curve(first, tuple(Node(date.fromisoformat(day), Decimal(value)) for day, value in pairs), mark, runs)
    if len(words) == 5:
        return Factor(first, date.fromisoformat(second), Decimal(words[2]), mark, runs)
    return Price(first, Decimal(second), mark, runs)


# Tables.


class Quote(NamedTuple):
    """A quote's name and value, and none where it has none."""

    name: str
    value: Union[Decimal, None]


class Object(NamedTuple):
    """An object by its number: its name and its kind."""

    number: int
    name: str
    kind: str


class Table(List[Any]):
    """Rows of one sort, with what notebooks show of them."""

    def __init__(self, rows: Iterable[Any], fields: Tuple[str, ...]) -> None:
        super().__init__(rows)
        self.fields = fields

    def to_pandas(self) -> Any:
        """The rows as a pandas DataFrame."""
        import pandas

        return pandas.DataFrame(list(self), columns=list(self.fields))

    def _repr_html_(self) -> str:
        return rows_html(self.fields, self)


class Report(str):
    """The text of a command of `doqs`."""

    @property
    def rows(self) -> List[List[str]]:
        """The fields of each line where the text is a table with commas, else the words of each line."""
        lines = self.splitlines()
        return [line.split("," if "," in lines[0] else None) for line in lines]

    def to_pandas(self) -> Any:
        """The rows as a pandas DataFrame. Those of a table with commas have the names of its first line."""
        import pandas

        rows = self.rows
        has_names = "," in self.partition("\n")[0]
        return pandas.DataFrame(rows[1:], columns=rows[0]) if has_names else pandas.DataFrame(rows)

    def _repr_html_(self) -> str:
        return f"<pre>{escape(self)}</pre>"


class Grid(Report):
    """The text of `doqs grid`."""

    @property
    def scenarios(self) -> Dict[str, List[Event]]:
        """What each scenario wrote, by its name: `base` first. A move that was refused is among it, and the asks are the last.

        >>> Grid("scenario base\\nbook 1.000000 fresh 2\\nscenario up\\nbook 2.000000 fresh 2\\nworst book base 1.000000").scenarios["up"]
        [Price(name='book', value=Decimal('2.000000'), mark='fresh', runs=2)]
        """
        found: Dict[str, List[Event]] = {}
        for line in self.splitlines():
            words = line.split(" ")
            if len(words) == 2 and words[0] == "scenario":
                events = found[words[1]] = []
            elif words[0] != "worst" or words[-1].isdigit():
                events.append(read(line))
        return found


class Picture(str):
    """A picture in SVG."""

    def _repr_svg_(self) -> str:
        return str(self)


class Graph(str):
    """A graph in the language of Graphviz."""

    def svg(self) -> str:
        """The graph drawn by the program `dot`, which has to be on the path."""
        import subprocess

        drawn = subprocess.run(["dot", "-Tsvg"], input=self.encode(), stdout=subprocess.PIPE, check=True)
        return drawn.stdout.decode()

    def _repr_svg_(self) -> Union[str, None]:
        try:
            return self.svg()
        except (OSError, ValueError):
            return None

    def _repr_html_(self) -> str:
        return f"<pre>{escape(self)}</pre>"


def rows_html(fields: Iterable[str], rows: Iterable[Iterable[Any]], caption: str = "") -> str:
    """Rows as a table of HTML."""

    def cells(tag: str, values: Iterable[Any]) -> Iterator[str]:
        return (f"<{tag}>{escape(str(value))}</{tag}>" for value in values)

    head = f"<caption>{escape(caption)}</caption>" if caption else ""
    body = "".join(f"<tr>{''.join(cells('td', row))}</tr>" for row in rows)
    return f"<table>{head}<tr>{''.join(cells('th', fields))}</tr>{body}</table>"


def line_svg(points: List[Tuple[int, float]], width: int = 480, height: int = 160) -> str:
    """A line through points as a small picture of SVG."""
    xs, ys = [x for x, _ in points], [y for _, y in points]
    wide, tall = (max(xs) - min(xs)) or 1, (max(ys) - min(ys)) or 1
    places = " ".join(f"{8 + (x - min(xs)) / wide * (width - 16):.1f},{8 + (max(ys) - y) / tall * (height - 16):.1f}" for x, y in points)
    return (
        f'<svg xmlns="http://www.w3.org/2000/svg" width="{width}" height="{height}">'
        f'<polyline fill="none" stroke="currentColor" stroke-width="1.5" points="{places}"/></svg>'
    )
