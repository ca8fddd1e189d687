"""The types that a user of the package sees: mypy --strict reads this file, and nothing runs it."""

from datetime import date
from decimal import Decimal
from typing import Dict, List, Optional, Tuple

from doqsheley import Curve, Event, Factor, Graph, Grid, Picture, Price, Report, Session, Table, Unpriced

with Session("market.toml", journal="day.txt", sync=True) as desk:
    price: Price = desk.ask("book")
    value: Decimal = price.value
    mark: str = price.mark
    events: List[Event] = desk.set("s5", 0.0253)
    desk.set(quote="s5", value=Decimal("0.0253"))
    factor: Factor = desk.df("euro", date(2029, 1, 17))
    curve: Curve = desk.curve("euro")
    nodes: List[Tuple[date, Decimal]] = [(it.day, it.value) for it in curve.nodes]
    table: Table = desk.quotes()
    grid: Grid = desk.grid({"up": ["set s5 0.03"]}, ask=["book"])
    scenarios: Dict[str, List[Event]] = grid.scenarios
    report: Report = desk.risk("book")
    graph: Graph = desk.graph()
    picture: Picture = desk.picture("euro")
    count: int = desk.count
    shown: Optional[str] = graph._repr_svg_()
    try:
        desk.ask("payer")
    except Unpriced as cause:
        why: Tuple[str, Tuple[str, ...], int] = cause.name, cause.about, cause.runs
with Session.recover("market.toml", "day.txt", via="pipe") as again:
    same: Session = again
