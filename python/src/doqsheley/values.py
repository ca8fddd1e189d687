"""Numbers and days as the language writes them."""

from __future__ import annotations

from datetime import date
from decimal import Decimal
from typing import Union

from .errors import InexactValue

Number = Union[str, int, float, Decimal]
Day = Union[str, date]


def number_text(value: Number) -> str:
    """A number as a decimal of the language. A float is taken where it is the nearest one to a decimal of nine places.

    >>> number_text("0.0253"), number_text(3), number_text(Decimal("4.2E1")), number_text(0.0253)
    ('0.0253', '3', '42', '0.0253')
    >>> number_text(0.1 + 0.2)
    Traceback (most recent call last):
      ...
    doqsheley.errors.InexactValue: the float is 0.3000000000000000444089209850062616169452667236328125, which has more than nine places: give a str, an int or a Decimal
    """
    if isinstance(value, str):
        return value
    if isinstance(value, bool):
        raise TypeError("a bool is no number")
    if isinstance(value, float):
        if value != value or value in (float("inf"), float("-inf")):
            raise InexactValue(Decimal(value))
        text = f"{value:.9f}"
        if float(text) != value:
            raise InexactValue(Decimal(value))
        return text.rstrip("0").rstrip(".")
    if isinstance(value, Decimal):
        return f"{value:f}"
    return str(value)


def day_text(day: Day) -> str:
    """A day as YYYY-MM-DD. A datetime is its date.

    >>> day_text("2024-01-17"), day_text(date(2024, 1, 17))
    ('2024-01-17', '2024-01-17')
    """
    return date.isoformat(day) if isinstance(day, date) else day
