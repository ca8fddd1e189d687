"""What each place of a market or of a script takes: how a text is read there, and the words for what would be taken."""
import re

NAME = re.compile(rb"[A-Za-z][A-Za-z0-9_]{0,31}")
DECIMAL = re.compile(rb"(-?)([0-9]+)(?:\.([0-9]+))?")
BILLION, TEN = 10**18, 10**10
A_NAME = "a name: 1 to 32 letters, digits and _, the first a letter; not none or unset"
A_DAY = "a day YYYY-MM-DD from 1901-01-01 to 2199-12-31"
A_RATE = "a decimal with at most nine places, within 10 either way"
A_TENOR = "a number without a leading zero and D, W, M or Y: to 22,000 days, 3,100 weeks, 720 months, 60 years"
WORDS = {
    "counter": ["act360", "act365", "actact", "thirty360", "thirtye360", "bus252"],
    "schedule rule": ["backward", "forward", "zero"],
}


def is_name(data):
    return NAME.fullmatch(data) is not None and data not in (b"none", b"unset")


def units_of(data, places, least, most):
    """Returns a decimal in units of its last place, or None where it is not in its form or its limit."""
    found = DECIMAL.fullmatch(data)
    if not found or len(found[3] or b"") > places or len(found[2].lstrip(b"0")) > 19:
        return None
    value = int(found[2]) * 10**places + int((found[3] or b"").ljust(places, b"0") or b"0")
    value = -value if found[1] else value
    return value if least <= value <= most else None


def one_of(words):
    return "one of " + ", ".join(words)


def why_not_decimal(data, places):
    """Says what in a decimal is not of its form, or that it is past its limit."""
    found = DECIMAL.fullmatch(data)
    if not data:
        return "nothing"
    if not found:
        odd = re.search(rb"(?!\A-)[^0-9.]", data)
        return f"`{shown(data)}`" + (f", in which `{shown(odd[0])}` has no place" if odd else "")
    if len(found[3] or b"") > places:
        return f"`{shown(data)}`, which has {len(found[3])} places"
    return f"`{shown(data)}`, which is past the limit"


def ticked(data):
    """Bytes as a word of a sentence."""
    return f"`{shown(data)}`" if data else "an empty text"


def shown(data):
    """A short text of bytes as they are shown in a line."""
    said = data.decode("utf-8", "backslashreplace")
    said = "".join(it if it.isprintable() else repr(it)[1:-1] for it in said)
    return said if len(said) <= 60 else said[:57] + ".."
